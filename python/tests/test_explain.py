"""Where a script is wrong first, and that this is said as the program refuses it."""

from __future__ import annotations

import json
import re
import subprocess
import unittest

from typecore_py import explain

from .here import MACHINE, TOP, needs_machine

WRONG = {
    "": ("NotJson", ""),
    "[1": ("NotJson", ""),
    "\xff": ("NotJson", ""),
    "[NaN]": ("NotJson", ""),
    "[" * 128 + "]" * 128: ("NotJson", "[0]" * 8),
    "[1.5]": ("Number", "[0]"),
    '[["tuple", 1, 9223372036854775808]]': ("Number", "[0][2]"),
    '[{"a": [1e3]}]': ("Number", "[0][0]"),
    "[]": ("NoCommand", ""),
    "7": ("Shape", ""),
    "{}": ("Shape", ""),
    "[1, []]": ("Shape", "[1]"),
    "[{}]": ("Shape", "[0]"),
    '[["nope"]]': ("Shape", "[0][0]"),
    '[["name"]]': ("Shape", "[0]"),
    '[["name", 5]]': ("Shape", "[0][1]"),
    '[["bind", "x", ["name", null]]]': ("Shape", "[0][2][1]"),
    '[["dict", [1]]]': ("Shape", "[0][1]"),
    '[["func", "f", ["a", "a"], 1]]': ("Shape", "[0][2][1]"),
    '[["func*", "f", [], 1]]': ("Shape", "[0][2]"),
    '[["attr", 1]]': ("Shape", "[0]"),
    '[["setattr", 1, "x"]]': ("Shape", "[0]"),
    '[["if", 1, 2]]': ("Shape", "[0]"),
    '[["call", ["name", "f"], 1]]': ("Shape", "[0][2]"),
    '[["call", ["name", "f"], [], [["k"]]]]': ("Shape", "[0][3][0]"),
    '[["op", "+", 1]]': ("Shape", "[0]"),
    '[["op", "nope", 1]]': ("Shape", "[0][1]"),
    '[["op"]]': ("Shape", "[0]"),
    '[["raise", "Nope"]]': ("Shape", "[0][1]"),
    '[["class", "A", [], [["x", ["seq", ["op", "+", 1, ["name"]]]]]]]': ("Shape", "[0][3][0][1][1][3]"),
    '[["class", "A", []]]': ("Shape", "[0]"),
}


class Explained(unittest.TestCase):
    """Words and places."""

    def test_each_place(self) -> None:
        for text, (word, path) in WRONG.items():
            with self.subTest(text[:60]):
                wrong = explain.first_wrong(text.encode("latin-1"))
                self.assertIsNotNone(wrong)
                self.assertEqual((wrong.word, "".join(f"[{at}]" for at in wrong.path)), (word, path))

    def test_what_is_a_script(self) -> None:
        scripts = {row[1] for row in self.worked() if row[2].startswith("run")}
        others = {row[1] for row in self.worked() if row[2].startswith(("check", "share"))} - scripts
        for path in [*TOP.glob("examples/*.json"), *TOP.glob("crates/worked/data/*.json")]:
            if path.name not in others:
                self.assertTrue(explain.first_wrong(path.read_bytes()) is None or self.is_refused(path.name), path)

    def is_refused(self, name: str) -> bool:
        """Whether a worked script is one that the program refuses."""
        names = [row[0] for row in self.worked() if row[1] == name]
        text = (TOP / "crates/worked/stdout").read_text()
        return any(re.search(rf"^## {it}\n(?!Done|WriteFault)", text, re.M) for it in names)

    def worked(self) -> list[list[str]]:
        """Of each worked call its name, its file, the words and what fails."""
        index = (TOP / "crates/worked/data/index").read_text().splitlines()
        return [[part.strip() for part in it.split("|")] for it in index if "|" in it]

    def test_the_tables_are_the_program_s(self) -> None:
        reader = TOP / "crates/script_text/src"
        row = r'\(\s*"([^"]+)",\s*Word::[^,]*?\)?,\s*Arity::(\w+),?\s*\)'
        rows = re.findall(row, (reader / "words.rt").read_text())
        counts = {"One": (1,), "Two": (2,), "TwoOrThree": (2, 3), "Three": (3,), "Four": (4,)}
        self.assertEqual({word: counts[arity] for word, arity in rows}, explain.WORDS)
        forms = re.findall(r'\(\s*"([^"]+)",\s*FormWord::', (reader / "form_words.rt").read_text())
        self.assertEqual(set(forms), set(explain.FORMS))

    @needs_machine
    def test_the_program_refuses_them_with_the_same_word(self) -> None:
        for text, (word, _) in WRONG.items():
            ran = subprocess.run([MACHINE, "run", "10"], input=text.encode("latin-1"), capture_output=True)
            self.assertEqual(ran.stderr.decode(), f"typecore: {word}\n", text[:60])
            self.assertEqual(ran.returncode, explain.STATUS[word])

    def test_the_wrapper_explains(self) -> None:
        words, script = [TOP / "typecore", "--explain"], json.dumps([["op", "+", 1]])
        ran = subprocess.run(words, input=script, capture_output=True, text=True)
        told = "typecore: Shape at [0]: the word + takes 2 operands, and not 1\n"
        self.assertEqual((ran.returncode, ran.stderr), (3, told))


class Wrapper(unittest.TestCase):
    """./typecore answers at once where no program is asked for."""

    def test_no_build_is_begun(self) -> None:
        helps = ("--help", "-h", "help", "--version")
        for words, status in (((), 2), (("--now",), 2), *(((it,), 0) for it in helps)):
            environment = {"PATH": "/usr/bin:/bin", "TYPECORE_RT": "/nowhere"}
            how = {"capture_output": True, "text": True, "env": environment, "timeout": 20}
            ran = subprocess.run([TOP / "typecore", *words], check=False, **how)
            self.assertEqual(ran.returncode, status, words)
            self.assertNotIn("building", ran.stderr)


if __name__ == "__main__":
    unittest.main()
