"""The prompt, and running a file again when it changes."""

from __future__ import annotations

import contextlib
import io
import os
import tempfile
import threading
import time
import unittest
from unittest import mock

from typecore_py import prompt, watching

from .here import MACHINE, front, needs_machine


class Lines(unittest.TestCase):
    """Statements from lines."""

    def statements(self, text: str) -> list[str]:
        with mock.patch("sys.stdin", io.StringIO(text)):
            return list(prompt.statements())

    def test_a_statement_goes_on_over_lines(self) -> None:
        text = "x = 1\nclass A:\n    def f(self):\n        return 1\n\n:list\nf(\n1)\n\n"
        self.assertEqual(
            self.statements(text), ["x = 1", "class A:\n    def f(self):\n        return 1\n", ":list", "f(\n1)"]
        )

    def test_what_no_line_can_mend_is_a_statement(self) -> None:
        self.assertEqual(self.statements("1 +* 2\ndef f():\n"), ["1 +* 2", "def f():"])


@needs_machine
class Session(unittest.TestCase):
    """Answers at the prompt."""

    def test_each_statement_is_answered_once(self) -> None:
        text = "x = 3\nprint(x)\ndef f(a):\n    return a\n\nf(x)\nimport os\n:undo\nf\n"
        text += "class A: pass\n\n:classes\n:quit\n"
        ran = front("--machine", MACHINE, "-i", given=text)
        self.assertEqual(ran.returncode, 0, ran.stderr)
        self.assertEqual(ran.stdout.splitlines(), [
            "= 3",
            "    | 3",
            "= <function object>",
            "    f(3)",
            "= 3",
            "1:1: import can't be said: what a file needs stands in it",
            "taken back: f(x)",
            "= <function object>",
            "= <class 'A'>",
            "class  linearisation  slots",
            "A      A, object      hash repr getattro setattro richcompare init",
        ])

    def test_a_file_comes_first(self) -> None:
        ran = front("--machine", MACHINE, "-i", "--quiet", "-c", "y = 5", given="y + 1\n")
        self.assertEqual(ran.stdout, "5\n6\n")


class Watching(unittest.TestCase):
    """Rounds of a file that changes."""

    def test_it_runs_again_after_a_change(self) -> None:
        with tempfile.NamedTemporaryFile("w", suffix=".py") as file:
            rounds: list[float] = []

            def change() -> None:
                time.sleep(0.5)
                os.utime(file.name, (1, 1))

            threading.Thread(target=change).start()
            with contextlib.redirect_stdout(io.StringIO()):
                watching.watch(file.name, lambda: rounds.append(time.time()) or 0, rounds=2)
        self.assertGreater(rounds[1] - rounds[0], 0.3)


if __name__ == "__main__":
    unittest.main()
