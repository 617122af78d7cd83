#!/usr/bin/env python3
"""Compares the examples of docs/SCRIPTS.md and README.md with the worked scripts, which the gate runs.

An example is a block of docs/SCRIPTS.md that is opened by three backquotes, `script` and its name: its commands, each
with the lines that answer it beside and below it, and the lines of its classes. There must be a worked script of that
name which has these commands, is run by `run 1000` and writes these lines. What a command of a shell in one of the
documents writes, as the next block has it, must be what some worked script writes that is run by the same words.
Besides, each form, each word and each kind of a fault that the reader of scripts knows must be in an example.
"""

from __future__ import annotations

import json
import re
import sys
from collections.abc import Iterator
from dataclasses import dataclass
from pathlib import Path

TOP = Path(__file__).resolve().parent.parent
WORKED = TOP / "crates" / "worked"
CRATES = TOP / "crates"
PROGRAM = TOP / "crates" / "typecore"
SCRIPTS = TOP / "docs" / "SCRIPTS.md"
UNITS = "run 1000"


@dataclass(frozen=True)
class Run:
    """A script, the words that it is run with, and what it writes."""

    script: object
    words: str
    text: str

    def same(self, other: Run) -> bool:
        """Whether the two are alike. JSON tells 1 from true, and Python's == doesn't."""
        return (json.dumps(self.script), self.words, self.text) == (json.dumps(other.script), other.words, other.text)


def worked() -> dict[str, Run]:
    """The worked scripts that end well, by name."""
    runs, stdout, at = {}, (WORKED / "stdout").read_text(), 0
    for name, file, words in worked_calls():
        head = f"## {name}\n"
        at = stdout.index(head, at) + len(head)
        status, _, text = stdout[at:].partition("\n")
        if status == "Done":
            script = json.loads((WORKED / "data" / file).read_text())
            runs[name] = Run(script, words, text.split("\n## ")[0].rstrip("\n") + "\n")
    script, text = ((PROGRAM / name).read_text() for name in ("stdin", "stdout"))
    runs["the program's own"] = Run(json.loads(script), " ".join((PROGRAM / "args").read_text().split()), text)
    return runs


def worked_calls() -> Iterator[tuple[str, str, str]]:
    """The name, the file and the words of each call of the program in the index."""
    for line in (WORKED / "data" / "index").read_text().splitlines():
        if line and not line.startswith("#"):
            name, file, words = (part.strip() for part in line.split("|")[:3])
            yield name, file, words


def examples(lines: list[str]) -> Iterator[tuple[str, Run]]:
    """The blocks of scripts in a document, by name."""
    for at, line in enumerate(lines):
        if opened := re.fullmatch(r"```script (\w+)", line):
            yield opened[1], example(lines[at + 1 : lines.index("```", at)])


def example(lines: list[str]) -> Run:
    """The script of a block, and what it writes."""
    commands, text = [], []
    for line in lines:
        if re.match(r"\s+|class |slots ", line):
            text.append(line.strip())
        else:
            try:
                command, end = json.JSONDecoder().raw_decode(line)
            except ValueError:
                sys.exit(f"docs/SCRIPTS.md: in an example there is no command {line!r}")
            commands.append(command)
            text += [line[end:].strip()] if line[end:] else []
    return Run(commands, UNITS, "".join(f"{line}\n" for line in text))


def shell_runs(lines: list[str]) -> Iterator[Run]:
    """What commands of a shell in a document write, as the next indented block has it."""
    for at, line in enumerate(lines):
        if called := re.fullmatch(r"    printf '%s' '(.*)' \| \./typecore (run \d+)", line):
            start = next(below for below in range(at + 1, len(lines)) if lines[below].startswith("    "))
            end = next((below for below in range(start, len(lines)) if not lines[below].strip()), len(lines))
            yield Run(json.loads(called[1]), called[2], "".join(f"{line[4:]}\n" for line in lines[start:end]))


def known_to_the_reader() -> dict[str, set[str]]:
    """The forms, the words and the kinds that scripts may have, from the tables of the reader of scripts."""
    return {
        "form": table("script_text/src/form_words.rt", "FORMS", r'\(\s*"([^"]+)",\s*FormWord::'),
        "word": table("script_text/src/words.rt", "WORDS", r'\(\s*"([^"]+)",\s*Word::'),
        "kind": table("py_node/src/raised.rt", "KINDS", r'\(\s*Kind::\w+,\s*"([^"]+)"'),
    }


def table(file: str, name: str, row: str) -> set[str]:
    """The words of a constant table, of which each row has one."""
    found = re.search(rf"{name}: \[.*?; (\d+)\] = \[(.*?)\n\];", (CRATES / file).read_text(), re.DOTALL)
    words = set(re.findall(row, found[2])) if found else set()
    assert found and len(words) == int(found[1]), f"the table {name} of {file} is written otherwise"
    return words


def used(part: object, found: dict[str, set[str]]) -> None:
    """Adds the forms, words and kinds of an expression, or of a list that stands in one."""
    match part:
        case ["op", str(word), *_]:
            found["word"].add(word)
        case ["raise", str(kind)]:
            found["kind"].add(kind)
    if isinstance(part, list):
        found["form"].update(part[:1] if part and isinstance(part[0], str) else ())
        for below in part:
            used(below, found)


def faults() -> Iterator[str]:
    """What is wrong with the documents, a line each."""
    runs = worked()
    lines = SCRIPTS.read_text().splitlines()
    found: dict[str, set[str]] = {"form": set(), "word": set(), "kind": set()}
    names: set[str] = set()
    for name, run in examples(lines):
        names.add(name)
        if name not in runs:
            yield f"docs/SCRIPTS.md: {name} is no worked script that ends well"
        elif not run.same(runs[name]):
            yield f"docs/SCRIPTS.md: {name} is not the worked script of that name"
        for command in run.script:
            used(command, found)
    for file in (SCRIPTS, TOP / "README.md"):
        for run in shell_runs(file.read_text().splitlines()):
            alike = {name for name, other in runs.items() if run.same(other)}
            names |= alike
            if not alike:
                yield f"{file.relative_to(TOP)}: no worked script is {json.dumps(run.script)} by {run.words}"
    for sort, known in known_to_the_reader().items():
        for missing in sorted(known - found[sort]):
            yield f"docs/SCRIPTS.md: the {sort} {missing} is in no example"
    for name in sorted(name for name in runs if name.startswith("docs_") and name not in names):
        yield f"docs/SCRIPTS.md has no example {name}"


def main() -> int:
    """Tells each fault on standard error, and ends with 1 if there are any."""
    wrong = list(faults())
    for fault in wrong:
        print(fault, file=sys.stderr)
    if not wrong:
        known = known_to_the_reader()
        print(f"the examples of docs/SCRIPTS.md are worked scripts, with all {len(known['word'])} words and all "
              f"{len(known['form'])} forms", file=sys.stderr)
    return 1 if wrong else 0


if __name__ == "__main__":
    sys.exit(main())
