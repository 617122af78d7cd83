#!/usr/bin/env python3
"""Compares docs/PROVED.md with the contracts in the sources, and the kit's line of README.md with what rt says.

A part of docs/PROVED.md is opened by a heading of three signs with the names of one or more crates in backquotes, and
has tables of the rows `| call | clause | what it says |`. The first cell has calls, the second clauses, each in
backquotes. Of several in braces each is meant by itself, and a star stands for all that fits, also for crates.
A public module of a crate with modules of its own, or one that a heading names with its crate, has a part as a crate
has: it is `vm_calls::protocols`, or just `protocols`, and its calls are named without that.

A call is named as other crates name it: `begin` or `laws::resolve_mro` for a function, `World::slot` for a call of a
type or of a trait, `World::is_*` for several, `*` for all calls of the crate. A clause is the name that follows
`ensures`. `(result)` is a clause without a name, `(requires)` all that a call requires, and `requires NAME` one thing
that it requires.

Whatever is named stands in the source: each clause at each call of its row, in each crate of the heading; where the
call has a star, at one of those that it stands for. And each clause of each public call of a library is in a row that
fits.
"""

from __future__ import annotations

import re
import shutil
import subprocess
import sys
from collections.abc import Iterable, Iterator
from dataclasses import dataclass, field
from fnmatch import fnmatchcase
from pathlib import Path

TOP = Path(__file__).resolve().parent.parent
CRATES = TOP / "crates"
PROVED = TOP / "docs" / "PROVED.md"
README = TOP / "README.md"
RESULT = "(result)"
REQUIRES = "(requires)"


@dataclass(frozen=True)
class Call:
    """A public call: its names, and its clauses as a row names them."""

    crate: str
    names: tuple[str, ...]
    place: str
    ensures: frozenset[str]
    requires: tuple[str, ...]

    def fits(self, pattern: str) -> bool:
        """Whether a row's call stands for this one."""
        return any(fnmatchcase(name, pattern) for name in self.names)

    def has(self, clause: str) -> bool:
        """Whether a row's clause is one of this call's."""
        if clause == REQUIRES:
            return bool(self.requires)
        wanted = clause.removeprefix("requires ")
        return wanted in (self.ensures if wanted == clause else self.requires)


@dataclass(frozen=True)
class Row:
    """A row of a table: which clauses of which calls it is of."""

    line: int
    crates: tuple[str, ...]
    calls: tuple[str, ...]
    clauses: tuple[str, ...]


@dataclass
class Visible:
    """What the root of a crate makes public: modules, and functions under their own names."""

    modules: set[str] = field(default_factory=set)
    functions: set[str] = field(default_factory=set)


def visible(root: str) -> Visible:
    """The public modules of a crate, and what it passes on, by the text of its lib.rt."""
    found = Visible(set(re.findall(r"^pub mod (\w+)[;{ ]", root, re.MULTILINE)))
    for module, names in re.findall(r"^pub use (?:crate::(?:\w+::)??)?(\w+)::(\{.*?\}|\w+);", root, re.MULTILINE | re.DOTALL):
        found.functions |= {f"{module}::{name}" for name in re.findall(r"\w+", names)}
    return found


def head_of(lines: list[str], at: int, indent: str) -> Iterator[tuple[str, str]]:
    """The clauses of the function that begins at a line, each as its word and its name."""
    for line in lines[at:]:
        if clause := re.match(rf"{indent}    (ensures|requires)\b *(\w*) *\{{", line):
            yield clause[1], clause[2]
        if line.endswith(("};", "} {}")) or re.fullmatch(rf"{indent}(?! ).*[{{}};]", line):
            return


def scope_of(line: str) -> tuple[str, bool] | None:
    """The type or the trait whose calls follow a line, and whether they are public without a word of their own."""
    if opened := re.match(r"(pub )?trait (\w+)", line):
        return opened[2], bool(opened[1])
    if opened := re.match(r"impl(?:<[^>]*>)? (?:(.*) for )?&?(\w+)", line):
        return opened[2], bool(opened[1])
    return None


def libraries_of() -> list[str]:
    """The libraries, and the public modules of them that have modules of their own or a heading."""
    headed = {name for line in PROVED.read_text().splitlines() if line.startswith("### ") for name in quoted(line)}
    found = []
    for root in sorted(CRATES.glob("*/src/lib.rt")):
        crate = root.parent.parent.name
        public = sorted(visible(root.read_text()).modules)
        found += [crate, *(f"{crate}::{module}" for module in public if (root.parent / module).is_dir() or f"{crate}::{module}" in headed)]
    return found


def files_of(crate: str) -> tuple[Path, list[Path]]:
    """The root of a library, or of such a module, and its files."""
    name, _, module = crate.partition("::")
    source = CRATES / name / "src"
    if module:
        root = source / f"{module}.rt"
        return root, [root, *sorted((source / module).glob("**/*.rt"))]
    inner = {it.partition("::")[2] for it in libraries_of() if it.startswith(f"{name}::")}
    files = [it for it in sorted(source.glob("**/*.rt")) if not {it.relative_to(source).parts[0].removesuffix(".rt")} & inner]
    return source / "lib.rt", files


def calls_of(crate: str) -> Iterator[Call]:
    """The public calls of a crate that have clauses."""
    root, files = files_of(crate)
    seen = visible(root.read_text())
    for file in files:
        lines = file.read_text().splitlines()
        module = "" if file == root else file.stem
        scope: tuple[str, bool] | None = None
        for at, line in enumerate(lines):
            scope = None if line.startswith("}") else scope_of(line) or scope
            begun = re.match(r"( *)(pub )?(?:const )?fn (\w+)", line)
            if not begun:
                continue
            inner = scope if begun[1] else None
            if not (begun[2] or inner and inner[1]):
                continue
            if inner:
                names = [f"{inner[0]}::{begun[3]}"]
            else:
                path = f"{module}::{begun[3]}"
                names = [path] if module in seen.modules else []
                names += [begun[3]] if not module or path in seen.functions else []
            clauses = list(head_of(lines, at, begun[1]))
            if names and clauses:
                yield Call(
                    crate,
                    tuple(names),
                    f"{file.relative_to(TOP)}:{at + 1}",
                    frozenset(name or RESULT for word, name in clauses if word == "ensures"),
                    tuple(name for word, name in clauses if word == "requires"),
                )


def rows(libraries: list[str]) -> Iterator[Row]:
    """The rows of docs/PROVED.md."""
    crates: tuple[str, ...] = ()
    for number, line in enumerate(PROVED.read_text().splitlines(), 1):
        if line.startswith("#"):
            named = quoted(line) if line.startswith("### ") else ()
            crates = tuple(crate for name in named for crate in named_by(libraries, name) or [name])
        elif crates and line.startswith("|") and not line.startswith(("| call | clause |", "|---")):
            cells = [quoted(cell) for cell in line.split("|")]
            yield Row(number, crates, cells[1], cells[2] if len(cells) > 2 else ())


def named_by(libraries: list[str], name: str) -> list[str]:
    """The libraries that a name of a heading stands for, and the modules, of which it may have the last part alone."""
    return [it for it in libraries if fnmatchcase(it, name) or "::" not in name and fnmatchcase(it.rpartition("::")[2], name)]


def quoted(text: str) -> tuple[str, ...]:
    """What stands in backquotes, and of several in braces each by itself."""
    return tuple(one for cell in re.findall(r"`([^`]+)`", text) for one in spread(cell))


def spread(cell: str) -> list[str]:
    """What braces stand for."""
    if several := re.fullmatch(r"(.*)\{(.*)\}(.*)", cell):
        return [several[1] + one.strip() + several[3] for one in several[2].split(",")]
    return [cell]


def faults_of_rows(table: list[Row], calls: dict[str, list[Call]]) -> Iterator[str]:
    """What the rows name that is nowhere."""
    for crate in sorted({crate for row in table for crate in row.crates} - calls.keys()):
        yield f"docs/PROVED.md: there is no library {crate}"
    for row in table:
        place = f"docs/PROVED.md:{row.line}"
        known = tuple(crate for crate in row.crates if crate in calls)
        if not (row.calls and row.clauses):
            yield f"{place}: a row names calls and clauses in backquotes"
        for pattern in row.calls if known else ():
            for crates in [known] if "*" in pattern else [(crate,) for crate in known]:
                meant = [call for crate in crates for call in calls[crate] if call.fits(pattern)]
                if not meant:
                    yield f"{place}: {' '.join(crates)} has no public call {pattern} with clauses"
                    continue
                enough = any if "*" in pattern else all
                for clause in row.clauses:
                    if not enough(call.has(clause) for call in meant):
                        yield f"{place}: {pattern} of {' '.join(crates)} has no clause {clause}"


def untold(call: Call, table: Iterable[Row]) -> list[str]:
    """The clauses of a call that no row names."""
    told = {clause for row in table if any(call.fits(pattern) for pattern in row.calls) for clause in row.clauses}
    missing = sorted(call.ensures - told)
    if REQUIRES not in told:
        missing += [f"requires {name}".rstrip() for name in call.requires if f"requires {name}" not in told]
    return missing


def faults_of_calls(table: list[Row], calls: dict[str, list[Call]]) -> Iterator[str]:
    """Which clauses of public calls no row names."""
    for crate, of_crate in calls.items():
        mine = [row for row in table if crate in row.crates]
        for call in of_crate:
            if missing := untold(call, mine):
                yield f"{call.place}: docs/PROVED.md doesn't tell of {crate} {call.names[-1]}: {', '.join(missing)}"


def faults_of_kit() -> Iterator[str]:
    """Whether README.md names another kit than the one that is here."""
    named = re.search(r"`(rattle-kit-\S+ logic [0-9a-f]+)`", README.read_text())
    if not named:
        yield "README.md: no line has the kit as `rt version` prints it, in backquotes"
    elif not shutil.which("rt"):
        print("there is no rt here: the kit's line of README.md is not compared", file=sys.stderr)
    else:
        kit = subprocess.run(["rt", "version"], capture_output=True, text=True, check=True).stdout.strip()
        if kit != named[1]:
            yield f"README.md: the kit is {kit}, and not {named[1]}"


def main() -> int:
    """Tells each fault on standard error, and ends with 1 if there are any."""
    libraries = libraries_of()
    calls = {crate: list(calls_of(crate)) for crate in libraries}
    table = list(rows(libraries))
    wrong = [*faults_of_rows(table, calls), *faults_of_calls(table, calls), *faults_of_kit()]
    for fault in wrong:
        print(fault, file=sys.stderr)
    if not wrong:
        public = [call for of_crate in calls.values() for call in of_crate]
        clauses = sum(len(call.ensures) + len(call.requires) for call in public)
        print(f"docs/PROVED.md names {clauses} clauses of {len(public)} public calls", file=sys.stderr)
    return 1 if wrong else 0


if __name__ == "__main__":
    sys.exit(main())
