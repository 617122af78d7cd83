#!/usr/bin/env python3
"""Gathers what many files of a crate import in modules of words, which pass it on. By text alone.

    words.py TOP [CRATE ..]            the crates that are named, or all libraries
    words.py --count TOP [CRATE ..]    says what it would come to, and changes nothing
    words.py --least N ..              passes a module on from which N files import (1, where it isn't given)
    words.py --answers ..              answers import the crate's own lemmas from one module too

A crate gets up to three modules: `specs/Below`, with what its definitions and contracts import of crates below it and
of std; `proofs/Below`, with what its lemmas and answers import of those, and of the crate's own definitions; and with
--answers `proofs/Lemmas`, with all that answers import. Names are passed on one by one, and a file then has one line for
all of them. A name stays where it is if another module's is passed on under it, if a file imports it as a module's, or
if that would close a circle: nothing is passed on that rests on a file which would import it.
`unfoldable` is passed on for each name that stands on a line `unfolding`.
"""

from __future__ import annotations

import os
import re
import sys
from collections import Counter, defaultdict
from dataclasses import dataclass, field

from names import USE, Use, uses_of
from tree import ANTT, CODE, Tree, read, write

# The operators of the library's prelude: rt wants each file to import them from the library itself.
OPERATORS = set(
    "◌≡◌ ◌+◌ ◌-◌ ◌*◌ ◌/◌ ◌%◌ ◌^◌ ◌<◌ ◌≤◌ ◌&&◌ ◌||◌ ◌≢◌ ◌⊎◌ ◌↔◌ ◌∷◌ ◌++◌ ◌+ℤ◌ ◌-ℤ◌ ◌*ℤ◌ ◌≤ℤ◌ ◌<ℤ◌ if◌then◌else◌ ◌==◌".split()
)

# The modules of words: the part of the crate in which each stands, its name, and what it says of itself.
KINDS = {
    "specs": ("specs", "Below", "-- The words of crates below that the definitions and contracts of this crate are written in."),
    "proofs": ("proofs", "Below", "-- The words that the lemmas of this crate are written in: its own definitions, and words and lemmas of crates below."),
    "answers": ("proofs", "Lemmas", "-- The words that the answers of this crate are written in: its lemmas and definitions, and those of crates below."),
}
MODULES = {name for _, name, _ in KINDS.values()}


@dataclass
class Words:
    """A module of words: whose files may import it, and what it passes on, by module."""

    crate: str
    kind: str
    users: list[str] = field(default_factory=list)
    passed: dict[str, list[str]] = field(default_factory=dict)  # of each module the names
    shown: set[tuple[str, str]] = field(default_factory=set)  # what may be unfolded, by module and name

    @property
    def path(self) -> str:
        part, name, _ = KINDS[self.kind]
        return f"Rattle.{self.crate}.{part}.{name}"

    @property
    def file(self) -> str:
        part, name, _ = KINDS[self.kind]
        return f"{part}/{name}{ANTT}"

    def text(self) -> str:
        """The module's file."""
        rows = [KINDS[self.kind][2]]
        for module, names in sorted(self.passed.items()):
            plain = [it for it in names if (module, it) not in self.shown]
            shown = [it for it in names if (module, it) in self.shown]
            rows += [f"pub use {module}.{{{', '.join(plain)}}}"] if plain else []
            rows += [f"unfoldable pub use {module}.{{{', '.join(shown)}}}"] if shown else []
        return "\n".join(rows) + "\n"


def simple(use: Use) -> bool:
    """Whether an import is one of names, for this file alone."""
    return use.items is not None and not use.indent and "pub" not in use.word and not any("." in name or name == "*" for name, _ in use.names())


def unfolded(text: str) -> set[str]:
    """The names that a text unfolds."""
    found: set[str] = set()
    for row in re.findall(r"(?m)^\s*unfolding (.*)$", text):
        found |= set(row.split())
    for row in re.findall(r"\bunfold (.*?) in\b", text):
        found |= set(row.split())
    return found


class Crate:
    """The files of a crate, and which rest on which."""

    def __init__(self, tree: Tree, name: str) -> None:
        self.tree, self.name = tree, name
        self.files = {os.path.relpath(it, f"{tree.crates}/{name}"): read(it) for it in tree.texts(name)}
        self.uses = {path: uses_of(text) for path, text in self.files.items()}
        self.edges = {path: {it for it in (self.file_of(use.path) for use in uses) if it} for path, uses in self.uses.items()}

    def file_of(self, path: str) -> str | None:
        """The own file that a module's path names: for what Rattle makes of code, the file of code."""
        _, crate, part, *steps = path.split(".") + [""]
        steps = [it for it in steps if it]
        if crate != self.name or not steps:
            return None
        if steps[0] in ("declared", "contracts"):
            for count in range(len(steps) - 1, 0, -1):
                if (file := f"src/{'/'.join(steps[1:count + 1])}{CODE}") in self.files:
                    return file
            return "src/lib.rt"
        return next((it for it in (f"{part}/{'/'.join(steps)}{ANTT}", f"{part}/{'/'.join(steps[:-1])}{ANTT}") if it in self.files), None)

    def reached(self, path: str) -> set[str]:
        """The own files that a file rests on, itself included."""
        found, todo = {path}, [path]
        while todo:
            for it in self.edges.get(todo.pop(), ()):
                if it not in found:
                    found.add(it)
                    todo.append(it)
        return found

    def kind_of(self, path: str, with_answers: bool) -> str:
        """Which module of words a file may import."""
        if not path.startswith("proofs/"):
            return "specs"
        return "answers" if with_answers and path.endswith(("/Answers.antt", "/Proof.antt")) else "proofs"

    def words(self, kind: str, least: int, with_answers: bool) -> Words:
        """A module of words: for definitions and contracts, for lemmas, or for answers."""
        made = Words(self.name, kind)
        mine = [it for it in self.files if self.kind_of(it, with_answers) == kind and not it.endswith("/Lib.antt")]
        files: dict[str, set[str]] = defaultdict(set)
        for path in mine:
            for use in self.uses[path]:
                if simple(use) and self.may_pass(use.path, kind):
                    files[use.path].add(path)
        modules = [it for it, those in files.items() if len(those) >= least]
        # nothing passes on what rests on one of those that would import it
        users = {it for one in modules for it in files[one]}
        modules = [it for it in modules if not (self.file_of(it) and self.reached(self.file_of(it) or "") & users)]
        owner: dict[str, Counter[str]] = defaultdict(Counter)
        for path in mine:
            for use in self.uses[path]:
                if simple(use) and use.path in modules:
                    for name, _ in use.names():
                        if name not in OPERATORS:
                            owner[name][use.path] += 1
        passed: dict[str, list[str]] = defaultdict(list)
        for name, count in owner.items():
            # (the same name of another module stays where it is)
            passed[max(count, key=lambda it: (count[it], it))].append(name)
        made.passed = {it: sorted(names) for it, names in passed.items()}
        for path in mine:
            shown = unfolded(self.files[path])
            for use in self.uses[path]:
                if simple(use):
                    for name, called in use.names():
                        if called in shown and name in made.passed.get(use.path, []):
                            made.shown.add((use.path, name))
        made.users = [it for it in mine if any(simple(use) and set(made.passed.get(use.path, [])) & {name for name, _ in use.names()} for use in self.uses[it])]
        return made

    def may_pass(self, path: str, kind: str) -> bool:
        """Whether a module of words may pass on what a module has: never what is made for one function."""
        _, crate, part, *steps = path.split(".")
        if not steps or steps[-1] in MODULES or part == "proofs" and re.match(r"[a-z_+]", steps[0]) and crate != "std":
            return False
        if crate != self.name:
            return True
        if part == "proofs" and kind == "answers":
            # (a lemma on the goals of one function rests on its invariants)
            file = self.file_of(path)
            return bool(file) and not any(re.search(r"\.(Goals|Given)$", it.path) for one in self.reached(file or "") for it in self.uses[one])
        return part == "specs" and kind != "specs"


def followed(text: str, words: Words, is_code: bool) -> str:
    """A file's text that imports from a module of words what that passes on."""
    taken: list[str] = []
    first = None

    def one(hit: re.Match[str]) -> str:
        nonlocal first
        use = uses_of(hit[0])[0]
        if not simple(use) or use.path not in words.passed or ("ghost" in use.word) != is_code:
            return hit[0]
        left = []
        for item, (name, _) in zip(use.items or [], use.names()):
            (taken if name in words.passed[use.path] else left).append(item)
        end = ";" if hit[0].rstrip().endswith(";") else ""
        row = f"{use.word} {use.path}.{{{', '.join(left)}}}{end}" if left else "\1"
        if first is None and len(left) < len(use.items or []):
            first = True
            row = "\2" + ("" if row == "\1" else "\n" + row)
        return row

    text = USE.sub(one, text)
    word, end = ("ghost use", ";") if is_code else ("use", "")
    items = ", ".join(dict.fromkeys(taken))
    return text.replace("\1\n", "").replace("\2", f"{word} {words.path}.{{{items}}}{end}")


def libraries(tree: Tree) -> list[str]:
    """The crates that have definitions or proofs."""
    return [it for it in tree.names if any(os.path.isdir(f"{tree.crates}/{it}/{part}") for part in ("specs", "proofs"))]


def gather(tree: Tree, name: str, least: int, with_answers: bool, counts_only: bool) -> Counter[str]:
    """Makes the modules of words of a crate. Gives how many imports there were, are, and are in those modules."""
    crate = Crate(tree, name)
    found: Counter[str] = Counter(before=sum(map(len, crate.uses.values())))
    after = dict(crate.files)
    made = set()
    for kind in KINDS:
        words = crate.words(kind, least, with_answers)
        part, module, _ = KINDS[kind]
        if not words.passed or not os.path.isdir(f"{tree.crates}/{name}/{part}"):
            continue
        for path in words.users:
            after[path] = followed(after[path], words, path.endswith(CODE))
        after[words.file] = words.text()
        made.add(words.file)
        lib = f"{part}/Lib{ANTT}"
        after[lib] = f"pub mod {module}\n" + after.get(lib, "")
        found["words"] += len(uses_of(words.text()))
    found["after"] = sum(len(uses_of(text)) for path, text in after.items() if path not in made)
    if not counts_only:
        for path, text in after.items():
            write(f"{tree.crates}/{name}/{path}", text)
    return found


def main(words: list[str]) -> int:
    """Gathers, and tells what it came to."""
    flags = {it for it in words if it in ("--count", "--answers")}
    words = [it for it in words if it not in flags]
    least = 1
    if words[:1] == ["--least"]:
        least, words = int(words[1]), words[2:]
    if not words:
        print(__doc__)
        return 2
    tree = Tree(words[0])
    total: Counter[str] = Counter()
    for name in words[1:] or libraries(tree):
        found = gather(tree, name, least, "--answers" in flags, "--count" in flags)
        total += found
        print(f"{name}: {found['before']} imports, then {found['after']} and {found['words']} in modules of words")
    if "--count" not in flags:
        import prose

        prose.follow(tree, "words")
    print(f"all: {total['before']} imports, then {total['after']} and {total['words']} in modules of words")
    return 0


if __name__ == "__main__":
    sys.exit(main(sys.argv[1:]))
