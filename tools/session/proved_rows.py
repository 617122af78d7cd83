"""Rows of docs/PROVED.md follow calls that moved to another crate, and calls that became public get a row."""

from __future__ import annotations

import importlib.util
import re
import sys
from collections import defaultdict
from fnmatch import fnmatchcase
from types import ModuleType

from tree import Tree, read, write

Call = tuple[str, str, str, str]  # of a public call: the old crate, the path there, the new crate, the path there


def checker(tree: Tree) -> ModuleType:
    """The tree's own docs/check_proved.py."""
    spec = importlib.util.spec_from_file_location("check_proved", f"{tree.top}/docs/check_proved.py")
    assert spec and spec.loader
    made = importlib.util.module_from_spec(spec)
    sys.modules["check_proved"] = made
    spec.loader.exec_module(made)
    return made


def in_braces(paths: list[str]) -> str:
    """Paths in backquotes, those of one module together."""
    by_module: dict[str, list[str]] = defaultdict(list)
    for it in paths:
        module, _, name = it.rpartition("::")
        by_module[module].append(name)
    found = []
    for module, names in by_module.items():
        before = f"{module}::" if module else ""
        found.append(f"`{before}{names[0]}`" if len(names) == 1 else f"`{before}{{{', '.join(names)}}}`")
    return ", ".join(found)


class Rows:
    """What is public in a tree after a move, for the rows of what moved."""

    def __init__(self, tree: Tree) -> None:
        self.tree, self.check = tree, checker(tree)
        self.calls = {it: list(self.check.calls_of(it)) for it in self.check.libraries_of()}

    def fitting(self, crate: str, pattern: str) -> list:
        """The public calls that a pattern stands for."""
        return [it for it in self.calls.get(crate, []) if it.fits(pattern)]

    def row(self, crate: str, patterns: list[str], clauses: list[str], said: str) -> str | None:
        """A row of what there is of it: without clauses that no call has which a star stands for."""
        patterns = [it for it in patterns if self.fitting(crate, it)]
        for it in patterns:
            found = self.fitting(crate, it)
            enough = any if "*" in it else all
            clauses = [clause for clause in clauses if enough(call.has(clause) for call in found)]
        if not patterns or not clauses:
            return None
        return f"| {in_braces(patterns)} | {', '.join(f'`{it}`' for it in clauses)} |{said}|"

    def split(self, crate: str, row: str, calls: list[Call]) -> tuple[str | None, dict[str, list[str]]]:
        """What is left of a row of a crate, and the rows of other crates, of calls that moved there."""
        _, first, second, said, *_ = row.split("|")
        stay: list[str] = []
        go: dict[str, list[str]] = defaultdict(list)
        alone: list[tuple[str, str]] = []
        clauses = list(self.check.quoted(second))
        for pattern in self.check.quoted(first):
            moved = [it for it in calls if fnmatchcase(it[1], pattern) or pattern == it[1].rpartition("::")[2]]
            if not moved or self.fitting(crate, pattern):
                stay.append(pattern)
            for it in moved:
                if "*" in pattern and len(moved) == 1:
                    alone.append((it[2], it[3]))
                else:
                    new = it[3].rpartition("::")[0] + "::*" if "*" in pattern else it[3]
                    if new not in go[it[2]]:
                        go[it[2]].append(new)
        rows: dict[str, list[str]] = defaultdict(list)
        for to, paths in go.items():
            if made := self.row(to, paths, clauses, said):
                rows[to].append(made)
        for to, path in alone:
            for call in self.fitting(to, path)[:1]:
                if made := self.row(to, [path], clauses, f" {said_of(self.tree, call.place)} "):
                    rows[to].append(made)
        if not go and not alone:
            return row, rows
        return self.row(crate, stay, clauses, said) if stay else None, rows


def section_of(rows: list[str], crate: str) -> tuple[int, int] | None:
    """The lines of a crate's own part."""
    at = next((number for number, it in enumerate(rows) if it == f"### `{crate}`"), None)
    if at is None:
        return None
    end = next((number for number in range(at + 1, len(rows)) if rows[number].startswith("#")), len(rows))
    return at, end


def put(rows: list[str], crate: str, new: list[str]) -> None:
    """Rows at the end of a crate's last table."""
    place = section_of(rows, crate)
    if not place or not new:
        return
    last = max((number for number in range(*place) if rows[number].startswith("|")), default=None)
    if last is None:
        rows[place[1] : place[1]] = ["| call | clause | what it says |", "|---|---|---|", *new, ""]
    else:
        rows[last + 1 : last + 1] = new


def said_of(tree: Tree, place: str) -> str:
    """The comment of a function, in one line, by its place `FILE:LINE`."""
    file, _, line = place.rpartition(":")
    rows = read(f"{tree.top}/{file}").split("\n")
    at, found = int(line) - 2, []
    while at >= 0 and re.match(r"\s*(///|#\[)", rows[at]):
        if rows[at].lstrip().startswith("///"):
            found.insert(0, rows[at].lstrip()[3:].strip())
        at -= 1
    return " ".join(found)


def follow(tree: Tree, calls: list[Call]) -> None:
    """All rows follow, and what has none gets one of the function's comment."""
    path, all_rows = f"{tree.top}/docs/PROVED.md", Rows(tree)
    rows = read(path).split("\n")
    for old in dict.fromkeys(it[0] for it in calls):
        place = section_of(rows, old)
        if not place:
            continue
        kept, new = [], defaultdict(list)
        for row in rows[place[0] : place[1]]:
            if not row.startswith("| `"):
                kept.append(row)
                continue
            left, others = all_rows.split(old, row, [it for it in calls if it[0] == old])
            if left:
                kept.append(left)
            for crate, list_ in others.items():
                new[crate] += list_
        rows[place[0] : place[1]] = kept
        for crate, list_ in new.items():
            put(rows, crate, list_)
    write(path, "\n".join(rows))
    untold(tree, all_rows.check, path)
    without_tables(path)


def untold(tree: Tree, check: ModuleType, path: str) -> None:
    """A row for each public call whose clauses stand in none."""
    libraries = check.libraries_of()
    calls = {crate: list(check.calls_of(crate)) for crate in libraries}
    table = list(check.rows(libraries))
    rows = read(path).split("\n")
    for crate, list_ in calls.items():
        mine = [row for row in table if crate in row.crates]
        for call in list_:
            missing = check.untold(call, mine)
            if missing:
                words = ["`(requires)`"] if any(it.startswith("requires") for it in missing) else []
                words = [f"`{it}`" for it in missing if not it.startswith("requires")] + words
                put(rows, crate, [f"| `{call.names[-1]}` | {', '.join(words)} | {said_of(tree, call.place)} |"])
    write(path, "\n".join(rows))


def without_tables(path: str) -> None:
    """A table without rows goes, and so does a part of which nothing is left."""
    text = re.sub(r"(?m)^\| call \| clause \| what it says \|\n\|---\|---\|---\|\n(?!\|)", "", read(path))
    text = re.sub(r"(?m)^### `\w+`\n+(?=#)", "", text)
    write(path, re.sub(r"\n{3,}", "\n\n", text))
