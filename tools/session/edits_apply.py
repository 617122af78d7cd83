#!/usr/bin/env python3
"""Says whether the wrong bodies edits/*/*.edit still apply, each old line once, to the texts as they stand.

    edits_apply.py TOP [CRATE ..]          tells those that don't, and ends with 1 if there are any
    edits_apply.py --move TOP [CRATE ..]   first puts each pair that applies in another file of the tree only, and in
                                           just one, there: into the folder of that file's crate

An edit is lines `file: PATH`, and after them pairs `old: TEXT` and `new: TEXT`, each TEXT one line that stands once in
the file, as the pairs before have left it.
"""

from __future__ import annotations

import os
import re
import sys
from dataclasses import dataclass

from tree import CODE, Tree, read, write


@dataclass
class Pair:
    """A change of one line of a file."""

    file: str
    old: str
    new: str


def pairs_of(text: str) -> tuple[list[str], list[Pair]]:
    """The lines of an edit that say something else, and its changes."""
    others, pairs, file, old = [], [], "", None
    for row in text.split("\n"):
        if row.startswith("file: "):
            file = row[6:].strip()
        elif row.startswith("old: "):
            old = row[5:]
        elif row.startswith("new:"):
            pairs.append(Pair(file, old or "", row[5:]))
        elif row:
            others.append(row)
    return others, pairs


def fault_of(tree: Tree, crate: str, pairs: list[Pair]) -> str | None:
    """Why an edit doesn't apply."""
    if not pairs:
        return "no change"
    texts: dict[str, str] = {}
    for it in pairs:
        path = f"{tree.crates}/{crate}/{it.file}"
        if it.file not in texts:
            if not os.path.isfile(path):
                return f"there is no {crate}/{it.file}"
            texts[it.file] = read(path)
        if (count := texts[it.file].count(it.old)) != 1:
            return f"{crate}/{it.file} has {count} times: {it.old.strip()}"
        texts[it.file] = texts[it.file].replace(it.old, it.new)
    return None


def lines_of(others: list[str], pairs: list[Pair]) -> str:
    """An edit as its file has it."""
    rows, file = list(others), ""
    for it in pairs:
        if it.file != file:
            rows.append(f"file: {it.file}")
            file = it.file
        rows += [f"old: {it.old}", f"new: {it.new}"]
    return "\n".join(rows) + "\n"


def one_place(tree: Tree, old: str, files: list[tuple[str, str]]) -> tuple[str, str] | None:
    """The crate and the file among some in which a line stands, if it is one file, and once."""
    found = [(crate, file) for crate, file in files for _ in range(read(f"{tree.crates}/{crate}/{file}").count(old))]
    return found[0] if len(found) == 1 else None


def moved(tree: Tree, path: str, hints: dict[tuple[str, str], list[tuple[str, str]]]) -> bool:
    """Puts an edit that doesn't apply where its lines stand now, if all of them stand in one crate."""
    crate = path.split("/")[-2]
    others, pairs = pairs_of(read(path))
    every = [(it, os.path.relpath(file, f"{tree.crates}/{it}")) for it in tree.names for file in tree.texts(it) if file.endswith(CODE)]
    places = []
    for it in pairs:
        here = [one for one in [(crate, it.file), *hints.get((crate, it.file), [])] if os.path.isfile(f"{tree.crates}/{one[0]}/{one[1]}")]
        places.append(one_place(tree, it.old, here) or one_place(tree, it.old, every))
    if None in places or len({it[0] for it in places if it}) != 1:
        return False
    new = [Pair(place[1], it.old, it.new) for it, place in zip(pairs, places) if place]
    target = places[0][0] if places[0] else crate
    others = [it for it in others if not it.startswith("# fn:")]
    if fault_of(tree, target, new):
        return False
    to = f"{tree.edits}/{target}/{os.path.basename(path)}"
    if to != path and os.path.exists(to):
        to = to.replace(".edit", f"_of_{crate}.edit")
    os.remove(path)
    write(to, lines_of(others, new))
    print(f"  {os.path.relpath(path, tree.top)} is {os.path.relpath(to, tree.top)}")
    return True


def move_all(tree: Tree, hints: dict[tuple[str, str], list[tuple[str, str]]]) -> None:
    """Puts each edit that doesn't apply where its lines stand now: first where its file's items went."""
    for crate in sorted(it for it in os.listdir(tree.edits) if os.path.isdir(f"{tree.edits}/{it}")):
        for path in tree.edit_files(crate):
            if crate not in tree.names or fault_of(tree, crate, pairs_of(read(path))[1]):
                moved(tree, path, hints)
        if not os.listdir(f"{tree.edits}/{crate}"):
            os.rmdir(f"{tree.edits}/{crate}")


def main(words: list[str]) -> int:
    """Tells each edit that doesn't apply."""
    moves = "--move" in words
    words = [it for it in words if it != "--move"]
    if not words:
        print(__doc__)
        return 2
    tree = Tree(words[0])
    if moves:
        move_all(tree, {})
    wrong = count = 0
    for crate in sorted(it for it in os.listdir(tree.edits) if os.path.isdir(f"{tree.edits}/{it}")):
        if words[1:] and crate not in words[1:]:
            continue
        for path in tree.edit_files(crate):
            count += 1
            if crate not in tree.names:
                fault: str | None = f"there is no crate {crate}"
            else:
                fault = fault_of(tree, crate, pairs_of(read(path))[1])
            if fault:
                wrong += 1
                print(f"{os.path.relpath(path, tree.top)}: {fault}")
    print(f"{count} edits, and {wrong} that don't apply")
    return 1 if wrong else 0


if __name__ == "__main__":
    sys.exit(main(sys.argv[1:]))
