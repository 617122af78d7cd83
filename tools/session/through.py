#!/usr/bin/env python3
"""Has the modules of words of a crate pass on what its others pass on, in one line for each of those. By text alone.

    through.py TOP              changes the modules that words.py made
    through.py --count TOP      says what it would come to, and changes nothing

The module of answers takes from the crate's other two, that of lemmas from that of definitions. A line is replaced only
where the other module passes on all its names, of the same modules, and lets them be unfolded where they have to be.
Those of other crates serve for nothing: what a library passes on but doesn't say itself can't be named from above.
"""

from __future__ import annotations

import re
import sys
from dataclasses import dataclass

from tree import ANTT, Tree, read, write

LINE = re.compile(r"(unfoldable )?pub use ([\w.+\-]+)\.\{(.*)\}$")


@dataclass(frozen=True)
class Place:
    """A module of words."""

    crate: str
    part: str
    name: str

    @property
    def path(self) -> str:
        return f"Rattle.{self.crate}.{self.part}.{self.name}"


@dataclass(frozen=True)
class Line:
    """What one line of such a module passes on, and whether it may be unfolded."""

    shown: bool
    module: str
    names: tuple[str, ...]

    def text(self) -> str:
        return f"{'unfoldable ' if self.shown else ''}pub use {self.module}.{{{', '.join(self.names)}}}"


def lines_of(text: str) -> list[Line]:
    """The lines of a module of words."""
    hits = (LINE.match(row) for row in text.splitlines())
    return [Line(bool(it[1]), it[2], tuple(it[3].split(", "))) for it in hits if it]


def taken_from(place: Place) -> list[Place]:
    """The modules of words from which one may take, the nearest first."""
    nearer = [Place(place.crate, "proofs", "Below")] if place.name == "Lemmas" else []
    return nearer + [Place(place.crate, "specs", "Below")] if place.part == "proofs" else []


def shorter(rows: list[Line], known: dict[Place, dict[str, tuple[str, bool]]]) -> list[Line]:
    """The same names in as few lines as the known modules allow."""
    taken: dict[Place, list[Line]] = {}
    while True:
        best: tuple[int, Place, list[Line]] | None = None
        for place, has in known.items():
            fits = [row for row in rows if all(has.get(it, ("", False))[0] == row.module and (has[it][1] or not row.shown) for it in row.names)]
            gain = len(fits) - len({row.shown for row in fits})
            if gain > 0 and (best is None or gain > best[0]):
                best = gain, place, fits
        if best is None:
            break
        _, place, fits = best
        taken.setdefault(place, []).extend(fits)
        rows = [row for row in rows if row not in fits]
    made = [Line(shown, place.path, tuple(sorted({it for row in those if row.shown == shown for it in row.names}))) for place, those in taken.items() for shown in {row.shown for row in those}]
    return sorted(rows + made, key=lambda it: (it.module, it.shown))


def main(words: list[str]) -> int:
    """Shortens each module of words."""
    counts_only = "--count" in words
    tree = Tree([it for it in words if it != "--count"][0])
    places = [Place(crate, part, name) for crate in tree.names for part, name in (("specs", "Below"), ("proofs", "Below"), ("proofs", "Lemmas"))]
    found: dict[Place, tuple[str, list[Line]]] = {}
    for place in places:
        file = f"{tree.crates}/{place.crate}/{place.part}/{place.name}{ANTT}"
        try:
            found[place] = file, lines_of(read(file))
        except FileNotFoundError:
            pass
    tables = {place: {name: (row.module, row.shown) for row in rows for name in row.names} for place, (_, rows) in found.items()}
    before = after = 0
    for place, (file, rows) in found.items():
        made = shorter(rows, {it: tables[it] for it in taken_from(place) if it in tables})
        before, after = before + len(rows), after + len(made)
        if not counts_only:
            head = [row for row in read(file).splitlines() if row and not LINE.match(row)]
            write(file, "\n".join(head + [row.text() for row in made]) + "\n")
    print(f"modules of words: {before} lines, then {after}")
    return 0


if __name__ == "__main__":
    sys.exit(main(sys.argv[1:]))
