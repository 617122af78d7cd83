"""The crates of crates.txt: which stand on which, and in what order they are best proved."""

from __future__ import annotations

from pathlib import Path


class Crates:
    """The crates below a program, that one last: what each stands on, and how long a chain waits for it."""

    def __init__(self, below: dict[str, list[str]], weights: dict[str, int]) -> None:
        self.below = below
        self.chain = {}  # the weight of the heaviest chain that begins with the crate and leads up to the program
        above: dict[str, list[str]] = {name: [] for name in below}
        for name, needs in below.items():
            for need in needs:
                above[need].append(name)
        for name in reversed(list(below)):
            self.chain[name] = weights.get(name, 1) + max((self.chain[it] for it in above[name]), default=0)

    def ready(self, done: set[str], begun: set[str]) -> list[str]:
        """The crates that can be proved now, the one that most waits for first."""
        free = [name for name, needs in self.below.items() if name not in begun and all(it in done for it in needs)]
        return sorted(free, key=lambda name: -self.chain[name])


def needs_of(text: str) -> dict[str, list[str]]:
    """Which libraries of the list each crate stands on, from the text of a crates.txt."""
    lines = [line for line in text.splitlines() if line.strip() and not line.startswith("#")]
    every = {line.partition(":")[0].split()[0]: line.partition(":")[2].split() for line in lines}
    return {name: [need for need in needs if need in every] for name, needs in every.items()}


def in_order(needs: dict[str, list[str]], program: str) -> dict[str, list[str]]:
    """The crates below a program and the program itself, each after those that it stands on."""
    found: dict[str, list[str]] = {}

    def visit(name: str) -> None:
        for need in needs[name]:
            if need not in found:
                visit(need)
        found.setdefault(name, needs[name])

    visit(program)
    return found


def weight(folder: Path) -> int:
    """How long a crate's proof is reckoned to take: the bytes of its sources."""
    sources = (it for it in folder.rglob("*") if it.suffix in (".rt", ".antt") and "out" not in it.parts)
    return 1 + sum(it.stat().st_size for it in sources)


def read(top: Path, program: str) -> Crates:
    """The crates below a program of a repository."""
    below = in_order(needs_of((top / "crates.txt").read_text()), program)
    return Crates(below, {name: weight(top / "crates" / name) for name in below})
