"""A tree of crates as files: what the scripts of this folder share. No crate is checked here, and no text of a contract changes."""

from __future__ import annotations

import os
import re
from collections.abc import Iterator
from dataclasses import dataclass, field

CODE, ANTT = ".rt", ".antt"
# What has quotes in a text of code: a comment, a character, a text.
LITERAL = r"""//[^\n]*|'(?:\\.|[^'\\\n])'|"(?:\\.|[^"\\])*\""""


def read(path: str) -> str:
    """The text of a file."""
    with open(path, encoding="utf-8") as it:
        return it.read()


def write(path: str, text: str) -> None:
    """Writes a file, where its text is another one."""
    if os.path.isfile(path) and read(path) == text:
        return
    os.makedirs(os.path.dirname(path), exist_ok=True)
    with open(path, "w", encoding="utf-8") as it:
        it.write(text)


def files(folder: str, *ends: str) -> Iterator[str]:
    """The files below a folder whose names end so, in order, but for what rt makes."""
    for at, folders, names in os.walk(folder):
        folders[:] = sorted(it for it in folders if it not in ("out", ".git", "__pycache__"))
        yield from (f"{at}/{name}" for name in sorted(names) if name.endswith(ends or ("",)))


@dataclass
class Entry:
    """A line of crates.txt: a crate, what is set for it, and the libraries that it stands on."""

    name: str
    settings: list[str] = field(default_factory=list)
    below: list[str] = field(default_factory=list)

    def __str__(self) -> str:
        return " ".join([self.name, *self.settings]) + ":" + "".join(f" {it}" for it in self.below)


class Tree:
    """A repository of crates: crates.txt, the crates, their wrong bodies."""

    def __init__(self, top: str) -> None:
        self.top = os.path.abspath(top)
        self.crates, self.edits = f"{self.top}/crates", f"{self.top}/edits"
        self.head: list[str] = []
        self.entries: list[Entry] = []
        for line in read(f"{self.top}/crates.txt").split("\n"):
            if re.match(r"\w[^:#]*:", line):
                left, right = line.split(":", 1)
                name, *settings = left.split()
                self.entries.append(Entry(name, settings, right.split()))
            elif line:
                self.head.append(line)

    @property
    def names(self) -> list[str]:
        """The names of all crates, in the order of crates.txt."""
        return [it.name for it in self.entries]

    def entry(self, name: str) -> Entry:
        """The line of a crate."""
        return next(it for it in self.entries if it.name == name)

    def save(self) -> None:
        """Writes crates.txt."""
        write(f"{self.top}/crates.txt", "\n".join([*self.head, *map(str, self.entries)]) + "\n")

    def below(self, name: str) -> list[str]:
        """The crates of the tree that a crate's line names."""
        return [it for it in self.entry(name).below if it in set(self.names)]

    def levels(self) -> dict[str, int]:
        """How many crates the longest chain has that ends with a crate. A circle is refused."""
        found: dict[str, int] = {}

        def level(name: str, above: tuple[str, ...]) -> int:
            if name in above:
                raise SystemExit(f"a circle of crates: {' '.join([*above[above.index(name):], name])}")
            if name not in found:
                found[name] = 1 + max((level(it, (*above, name)) for it in self.below(name)), default=0)
            return found[name]

        for it in self.names:
            level(it, ())
        return found

    def chain(self) -> list[str]:
        """One of the longest chains, the lowest crate first."""
        levels = self.levels()
        name = max(self.names, key=lambda it: levels[it])
        found = [name]
        while levels[name] > 1:
            name = next(it for it in self.below(name) if levels[it] == levels[name] - 1)
            found.insert(0, name)
        return found

    def above(self, names: list[str]) -> set[str]:
        """These crates and all that stand on one of them."""
        found = set(names)
        while more := {it for it in self.names if it not in found and found & set(self.below(it))}:
            found |= more
        return found

    def edit_files(self, name: str) -> list[str]:
        """The wrong bodies of a crate."""
        return sorted(files(f"{self.edits}/{name}", ".edit")) if os.path.isdir(f"{self.edits}/{name}") else []

    def texts(self, name: str) -> Iterator[str]:
        """The files of a crate that rt reads."""
        for part in ("src", "specs", "proofs"):
            yield from files(f"{self.crates}/{name}/{part}", CODE, ANTT)


def camel(name: str) -> str:
    """The name of a module of definitions or lemmas that is made of a module's: it differs from that in more than case."""
    return "".join(it.capitalize() for it in name.split("_")) if "_" in name else f"Of{name.capitalize()}"


@dataclass
class Moves:
    """Crates that become modules of another crate: how the paths of code, definitions and proofs follow."""

    target: str
    modules: dict[str, str]  # of each source its module; the target's own modules stay

    def spec(self, source: str) -> str:
        """The module of a source's definitions, and of its lemmas."""
        return camel(self.modules[source])

    def antt(self, text: str) -> str:
        """Names of definitions, lemmas and proofs, which begin with `Rattle.` and the crate."""

        def moved(found: re.Match[str]) -> str:
            source, part, rest = found[1], found[2], found[3]
            if source not in self.modules:
                return found[0]
            module, t = self.modules[source], self.target
            if made := re.match(r"(declared|contracts)\b", rest):
                return f"Rattle.{t}.specs.{made[1]}.{module}{rest[len(made[1]):]}"
            if part == "proofs" and re.match(r"[a-z_+]", rest):
                return f"Rattle.{t}.proofs.{module}.{rest}"
            return f"Rattle.{t}.{part}.{self.spec(source)}.{rest}"

        return re.sub(r"\bRattle\.(\w+)\.(specs|proofs)\.([\w+]+)", moved, text)

    def code(self, text: str, crate: str, below: list[str]) -> str:
        """Paths of code: `S::X` is `T::m::X`, in the target itself `crate::m::X`; `crate::X` of a source is `crate::m::X`.

        A crate names only what it stands on, so that a module of its own may have the name of another crate. What a
        program says stays as it is: no text in quotes follows."""
        parts: list[str] = []

        def kept(found: re.Match[str]) -> str:
            if not found[0].startswith('"'):
                return found[0]
            parts.append(found[0])
            return f'"\0{len(parts) - 1}"'

        text = self.paths(re.sub(LITERAL, kept, text), crate, below)
        return re.sub(r'"\0(\d+)"', lambda it: parts[int(it[1])], text)

    def paths(self, text: str, crate: str, below: list[str]) -> str:
        """The same of a text in which what stands in quotes follows too."""
        inside = crate == self.target or crate in self.modules
        own = self.modules.get(crate)
        root = "crate" if inside else self.target
        if own:
            text = re.sub(r"\bcrate::(specs|proofs)::(?=[A-Z])", rf"crate::\1::{camel(own)}::", text)
            text = re.sub(r"\bcrate::(?!(?:specs|proofs)::[A-Z])", f"crate::{own}::", text)
        for source, module in self.modules.items():
            if source in below and source != crate:
                text = re.sub(rf"(?<![\w:.$]){source}::(specs|proofs)::(?=[A-Z])", rf"{root}::\1::{camel(module)}::", text)
                text = re.sub(rf"(?<![\w:.$]){source}::(?=[\w{{])", f"{root}::{module}::", text)
        if own and self.target in below:
            text = re.sub(rf"(?<![\w:.$]){self.target}::(?=[\w{{])", "crate::", text)
        return text

    def path(self, path: str) -> str:
        """A path below crates/, as `S/src/x.rt`, follows."""
        source, _, rest = path.partition("/")
        if source not in self.modules:
            return path
        module, spec = self.modules[source], self.spec(source)
        part, _, name = rest.partition("/")
        if not name:
            return f"{self.target}/{rest}" if rest else f"{self.target}/src/{module}"
        if part == "src":
            return f"{self.target}/src/{module}.rt" if name == "lib.rt" else f"{self.target}/src/{module}/{name}"
        if part in ("specs", "proofs"):
            if name == "Lib.antt":
                return f"{self.target}/{part}/{spec}.antt"
            return f"{self.target}/{part}/{spec if re.match('[A-Z]', name) else module}/{name}"
        return f"{self.target}/{rest}"
