"""The classes of Python sources, or of a module that can be imported, and their bases, each after its bases."""

from __future__ import annotations

import ast
import importlib
import pkgutil
import sys
from collections.abc import Iterable, Iterator
from dataclasses import dataclass, field
from pathlib import Path
from types import ModuleType

OBJECT = "object"

# What stands in a report for a class's list of bases, and so is no class's name.
LIST_OF_BASES = "bases"


class NoHierarchy(Exception):
    """What was named can't be read or imported, or has no class."""


class TooLong(Exception):
    """The classes and their bases make a longer text than is read."""


@dataclass(frozen=True)
class Member:
    """A class of a hierarchy: its name, which no other has, its bases' names, where it stands, and Python's own."""

    name: str
    bases: tuple[str, ...]
    place: str = ""
    python: type | None = None


@dataclass
class Names:
    """Names that were given, each once."""

    given: set[str] = field(default_factory=lambda: {OBJECT, LIST_OF_BASES})

    def new(self, wanted: str) -> str:
        """The wanted name in plain characters, with a number behind it where it was given before."""
        plain = "".join(it if it.isprintable() and it not in " \"\\,;" else "_" for it in wanted) or "_"
        name, number = plain, 1
        while name in self.given:
            number += 1
            name = f"{plain}#{number}"
        self.given.add(name)
        return name


# --- of modules ---


def of_modules(names: Iterable[str]) -> list[Member]:
    """The classes that modules define, those of a package's modules too, and all that these derive from."""
    modules = dict.fromkeys(it for name in names for it in modules_of(name))
    return members_of(kind for module in modules for kind in classes_in(module))


def modules_of(name: str) -> Iterator[ModuleType]:
    """A module and those below it. What can't be imported of these is left out."""
    try:
        top = importlib.import_module(name)
    except Exception as error:  # (what a module does as it is imported, it may do wrong in any way)
        raise NoHierarchy(f"{name} can't be imported: {error}") from None
    yield top
    for found in pkgutil.walk_packages(getattr(top, "__path__", []), f"{name}.", onerror=lambda _: None):
        if found.name.rpartition(".")[2] != "__main__":
            try:
                yield importlib.import_module(found.name)
            except (Exception, SystemExit):
                print(f"typecore-py: {found.name} can't be imported, and is left out", file=sys.stderr)


def classes_in(module: ModuleType) -> list[type]:
    """The classes that a module defines, those within its classes too, each once."""
    found: dict[type, None] = {}
    left = [it for it in vars(module).values() if isinstance(it, type) and it.__module__ == module.__name__]
    while left:
        kind = left.pop(0)
        if kind not in found:
            found[kind] = None
            inner = (it for it in vars(kind).values() if isinstance(it, type))
            left += [it for it in inner if it.__module__ == module.__name__]
    return list(found)


def members_of(classes: Iterable[type]) -> list[Member]:
    """Classes as members, in an order in which each stands after its bases."""
    names, named, members = Names(), dict[type, str](), list[Member]()

    def add(kind: type) -> None:
        if kind in named or kind is object:
            return
        for base in kind.__bases__:
            add(base)
        module = "" if kind.__module__ == "builtins" else f"{kind.__module__}."
        named[kind] = names.new(f"{module}{kind.__qualname__}")
        bases = tuple(OBJECT if base is object else named[base] for base in kind.__bases__)
        members.append(Member(named[kind], () if bases == (OBJECT,) else bases, python=kind))

    for kind in classes:
        add(kind)
    return members


# --- of sources ---


def of_files(paths: Iterable[str]) -> list[Member]:
    """The classes of Python sources. A base that no source has stands before it, with `object` as its base."""
    names, known, members = Names(), dict[str, str](), list[Member]()
    for path in paths:
        try:
            tree = ast.parse(Path(path).read_bytes(), path)
        except OSError as error:
            raise NoHierarchy(f"{path}: {error.strerror}") from None
        except (SyntaxError, ValueError) as error:
            raise NoHierarchy(f"{path}: {error}") from None
        Reader(path, names, known, members).block(tree.body, ())
    return members


class Reader:
    """Reads the classes of one source: what a name means is the last class that was given this name before."""

    def __init__(self, path: str, names: Names, known: dict[str, str], members: list[Member]) -> None:
        self.path = path
        self.module = "" if path == "-" else Path(path).stem
        self.names = names
        self.known = known  # the member's name, by module, path within it and name
        self.members = members
        self.imported: dict[str, str] = {}

    def block(self, body: list[ast.stmt], within: tuple[str, ...]) -> None:
        """Reads statements that stand in these classes and functions."""
        for node in body:
            if isinstance(node, ast.ClassDef):
                self.new_class(node, within)
            elif isinstance(node, ast.ImportFrom):
                for it in node.names:
                    self.imported[it.asname or it.name] = f"{node.module}.{it.name}" if node.module else it.name
            elif isinstance(node, ast.Import):
                for it in node.names:
                    self.imported[it.asname or it.name] = it.name if it.asname else it.name.partition(".")[0]
            else:
                inner = (*within, node.name) if isinstance(node, (ast.FunctionDef, ast.AsyncFunctionDef)) else within
                for part in ("body", "orelse", "finalbody"):
                    self.block(getattr(node, part, []), inner)
                for handler in getattr(node, "handlers", []):
                    self.block(handler.body, inner)

    def new_class(self, node: ast.ClassDef, within: tuple[str, ...]) -> None:
        """Adds a class, after what its body defines: a base is none of these."""
        bases = tuple(self.base(it, within) for it in node.bases)
        path = ".".join((*within, node.name))
        name = self.names.new(f"{self.module}.{path}" if self.module else path)
        shown = () if bases == (OBJECT,) else bases
        self.members.append(Member(name, shown, f"{self.path}:{node.lineno}"))
        self.known[f"{self.module}.{path}"] = name
        self.block(node.body, (*within, node.name))

    def base(self, node: ast.expr, within: tuple[str, ...]) -> str:
        """The name of the member that a base means."""
        while isinstance(node, ast.Subscript):
            node = node.value
        written = ast.unparse(node)
        for depth in range(len(within), -1, -1):
            found = self.known.get(".".join((self.module, *within[:depth], written)))
            if found:
                return found
        first, dot, rest = written.partition(".")
        meant = f"{self.imported.get(first, first)}{dot}{rest}"
        return OBJECT if meant == OBJECT else self.of_a_source(meant) or self.outside(meant)

    def of_a_source(self, meant: str) -> str | None:
        """The member that a dotted name means in one of the sources, whatever package stands before its module."""
        parts = meant.split(".")
        found = (self.known.get(".".join(parts[at:])) for at in range(len(parts)))
        return next((it for it in found if it), None)

    def outside(self, meant: str) -> str:
        """The member for a class that no source has."""
        name = self.names.new(meant)
        self.members.append(Member(name, ()))
        self.known[meant] = name
        return name
