"""Where the machine is known to answer otherwise than Python.

docs/DIFFERENCES.md has the same list, with the reasons. What can't be recognised (`recognising`) is marked in the
source by a comment `# differs: NAME` on a line of its statement.
"""

from __future__ import annotations

import ast
import re
from dataclasses import dataclass

from .analysis import inner_functions, names_bound
from .machine import Reply
from .recognising import Case, recognised, without_cause
from .source import Command

KNOWN: dict[str, str] = {
    "units": "each command has a budget of units",
    "bounds": "integers have 128 bits, containers 2^24 items, and a thousand tasks wait for one another at most",
    "keys": "a key of a dict is a text or a number",
    "floats": "there are no floats",
    "modulus": "integers have no power with a modulus",
    "specs": "objects know the empty specification of a format alone",
    "percent": "texts have no %",
    "texts-of-ints": "a whole number is read of digits with a sign alone, to the base of ten",
    "hashes": "a text's hash has a fixed key, and an object's is its number",
    "addresses": "an object's repr tells its number in place of its address",
    "quotes": "a text's repr stands between single quotes",
    "names": "dir lists names as they are found, and not sorted",
    "profile": "built-in classes have fewer methods and attributes",
    "missing": "a dict doesn't ask __missing__",
    "len-index": "__len__ has to give a number, and is not asked for its __index__",
    "length-hint": "list and tuple don't ask __len__ of what they collect",
    "slots-and-value": "a name of __slots__ may have a value in the class too",
    "dict-again": "__slots__ may name __dict__ twice, and where a base has a dict",
    "inner-functions": "a function that sees the variables around it is of a class of its own",
    "private-slots": "a class's __slots__ tells a private name as its attribute is spelled",
    "class-dict": "a class's __dict__ is a new dict each time, which can be set in",
    "foreign-receiver": "a method of a built-in class that is given another's object may be NotImplemented",
    "doc-of-property": "a property has no text of its getter",
    "mro-entries": "a base that is no class is refused",
    "super-kind": "super() in a function that no class made is a TypeError",
    "super-class": "super takes no object that only its __class__ makes one of the class",
    "order-of-containers": "tuples and lists are ordered by < of the first items that differ, before ==",
    "contained-by-equality": "over an iterator what is sought is compared by equality alone",
    "metaclass": "a class form calls the given metaclass, or the class of the first base",
    "winner-unasked": "a metaclass that wins by its bases isn't asked to initialise the class, and may not make it",
    "new-unbound": "a __new__ that is a class method isn't bound, and every __set_name__ is bound before a call",
    "repeats": "a sequence without __rmul__ is repeated by its __mul__, and by a number that __index__ gives",
    "after-the-raise": "__getattr__ is looked up after the raise, and what a __get__ raises passes on",
    "binding": "__get__ takes its object as it is given, and wants a class",
    "layouts": "two classes with equal __slots__ have different layouts, and plain ones below int one",
    "dicts": "another class and other bases go by whether there is a dict, and not by who brought it",
    "natives-of-object": "natives of object take other arguments, or tell another fault",
    "bound-methods": "two bound methods are never equal",
    "iterators": "an iterator ends after any raise",
    "bounds-of-slices": "the bounds of a slice are numbers of 64 bits",
    "keywords": "a keyword of a class can't be a parameter that may be left out",
    "starred": "a call takes twelve arguments from a tuple at most",
    "unpacking": "what is unpacked is collected first, to its end",
    "depth-of-pieces": "a loop, a try and an inner function are calls of their own, and count for the depth",
}

# After these the two are in different states, and nothing more can be compared.
LAST = frozenset({"units", "bounds"})


@dataclass(frozen=True)
class Difference:
    """A command that the two answer differently, and why: a known difference, or an earlier one whose line is told."""

    command: Command
    machine: Reply
    python: list[str]
    known: str | None
    follows: int | None = None

    def is_explained(self) -> bool:
        """Whether it is known why the answers differ."""
        return self.known is not None or self.follows is not None


# Built-in classes that are divided otherwise: all natives count as one class, and so do all iterators.
DIVIDED_OTHERWISE = re.compile(
    r"(?<=<)(?:builtin_function_or_method|builtin_method|\w*method_descriptor|getset_descriptor|method-wrapper"
    r"|wrapper_descriptor)(?= object>)|(?<=<)\w+iterator(?= object>)"
)


class Comparison:
    """Compares the answers to the commands of a file in turn, and knows what earlier differences lead to."""

    def __init__(self, commands: list[Command]) -> None:
        nodes = [command.node for command in commands]
        self.file = ast.Module(nodes, [])
        self.reads: dict[str, set[str]] = {}  # the names that what a name stands for may read
        for node in nodes:
            if isinstance(node, (ast.FunctionDef, ast.ClassDef)):
                self.reads.setdefault(node.name, set()).update(names_read([node]))
        self.doubtful: dict[str, int] = {}  # names whose value may differ, with the line that this began at

    def difference(self, command: Command, machine: Reply, python: list[str]) -> Difference | None:
        """How the two answers differ, if they do."""
        if comparable(machine.lines()) == comparable(python):
            for name in names_bound([command.node]):
                self.doubtful.pop(name, None)
            return None
        case = Case(command, machine, python, self.file)
        known = command.mark or recognised(case)
        first = None if known else self.follows(command)
        for name in names_changed(command.node):
            self.doubtful.setdefault(name, first or command.line)
        return Difference(command, machine, python, known, first)

    def follows(self, command: Command) -> int | None:
        """The line of an earlier difference that changed what this command reads."""
        found, left = set[str](), names_read([command.node])
        while left:
            name = left.pop()
            if name not in found:
                found.add(name)
                left |= self.reads.get(name, set())
        lines = [self.doubtful[name] for name in found if name in self.doubtful]
        return min(lines, default=None)


def names_read(nodes: list[ast.AST]) -> set[str]:
    """All names that stand below the nodes."""
    names = (it for node in nodes for it in ast.walk(node) if isinstance(it, ast.Name))
    return {it.id for it in names if isinstance(it.ctx, ast.Load)}


def names_changed(node: ast.AST) -> set[str]:
    """The names that a statement binds, and those of the objects whose attributes or items it sets."""
    found = names_bound([node])
    held_by_functions = {id(it) for function in inner_functions([node]) for it in ast.walk(function)}
    for it in ast.walk(node):
        if isinstance(it, (ast.Attribute, ast.Subscript)) and not isinstance(it.ctx, ast.Load):
            held: ast.expr = it
            while isinstance(held, (ast.Attribute, ast.Subscript)):
                held = held.value
            if isinstance(held, ast.Name) and id(it) not in held_by_functions:
                found.add(held.id)
    return found


def comparable(lines: list[str]) -> list[str]:
    """The lines without the cause of a fault, and with one name for the classes that are divided otherwise."""
    *bodies, end = (DIVIDED_OTHERWISE.sub(one_name, line) for line in lines)
    return [*bodies, without_cause(end)]


def one_name(found: re.Match[str]) -> str:
    return "iterator" if found[0].endswith("iterator") else "native"
