"""How a known difference shows by itself, in the answers or in the command: each by its own cause alone."""

from __future__ import annotations

import ast
import re
from collections.abc import Callable, Iterator
from dataclasses import dataclass
from functools import cached_property

from .beside import ENDED, TIME
from .machine import Reply
from .parameters import may_be_left_out
from .source import Command


@dataclass(frozen=True)
class Case:
    """A command of a file that the two answer differently."""

    command: Command
    machine: Reply
    python: list[str]
    file: ast.Module

    @property
    def end(self) -> str:
        """How the machine ended."""
        return self.machine.end

    @property
    def cause(self) -> str:
        """The cause of the machine's fault, or nothing."""
        return self.end.split(" ")[-1] if self.end.startswith("! ") else ""

    @property
    def python_end(self) -> str:
        """How Python ended."""
        return self.python[-1]

    @property
    def has_same_events(self) -> bool:
        """Whether the two started the same bodies."""
        return list(self.machine.events) == self.python[:-1]

    @cached_property
    def nodes(self) -> list[ast.AST]:
        """The nodes of the command, and those of the functions whose bodies it started."""
        names = {name_of_event(it) for it in [*self.machine.events, *self.python[:-1]]}
        every = (it for it in ast.walk(self.file) if isinstance(it, ast.FunctionDef) and it.name in names)
        return [*ast.walk(self.command.node), *(node for it in every for node in ast.walk(it))]

    def is_fault_of_python(self, kind: str) -> bool:
        """Whether Python ended with a fault of this kind."""
        return self.python_end == f"! {kind}"


def name_of_event(event: str) -> str:
    """The name of the function whose body an event tells."""
    return event.partition(" ")[2].partition("(")[0]


def without_cause(end: str) -> str:
    """How a command ended, without the cause of a fault."""
    return " ".join(end.split(" ")[:2]) if end.startswith("! ") else end


def calls(case: Case, name: str, *counts: int) -> Iterator[ast.Call]:
    """The calls of the function of this name with so many arguments, or with any."""
    for node in case.nodes:
        if isinstance(node, ast.Call) and isinstance(node.func, ast.Name) and node.func.id == name:
            if not counts or len(node.args) in counts:
                yield node


def has_call(case: Case, name: str, *counts: int) -> bool:
    """Whether such a call stands there."""
    return any(True for _ in calls(case, name, *counts))


def reads(case: Case, name: str) -> bool:
    """Whether an attribute of this name is read."""
    return any(isinstance(node, ast.Attribute) and node.attr == name for node in case.nodes)


def masked(line: str) -> str:
    """The line with one mark for each number and each address."""
    return re.sub(r"0x[0-9a-f]+|-?\d+", "#", line)


def unquoted(line: str) -> str:
    """The line without quotes and backslashes."""
    return re.sub(r"[\\'\"]", "", line)


def makes_texts(case: Case) -> bool:
    """Whether the command makes texts of objects."""
    named = any(has_call(case, it) for it in ("repr", "str", "format", "print"))
    return named or any(isinstance(node, ast.FormattedValue) for node in case.nodes) or reads(case, "__repr__")


def all_alike(case: Case, change: Callable[[str], str]) -> bool:
    """Whether the answers are alike but for what is changed in both."""
    return [change(it) for it in case.machine.lines()] == [change(it) for it in case.python]


def is_units(case: Case) -> bool:
    if not case.end.startswith("? "):
        return False
    # (of the last body it may not have been told yet which values its parameters have)
    mine = list(case.machine.events[:-1])
    return case.python_end in (TIME, ENDED) or mine == case.python[: min(len(mine), len(case.python) - 1)]


def is_floats(case: Case) -> bool:
    return "<float object>" in case.python_end and case.cause in ("UnsupportedOperand", "NegativeExponent")


def is_modulus(case: Case) -> bool:
    return has_call(case, "pow", 3) and case.cause == "UnsupportedOperand" and not case.is_fault_of_python("TypeError")


def is_percent(case: Case) -> bool:
    mod = any(isinstance(node, ast.BinOp) and isinstance(node.op, ast.Mod) for node in case.nodes)
    return mod and case.cause == "UnsupportedOperand" and case.python_end.startswith('= "')


def is_texts_of_ints(case: Case) -> bool:
    literal = case.cause == "IntLiteral" and has_call(case, "int", 1) and case.python_end.startswith("= ")
    return literal or (has_call(case, "int", 2) and case.cause == "ArgCount")


def names_of_list(line: str) -> tuple[list[str], bool] | None:
    """The texts of a list of texts, and whether all of it is told."""
    if not re.fullmatch(r'= \[("[^"]*"(, )?)*(\.\.\.)?\]', line):
        return None
    return re.findall(r'"([^"]*)"', line), "..." not in line


def is_names(case: Case) -> bool:
    """`dir` gives the same names in another order, but for special ones that the classes here lack."""
    mine, theirs = names_of_list(case.end), names_of_list(case.python_end)
    if not has_call(case, "dir", 1) or mine is None or theirs is None:
        return False
    if not (mine[1] and theirs[1]):
        # (what is told of a long list is its beginning, which is another one)
        direct = isinstance(case.command.node, ast.Expr) and isinstance(case.command.node.value, ast.Call)
        return direct and any(it is case.command.node.value for it in calls(case, "dir"))
    return {it for it in mine[0] if not it.startswith("__")} == {it for it in theirs[0] if not it.startswith("__")}


def is_hashes(case: Case) -> bool:
    return (has_call(case, "hash", 1) or reads(case, "__hash__")) and all_alike(case, masked)


def is_addresses(case: Case) -> bool:
    return makes_texts(case) and "0x" in "".join(case.python) and all_alike(case, masked)


def is_quotes(case: Case) -> bool:
    return makes_texts(case) and all_alike(case, unquoted)


def of_profile() -> frozenset[str]:
    """The names that built-in classes of Python have."""

    def method(self: object) -> None:
        """Nothing."""

    samples = (0, "", [], (), {}, method, property(method), classmethod(method), len, object(), type, iter(()), True)
    of_class = (name for it in samples for name in dir(type(it)))
    return frozenset(of_class) | frozenset("__qualname__ __module__ __defaults__ __closure__ __annotations__".split())


def is_profile(case: Case) -> bool:
    """An attribute of a built-in class is missing, of a name that the file itself never gives."""
    if case.cause not in ("NoAttribute", "ArgCount", "ReadOnly") or case.is_fault_of_python("AttributeError"):
        return False
    own = {it.name for it in ast.walk(case.file) if isinstance(it, (ast.FunctionDef, ast.ClassDef))}
    own |= {it.attr for it in ast.walk(case.file) if isinstance(it, ast.Attribute) and isinstance(it.ctx, ast.Store)}
    read = {it.attr for it in case.nodes if isinstance(it, ast.Attribute)} - own
    return bool(read & of_profile())


def is_missing(case: Case) -> bool:
    return case.cause == "MissingKey" and any(name_of_event(it) == "__missing__" for it in case.python)


def is_mro_entries(case: Case) -> bool:
    return any(name_of_event(it) == "__mro_entries__" for it in case.python) and not case.has_same_events


def is_len_index(case: Case) -> bool:
    return case.cause == "LengthType" and not case.is_fault_of_python("TypeError")


def is_length_hint(case: Case) -> bool:
    if not (has_call(case, "list") or has_call(case, "tuple") or has_call(case, "sorted") or starred(case)):
        return False
    rest = [it for it in case.python if name_of_event(it) not in ("__len__", "__length_hint__")]
    return len(rest) < len(case.python) and rest == [*case.machine.events, without_cause(case.end)]


def is_slots(node: ast.AST) -> bool:
    """Whether it is the name `__slots__`."""
    return isinstance(node, ast.Name) and node.id == "__slots__"


def is_slots_and_value(case: Case) -> bool:
    slots = any(is_slots(it) for it in case.nodes)
    return slots and case.is_fault_of_python("ValueError") and case.end.startswith("= <class ")


def is_dict_again(case: Case) -> bool:
    given = (it.value for it in case.nodes if isinstance(it, ast.Assign) and any(map(is_slots, it.targets)))
    named = any(isinstance(it, ast.Constant) and it.value == "__dict__" for value in given for it in ast.walk(value))
    return named and case.is_fault_of_python("TypeError") and case.end.startswith("= <class ")


def is_class_dict(case: Case) -> bool:
    sets = any(
        isinstance(it, ast.Subscript)
        and not isinstance(it.ctx, ast.Load)
        and isinstance(it.value, ast.Attribute)
        and it.value.attr == "__dict__"
        for it in case.nodes
    )
    return sets and case.is_fault_of_python("TypeError") and not case.end.startswith("! ")


def is_foreign_receiver(case: Case) -> bool:
    special = any(isinstance(it, ast.Attribute) and re.fullmatch(r"__\w+__", it.attr) for it in case.nodes)
    return special and case.is_fault_of_python("TypeError") and "NotImplemented" in case.end


def is_doc_of_property(case: Case) -> bool:
    decorated = any(isinstance(it, ast.Name) and it.id == "property" for it in ast.walk(case.file))
    return decorated and reads(case, "__doc__") and case.end == "= None" and case.python_end.startswith('= "')


def starred(case: Case) -> bool:
    return any(isinstance(it, ast.Starred) for it in case.nodes)


def is_starred(case: Case) -> bool:
    return starred(case) and case.end == "! OverflowError Body" and not case.is_fault_of_python("OverflowError")


def is_depth_of_pieces(case: Case) -> bool:
    """A body with a loop, a try or an inner function goes too deep here, and not in Python."""
    pieces = any(isinstance(it, (ast.For, ast.While, ast.Try, ast.ListComp, ast.Nonlocal)) for it in case.nodes)
    return pieces and case.cause == "DepthLimit" and not case.is_fault_of_python("RecursionError")


def is_keywords(case: Case) -> bool:
    """A keyword of a class is a parameter that may be left out somewhere in the file."""
    given = {kw.arg for it in case.nodes if isinstance(it, ast.ClassDef) for kw in it.keywords}
    functions = (it for it in ast.walk(case.file) if isinstance(it, (ast.FunctionDef, ast.Lambda)))
    named = [it.args for it in functions]
    left_out = {arg.arg for it in named for arg in may_be_left_out(it)}
    return case.cause == "UnexpectedKeyword" and (bool(given & left_out) or any(it.kwarg for it in named))


def by_cause(*causes: str) -> Callable[[Case], bool]:
    """Whether the machine ended by one of these causes, and Python with another kind of fault or a value."""

    def holds(case: Case) -> bool:
        return case.cause in causes and case.python_end != without_cause(case.end)

    return holds


RECOGNISERS: dict[str, Callable[[Case], bool]] = {
    "units": is_units,
    "depth-of-pieces": is_depth_of_pieces,
    "floats": is_floats,
    "modulus": is_modulus,
    "percent": is_percent,
    "specs": by_cause("FormatSpec"),
    "texts-of-ints": is_texts_of_ints,
    "bounds": lambda case: case.cause in ("IntRange", "TooLong", "RepeatTooLong", "IndexRange", "DepthLimit"),
    "keys": by_cause("KeyType"),
    "mro-entries": is_mro_entries,
    "super-kind": by_cause("SuperNoClass"),
    "names": is_names,
    "hashes": is_hashes,
    "addresses": is_addresses,
    "quotes": is_quotes,
    "missing": is_missing,
    "len-index": is_len_index,
    "length-hint": is_length_hint,
    "slots-and-value": is_slots_and_value,
    "dict-again": is_dict_again,
    "class-dict": is_class_dict,
    "foreign-receiver": is_foreign_receiver,
    "doc-of-property": is_doc_of_property,
    "keywords": is_keywords,
    "starred": is_starred,
    "profile": is_profile,
}


def recognised(case: Case) -> str | None:
    """The known difference that the answers or the command show by themselves."""
    return next((name for name, holds in RECOGNISERS.items() if holds(case)), None)
