"""Where a fault was raised: the bodies that were open then, each with its line.

The machine tells the start of a body, and not its end. For this the script is run once more with helpers that are
called as a body is entered, before each of its statements, and as it is left with a value: their own bodies tell it.
"""

from __future__ import annotations

from collections.abc import Iterable
from dataclasses import dataclass

from .scope import CELLS, Ending, Form, Scope

ID, COUNT, RESULT = "(id)", "(count)", "(result)"

ENTER, AT, LEAVE = "(enter)(", "(at)(", "(leave)("

# How much more a command may spend with these.
TIMES = 10


@dataclass(frozen=True)
class OpenBody:
    """A body that was open: its function with the arguments, and the line that was evaluated."""

    called: str
    line: int | None


def number(scope: Scope) -> Form:
    """The form that gives the number of the body that runs."""
    return ["attr", ["name", CELLS], ID] if scope.is_part else ["name", ID]


def entered(scope: Scope, has_cells: bool) -> list[Form]:
    """What a body begins with: it takes a new number."""
    file = scope.file().own_cells()
    count: Form = ["attr", file, COUNT]
    forms = [
        ["setattr", file, COUNT, ["op", "+", count, 1]],
        ["bind", ID, count],
        ["call", scope.shared.helper("(enter)"), [["name", ID]]],
    ]
    return [*forms, ["setattr", ["name", CELLS], ID, ["name", ID]]] if has_cells else forms


def at_line(scope: Scope, line: int) -> list[Form]:
    """What stands before a statement of a body."""
    if not scope.shared.is_traced or scope.is_file():
        return []
    return [["call", scope.shared.helper("(at)"), [number(scope), line]]]


class Traced(Ending):
    """How a body ends whose end is told."""

    def __init__(self, scope: Scope) -> None:
        self.scope = scope

    def returned(self, value: Form) -> Form:
        left = ["call", self.scope.shared.helper("(leave)"), [["name", ID]]]
        return ["seq", ["bind", RESULT, value], left, ["name", RESULT]]

    def fallen(self) -> Form:
        return self.returned(None)


def open_bodies(bodies: Iterable[tuple[str, str]]) -> tuple[OpenBody, ...]:
    """The bodies that are open after all these: each is the machine's line, and the call that was told last."""
    stack: list[tuple[int, OpenBody]] = []
    for body, last in bodies:
        if body.startswith(ENTER):
            stack.append((int(body[len(ENTER) : -1]), OpenBody(last, None)))
        elif body.startswith(AT):
            at, line = map(int, body[len(AT) : -1].split(", "))
            while stack and stack[-1][0] != at:
                stack.pop()
            if stack:
                stack[-1] = (at, OpenBody(stack[-1][1].called, line))
        elif body.startswith(LEAVE):
            at = int(body[len(LEAVE) : -1])
            while stack and stack.pop()[0] != at:
                pass
    return tuple(it for _, it in stack)
