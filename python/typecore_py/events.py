"""What of a command's bodies is told: those of the file's own functions, and the lines that were printed.

The machine tells each body that starts. The helpers of a script (`prelude`) have names that begin with a bracket.
"""

from __future__ import annotations

import json
import re
from collections.abc import Iterable, Iterator

from .definitions import INNER
from .prelude import HELPERS
from .tracing import OpenBody, open_bodies

CALL, PRINTED = "call ", "print "

# Objects of helpers that stand for what Python has under the name between the brackets.
STANDS_FOR = re.compile(r"<\((\w+)\) object>|<class '\((\w+)\)'>")

INNER_FUNCTION = "<function object>"

# The classes of helpers that are no helpers themselves.
CLASSES = frozenset({"(function)", "(method)", "(builtin_function_or_method)", "(range_iterator)"})

# What comes between the start of a body and the values of all its parameters.
BEFORE_VALUES = ("(split)(",)

QUALNAME = re.compile(r'"__qualname__": "(?:[^"\\]|\\.)*"(?:, )?')


def shown(line: str) -> str:
    """A line with the names that Python has for what helpers stand for."""
    return QUALNAME.sub("", STANDS_FOR.sub(lambda it: it[0].replace("(", "").replace(")", ""), line))


def is_hidden_class(name: str) -> bool:
    """Whether a class is one of the helpers."""
    return name in HELPERS or name in CLASSES


def visible(bodies: Iterable[str]) -> list[str]:
    """The events of a command, in order, from the machine's lines of bodies."""
    events: list[str] = []
    for _ in with_events(bodies, events):
        pass
    return events


def where(bodies: Iterable[str]) -> tuple[OpenBody, ...]:
    """The bodies that were open at the end of a command that was traced."""
    events: list[str] = []
    lines = (body for body in with_events(bodies, events))
    return open_bodies((body, events[-1].removeprefix(CALL) if events else "") for body in lines)


def with_events(bodies: Iterable[str], events: list[str]) -> Iterator[str]:
    """The machine's lines of bodies, of which each has been added to the events where it is one."""
    is_told = True  # whether the body that began last is one of the file's own
    for raw in bodies:
        body = shown(raw)
        if body.startswith("(=)(") or body.startswith("(-)("):
            if is_told and body.startswith("(=)"):
                # (the values of all parameters, where some were left out)
                events[-1] = events[-1].partition("(")[0] + body.removeprefix("(=)")
            elif is_told:
                # (a call whose arguments don't fit, which starts no body)
                events.pop()
            yield raw
            continue
        is_told = is_told if body.startswith(BEFORE_VALUES) else body.startswith(INNER) or not body.startswith("(")
        if body.startswith(f"{INNER}("):
            is_told = False
        elif body.startswith(INNER):
            name, _, rest = body.removeprefix(INNER).partition("(")
            rest = rest.removeprefix(INNER_FUNCTION).removeprefix(", ")
            events.append(f"{CALL}{name}({rest}")
        elif not body.startswith("("):
            events.append(CALL + body)
        elif body.startswith("(print)("):
            events.append(PRINTED + body[len("(print)(") + 1 : -2])
        yield raw


def ended(bodies: list[str], end: str) -> str:
    """How a command ended, as Python would have it: an assert that fails is a body and a RuntimeError here."""
    if end == "! RuntimeError Body" and bodies and bodies[-1].startswith("(assert)("):
        return "! AssertionError Body"
    return shown(end)


def unquoted(text: str) -> str:
    """A text from how it stands between quotes."""
    try:
        return json.loads('"' + re.sub(r"\\x([0-9a-f]{2})", r"\\u00\1", text) + '"')
    except ValueError:
        return text
