"""Says of a script that is none where it is wrong first, and what was wanted there: ./typecore --explain < SCRIPT.

It reads as the program does (docs/SCRIPTS.md, 'What is refused'), and isn't proved. A place is told as a path: [3][2]
is the third item of the fourth command.
"""

from __future__ import annotations

import json
import sys
from collections.abc import Callable
from typing import Any

from .source import DEEPEST, LONGEST
from .words import KINDS

# The words of operations by the number of their operands.
WORDS: dict[str, tuple[int, ...]] = {
    **dict.fromkeys("neg pos abs invert not bool len hash repr str dir iter next index int".split(), (1,)),
    **dict.fromkeys("callable typeof keys values items tolist totuple".split(), (1,)),
    **dict.fromkeys("+ - * % divmod << >> & ^ | // / @ += -= *= %= <<= >>= &= ^= |= //= /= @= **=".split(), (2,)),
    **dict.fromkeys("< <= == != >= > is in getitem delitem format isinstance issubclass".split(), (2,)),
    **dict.fromkeys("count find concat repeat iconcat irepeat hint hasattr".split(), (2,)),
    "**": (2, 3),
    **dict.fromkeys("setitem slice delslice".split(), (3,)),
    "setslice": (4,),
}

LEAST, MOST = -(2**63), 2**63 - 1

Path = tuple[int, ...]


class Wrong(Exception):
    """What is wrong with a script: the word that it is refused with, where, and why."""

    def __init__(self, word: str, path: Path, why: str) -> None:
        super().__init__(why)
        self.word = word
        self.path = path
        self.why = why

    def told(self) -> str:
        """What is wrong, as a line."""
        place = "".join(f"[{at}]" for at in self.path)
        return f"{self.word}{' at ' + place if place else ''}: {self.why}"


class NoInteger:
    """A number that is no integer of 64 bits, as it is spelled."""

    def __init__(self, spelled: str) -> None:
        self.spelled = spelled


def integer(spelled: str) -> int | NoInteger:
    """An integer of 64 bits, or what it is spelled as."""
    if len(spelled) > 20 or spelled == "-0":
        return NoInteger(spelled)
    return int(spelled) if LEAST <= int(spelled) <= MOST else NoInteger(spelled)


def refuse_constant(spelled: str) -> Any:
    raise ValueError(f"{spelled} is no JSON")


def first_wrong(given: bytes) -> Wrong | None:
    """What is wrong first with a script, or nothing where it is one."""
    try:
        if len(given) > LONGEST:
            raise Wrong("TooLarge", (), f"it has {len(given):,} bytes, and {LONGEST:,} at most are read")
        script = parsed(given)
        numbers(script, ())
        if script == []:
            raise Wrong("NoCommand", (), "the array of commands is empty")
        if not isinstance(script, list):
            raise Wrong("Shape", (), f"an array of commands is wanted, and not {told(script)}")
        for at, command in enumerate(script):
            expression(command, (at,))
    except Wrong as wrong:
        return wrong
    return None


def parsed(given: bytes) -> Any:
    """The value that the bytes spell as JSON."""
    try:
        text = given.decode("utf-8")
    except UnicodeDecodeError as error:
        raise Wrong("NotJson", (), f"byte {error.start} is not of UTF-8") from None
    try:
        return json.loads(text, parse_int=integer, parse_float=NoInteger, parse_constant=refuse_constant)
    except json.JSONDecodeError as error:
        raise Wrong("NotJson", (), f"line {error.lineno}, column {error.colno}: {error.msg}") from None
    except (ValueError, RecursionError) as error:
        why = str(error) if isinstance(error, ValueError) else "it is nested too deep"
        raise Wrong("NotJson", (), why) from None


def numbers(value: Any, path: Path) -> None:
    """Refuses what is nested too deep, and then numbers that are no integers of 64 bits, anywhere."""
    places: list[tuple[Any, Path]] = [(value, path)]
    found: list[Wrong] = []
    while places:
        value, path = places.pop()
        if isinstance(value, (list, dict)) and len(path) >= DEEPEST:
            raise Wrong("NotJson", path[:8], f"below here it is nested more than {DEEPEST} deep")
        if isinstance(value, NoInteger):
            found.append(Wrong("Number", path, f"{value.spelled[:40]} is no integer of 64 bits"))
        elif isinstance(value, list):
            places += [(it, (*path, at)) for at, it in enumerate(value)]
        elif isinstance(value, dict):
            places += [(it, path) for it in value.values()]
    if found:
        raise min(found, key=lambda it: it.path)


def told(value: Any) -> str:
    """A value in few words."""
    if isinstance(value, NoInteger):
        return value.spelled
    if isinstance(value, (list, dict)) and value:
        return "an array that begins with " + told(value[0]) if isinstance(value, list) else "an object"
    return json.dumps(value, ensure_ascii=False)[:60]


def wanted(what: str, value: Any, path: Path) -> Wrong:
    """That something else stands at a place."""
    return Wrong("Shape", path, f"{what} is wanted, and not {told(value)}")


def text(value: Any, path: Path, what: str) -> None:
    """A text is wanted."""
    if not isinstance(value, str):
        raise wanted(what, value, path)


def array(value: Any, path: Path, what: str) -> list[Any]:
    """An array is wanted."""
    if not isinstance(value, list):
        raise wanted(what, value, path)
    return value


def expression(value: Any, path: Path) -> None:
    """An expression is wanted: a constant, or a form."""
    if value is None or isinstance(value, (bool, int, str)):
        return
    items = array(value, path, "a constant or the array of a form")
    if not items or not isinstance(items[0], str) or items[0] not in FORMS:
        what = f"the name of a form ({', '.join(FORMS)})"
        raise wanted(what, items[0] if items else [], (*path, 0) if items else path)
    FORMS[items[0]](items, path)


def expressions(items: list[Any], path: Path, first: int = 0) -> None:
    """Expressions are wanted from an item on."""
    for at, item in enumerate(items[first:], first):
        expression(item, (*path, at))


def counted(items: list[Any], path: Path, parts: str, *counts: int) -> None:
    """A form has so many parts behind its name."""
    if len(items) - 1 not in counts:
        raise Wrong("Shape", path, f"{items[0]} is followed by {parts}, and here by {len(items) - 1} parts")


def name_form(items: list[Any], path: Path) -> None:
    counted(items, path, "a name", 1)
    text(items[1], (*path, 1), "a name")


def bind_form(items: list[Any], path: Path) -> None:
    counted(items, path, "a name and an expression", 2)
    text(items[1], (*path, 1), "a name")
    expressions(items, path, 2)


def all_form(items: list[Any], path: Path) -> None:
    expressions(items, path, 1)


def dict_form(items: list[Any], path: Path) -> None:
    for at, pair in enumerate(items[1:], 1):
        if not isinstance(pair, list) or len(pair) != 2:
            raise wanted("an array of a key and a value", pair, (*path, at))
        expressions(pair, (*path, at))


def func_form(items: list[Any], path: Path) -> None:
    counted(items, path, "a name, an array of parameters and a body", 3)
    text(items[1], (*path, 1), "the name of a function")
    names = array(items[2], (*path, 2), "an array of parameters")
    for at, name in enumerate(names):
        text(name, (*path, 2, at), "the name of a parameter")
        if name in names[:at]:
            raise Wrong("Shape", (*path, 2, at), f"the parameter {name} stands twice")
    if items[0] == "func*" and not names:
        raise Wrong("Shape", (*path, 2), "a func* has a parameter at least, which takes the rest")
    expression(items[3], (*path, 3))


def attr_form(items: list[Any], path: Path) -> None:
    more = items[0] == "setattr"
    counted(items, path, f"an object, a name{' and a value' if more else ''}", 3 if more else 2)
    expression(items[1], (*path, 1))
    text(items[2], (*path, 2), "the name of an attribute")
    expressions(items, path, 3)


def if_form(items: list[Any], path: Path) -> None:
    counted(items, path, "a condition and two expressions", 3)
    expressions(items, path, 1)


def call_form(items: list[Any], path: Path) -> None:
    counted(items, path, "what is called, an array of arguments and, if any, one of keywords", 2, 3)
    expression(items[1], (*path, 1))
    expressions(array(items[2], (*path, 2), "an array of arguments"), (*path, 2))
    if len(items) == 4:
        named(items[3], (*path, 3), "keywords")


def named(value: Any, path: Path, what: str) -> None:
    """An array of names, each with an expression, is wanted."""
    for at, pair in enumerate(array(value, path, f"an array of {what}")):
        if not isinstance(pair, list) or len(pair) != 2:
            raise wanted("an array of a name and an expression", pair, (*path, at))
        text(pair[0], (*path, at, 0), "a name")
        expression(pair[1], (*path, at, 1))


def op_form(items: list[Any], path: Path) -> None:
    word = items[1] if len(items) > 1 else None
    if not isinstance(word, str) or word not in WORDS:
        raise wanted("a word of operations (docs/SCRIPTS.md lists them)", word, (*path, 1) if len(items) > 1 else path)
    counts = " or ".join(map(str, WORDS[word]))
    expressions(items, path, 2)
    if len(items) - 2 not in WORDS[word]:
        raise Wrong("Shape", path, f"the word {word} takes {counts} operands, and not {len(items) - 2}")


def raise_form(items: list[Any], path: Path) -> None:
    counted(items, path, "the kind of a fault", 1)
    if items[1] not in KINDS:
        raise wanted(f"one of {', '.join(KINDS)}", items[1], (*path, 1))


def class_form(items: list[Any], path: Path) -> None:
    counted(items, path, "a name, arrays of bases and of entries and, if any, one of keywords", 3, 4)
    text(items[1], (*path, 1), "the name of a class")
    expressions(array(items[2], (*path, 2), "an array of bases"), (*path, 2))
    named(items[3], (*path, 3), "entries")
    if len(items) == 5:
        named(items[4], (*path, 4), "keywords")


FORMS: dict[str, Callable[[list[Any], Path], None]] = {
    "name": name_form,
    "bind": bind_form,
    "tuple": all_form,
    "list": all_form,
    "dict": dict_form,
    "func": func_form,
    "func*": func_form,
    "attr": attr_form,
    "setattr": attr_form,
    "delattr": attr_form,
    "if": if_form,
    "seq": all_form,
    "call": call_form,
    "op": op_form,
    "raise": raise_form,
    "class": class_form,
}

STATUS = {"NotJson": 3, "Number": 3, "NoCommand": 3, "Shape": 3, "TooLarge": 7}


def main() -> int:
    """Says what is wrong with the script on standard input. The status is that of the program."""
    if sys.stdin is None:
        print("typecore: standard input is closed", file=sys.stderr)
        return 4
    wrong = first_wrong(sys.stdin.buffer.read())
    if wrong is None:
        print("the script is one: nothing is refused")
        return 0
    print(f"typecore: {wrong.told()}", file=sys.stderr)
    return STATUS[wrong.word]


if __name__ == "__main__":
    sys.exit(main())
