"""Functions that Python has built in and the machine has not, written in Python: a script begins with those it needs.

The front end makes forms of them as of any source, with names between brackets (`prelude`).
"""

from __future__ import annotations

import ast
from functools import cache

from . import definitions
from .parameters import Keywords
from .prelude import HELPERS
from .scope import Scope, Shared

# `_index` is the word `index` here.
TEXT = '''
class range:
    def __init__(self, *given):
        if not 0 < len(given) < 4:
            raise TypeError
        numbers = [_index(it) for it in given]
        self.start = numbers[0] if len(numbers) > 1 else 0
        self.stop = numbers[1] if len(numbers) > 1 else numbers[0]
        self.step = numbers[2] if len(numbers) > 2 else 1
        if self.step == 0:
            raise ValueError

    def __len__(self):
        if self.step > 0:
            count = (self.stop - self.start + self.step - 1) // self.step
        else:
            count = (self.start - self.stop - self.step - 1) // -self.step
        return count if count > 0 else 0

    def __getitem__(self, at):
        at, count = _index(at), len(self)
        if at < 0:
            at += count
        if not 0 <= at < count:
            raise IndexError
        return self.start + at * self.step

    def __iter__(self):
        return range_iterator(self.start, len(self), self.step)

    def __eq__(self, other):
        return [*self] == [*other] if type(other) is type(self) else NotImplemented

    def __repr__(self):
        step = "" if self.step == 1 else f", {self.step}"
        return f"range({self.start}, {self.stop}{step})"


class range_iterator:
    def __init__(self, at, left, step):
        self.at, self.left, self.step = at, left, step

    def __iter__(self):
        return self

    def __next__(self):
        if self.left == 0:
            raise StopIteration
        at = self.at
        self.at, self.left = at + self.step, self.left - 1
        return at


class enumerate:
    def __init__(self, iterable, start=0):
        self.iterator, self.at = iter(iterable), _index(start)

    def __iter__(self):
        return self

    def __next__(self):
        item, at = next(self.iterator), self.at
        self.at = at + 1
        return at, item


class zip:
    def __init__(self, *iterables):
        self.iterators = [iter(it) for it in iterables]

    def __iter__(self):
        return self

    def __next__(self):
        if not self.iterators:
            raise StopIteration
        return (*[next(it) for it in self.iterators],)


class map:
    def __init__(self, function, iterable, *others):
        self.function, self.iterators = function, [iter(it) for it in (iterable, *others)]

    def __iter__(self):
        return self

    def __next__(self):
        function = self.function
        return function(*[next(it) for it in self.iterators])


class filter:
    def __init__(self, function, iterable):
        self.function, self.iterator = function, iter(iterable)

    def __iter__(self):
        return self

    def __next__(self):
        function = self.function
        while True:
            item = next(self.iterator)
            if item if function is None else function(item):
                return item


class reversed:
    def __new__(cls, sequence):
        if hasattr(type(sequence), "__reversed__"):
            return sequence.__reversed__()
        made = object.__new__(cls)
        made.sequence, made.left = sequence, len(sequence)
        return made

    def __iter__(self):
        return self

    def __next__(self):
        if self.left == 0:
            raise StopIteration
        self.left -= 1
        return self.sequence[self.left]


def sum(iterable, /, start=0):
    for item in iterable:
        start = start + item
    return start


def any(iterable, /):
    for item in iterable:
        if item:
            return True
    return False


def all(iterable, /):
    for item in iterable:
        if not item:
            return False
    return True


def min(*given, key=None, **default):
    return best(lambda one, other: one < other, given, key, default)


def max(*given, key=None, **default):
    return best(lambda one, other: one > other, given, key, default)


def best(goes_before, given, key, default):
    if not given or (len(given) > 1 and default) or len(default) > 1 or (default and "default" not in default):
        raise TypeError
    found = []
    for item in given[0] if len(given) == 1 else given:
        mark = item if key is None else key(item)
        if not found or goes_before(mark, found[0]):
            found = [mark, item]
    if found:
        return found[1]
    if default:
        return default["default"]
    raise ValueError


def sorted(iterable, /, *, key=None, reverse=False):
    items = [[item if key is None else key(item), item] for item in [*iterable]]
    if reverse:
        items = [*reversed(items)]
    count = run_of(items)
    while count < len(items):
        pivot, low, high = items[count], 0, count
        while low < high:
            middle = (low + high) // 2
            if pivot[0] < items[middle][0]:
                high = middle
            else:
                low = middle + 1
        del items[count]
        items[low:low] = [pivot]
        count += 1
    if reverse:
        items = [*reversed(items)]
    return [item for mark, item in items]


def run_of(items):
    if len(items) < 2:
        return len(items)
    count, falls = 2, items[1][0] < items[0][0]
    while count < len(items):
        if (items[count][0] < items[count - 1][0]) != falls:
            break
        count += 1
    if falls:
        items[:count] = [*reversed(items[:count])]
    return count
'''


@cache
def nodes() -> dict[str, ast.FunctionDef | ast.ClassDef]:
    """The functions and classes of the library by name."""
    found = [it for it in ast.parse(TEXT).body if isinstance(it, (ast.FunctionDef, ast.ClassDef))]
    return {it.name: it for it in found}


@cache
def define(name: str) -> str:
    """Adds a function of the library to the helpers, with what it needs, and gives the helper's name."""
    shared = Shared(Keywords(frozenset({"start"})), library=frozenset(nodes()))
    scope, node = Scope(shared, set()), nodes()[name]
    if isinstance(node, ast.ClassDef):
        form = definitions.new_class(node, scope)
    else:
        form = definitions.function(node, scope)
    assert not shared.refused, shared.refused
    HELPERS[f"({name})"] = (form, [])
    for need in sorted(shared.helpers):
        if need.strip("()") in nodes():
            define(need.strip("()"))
    HELPERS[f"({name})"] = (form, sorted(shared.helpers - {f"({name})"}))
    return f"({name})"
