"""Known differences: each is recognised by its own cause alone, and the list is that of docs/DIFFERENCES.md."""

from __future__ import annotations

import re
import unittest

from typecore_py.differences import KNOWN, Comparison, Difference
from typecore_py.machine import Reply, run
from typecore_py.recognising import RECOGNISERS
from typecore_py.reference import Reference

from .here import MACHINE, TOP, needs_machine, read

SIZED = "class L:\n    def __len__(self): "

# A source, and the known difference that its last command shows by itself.
SHOWN = [
    ("def f(): return f()\nf()", "bounds"),
    ("2 ** 200", "bounds"),
    ("7 / 2", "floats"),
    ("2 ** -1", "floats"),
    ("pow(3, 4, 5)", "modulus"),
    ("{(1, 2): 3}", "keys"),
    ("format(5, 'd')", "specs"),
    ("x = 7\nf'{x:x}'", "specs"),
    ("'%s' % 5", "percent"),
    ("int(' 5 ')", "texts-of-ints"),
    ("int('1f', 16)", "texts-of-ints"),
    ("hash('a')", "hashes"),
    ("class A: pass\nrepr(A())", "addresses"),
    ("class A: pass\nf'{A()}'", "addresses"),
    ('repr("it\'s")', "quotes"),
    ("class A:\n    def __dir__(self): return ['b', 'a']\ndir(A())", "names"),
    ("'a'.lower()", "profile"),
    ("[1].pop()", "profile"),
    ("def f(): return [1].count(1)\nf()", "profile"),
    ("def f(): pass\nf.__qualname__", "profile"),
    ("class D(dict):\n    def __missing__(self, k): return k\nD()['a']", "missing"),
    (f"class I:\n    def __index__(self): return 3\n{SIZED}return I()\nlen(L())", "len-index"),
    (f"{SIZED}return 1\n    def __getitem__(self, k): return [1][k]\nlist(L())", "length-hint"),
    (f"{SIZED}return 1\n    def __getitem__(self, k): return [1][k] + 'a'\n[*L()]", "length-hint"),
    ("class S:\n    __slots__ = ('x',)\n    x = 1", "slots-and-value"),
    ("class S:\n    __slots__ = ('__dict__', '__dict__')", "dict-again"),
    ("class A: pass\nclass B(A):\n    __slots__ = ['__dict__']", "dict-again"),
    ("class A: pass\nA.__dict__['q'] = 1", "class-dict"),
    ("int.__add__('a', 6)", "foreign-receiver"),
    ("class A:\n    @property\n    def p(self):\n        'text'\nA.p.__doc__", "doc-of-property"),
    ("class E:\n    def __mro_entries__(self, bases): return ()\nclass A(E()): pass", "mro-entries"),
    ("class E:\n    def __mro_entries__(self, bases): return ()\nclass A(object, E()): pass", "mro-entries"),
    ("def f(n):\n    for i in (1,):\n        return 0 if n == 0 else f(n - 1)\nf(100)", "depth-of-pieces"),
    ("class A:\n    def __init_subclass__(cls, k=1): pass\nclass B(A, k=2): pass", "keywords"),
    ("def f(*a): return a\nt = 'abcdefghijklmn'\nf(*t)", "starred"),
]

# A source whose last command differs, and not by any cause that is known.
NOT_SHOWN = [
    ("class A: pass\nlen(dir(A()))", ["= 3"]),
    ("def f(x): return x\nf(dir(f) and 5)", ["call f(5)", "= 6"]),
    ("pow(2, 3)", ["= 9"]),
    ("def f(): return 7 / 2\nf()", ["= 3"]),
    ("class A:\n    def pop(self): return self.nope\nA().pop()", ["call pop(<A object>)", "= 5"]),
    ("repr(5)", ['= "6"']),
    ("hash(5)", ["= True"]),
    ("class A: pass\nclass B(A):\n    __slots__ = 'x'", ["! TypeError"]),
]


def compared(text: str, python: list[str] | None = None, units: str = "10000") -> list[Difference]:
    """The differences of a source, where the last answer of Python may be given."""
    program = read(text)
    answers = run(program.commands, program.helpers, [MACHINE, "run", units])
    comparison, reference = Comparison(program.commands), Reference()
    found = []
    for command, reply in zip(program.commands, answers.replies):
        there = reference.answer(command)
        is_last = command is program.commands[-1]
        differs = comparison.difference(command, reply, python if is_last and python else there)
        found += [differs] if differs else []
    return found


@needs_machine
class Recognised(unittest.TestCase):
    """What shows by itself."""

    def test_each_is_recognised(self) -> None:
        for text, name in SHOWN:
            with self.subTest(text):
                self.assertEqual([it.known for it in compared(text)], [name])

    def test_another_difference_is_not(self) -> None:
        for text, python in NOT_SHOWN:
            with self.subTest(text):
                self.assertEqual([it.known for it in compared(text, python)], [None])

    def test_the_end_of_a_budget_hides_no_other_answer(self) -> None:
        text = "def f(n): return n if n == 0 else f(n - 1)\nf(50)"
        self.assertEqual([it.known for it in compared(text, None, "300")], ["units"])
        self.assertEqual([it.known for it in compared(text, ["call f(49)", "= 0"], "300")], [None])

    def test_a_mark_names_what_does_not_show(self) -> None:
        text = "class A:\n    def m(self): pass\na = A()\na.m == a.m  # differs: bound-methods"
        self.assertEqual([it.known for it in compared(text)], ["bound-methods"])


class Follows(unittest.TestCase):
    """What follows from an earlier difference says so."""

    def test_names_that_differ(self) -> None:
        program = read("x = 1\ny = x + 1\ndef f(): return y\nf()\nz = 5\nz\nx = 2\nx\n")
        comparison = Comparison(program.commands)
        told = ["= 1", "= 2", "= <function object>", "= 2", "= 5", "= 5", "= 2", "= 2"]
        python = ["! ValueError", "! NameError", "= <function object>", "! NameError", "= 5", "= 6", "= 2", "= 3"]
        found = {}
        for command, mine, theirs in zip(program.commands, told, python):
            differs = comparison.difference(command, Reply((), mine), [theirs])
            if differs:
                found[command.line] = (differs.known, differs.follows)
        self.assertEqual(found, {1: (None, None), 2: (None, 1), 4: (None, 1), 6: (None, None), 8: (None, None)})


class Listed(unittest.TestCase):
    """The list in the documents."""

    def test_the_document_has_the_same_names(self) -> None:
        text = (TOP / "docs/DIFFERENCES.md").read_text()
        rows = re.findall(r"^\| `([\w-]+)`( \(shows\))? \|", text, re.M)
        self.assertEqual({name for name, _ in rows}, set(KNOWN))
        self.assertEqual({name for name, shows in rows if shows}, set(RECOGNISERS))
        self.assertLessEqual(set(RECOGNISERS), set(KNOWN))


if __name__ == "__main__":
    unittest.main()
