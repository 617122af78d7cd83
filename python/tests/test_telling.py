"""What is told of answers: lines, JSON, the graph and the page."""

from __future__ import annotations

import io
import json
import os
import unittest
from unittest import mock

from typecore_py import events, graph, json_telling, machine, page
from typecore_py.machine import Answers, NewClass, Reply
from typecore_py.telling import Teller

from .here import read

SOURCE = "def f(): pass\nf()\nx = 1\n"

DIAMOND = [
    NewClass("A", "A, object", "hash init"),
    NewClass("B", "B, A, object", "hash init"),
    NewClass("C", "C, A, object", "hash init"),
    NewClass("D", "D, B, C, A, object", "add hash init"),
]


def told(reply: Reply, most: int | None = 40, **how: object) -> str:
    """What a teller writes of the second of three commands."""
    stream = io.StringIO()
    answers = Answers([Reply((), "= <function object>"), reply, Reply((), "= 1")], how.get("classes", []))
    Teller(stream, most).answers(read(SOURCE).commands, answers, 1000)
    return stream.getvalue()


class Lines(unittest.TestCase):
    """The lines of a terminal."""

    def test_alike_bodies_are_folded(self) -> None:
        text = told(Reply(("call f()",) * 333 + ("call g()", "print a\\tb"), "! RecursionError DepthLimit"))
        self.assertIn("\n       f()  x333\n       g()\n       | a\\tb\n", text)

    def test_bodies_are_told_up_to_a_number(self) -> None:
        bodies = tuple(f"call f({at})" for at in range(100))
        self.assertIn("f(39)\n       .. and 60 more: --bodies all tells all\n", told(Reply(bodies, "= 1")))
        self.assertIn("f(99)\n", told(Reply(bodies, "= 1"), None))
        self.assertNotIn("f(0)", told(Reply(bodies, "= 1"), 0))

    def test_a_budget_that_is_used_up_says_what_helps(self) -> None:
        self.assertIn("line 2 used up 1,000 units: --units 10000 gives", told(Reply((), "? Budget")))
        self.assertNotIn("--units", told(Reply((), "= 1")))

    def test_no_colours_but_on_a_terminal(self) -> None:
        self.assertNotIn("\x1b", told(Reply((), "= 1")))
        stream = io.StringIO()
        stream.isatty = lambda: True  # type: ignore[method-assign]
        with mock.patch.dict(os.environ, {"TERM": "xterm"}):
            os.environ.pop("NO_COLOR", None)
            self.assertIn("\x1b[32m= 7", Teller(stream).ended("= 7"))
            os.environ["NO_COLOR"] = "1"
            self.assertEqual(Teller(stream).ended("= 7"), "= 7")

    def test_quiet(self) -> None:
        stream = io.StringIO()
        replies = [Reply(("print a\\tb", "call f()"), "= None"), Reply((), "= 7"), Reply((), "! KeyError Body")]
        Teller(stream).values(Answers(replies, []))
        self.assertEqual(stream.getvalue(), "a\tb\n7\n! KeyError Body\n")


class TakenApart(unittest.TestCase):
    """What the machine writes."""

    def test_names_with_colons(self) -> None:
        for name in ("a: b", "a", "a: a", ": ", "x:"):
            text = f"= 1\nclass {name}: {name}, object\nslots {name}: hash init\n"
            self.assertEqual(machine.taken_apart(text, 0).classes, [NewClass(name, f"{name}, object", "hash init")])

    def test_helpers_are_left_out(self) -> None:
        bodies = ["(loop)(<function object>, <(Cells) object>)", "f(1, ())", "(=)(1, 2)", "g(1, (2,))", "(-)()"]
        self.assertEqual(events.visible(bodies), ["call f(1, 2)"])
        inner = ["(inner) g(<(function) object>)", "(inner) h(<(function) object>, 1)"]
        self.assertEqual(events.visible(inner), ["call g()", "call h(1)"])
        told = events.visible(['(print)("a\\n")', "f(<(function) object>)"])
        self.assertEqual(told, ["print a\\n", "call f(<function object>)"])
        self.assertEqual(events.ended(["(assert)()"], "! RuntimeError Body"), "! AssertionError Body")
        self.assertEqual(events.ended(["f()"], "! RuntimeError Body"), "! RuntimeError Body")


class Other(unittest.TestCase):
    """JSON, the graph and the page."""

    def test_json(self) -> None:
        replies = [Reply((), "= 1"), Reply(("call f()", 'print say \\"a\\"'), "= None"), Reply((), "= 1")]
        found = json.loads(json_telling.told("a.py", read(SOURCE).commands, Answers(replies, DIAMOND)))
        self.assertEqual(
            found["commands"][1],
            {"line": 2, "source": "f()", "bodies": ["f()"], "printed": ['say "a"'], "end": "= None"},
        )
        order = ["D", "B", "C", "A", "object"]
        self.assertEqual(found["classes"][3], {"name": "D", "linearisation": order, "slots": ["add", "hash", "init"]})

    def test_the_arrows_of_the_graph(self) -> None:
        nodes = graph.nodes_of(DIAMOND)
        bases = {nodes[at].name: [nodes[it].name for it in graph.bases_of(nodes, at)] for at in range(len(nodes))}
        self.assertEqual(bases, {"A": ["object"], "B": ["A"], "C": ["A"], "D": ["B", "C"], "object": []})
        text = graph.of_classes(DIAMOND)
        self.assertIn('n3 -> n1 [label="2"];', text)
        self.assertIn('label="D\\n1\u00a0D  2\u00a0B  3\u00a0C  4\u00a0A  5\u00a0object\\nadd hash init"', text)

    def test_classes_of_one_name(self) -> None:
        first, second = NewClass("A", "A, object", ""), NewClass("A", "A, A, object", "")
        nodes = graph.nodes_of([first, second, NewClass("B", "B, A, A, object", "")])
        self.assertEqual([it.order for it in nodes[:2]], [(0, 3), (1, 0, 3)])

    def test_the_page_stands_alone(self) -> None:
        replies = [Reply((), "= 1"), Reply(("call f('<')",) * 2, "= None"), Reply((), "! KeyError Body")]
        states = [Answers(replies[: at + 1], DIAMOND[: at + 1]) for at in range(3)]
        for dot in (None, "/bin/false"):
            with mock.patch("shutil.which", lambda _name, dot=dot: dot):
                text = page.of_file("a<b.py", SOURCE, read(SOURCE).commands, states)
            self.assertIn("<title>a&lt;b.py</title>", text)
            self.assertIn("f(&#x27;&lt;&#x27;)", text)
            self.assertIn(page.NO_DOT.split("'")[0], text)
            self.assertIn("const shown=[0,1,2]", text)
            for outside in ("http:", "https:", "src=", "href=", "@import", "url("):
                self.assertNotIn(outside, text)


if __name__ == "__main__":
    unittest.main()
