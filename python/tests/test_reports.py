"""Hierarchies as a checker is given them, and what is told of its reports. The checker is one of these tests' own."""

import io
import json
import sys
import tempfile
import unittest
from pathlib import Path

from typecore_py import checking, hierarchy, reports
from typecore_py.hierarchy import Member
from typecore_py.telling import Teller

from .here import front

MEMBERS = [
    Member("X", ()),
    Member("Y", ()),
    Member("A", ("X", "Y")),
    Member("B", ("X", "A"), "m.py:3"),
    Member("C", ("Y", "X")),
    Member("D", ("A", "C"), "m.py:7"),
    Member("E", ("X", "D")),
    Member("F", ("object", "X")),
    Member("G", ("X", "X")),
]

REPORT = """order X: X, object
order Y: Y, object
order A: A, X, Y, object
cycle B: X < A in bases; A < X in A
order C: C, Y, X, object
cycle D: X < Y in A; Y < X in C
none E: D
cycle F: object < X in bases; X < object in X
cycle G: X < X in bases
"""

# A program that answers `check` by a text that stands beside it, and keeps what it was given.
CHECKER = """#!{python}
import sys
from pathlib import Path
here = Path(__file__).parent
if sys.argv[1:] != ["check"]:
    sys.exit("typecore: Usage")
(here / "given").write_bytes(sys.stdin.buffer.read())
sys.stdout.write((here / "report").read_text())
"""


def checked(members: list[Member], report: str) -> tuple[list[checking.Found], str]:
    """What is found of classes where the checker writes this report, and what it was given."""
    with tempfile.TemporaryDirectory() as room:
        program = Path(room, "checker")
        program.write_text(CHECKER.format(python=sys.executable))
        program.chmod(0o755)
        Path(room, "report").write_text(report)
        found = reports.found_by([str(program)], members)
        return found, Path(room, "given").read_text()


class Given(unittest.TestCase):
    def test_the_checker_is_given_each_class_with_its_bases(self) -> None:
        _, given = checked(MEMBERS, REPORT)
        self.assertEqual(json.loads(given), [[it.name, list(it.bases)] for it in MEMBERS])
        self.assertTrue(given.startswith('[["X",[]],\n ["Y",[]],\n ["A",["X","Y"]],\n'), given)

    def test_a_text_that_is_too_long_is_handed_to_nobody(self) -> None:
        with self.assertRaises(hierarchy.TooLong):
            reports.found_by(["/nowhere/checker"], [Member("a" * 9_000_000, ()), Member("b" * 9_000_000, ())])

    def test_the_front_end_writes_it_of_a_source_and_of_a_module(self) -> None:
        with tempfile.TemporaryDirectory() as room:
            path = Path(room, "m.py")
            path.write_text("class A: pass\nclass B(object, A):\n  class A: pass\n")
            ran = front("--hierarchy", str(path))
        self.assertEqual(ran.stdout, '[["m.A",[]],\n ["m.B",["object","m.A"]],\n ["m.B.A",[]]]\n')
        self.assertEqual(ran.returncode, 0)
        rows = json.loads(front("--hierarchy", "collections").stdout)
        self.assertIn(["collections.OrderedDict", ["dict"]], rows)

    def test_it_goes_with_no_other_way_to_tell(self) -> None:
        for words in (["--check", "asyncio"], ["--where", "asyncio"], ["--json", "asyncio"], ["-c", "1"]):
            self.assertEqual(front("--hierarchy", *words).returncode, 2, words)
        self.assertEqual(front("--hierarchy", "no_such_module").returncode, 4)


class Reports(unittest.TestCase):
    def test_a_report_is_told_in_words(self) -> None:
        stream = io.StringIO()
        self.assertFalse(checking.tell(Teller(stream), checked(MEMBERS, REPORT)[0]))
        wanted = (
            "X: X, object\n"
            "Y: Y, object\n"
            "A: A, X, Y, object\n"
            "m.py:3: B has no order: X before A in the bases of B, A before X in A\n"
            "C: C, Y, X, object\n"
            "m.py:7: D has no order: X before Y in A, Y before X in C\n"
            "E has no order: its base D has none\n"
            "F has no order: object before X in the bases of F, X before object in X\n"
            "G has no order: X twice in the bases of G\n"
            "9 classes; 5 without an order\n"
        )
        self.assertEqual(stream.getvalue(), wanted)

    def test_a_report_is_held_against_python(self) -> None:
        stream = io.StringIO()
        self.assertTrue(checking.tell_differences(Teller(stream), checked(MEMBERS, REPORT)[0]))
        self.assertEqual(stream.getvalue(), "9 classes; each order is Python's\n")
        wrong = REPORT.replace("order A: A, X, Y,", "order A: A, Y, X,")
        self.assertFalse(checking.tell_differences(Teller(stream), checked(MEMBERS, wrong)[0]))
        self.assertIn("A\n  here    A, Y, X, object\n  Python  A, X, Y, object\n", stream.getvalue())

    def test_names_with_colons_are_whole(self) -> None:
        found, _ = checked([Member("a:b", ()), Member("a:", ("a:b",))], "order a:b: a:b, object\nnone a:: a:b\n")
        self.assertEqual([it.order or it.why for it in found], ["a:b, object", "its base a:b has none"])

    def test_a_report_of_other_classes_is_refused(self) -> None:
        others = (REPORT.replace("none E", "none Z"), REPORT.replace("none E", "some E"))
        for report in ("", "order X: X, object\n", *others):
            with self.assertRaises(reports.MachineFailed):
                checked(MEMBERS, report)

    def test_the_front_end_tells_it(self) -> None:
        with tempfile.TemporaryDirectory() as room:
            source, program = Path(room, "m.py"), Path(room, "checker")
            source.write_text("class X: pass\nclass A(object, X): pass\n")
            program.write_text(CHECKER.format(python=sys.executable))
            program.chmod(0o755)
            Path(room, "report").write_text(
                "order m.X: m.X, object\ncycle m.A: object < m.X in bases; m.X < object in m.X\n"
            )
            ran = front("--check", "--machine", str(program), str(source))
        why = "object before m.X in the bases of m.A, m.X before object in m.X"
        order, cycle = f"{source}:1: m.X: m.X, object", f"{source}:2: m.A has no order: {why}"
        self.assertEqual(ran.stdout, f"{order}\n{cycle}\n2 classes; 1 without an order\n")
        self.assertEqual(ran.returncode, 1)

    def test_a_program_that_has_no_checker_is_told(self) -> None:
        with self.assertRaises(reports.MachineFailed):
            reports.found_by(["false"], MEMBERS)


if __name__ == "__main__":
    unittest.main()
