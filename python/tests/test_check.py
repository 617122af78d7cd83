"""Hierarchies from sources and modules."""

import tempfile
import unittest
from pathlib import Path

from typecore_py import hierarchy
from typecore_py.hierarchy import Member

SOURCE = """
from abc import ABC
from typing import Generic

class A(ABC): pass
class B(A):
    class Inner(A): pass
class C(Generic[int], B.Inner): pass
def make():
    class A: pass
    class D(A): pass
class A(object): pass
class E(A, B): pass
"""


def of_source(text: str) -> list[Member]:
    """The classes of a source."""
    with tempfile.TemporaryDirectory() as room:
        path = Path(room, "m.py")
        path.write_text(text)
        return hierarchy.of_files([str(path)])


class OfSources(unittest.TestCase):
    def test_each_class_stands_after_its_bases_and_has_a_name_of_its_own(self) -> None:
        found = [(it.name, it.bases) for it in of_source(SOURCE)]
        wanted = [
            ("abc.ABC", ()),
            ("m.A", ("abc.ABC",)),
            ("m.B", ("m.A",)),
            ("m.B.Inner", ("m.A",)),
            ("typing.Generic", ()),
            ("m.C", ("typing.Generic", "m.B.Inner")),
            ("m.make.A", ()),
            ("m.make.D", ("m.make.A",)),
            ("m.A#2", ()),
            ("m.E", ("m.A#2", "m.B")),
        ]
        self.assertEqual(found, wanted)

    def test_a_class_of_one_source_is_a_base_in_another(self) -> None:
        with tempfile.TemporaryDirectory() as room:
            one, two = Path(room, "one.py"), Path(room, "two.py")
            one.write_text("class A: pass\n")
            two.write_text("from .one import A\nimport pack.one as it\nclass B(A): pass\nclass C(it.A): pass\n")
            found = hierarchy.of_files([str(one), str(two)])
        self.assertEqual([it.bases for it in found], [(), ("one.A",), ("one.A",)])

    def test_no_class_has_the_name_of_the_list_of_bases(self) -> None:
        found = [(it.name, it.bases) for it in of_source("class A(bases): pass\nclass B(object, bases): pass\n")]
        self.assertEqual(found, [("bases#2", ()), ("m.A", ("bases#2",)), ("m.B", ("object", "bases#2"))])

    def test_what_is_no_source_is_told(self) -> None:
        with self.assertRaises(hierarchy.NoHierarchy):
            of_source("class A(: pass")
        with self.assertRaises(hierarchy.NoHierarchy):
            hierarchy.of_files(["/nowhere/m.py"])


class OfModules(unittest.TestCase):
    def test_all_that_a_modules_classes_derive_from_is_there(self) -> None:
        found = hierarchy.of_modules(["collections"])
        names = [it.name for it in found]
        self.assertIn(Member("collections.OrderedDict", ("dict",), python=__import__("collections").OrderedDict), found)
        self.assertLess(names.index("dict"), names.index("collections.OrderedDict"))
        self.assertEqual(len(names), len(set(names)))
        for at, it in enumerate(found):
            self.assertLessEqual(set(it.bases), set(names[:at]))

    def test_a_module_that_is_not_there_is_told(self) -> None:
        with self.assertRaises(hierarchy.NoHierarchy):
            hierarchy.of_modules(["no_such_module"])


if __name__ == "__main__":
    unittest.main()
