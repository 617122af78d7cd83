"""Sentences of documents that a step makes another: each is replaced where it stands as it is here, but for line ends."""

from __future__ import annotations

import os
import re

from docs_names import filled
from tree import Tree, read, write

# Of each step: the document, what it says, and what it says then.
SENTENCES = {
    "kit": [
        (
            "docs/ARCHITECTURE.md",
            "| the natives of `object` and `type`, of descriptors, properties and `super`, the getters and setters, and what makes their objects | `object_native`, `getter_native`, `setter_native` |",
            "| the natives of descriptors, properties and `super`, the getters and setters, and what makes objects of built-in classes | `descriptor_native`, `getter_native`, `setter_native` |",
        ),
        (
            "docs/PROVED.md",
            "`object` and `type`, descriptors, properties and `super`, the getters and setters, and what makes their objects.",
            "Descriptors, properties and `super`, the getters and setters, and what makes objects of built-in classes.",
        ),
        (
            "docs/DECISIONS.md",
            "What takes arguments apart and what makes objects, though, stands with the natives that had it first, so that most crates of rows and natives stand on another such crate (`crates.txt`).",
            "What takes arguments apart, what makes objects and what asks a slot's entry stands below all of them (`row_kit`), so that no crate of rows or natives stands on another one.",
        ),
        (
            "docs/DECISIONS.md",
            "**The signature that a native's text begins with is found in a crate of its own** (`row_kit::signatures`), below the natives:",
            "**The signature that a native's text begins with is found below the natives** (`row_kit::signatures`):",
        ),
    ],
    "objects": [
        (
            "docs/ARCHITECTURE.md",
            "Tasks on numbers, iterations and items are one group of three crates: `branch_of` tells which crate has the row.",
            "Tasks on numbers, iterations and items are one group of three modules of `proto_object`: `branch_of` tells which has the row.",
        ),
        ("docs/DECISIONS.md", "numbers, iterations and items are one group of three crates.", "numbers, iterations and items are one group of three modules of `proto_object`."),
    ],
    "attributes": [
        ("docs/PROVED.md", "or one of the six crates that follow.", "or one of the six modules that follow."),
        ("docs/DECISIONS.md", "each family is a crate of its own, with rows of its own,", "each family is a module of its own, with rows of its own,"),
    ],
    "script": [
        (
            "docs/DECISIONS.md",
            "and two crates above it, `script_text` and `order_check::hierarchy_text`, none of which needs a class or an object.",
            "and by what stands on that, the rest of `script_text` and `order_check::hierarchy_text`, none of which needs a class or an object.",
        ),
    ],
    "words": [
        (
            "docs/ARCHITECTURE.md",
            "the proofs of its functions are in `CRATE/proofs/module`.",
            "the proofs of its functions are in `CRATE/proofs/module`. What its files import of other crates and of std comes by modules of words: `specs/Below` for definitions and contracts, `proofs/Below` for lemmas, which also has the crate's own definitions, and `proofs/Lemmas` for the proofs of functions, which also has its lemmas. A word that no file of the crate had is one more name there.",
        ),
        (
            "docs/DECISIONS.md",
            "- **No modules of words.** A module that passes on what many files import would have saved some 970 of 5,600 import lines (there are some 14,400 now), as a script that made such modules showed: names stay listed, since those of another module can't be passed on without naming each. A file's head then no longer says which subject a word is of, and a word that is renamed is renamed in one place more.",
            "- **Modules of words.** What the files of a crate import of others is passed on by one module for its definitions and contracts (`specs/Below`), one for its lemmas (`proofs/Below`) and one for its answers (`proofs/Lemmas`), made by a script (`tools/session/words.py`). Names stay listed, since those of another module can't be passed on without naming each. A file's head no longer says which subject a word is of; but what moves to another module is renamed in one line a crate, and two imports of three are gone.",
        ),
    ],
}
CUT = "**A crate is a subject, and has what is read together**"
CUT_ENTRY = f"""- {CUT}, each part as a module that could stand alone: a view and the
  calls on it (`vm_calls`), hierarchies as they are read, checked and told (`order_check`), attributes from the
  definition of what gives them to its natives (`proto_attr`), a call and the body and the expressions that it leads to
  (`proto_call`), the natives of a class whatever they ask (`native_containers`). Fewer crates are loaded and linked,
  and a chain of them is shorter; a check of one takes longer, but after an edit only the functions that it changes are
  proved again. A module keeps the name that it had as a crate.
"""


def loose(text: str) -> str:
    """A pattern for a text whose lines may end elsewhere."""
    return r"\s+".join(re.escape(it) for it in text.split())


def follow(tree: Tree, step: str) -> None:
    """Documents say what is so after a step."""
    for document, old, new in SENTENCES.get(step, ()):
        path = f"{tree.top}/{document}"
        text = read(path)
        write(path, filled(re.sub(loose(old), lambda _: new, text, count=1), text))


def tell(tree: Tree, merged: dict[str, list[str]]) -> None:
    """docs/DECISIONS.md and CHANGES.md: that crates became modules, and which."""
    if not merged:
        return
    path = f"{tree.top}/docs/DECISIONS.md"
    text = read(path)
    if CUT not in text:
        write(path, re.sub(r"(?m)^(- \*\*Each crate of rows keeps its own phases\*\*)", lambda it: CUT_ENTRY + it[1], text, count=1))
    path = f"{tree.top}/CHANGES.md"
    if os.path.isfile(path):
        text = read(path)
        said = ", ".join(f"`{target}::{{{', '.join(names)}}}`" if len(names) > 1 else f"`{target}::{names[0]}`" for target, names in merged.items())
        line = f"- Crates became modules of others, and keep their names there: {said}."
        write(path, filled(re.sub(r"(?m)^(## .*\n\n)", lambda it: it[1] + line + "\n", text, count=1), text))
