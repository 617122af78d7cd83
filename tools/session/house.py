#!/usr/bin/env python3
"""Makes the house smaller, a step at a time: fewer crates, a shorter chain, rows side by side. By text alone.

    house.py TOP                 lists the steps, and what each would cost now
    house.py TOP STEP ..         does these steps, in this order (`all`: each that isn't done, in the order of the list)

A step merges crates into one with a module each (merge_crates.py); `kit` first moves what several groups of rows and
natives share into one crate below them (move_items.py). Documents and wrong bodies follow. Then `rt fmt` lays the
changed crates out, unless --no-fmt is given; edits_apply.py says whether each wrong body still applies.
A step whose crates aren't all there is done, or another's work: it is left out and named.
"""

from __future__ import annotations

import subprocess
import sys
from dataclasses import dataclass, field

import docs_names
import edits_apply
import merge_crates
import names
import prose
from tree import Tree


@dataclass
class Step:
    """What is merged into which crate, and what that crate is then, as documents say it: up to a semicolon of the whole crate."""

    target: str
    sources: list[str]
    about: str = ""
    after: list[str] = field(default_factory=list)

    def modules(self) -> dict[str, str]:
        """Of each source its module: it keeps its name."""
        return {it: it for it in self.sources}


STEPS = {
    "views": Step("vm_calls", ["slot_tables", "protocols"]),
    "laws": Step("vm_calls", ["attribute_laws", "answer_kinds"]),
    "hierarchies": Step(
        "order_check",
        ["class_orders", "hierarchy_text", "report_text"],
        "hierarchies of classes by themselves; at its root the orders of all classes, one after another or level by level in several threads, "
        "cycles where there is none, and the test of such a report",
    ),
    "shared": Step("shared_vm", ["shared_run", "viewed_vm"]),
    "kit": Step("row_kit", ["proto_base", "signatures"], "what rows and natives share: arguments that they take, objects that they give, what they ask"),
    "operators": Step(
        "proto_ops",
        ["proto_compare", "native_numbers", "native_repeats"],
        "operators, comparisons and numbers; at its root the rows of operators, and the sum of `int`",
        ["kit"],
    ),
    "objects": Step(
        "proto_object",
        ["proto_number", "proto_items", "proto_iter"],
        "what all objects can do; at its root the rows of hashes, texts, names of attributes, and tests of classes",
        ["kit"],
    ),
    "attributes": Step(
        "proto_attr",
        ["proto_descr", "native_calls", "native_details", "native_objects", "native_defs", "accessors"],
        "attributes, and what gives and takes them; at its root the rows of attributes, special methods and binding",
        ["kit"],
    ),
    "calls": Step(
        "proto_call",
        ["eval_forms", "class_make"],
        "how expressions and calls are evaluated, and classes made; at its root the rows of calls, bodies, making and initialising, and natives of `object`",
        ["kit"],
    ),
    "containers": Step(
        "native_containers",
        ["native_texts", "native_compare", "native_items", "native_parts"],
        "the natives of texts, tuples, lists, dicts and iterators; at its root those that end at once, but of texts",
        ["kit"],
    ),
    "natives": Step("vm_eval", ["natives"], after=["kit"]),
    "script": Step("script_text", ["json_text", "reply_text"]),
    "table": Step("class_table", ["mro_merge", "class_log"]),
    "lines": Step("table_lines", ["call_lines", "machine_lines"], "the lines of both tables of calls; at its root what they share"),
}


# The crate that becomes the kit: its modules stand at the kit's root.
FIRST = "native_base"


def is_open(tree: Tree, step: Step) -> bool:
    """Whether all crates of a step are there as crates."""
    return set(step.sources) <= set(tree.names)


def cost(tree: Tree, step: Step) -> str:
    """What a step comes to: crates less, edits whose crate's text changes, crates that are proved again, and their edits."""
    merged = {*step.sources, step.target} & set(tree.names)
    above = tree.above(sorted(merged))
    edits = sum(len(tree.edit_files(it)) for it in merged)
    of_all = sum(len(tree.edit_files(it)) for it in above)
    return f"{len(merged) - 1} less, {edits} edits, {len(above) - len(merged) + 1} crates proved again (with {of_all} edits)"


def told(tree: Tree) -> str:
    """How many crates there are, and the longest chain."""
    chain = tree.chain()
    return f"{len(tree.names)} crates, {len(chain)} in the longest chain: {' '.join(chain)}"


def do(top: str, name: str) -> list[str]:
    """Does a step. Gives the crates that became modules."""
    tree, step = Tree(top), STEPS[name]
    if not is_open(tree, step):
        print(f"{name}: left out, since there is no crate {' '.join(sorted(set(step.sources) - set(tree.names)))}")
        return []
    print(f"{name}: {step.target} of {' '.join(step.sources)}: {cost(tree, step)}")
    moved = None
    if name == "kit":
        import move_items

        merge_crates.rename(tree, FIRST, step.target, step.about)
        docs_names.rename(tree, FIRST, step.target, step.about)
        moved = move_items.kit(Tree(top))
        tree = Tree(top)
    moves = merge_crates.merge(tree, step.target, step.modules(), step.about)
    for it in merge_crates.left_over(tree, moves):
        print(f"  left: {it}")
    docs_names.follow(tree, moves, step.about)
    prose.follow(Tree(top), name)
    if moved:
        moved.documents(Tree(top))
        edits_apply.move_all(Tree(top), moved.places())
    print(f"  {told(tree)}")
    return step.sources


def laid_out(tree: Tree) -> None:
    """`rt fmt` in each crate whose text differs from that of the last commit."""
    words = ["git", "-C", tree.top, "status", "--porcelain", "--untracked-files=all", "--", "crates"]
    told_by = subprocess.run(words, capture_output=True, text=True, check=True).stdout
    changed = sorted({it.split("crates/", 1)[1].split("/")[0] for it in told_by.splitlines() if "crates/" in it} & set(tree.names))
    for name in changed:
        ran = subprocess.run(["rt", "fmt"], cwd=f"{tree.crates}/{name}", capture_output=True, text=True)
        if ran.returncode:
            print(f"  rt fmt in {name}: {ran.stdout.strip()} {ran.stderr.strip()}")
    print(f"laid out: {' '.join(changed)}")


def main(words: list[str]) -> int:
    """Does the steps that are named."""
    flags = {it for it in words if it.startswith("--")}
    words = [it for it in words if it not in flags]
    if not words:
        print(__doc__)
        return 2
    top, steps = words[0], words[1:]
    if steps == ["all"]:
        steps = [it for it in STEPS if is_open(Tree(top), STEPS[it])]
    if unknown := [it for it in steps if it not in STEPS]:
        print(f"no step {' '.join(unknown)}")
        return 2
    if not steps:
        tree = Tree(top)
        print(told(tree))
        for name, step in STEPS.items():
            said = cost(tree, step) if is_open(tree, step) else "done"
            print(f"  {name}: {step.target} of {' '.join(step.sources)}{' (after ' + ' '.join(step.after) + ')' if step.after else ''}: {said}")
        return 0
    merged: dict[str, list[str]] = {}
    for name in steps:
        if made := do(top, name):
            merged.setdefault(STEPS[name].target, []).extend(made)
    tree = Tree(top)
    prose.tell(tree, merged)
    if "--no-fmt" not in flags:
        laid_out(tree)
    print("\n".join([*names.faults(tree, tree.names), told(tree)]))
    return edits_apply.main([top])


if __name__ == "__main__":
    sys.exit(main(sys.argv[1:]))
