#!/usr/bin/env python3
"""Moves what several groups of crates share into a crate below them, item by item, with definitions, lemmas and proofs.

    move_items.py TOP        says what the step `kit` of house.py would move, and changes nothing

A group is one crate or several that a later step makes one (house.STEPS). An item is a function, a type, a definition or
a lemma. What crates of another group name is moved, with all that it rests on in the groups' crates: to the only crate
that needs it, if it has a module for that (ALONE), or else to the kit. A proof follows its function, and each import its
item; a name that is asked for from elsewhere becomes public. So that afterwards no group stands on another one.
"""

from __future__ import annotations

import os
import re
import shutil
import sys
from collections import defaultdict
from dataclasses import dataclass, field

from names import USE, WORD, uses_of
from tree import ANTT, CODE, Tree, read, write

KIT = "row_kit"
# What stands above all groups, so that it may name any.
ABOVE = ("natives",)
# The modules of moved items: by the crate that they come from, and the part and the file there. Else it is the crate's
# short name with the file's.
CALLED = {
    ("native_containers", "src", "take"): "take_containers",
    ("native_containers", "src", "made"): "give_containers",
    ("native_containers", "src", "pairs"): "give_containers",
    ("native_containers", "src", "entries"): "entries",
    ("native_containers", "specs", "Take"): "TakeContainers",
    ("native_containers", "specs", "Say"): "GiveContainers",
    ("native_containers", "specs", "Asking"): "Asking",
    ("native_numbers", "src", "bits"): "int_values",
    ("native_numbers", "src", "number"): "int_values",
    ("native_numbers", "src", "reckon"): "int_values",
    ("native_numbers", "specs", "Say"): "IntValues",
    ("native_numbers", "specs", "Numbers"): "IntValues",
    ("native_objects", "src", "attributes"): "class_attributes",
    ("native_objects", "src", "lists"): "class_nodes",
    ("native_objects", "src", "makers"): "take_classes",
    ("native_objects", "src", "take"): "take_classes",
    ("native_objects", "src", "names"): "class_names",
    ("native_objects", "specs", "Attributes"): "ClassAttributes",
    ("native_objects", "specs", "Makers"): "TakeClasses",
    ("native_objects", "specs", "Takes"): "TakeClasses",
    ("native_objects", "specs", "Names"): "ClassNames",
    ("native_objects", "specs", "Objects"): "ClassNames",
    ("native_texts", "src", "of_bytes"): "take_texts",
    ("native_texts", "src", "take"): "take_texts",
    ("native_texts", "specs", "Say"): "TakeTexts",
    ("native_texts", "specs", "Texts"): "TakeTexts",
}
# Functions that several groups have by a word, and their definitions, by name.
TOLD = {name: {"src": "questions", "specs": "Questions"} for name in ("is_not_implemented", "has_null")}
# The module of what moves to the only group that needs it: its code, its definitions, its lemmas.
ALONE = {
    ("class_make", "native_objects"): ("type_natives", "TypeNatives", "OfTypeNatives"),
    ("proto_call", "native_objects"): ("object_natives", "ObjectNatives", "OfObjectNatives"),
}
# What new modules say of themselves, by the module's name; else it is what the files said that their items come from.
ABOUT = {
    "take_containers": "Tuples, lists, dicts and iterators: whether an object is one, and what it holds.",
    "give_containers": "New tuples and lists, and the keys of a dict with their values as pairs.",
    "entries": "The entries of dicts, apart and again.",
    "TakeContainers": "Tuples, lists, dicts and iterators: whether an object is one, and what it holds.",
    "GiveContainers": "New tuples and lists, and the keys and values of dicts.",
    "int_values": "Whole numbers as ints, their hashes, and the truth value that an object is.",
    "IntValues": "Whole numbers as ints, their hashes, and the truth value that an object is.",
    "class_attributes": "The names of attributes as new texts, with their values.",
    "class_nodes": "The objects that stand for classes.",
    "take_classes": "What a native takes: a class, alone, or one whose objects are those of a built-in class.",
    "TakeClasses": "What natives take of classes, descriptors and properties.",
    "class_names": "What classes are called, in their modules.",
    "ClassNames": "What classes are called, in their modules.",
    "ClassAttributes": "The names of attributes as new texts, with their values.",
    "questions": "What rows ask of one object or one text: whether it is NotImplemented, and whether it has a null.",
    "Questions": "What rows ask of one text: whether it has a null.",
    "take_texts": "What a native takes of a text: alone, or with one argument; and how many characters it has.",
    "TakeTexts": "The text that an object holds.",
    "type_natives": "The natives of `type` that ask no task.",
    "TypeNatives": "The natives of `type` that ask no task.",
    "object_natives": "The natives of `object` that ask no task.",
    "ObjectNatives": "The natives of `object` that ask no task.",
}
# What files say of themselves of whose items only some are left.
LEFT = {
    ("native_objects", "src/lib.rt"): (
        "The natives of descriptors, properties and `super` that ask no task, what the getters and setters of built-in\n"
        "//! classes read and set, and what makes objects."
    ),
    ("native_objects", "src/take.rt"): "What a native takes: one or two arguments, a class and what is given for it, or an object of a kind.",
    ("native_containers", "src/made.rt"): "Lists and dicts that change.",
    ("native_containers", "src/entries.rt"): "Dicts with the entries of others.",
    ("native_containers", "specs/Asking.antt"): "What natives of containers take that ask tasks: it is tested before the first, and not again.",
}
RT_ITEM = re.compile(r"(?:pub(?:\([^)]*\))? )?(?:const )?(?:unsafe )?(fn|struct|enum|type|const|trait|static) (\w+)")


@dataclass
class Chunk:
    """An item as it stands in a file, with its comment: the names that it declares, and the type that it is an impl of."""

    text: str
    names: list[str]
    of: str | None = None
    home: str | None = None  # the crate that it moves to


@dataclass
class File:
    """A file of code, definitions or lemmas: its crate, its place there, what stands above its items, and these."""

    crate: str
    path: str
    head: str
    chunks: list[Chunk]

    @property
    def is_code(self) -> bool:
        return self.path.endswith(CODE)

    @property
    def part(self) -> str:
        return self.path.split("/")[0]

    @property
    def steps(self) -> list[str]:
        """The modules of its path."""
        return self.path.rsplit(".", 1)[0].split("/")[1:]

    def chunk(self, name: str) -> Chunk | None:
        return next((it for it in self.chunks if name in it.names), None)


def parse_code(text: str) -> tuple[str, list[Chunk]]:
    """The head of a file of code, and its items."""
    rows = text.rstrip("\n").split("\n")
    at, inside = 0, False
    while at < len(rows):
        row = rows[at]
        if inside:
            inside = not row.endswith(";")
        elif re.match(r"//!|#!\[|$", row):
            pass
        elif re.match(r"(ghost |pub |pub\(crate\) )?(use|mod) ", row):
            inside = not row.endswith(";")
        else:
            break
        at += 1
    head, chunks, part = "\n".join(rows[:at]).rstrip("\n"), [], []
    open_item = False
    for row in rows[at:]:
        if not row and not open_item:
            continue
        part.append(row)
        if re.match(r"///?|#\[", row) and not open_item:
            continue
        open_item = True
        if row in ("}", "{}") or re.match(r"\S.*(;|\{.*\})$", row) or re.match(r"\};?$|\);$|\];$", row):
            chunks.append(code_chunk("\n".join(part)))
            part, open_item = [], False
    if part:
        raise SystemExit(f"an item without an end:\n{chr(10).join(part[:8])}")
    return head, chunks


def code_chunk(text: str) -> Chunk:
    """An item of code."""
    row = next(it for it in text.split("\n") if not re.match(r"///?|#\[|    .*\)\]$|\)\]$", it))
    if found := RT_ITEM.match(row):
        return Chunk(text, [found[2]])
    if found := re.match(r"impl(?:<[^>]*>)? (?:.* for )?&?(?:'\w+ )?(\w+)", row):
        return Chunk(text, [], found[1])
    raise SystemExit(f"no item: {row}")


def parse_antt(text: str) -> tuple[str, list[Chunk]]:
    """The head of a file of definitions, lemmas or answers, and what it declares."""
    rows = text.rstrip("\n").split("\n")
    at = 0
    while at < len(rows) and re.match(r"--|(unfoldable |pub )*(use|mod) |$", rows[at]):
        at += 1
    while at and (rows[at - 1].startswith("--") or not rows[at - 1]) and any(re.match(r"(unfoldable |pub )*use ", it) for it in rows[:at]):
        at -= 1
    chunks: list[Chunk] = []
    for part in re.split(r"\n\n+", "\n".join(rows[at:]).strip("\n")):
        if part[:1].isspace() and chunks:
            chunks[-1].text += "\n\n" + part
        elif part:
            chunks.append(Chunk(part, []))
    for it in chunks:
        it.names = declared_by(it.text)
    return "\n".join(rows[:at]).rstrip("\n"), chunks


def declared_by(text: str) -> list[str]:
    """The names that a piece of definitions declares: those of a block `module _`, of a data type, and of a record, too."""
    found = []
    for row in text.split("\n"):
        if hit := re.match(rf"(  )?(?:(?:pattern|unfoldable|abbrev|pub|axiom|data|record|ruleset) )*({WORD}(?: {WORD})*?)(?: [({{].*?)? : ", row + " "):
            words = hit[2].split()
            if words[0] == "module":
                continue
            if hit[1] and not re.match(r"module _|mutual|(?:pub )?(?:data|record)|(?:unfoldable )?mutual", first_of(text)):
                continue
            if words[0] not in ("use", "mod", "where", "let", "in", "--", "elim", "unfolding"):
                found += words
    return found


def first_of(text: str) -> str:
    """The first line that is no comment."""
    return next((it for it in text.split("\n") if not it.startswith("--")), "")


Node = tuple[str, str, str]  # a crate, a file, a name


class Items:
    """The items of some crates, and what each names."""

    def __init__(self, tree: Tree, crates: list[str]) -> None:
        self.tree, self.crates = tree, crates
        self.files: dict[tuple[str, str], File] = {}
        for crate in crates:
            for path in tree.texts(crate):
                inside = os.path.relpath(path, f"{tree.crates}/{crate}")
                if inside.endswith("/Lib.antt"):
                    continue
                head, chunks = (parse_code if inside.endswith(CODE) else parse_antt)(read(path))
                self.files[crate, inside] = File(crate, inside, head, chunks)
        self.passed = {it: self.passed_on(it) for it in crates}
        self.memo: dict[tuple[str, str, int], set[Node]] = {}

    # --- names of code ---

    def passed_on(self, crate: str) -> dict[str, list[str]]:
        """What a crate's root passes on: of each name its path below the root."""
        found = {}
        root = self.files.get((crate, "src/lib.rt"))
        for path, _ in paths_of(root.head if root else "", "pub use"):
            steps = path.split("::")
            steps = steps[1:] if steps[0] == "crate" else steps
            found[steps[-1]] = steps
        return found

    def code_node(self, crate: str, steps: list[str]) -> Node | None:
        """The item of code that a path below a crate's root names, or a module's."""
        if steps and steps[0] in self.passed.get(crate, {}):
            steps = self.passed[crate][steps[0]] + steps[1:]
        for count in range(len(steps) - 1, -1, -1):
            file = self.files.get((crate, "src/" + ("/".join(steps[:count]) or "lib") + CODE))
            if file and len(steps) > count and file.chunk(steps[count]):
                return crate, file.path, steps[count]
        return None

    def antt_node(self, path: str, name: str | None) -> Node | None:
        """The item that a name of definitions or proofs stands for: of what Rattle makes, the item of code."""
        _, crate, part, *steps = path.split(".") + ([name] if name else [])
        if crate not in self.crates or not steps:
            return None
        if steps[0] in ("declared", "contracts"):
            return self.code_node(crate, steps[1:])
        if part == "proofs" and re.match(r"[a-z_+]", steps[0]):
            return self.code_node(crate, [it for it in steps if not it.startswith("+")])
        for count in range(len(steps), 0, -1):
            file = self.files.get((crate, f"{part}/{'/'.join(steps[:count])}{ANTT}"))
            if file and len(steps) > count and file.chunk(steps[count]):
                return crate, file.path, steps[count]
        return None

    # --- what an item names ---

    def heads(self, file: File) -> dict[str, list[Node]]:
        """What each imported name of a file stands for."""
        found: dict[str, list[Node]] = defaultdict(list)
        for use in uses_of(file.head):
            for name, called in use.names():
                if node := self.antt_node(use.path, name):
                    found[called].append(node)
            if use.items is None and (node := self.antt_node(use.path, None)):
                found[use.alias or use.path.split(".")[-1]].append(node)
        if file.is_code:
            for path, called in paths_of(file.head, "use"):
                steps = path.split("::")
                crate = file.crate if steps[0] == "crate" else steps[0]
                if crate in self.crates and (node := self.code_node(crate, steps[1:])):
                    found[called].append(node)
        return found

    def named_by(self, file: File, text: str, own: set[str]) -> set[Node]:
        """The items that a text of a file names."""
        if not hasattr(file, "_heads"):
            file._heads = self.heads(file)  # type: ignore[attr-defined]
        heads = file._heads  # type: ignore[attr-defined]
        found: set[Node] = set()
        code = "\n".join(it for it in text.split("\n") if not re.match(r"\s*(///?|--)", it))
        words = set(re.findall(r"[^\s(){}\[\]:;,.=→λ×⊎&*!?<>|\"']+", code)) | set(re.findall(r"\w+", code))
        for word in words:
            found |= set(heads.get(word, []))
            if word not in own and file.chunk(word):
                found.add((file.crate, file.path, word))
        for hit in re.finditer(r"(?<![\w:.])(\w+)((?:::\w+)+)", code):
            crate = file.crate if hit[1] == "crate" else hit[1]
            steps = hit[2][2:].split("::")
            if crate in self.crates:
                if steps[0] in ("specs", "proofs"):
                    node = self.antt_node(f"Rattle.{crate}.{'.'.join(steps[:-1])}", steps[-1])
                else:
                    node = self.code_node(crate, steps)
                if node:
                    found.add(node)
        for hit in re.finditer(r"\bRattle\.(\w+)\.[\w.+-]+", code):
            if hit[1] in self.crates:
                path, _, name = hit[0].rpartition(".")
                if node := self.antt_node(path, name):
                    found.add(node)
        return found

    def proofs_of(self, file: File, name: str) -> list[File]:
        """The files of the proof of a function, or of those of a type."""
        steps = file.steps if file.steps != ["lib"] else []
        prefix = "proofs/" + "/".join([*steps, name]) + "/"
        return [it for (crate, path), it in self.files.items() if crate == file.crate and path.startswith(prefix)]

    def chunks_of(self, node: Node) -> list[tuple[File, Chunk]]:
        """What moves with an item: itself, and the impls of a type."""
        file = self.files[node[0], node[1]]
        chunk = file.chunk(node[2])
        return [(file, it) for it in file.chunks if it is chunk or it.of in (chunk.names if chunk else [])]

    def rests_on(self, node: Node) -> set[Node]:
        """The items that an item names, in its text and in its proof."""
        found: set[Node] = set()
        for file, chunk in self.chunks_of(node):
            found |= self.named_by(file, chunk.text, set(chunk.names))
        file = self.files[node[0], node[1]]
        if file.is_code:
            for proof in self.proofs_of(file, node[2]):
                found |= self.named_by(proof, proof.head + "\n" + "\n".join(it.text for it in proof.chunks), set())
                found |= {n for nodes in self.heads(proof).values() for n in nodes}
        same = {(node[0], node[1], name) for _, chunk in self.chunks_of(node) for name in chunk.names}
        return {self.first(it) for it in found - same if not is_answer(it[1])}

    def first(self, node: Node) -> Node:
        """An item by the first name that it declares."""
        chunk = self.files[node[0], node[1]].chunk(node[2])
        return node[0], node[1], chunk.names[0] if chunk else node[2]

    def all(self) -> list[Node]:
        """All items, each by its first name, but for answers and invariants."""
        return [(crate, path, it.names[0]) for (crate, path), file in self.files.items() if not is_answer(path) for it in file.chunks if it.names]


def is_answer(path: str) -> bool:
    """Whether a file is of a function's proof."""
    return path.startswith("proofs/") and bool(re.match(r"[a-z_+]", path.split("/")[1])) and path.count("/") > 1


def paths_of(head: str, word: str) -> list[tuple[str, str]]:
    """The paths that the `use` lines of a file of code name, and what each is called there."""
    found: list[tuple[str, str]] = []
    pattern = r"(?ms)^(?:pub(?:\(crate\))? )?use ([^;]*);" if word == "use" else r"(?ms)^pub use ([^;]*);"

    def spread(text: str, before: str) -> None:
        text = text.strip()
        if hit := re.fullmatch(r"(?s)(.*?)\{(.*)\}", text):
            depth, part = 0, ""
            for sign in hit[2] + ",":
                depth += (sign == "{") - (sign == "}")
                if sign == "," and not depth:
                    if part.strip():
                        spread(part, before + hit[1].strip())
                    part = ""
                else:
                    part += sign
        else:
            path, _, called = (before + text).partition(" as ")
            found.append((path.strip(), (called or path.split("::")[-1]).strip()))

    for hit in re.finditer(pattern, head):
        spread(hit[1], "")
    return found


# --- which items move, and where to ---


def groups_of(tree: Tree) -> dict[str, str]:
    """The groups: of each crate of rows or natives the crate that later steps make of it. The kit's own crates are no group."""
    from house import FIRST, STEPS

    kit = {*STEPS["kit"].sources, KIT, FIRST}
    found = {it: it for it in tree.names if re.match(r"(proto|native)_|class_make$|eval_forms$", it) and it not in ("native_defs", *kit)}
    for name, step in STEPS.items():
        if "kit" in step.after and name != "natives":
            found.update({it: step.target for it in (*step.sources, step.target) if it in found})
    return found


@dataclass
class Plan:
    """The homes of the items that move."""

    items: Items
    groups: dict[str, str]
    homes: dict[Node, str] = field(default_factory=dict)
    same: dict[Node, Node] = field(default_factory=dict)  # of each function that stands elsewhere too, by a word: which one stays


def told_twice(plan: Plan, rests: dict[Node, set[Node]]) -> None:
    """Functions of several groups that are the same by a word: one of them goes to the kit, and all are that one."""
    items = plan.items
    classes: dict[tuple[str, str], list[Node]] = defaultdict(list)
    for node in items.all():
        file = items.files[node[0], node[1]]
        chunk = file.chunk(node[2])
        if chunk and file.part != "proofs":
            text = re.sub(r"#\[.*\]\n", "", re.sub(r"\bpub(\(crate\))? ", "", bare(chunk.text)))
            if not file.is_code or chunk.text and re.search(r"(?m)^(pub(\(crate\))? )?fn ", chunk.text):
                classes[file.part, " ".join(text.split())].append(node)
    kind = {node: key for key, nodes in classes.items() for node in nodes}

    def alike(a: Node, b: Node) -> bool:
        """Whether two items of one class name the same."""
        first, second = ({it[2]: it for it in rests[one]} for one in (a, b))
        return first.keys() == second.keys() and all(
            first[it] == second[it] or first[it] in kind and kind.get(first[it]) == kind.get(second[it]) and first[it] not in (a, b) and alike(first[it], second[it]) for it in first
        )

    def take(nodes: list[Node]) -> None:
        """All of these are one, and so is what they rest on."""
        one = next((it for it in nodes if plan.homes.get(it) == KIT), nodes[0])
        plan.homes[one] = KIT
        for other in nodes:
            if other != one and other not in plan.same:
                plan.homes[other] = KIT
                plan.same[other] = one
        for it in rests[one]:
            plan.homes[it] = KIT
            take([it, *(two for node in nodes for two in rests[node] if two[2] == it[2] and two != it)])

    for (part, _), nodes in sorted(classes.items()):
        if part == "src" and len({plan.groups[it[0]] for it in nodes}) > 1:
            nodes = [it for it in nodes if alike(nodes[0], it)]
            inner = {it for node in nodes for it in rests[node]}
            if len(nodes) > 1 and all(plan.homes.get(it) == KIT or len(classes[kind[it]]) > 1 for it in inner if it in kind) and all(it in kind for it in inner):
                take(nodes)


def plan_of(tree: Tree) -> Plan:
    """Which items move to which crate."""
    groups = groups_of(tree)
    items = Items(tree, list(groups))
    rests = {it: items.rests_on(it) for it in items.all()}
    users: dict[Node, set[str]] = defaultdict(set)

    crates: dict[Node, set[str]] = defaultdict(set)

    def spread(node: Node, by: str, users: dict[Node, set[str]] = users) -> None:
        todo = [node]
        while todo:
            it = todo.pop()
            if by not in users[it]:
                users[it].add(by)
                todo += [one for one in rests.get(it, ()) if one not in users or by not in users[one]]

    # (each item is of its own group unless it is only there for another one)
    asked: dict[Node, set[str]] = defaultdict(set)
    for (crate, path), file in items.files.items():
        for nodes in [items.named_by(file, "\n".join(it.text for it in file.chunks), set()), *[set(it) for it in items.heads(file).values()]]:
            for node in nodes:
                if groups[node[0]] != groups[crate] and not is_answer(node[1]):
                    asked[items.first(node)].add(groups[crate])
                    spread(items.first(node), crate, crates)
    for node, by in asked.items():
        for group in by:
            spread(node, group)
    moving = {it for it, by in users.items() if by - {groups[it[0]]}}
    # what stays asks for its own group
    for node in items.all():
        if node not in moving:
            for one in rests[node]:
                if one in moving:
                    spread(one, groups[node[0]])
    for crate in ABOVE:
        if crate in tree.names:
            for path in tree.texts(crate):
                for use in uses_of(read(path)):
                    for name, _ in use.names():
                        if (node := items.antt_node(use.path, name)) and items.first(node) in moving:
                            spread(items.first(node), groups[node[0]])
                for path_, _ in paths_of(read(path), "use") if path.endswith(CODE) else []:
                    steps = path_.split("::")
                    if steps[0] in groups and (node := items.code_node(steps[0], steps[1:])) and items.first(node) in moving:
                        spread(items.first(node), groups[node[0]])
    plan = Plan(items, groups)
    for node in moving:
        # (of a group with several crates only one may need it)
        by = crates[node] if len(users[node]) == 1 else users[node]
        plan.homes[node] = next(iter(by)) if len(by) == 1 else KIT
    # (a few items are no natives by themselves)
    for node, home in plan.homes.items():
        if (home, node[0]) not in ALONE:
            plan.homes[node] = KIT
    # what the kit names is in the kit
    todo = [it for it, home in plan.homes.items() if home == KIT]
    while todo:
        for one in rests.get(todo.pop(), ()):
            if plan.homes.get(one) != KIT:
                plan.homes[one] = KIT
                todo.append(one)
    told_twice(plan, rests)
    return plan


# --- the move ---


def short(crate: str) -> str:
    """A crate's name without what natives and rows have in common."""
    return re.sub(r"^(native|proto)_", "", crate)


def camel(name: str) -> str:
    """A name in capitals."""
    return "".join(it.capitalize() for it in name.split("_"))


@dataclass
class Import:
    """A name that a file imports: by which word, of which module, and what it is called there. No name: the module itself."""

    word: str
    path: str
    name: str | None
    called: str | None

    @property
    def known_as(self) -> str:
        return self.called or self.name or self.path.replace("::", ".").split(".")[-1]


class Move:
    """Items on their way: where each stands afterwards, and what of files is to be written."""

    def __init__(self, tree: Tree, plan: Plan) -> None:
        self.tree, self.plan, self.items = tree, plan, plan.items
        self.homes: dict[int, str] = {}
        self.calls: list[tuple[str, str, str, str]] = []  # of each public call: the old crate and path, the new crate and path
        for node, home in plan.homes.items():
            for _, chunk in self.items.chunks_of(node):
                chunk.home = home

    # --- places ---

    def place(self, file: File, home: str, name: str = "") -> str:
        """The file in which a moved item of a file stands."""
        stem = "_".join(file.steps)
        part = file.part
        if home == KIT and part in TOLD.get(name, {}):
            name = TOLD[name][part]
        elif (home, file.crate) in ALONE:
            code, specs, proofs = ALONE[home, file.crate]
            name = {"src": code, "specs": specs, "proofs": proofs}[part]
        elif part == "src":
            name = CALLED.get((file.crate, part, stem), f"{short(file.crate)}_{stem}")
        else:
            name = CALLED.get((file.crate, part, stem), camel(short(file.crate)) + stem)
        return f"{part}/{name}{CODE if part == 'src' else ANTT}"

    def home_of(self, node: Node | None) -> tuple[str, str] | None:
        """The crate and the file to which an item moves."""
        if not node:
            return None
        node = self.items.first(node)
        node = self.plan.same.get(node, node)
        file = self.items.files[node[0], node[1]]
        chunk = file.chunk(node[2])
        return (chunk.home, self.place(file, chunk.home, chunk.names[0] if chunk.names else "")) if chunk and chunk.home else None

    # --- imports ---

    def new_path(self, path: str, name: str | None) -> str:
        """The path of a module of definitions or proofs, for one of its names."""
        node = self.items.antt_node(path, name)
        home = self.home_of(node)
        if not home or not node:
            return path
        crate, place = home
        module = place.rsplit(".", 1)[0].split("/")[1:]
        _, _, part, *steps = path.split(".")
        old = self.items.files[node[0], node[1]].steps
        old = [] if old == ["lib"] else old
        if steps[0] in ("declared", "contracts"):
            return ".".join(["Rattle", crate, part, steps[0], *module, *steps[1 + len(old) :]])
        if part == "proofs" and re.match(r"[a-z_+]", steps[0]):
            return ".".join(["Rattle", crate, part, *module, *steps[len(old) :]])
        return ".".join(["Rattle", crate, part, *module])

    def new_code_path(self, crate: str, steps: list[str]) -> list[str] | None:
        """The path of an item of code, from its crate on, where it moves."""
        if steps and steps[0] in ("specs", "proofs") and len(steps) > 1:
            path = f"Rattle.{crate}.{'.'.join(steps[:-1])}"
            new = self.new_path(path, steps[-1])
            return None if new == path else [*new.split(".")[1:], steps[-1]]
        node = self.items.code_node(crate, steps)
        home = self.home_of(node)
        if not home or not node:
            return None
        rest = steps[steps.index(node[2]) :]
        return [home[0], *home[1].rsplit(".", 1)[0].split("/")[1:], *rest]

    def imports_of(self, crate: str, head: str, is_code: bool) -> list[Import]:
        """The imports of a file's head, those of code by paths from a crate."""
        found = []
        for use in uses_of(head):
            if use.indent:
                continue
            if use.items is None:
                found.append(Import(use.word, use.path, None, use.alias))
            for name, called in use.names():
                found.append(Import(use.word, use.path, name, None if called == name else called))
        if is_code:
            for path, called in paths_of(head, "use"):
                steps = path.split("::")
                steps[0] = crate if steps[0] == "crate" else steps[0]
                name = steps[-1]
                found.append(Import("use", "::".join(steps[:-1]), name, None if called == name else called))
        return found

    def moved_import(self, it: Import) -> Import:
        """An import of where its item is afterwards."""
        if "::" in it.path or not it.path.startswith("Rattle."):
            crate, *steps = it.path.split("::")
            if crate in self.items.crates and it.name:
                if new := self.new_code_path(crate, [*steps, it.name]):
                    return Import(it.word, "::".join(new[:-1]), it.name, it.called)
            return it
        crate = it.path.split(".")[1]
        if crate not in self.items.crates:
            return it
        return Import(it.word, self.new_path(it.path, it.name), it.name, it.called)

    def lines(self, crate: str, imports: list[Import]) -> tuple[list[str], list[str]]:
        """The lines of imports: of definitions and lemmas, and of code."""
        of_antt: dict[tuple[str, str], list[str]] = {}
        of_code: dict[str, list[str]] = {}
        for it in imports:
            if it.path.startswith("Rattle."):
                if it.name is None:
                    of_antt[it.word, it.path + (f" as {it.called}" if it.called else "")] = []
                else:
                    said = it.name + (f" as {it.called}" if it.called else "")
                    list_ = of_antt.setdefault((it.word, it.path), [])
                    if said not in list_:
                        list_.append(said)
            else:
                steps = it.path.split("::")
                path = "::".join(["crate", *steps[1:]]) if steps[0] == crate else it.path
                list_ = of_code.setdefault(path, [])
                said = (it.name or "") + (f" as {it.called}" if it.called else "")
                if said not in list_:
                    list_.append(said)
        end = ";" if any("ghost" in word for word, _ in of_antt) else ""
        rows = [f"{word} {path}" + (f".{{{', '.join(names)}}}" if names else "") + end for (word, path), names in of_antt.items()]
        code = []
        for path, names in sorted(of_code.items()):
            if names == ["self"] or not path:
                code += [f"use {path or names[0]};"] if path else [f"use {it};" for it in names]
            else:
                code.append(f"use {path}::{names[0]};" if len(names) == 1 else f"use {path}::{{{', '.join(sorted(names))}}};")
        return rows, code

    def own_imports(self, file: File, chunks: list[Chunk], others: list[Chunk]) -> list[Import]:
        """Imports, from where they stand before the move, of what some items of a file name of the file's others."""
        found = []
        text = "\n".join(bare(it.text) for it in chunks)
        words = set(re.findall(WORD, text)) | set(re.findall(r"[^\s(){}\[\]:;,.=→λ×⊎&*!?<>|\"']+", text))
        for chunk in others:
            for name in chunk.names:
                if name in words:
                    if file.is_code:
                        found.append(Import("use", "::".join([file.crate, *file.steps]), name, None))
                    else:
                        found.append(Import("use", ".".join(["Rattle", file.crate, file.part, *file.steps]), name, None))
        return found

    # --- texts ---

    def inline(self, text: str, crate: str, source: str) -> str:
        """Whole paths in a text of code of a file that stood in `source` and stands in `crate`."""

        def moved(hit: re.Match[str]) -> str:
            of = source if hit[1] == "crate" else hit[1]
            steps = hit[2][2:].split("::")
            if of not in self.items.crates:
                return hit[0]
            new = self.new_code_path(of, steps)
            if new:
                return "::".join(["crate" if new[0] == crate else new[0], *new[1:]])
            if hit[1] == "crate" and crate != source:
                return "::".join([source, *steps])
            return hit[0]

        return re.sub(r"(?<![\w:.])(\w+)((?:::[\w-]+)+)", moved, text)

    def run(self) -> None:
        """Moves all."""
        gathered: dict[tuple[str, str], list[tuple[File, list[Chunk]]]] = {}
        self.again = {id(chunk) for node in self.plan.same for _, chunk in self.items.chunks_of(node)}
        for file in self.items.files.values():
            by_place: dict[tuple[str, str], list[Chunk]] = defaultdict(list)
            for it in file.chunks:
                if it.home and id(it) not in self.again:
                    by_place[it.home, self.place(file, it.home, (it.names or [it.of or ""])[0])].append(it)
            for key, chunks in by_place.items():
                gathered.setdefault(key, []).append((file, chunks))
        self.gathered = gathered
        # (proofs of functions go with their files as they are)
        folders = []
        for file in self.items.files.values():
            if file.is_code:
                for chunk in file.chunks:
                    for name in chunk.names if chunk.home else []:
                        steps = file.steps if file.steps != ["lib"] else []
                        folder = f"{self.tree.crates}/{file.crate}/proofs/" + "/".join([*steps, name])
                        if os.path.isdir(folder) and id(chunk) in self.again:
                            shutil.rmtree(folder)
                        elif os.path.isdir(folder):
                            place = self.place(file, chunk.home or "", name).rsplit(".", 1)[0].split("/")[1:]
                            folders.append((folder, f"{self.tree.crates}/{chunk.home}/proofs/" + "/".join([*place, name]), file.crate))
        texts = {key: self.new_text(key, parts) for key, parts in gathered.items()}
        self.note_calls()
        rests = {(it.crate, it.path): self.rest_text(it) for it in self.items.files.values() if any(one.home for one in it.chunks)}
        touched = {f"{self.tree.crates}/{crate}/{path}" for crate, path in rests}
        # every other text
        for name in self.tree.names:
            for path in self.tree.texts(name):
                if path not in touched:
                    text = self.other_text(name, path, read(path))
                    if text is not None:
                        write(path, text)
        for (crate, path), text in rests.items():
            if text is None:
                self.drop(crate, path)
            else:
                write(f"{self.tree.crates}/{crate}/{path}", text)
        for (home, place), text in texts.items():
            self.add(home, place, text)
        for old, new, _ in folders:
            os.makedirs(os.path.dirname(new), exist_ok=True)
            shutil.move(old, new)
        for crate in self.items.crates:
            for at, inner, names in os.walk(f"{self.tree.crates}/{crate}/proofs", topdown=False):
                if not os.listdir(at):
                    os.rmdir(at)
        self.open_names()
        self.set_below()

    def note_calls(self) -> None:
        """Which public calls move, by the paths that other crates name."""
        for file in self.items.files.values():
            for chunk in file.chunks:
                if file.is_code and chunk.home and re.search(r"(?m)^pub fn ", chunk.text):
                    name = chunk.names[0]
                    home = self.home_of((file.crate, file.path, name))
                    new = "::".join([*(home[1] if home else "").rsplit(".", 1)[0].split("/")[1:], name])
                    self.calls.append((file.crate, "::".join([*file.steps, name]), chunk.home, new))

    def new_text(self, key: tuple[str, str], parts: list[tuple[File, list[Chunk]]]) -> str:
        """A new file, of the items of one file or of several."""
        home, place = key
        is_code = place.endswith(CODE)
        imports: list[Import] = []
        heads, tactics = [], []
        all_chunks: list[Chunk] = []
        owner: dict[int, File] = {}
        for file, chunks in parts:
            text = "\n\n".join(it.text for it in chunks)
            owner.update({id(it): file for it in chunks})
            mine = [it for it in self.imports_of(file.crate, file.head, is_code) if is_used(it, text)]
            mine += self.own_imports(file, chunks, [it for it in file.chunks if it not in chunks])
            imports += [self.moved_import(it) for it in mine]
            all_chunks += chunks
            heads.append(head_line(file.head))
            if is_code:
                # (what stood in several groups is proved without the tactics of one)
                is_told = any(place == f"src/{it['src']}{CODE}" for it in TOLD.values())
                tactics.append("" if is_told else self.tactic(file, home))
        all_chunks = all_chunks if is_code else above_first(all_chunks)
        bodies = [self.inline(it.text, home, owner[id(it)].crate) if is_code else self.inline_antt(it.text) for it in all_chunks]
        heads = [ABOUT.get(place.rsplit(".", 1)[0].split("/")[-1], " ".join(dict.fromkeys(heads)))]
        module = ".".join(["Rattle", home, *place.rsplit(".", 1)[0].split("/")])
        code_module = "::".join([home, *place.rsplit(".", 1)[0].split("/")[1:]])
        imports = [it for it in imports if it.path not in (module, code_module)]
        rows, code = self.lines(home, imports)
        if not is_code:
            return "\n".join([f"-- {' '.join(dict.fromkeys(heads))}", *rows]) + "\n\n" + "\n\n".join(bodies) + "\n"
        if len(set(tactics)) != 1:
            raise SystemExit(f"{place}: several tactics: {set(tactics)}")
        ghost = [f"ghost {it}" if it.startswith("use ") else it for it in rows]
        ghost = [it if it.endswith(";") else it + ";" for it in ghost]
        said = [f"//! {' '.join(dict.fromkeys(heads))}"] + ([tactics[0]] if tactics[0] else [])
        return "\n".join(said) + "\n\n" + "\n".join(ghost) + "\n\n" + "\n".join(code) + "\n\n" + "\n\n".join(bodies) + "\n"

    def tactic(self, file: File, home: str) -> str:
        """The line that sets tactics for moved items, where their new crate's root doesn't."""
        own = re.search(r"(?m)^#!\[tactic\(.*\)\]$", file.head)
        root = self.items.files.get((file.crate, "src/lib.rt"))
        root_line = re.search(r"(?m)^#!\[tactic\(.*\)\]$", root.head) if root else None
        line = (own or root_line or [""])[0]
        lib = f"{self.tree.crates}/{home}/src/lib.rt"
        there = re.search(r"(?m)^#!\[tactic\(.*\)\]$", read(lib)) if os.path.isfile(lib) else None
        return "" if there and there[0] == line else self.inline(line, home, file.crate)

    def inline_antt(self, text: str) -> str:
        """Whole names in a text of definitions or proofs."""

        def moved(hit: re.Match[str]) -> str:
            path, _, name = hit[0].rpartition(".")
            new = self.new_path(path, name)
            return f"{new}.{name}"

        return re.sub(r"\bRattle\.(?:" + "|".join(self.items.crates) + r")\.[\w.+-]+", moved, text)

    def rest_text(self, file: File) -> str | None:
        """What is left of a file from which items move. Nothing: None."""
        left = [it for it in file.chunks if not it.home]
        if not any(it.names or it.of for it in left):
            return None
        text = "\n\n".join(it.text for it in left)
        if file.is_code and re.search(r"(?m)^(pub )?mod |^pub use ", file.head):
            return self.root_text(file, left)
        imports = [it for it in self.imports_of(file.crate, file.head, file.is_code) if is_used(it, text)]
        imports += self.own_imports(file, left, [it for it in file.chunks if it.home])
        imports = [self.moved_import(it) for it in imports]
        rows, code = self.lines(file.crate, imports)
        if not file.is_code:
            return "\n".join([*comment_of(file.head), *rows]) + "\n\n" + self.inline_antt(text) + "\n"
        ghost = [f"ghost {it}" if it.startswith("use ") else it for it in rows]
        ghost = [it if it.endswith(";") else it + ";" for it in ghost]
        top = [it for it in file.head.split("\n") if re.match(r"//!|#!\[", it)]
        top = [self.inline(it, file.crate, file.crate) if it.startswith("#!") else it for it in top]
        return "\n".join(top) + "\n\n" + "\n".join(ghost) + "\n\n" + "\n".join(code) + "\n\n" + self.inline(text, file.crate, file.crate) + "\n"

    def root_text(self, file: File, left: list[Chunk]) -> str:
        """What is left of a file that names modules: it imports what went from it."""
        gone = [it for it in file.chunks if it.home]
        text = "\n\n".join(it.text for it in left)
        need = [it for it in self.own_imports(file, left, gone) if it.name]
        head = file.head
        steps = [] if file.steps == ["lib"] else file.steps
        for it in need:
            head = re.sub(r"(?m)^use ", f"use {'::'.join(['crate', *steps, it.name or ''])};\nuse ", head, count=1)
        made = self.other_text(file.crate, f"{self.tree.crates}/{file.crate}/{file.path}", head + "\n\n" + text + "\n") or head + "\n\n" + text + "\n"

        def used(hit: re.Match[str]) -> str:
            kept = [it for it in self.imports_of(file.crate, hit[0], True) if is_used(it, re.sub(r"(?ms)^(pub(\(crate\))? |ghost )?use [^;]*;\n", "", made))]
            rows, code = self.lines(file.crate, kept)
            rows = [f"ghost {it}" if it.startswith("use ") else it for it in rows]
            return "".join(it + ("" if it.endswith(";") else ";") + "\n" for it in [*rows, *code])

        return re.sub(r"(?ms)^(ghost )?use [^;]*;\n", used, made)

    def other_text(self, crate: str, path: str, text: str) -> str | None:
        """A file from which nothing moves, with imports of where things are then."""
        is_code = path.endswith(CODE)
        was = text

        def one(hit: re.Match[str]) -> str:
            use = uses_of(hit[0])[0]
            imports = [Import(use.word, use.path, name, None if called == name else called) for name, called in use.names()]
            if use.items is None:
                imports = [Import(use.word, use.path, None, use.alias)]
            new = [self.moved_import(it) for it in imports]
            if new == imports:
                return hit[0]
            rows, _ = self.lines(crate, new)
            end = ";" if hit[0].rstrip().endswith(";") else ""
            return "\n".join(use.indent + it.rstrip(";") + end for it in rows)

        text = USE.sub(one, text)
        if text != was:
            text = joined(text)
        if is_code:
            changed = [False]

            def passed_on(hit: re.Match[str]) -> str:
                made = []
                for old, called in paths_of(hit[0].replace("pub(crate) ", "").replace("pub ", ""), "use"):
                    steps = old.split("::")
                    is_of_own = steps[0] not in ("crate", *self.tree.names)
                    of, inner = (crate, steps) if is_of_own else (crate if steps[0] == "crate" else steps[0], steps[1:])
                    if of in self.items.crates and self.new_code_path(of, inner):
                        continue
                    made.append((old, called))
                if len(made) == len(paths_of(hit[0].replace("pub(crate) ", "").replace("pub ", ""), "use")):
                    return hit[0]
                return "".join(f"{hit[1]}use {old}" + (f" as {called}" if called != old.split("::")[-1] else "") + ";\n" for old, called in made)

            text = re.sub(r"(?ms)^(pub(?:\(crate\))? )use [^;]*;\n", passed_on, text)
            uses = list(re.finditer(r"(?ms)^use [^;]*;\n", text))
            imports = []
            for hit in uses:
                for old, called in paths_of(hit[0], "use"):
                    steps = old.split("::")
                    of = crate if steps[0] == "crate" else steps[0]
                    new = self.new_code_path(of, steps[1:]) if of in self.items.crates else None
                    changed[0] |= bool(new)
                    steps = ["crate" if new[0] == crate else new[0], *new[1:]] if new else steps
                    imports.append(Import("use", "::".join(steps[:-1]), steps[-1], None if called == steps[-1] else called))
            if changed[0]:
                _, rows = self.lines("", imports)
                for hit in reversed(uses):
                    text = text[: hit.start()] + ("\n".join(rows) + "\n" if hit is uses[0] else "") + text[hit.end() :]
            text = "\n".join(it if re.match(r"(pub(\(crate\))? |ghost )?use ", it) else self.inline(it, crate, crate) for it in text.split("\n"))
        else:
            text = self.inline_antt(text) if re.search(r"(?m)^(?!.*\buse ).*\bRattle\.", text) else text
        return None if text == was else text

    # --- modules ---

    def drop(self, crate: str, path: str) -> None:
        """A file of which nothing is left goes, with the line of its root."""
        os.remove(f"{self.tree.crates}/{crate}/{path}")
        part, name = path.split("/")[0], path.rsplit(".", 1)[0].split("/")[-1]
        root = f"{self.tree.crates}/{crate}/{part}/" + ("lib.rt" if part == "src" else "Lib.antt")
        text = re.sub(rf"(?m)^(pub )?mod {name};?\n", "", read(root))
        if text.strip():
            write(root, text)
        else:
            os.remove(root)

    def add(self, home: str, place: str, text: str) -> None:
        """A new file, and the line of its root. The kit's root is made where there is none."""
        part, name = place.split("/")[0], place.rsplit(".", 1)[0].split("/")[-1]
        path = f"{self.tree.crates}/{home}/{place}"
        if os.path.exists(path):
            raise SystemExit(f"{path} is there already")
        write(path, text)
        root = f"{self.tree.crates}/{home}/{part}/" + ("lib.rt" if part == "src" else "Lib.antt")
        was = read(root) if os.path.isfile(root) else ""
        if part != "src":
            write(root, was + f"pub mod {name}\n")
            return
        word = "pub mod" if home == KIT else "mod"
        rows = was.rstrip("\n").split("\n")
        at = [number for number, it in enumerate(rows) if re.match(r"(pub )?mod \w+;$", it)]
        where = next((number for number in at if rows[number].split("mod ")[1] > f"{name};"), at[-1] + 1 if at else len(rows))
        rows.insert(where, f"{word} {name};")
        write(root, "\n".join(rows) + "\n")

    def open_names(self) -> None:
        """What is asked for from another file or crate is public."""
        needs: dict[tuple[str, str], dict[str, bool]] = defaultdict(dict)
        moved = {(home, place): {name for _, chunks in parts for it in chunks for name in it.names} for (home, place), parts in self.gathered.items()}
        by_module = {".".join(["Rattle", home, *place.rsplit(".", 1)[0].split("/")]): (home, place) for home, place in moved}
        by_path = {"::".join([home, *place.rsplit(".", 1)[0].split("/")[1:]]): (home, place) for home, place in moved if place.endswith(CODE)}
        for crate in self.tree.names:
            for path in self.tree.texts(crate):
                text = read(path)
                for it in self.imports_of(crate, text, path.endswith(CODE)):
                    key = by_module.get(it.path) or by_path.get(it.path)
                    if key and it.name and f"{self.tree.crates}/{key[0]}/{key[1]}" != path:
                        needs[key][it.name] = needs[key].get(it.name, False) or crate != key[0]
                if path.endswith(CODE):
                    for hit in re.finditer(r"(?<![\w:.])(\w+)((?:::[\w-]+)+)", text):
                        steps = [crate if hit[1] == "crate" else hit[1], *hit[2][2:].split("::")]
                        if key := by_path.get("::".join(steps[:-1])):
                            needs[key][steps[-1]] = needs[key].get(steps[-1], False) or crate != key[0]
                        if len(steps) > 3 and steps[1] in ("specs", "proofs") and (key := by_module.get(".".join(["Rattle", *steps[:-1]]))):
                            needs[key][steps[-1]] = True
        for (home, place), names in needs.items():
            path = f"{self.tree.crates}/{home}/{place}"
            text = read(path)
            for name, is_far in names.items():
                text = opened(text, name, is_far, place.endswith(CODE))
            write(path, text)

    def set_below(self) -> None:
        """crates.txt: a crate of a group stands on what its texts name, and each crate on the kit that names it."""
        groups = set(self.plan.groups)
        for entry in self.tree.entries:
            named: set[str] = set()
            for path in self.tree.texts(entry.name):
                text = read(path)
                named |= set(re.findall(r"\bRattle\.(\w+)\.", text))
                if path.endswith(CODE):
                    named |= set(re.findall(r"(?<![\w:.])(\w+)::", text))
            if entry.name in groups or entry.name == KIT:
                entry.below = [it for it in entry.below if it in named or it not in groups]
            entry.below += sorted(it for it in named & {*groups, KIT, "class_table", "class_world", "world_text", "class_model", "plain_machine"} if it not in entry.below and it != entry.name and (it == KIT or entry.name in groups or entry.name == KIT))
        self.tree.levels()
        self.tree.save()

    # --- documents and wrong bodies ---

    def places(self) -> dict[tuple[str, str], list[tuple[str, str]]]:
        """The files to which items of a file went."""
        found: dict[tuple[str, str], list[tuple[str, str]]] = defaultdict(list)
        for new, parts in self.gathered.items():
            for file, _ in parts:
                found[file.crate, file.path].append(new)
        for node, one in self.plan.same.items():
            if home := self.home_of(one):
                found[node[0], node[1]].append(home)
        return found

    def documents(self, tree: Tree) -> None:
        """docs/PROVED.md: a row of a moved call stands under the call's new crate, and each call that became public has one."""
        import proved_rows

        proved_rows.follow(tree, self.calls)


def joined(text: str) -> str:
    """A text whose imports of one module by one word stand in one line."""
    first: dict[tuple[str, str], list[str]] = {}
    for use in uses_of(text):
        if use.items is not None and not use.indent:
            list_ = first.setdefault((use.word, use.path), [])
            list_ += [it for it in use.items if it not in list_]
    done: set[tuple[str, str]] = set()

    def one(hit: re.Match[str]) -> str:
        use = uses_of(hit[0])[0]
        key = use.word, use.path
        if use.items is None or use.indent:
            return hit[0]
        if key in done:
            return "\0"
        done.add(key)
        return f"{use.word} {use.path}.{{{', '.join(first[key])}}}" + (";" if hit[0].rstrip().endswith(";") else "")

    return USE.sub(one, text).replace("\0\n", "")


def above_first(chunks: list[Chunk]) -> list[Chunk]:
    """Items in an order in which each stands below those that it names, and else as they were."""
    where = {name: it for it in chunks for name in it.names}
    done: list[Chunk] = []

    def put_below(it: Chunk, above: tuple[int, ...]) -> None:
        if any(it is one for one in done) or id(it) in above:
            return
        for word in re.findall(WORD, bare(it.text)):
            if word in where and where[word] is not it:
                put_below(where[word], (*above, id(it)))
        done.append(it)

    for it in chunks:
        put_below(it, ())
    return done


def bare(text: str) -> str:
    """A text without its comments."""
    return "\n".join(it for it in text.split("\n") if not re.match(r"\s*(///?|--)", it))


def is_used(it: Import, text: str) -> bool:
    """Whether a text names what is imported."""
    name = it.known_as
    if "◌" in name or name in ("[]",):
        signs = [one for one in name.split("◌") if one]
        return all(one in bare(text) for one in signs) if signs else True
    return bool(re.search(rf"(?<![^\s(){{}}\[\]:;,.=→λ×⊎&*!?<>|\"'λ«]){re.escape(name)}(?![^\s(){{}}\[\]:;,.=→λ×⊎&*!?<>|\"'»])", bare(text)))


def comment_of(head: str) -> list[str]:
    """The comment at the head of a file of definitions or lemmas."""
    found = []
    for row in head.split("\n"):
        if not row.startswith("--"):
            break
        found.append(row)
    return found


def head_line(head: str) -> str:
    """What a file says of itself in the first line."""
    return re.sub(r"^(//!|--) ?", "", head.split("\n")[0]).strip()


def opened(text: str, name: str, is_far: bool, is_code: bool) -> str:
    """A text in which a name is public: for other crates, or for the crate's other files."""
    if is_code:
        word = "pub" if is_far else "pub(crate)"
        hit = re.search(rf"(?m)^(pub(?:\(crate\))? )?((?:const )?(?:fn|struct|enum|type|const) {name}\b)", text)
        if not hit or hit[1] == "pub " or hit[1] == "pub(crate) " and not is_far:
            return text
        text = text[: hit.start()] + f"{word} {hit[2]}" + text[hit.end() :]
        rows = text[: hit.start()].split("\n")
        at = len(rows) - 2
        while at >= 0 and re.match(r"// |#\[", rows[at]):
            rows[at] = re.sub(r"^// ", "/// ", rows[at])
            at -= 1
        return "\n".join(rows) + text[hit.start() :]
    pattern = rf"(?m)^(\s*)((?:(?:pattern|unfoldable|abbrev) )*)((?:data|record) )?({WORD} )*?({re.escape(name)})( {WORD})*( [({{][^\n]*?)? : "
    hit = re.search(pattern, text)
    if not hit or re.search(rf"(?m)^\s*(?:(?:pattern|unfoldable|abbrev) )*pub (?:(?:data|record) )?(?:{WORD} )*?{re.escape(name)}[ :]", text):
        return text
    start, end = hit.span()
    whole = hit[0]
    lead = hit[1] + hit[2]
    return text[:start] + lead + "pub " + whole[len(lead) :] + text[end:]


def kit(tree: Tree) -> Move:
    """Moves what groups share. Gives what was moved, for the documents."""
    move = Move(tree, plan_of(tree))
    move.run()
    for (crate, path), said in LEFT.items():
        if os.path.isfile(file := f"{tree.crates}/{crate}/{path}"):
            write(file, re.sub(r"\A(//!|--) .*\n", lambda it: f"{it[1]} {said}\n", read(file)))
    return move


def main(words: list[str]) -> int:
    """Says what would move."""
    if not words:
        print(__doc__)
        return 2
    plan = plan_of(Tree(words[0]))
    found: dict[tuple[str, str, str], list[str]] = defaultdict(list)
    for (crate, path, name), home in plan.homes.items():
        found[home, crate, path].append(name)
    for (home, crate, path), list_ in sorted(found.items()):
        file = plan.items.files[crate, path]
        print(f"{home}: {crate}/{path} ({len(list_)} of {len(file.chunks)}): {' '.join(sorted(list_))}")
    functions = sum(1 for (crate, path, name) in plan.homes if path.endswith(CODE))
    print(f"{functions} items of code, {len(plan.homes)} in all")
    return 0


if __name__ == "__main__":
    sys.exit(main(sys.argv[1:]))
