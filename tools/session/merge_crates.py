#!/usr/bin/env python3
"""Makes crates modules of another crate, by text alone.

    merge_crates.py TOP TARGET SOURCE[=MODULE] ..    TARGET may be there already: its own modules stay at its root

The code of SOURCE becomes the module MODULE (the source's name, where none is given) of TARGET, its definitions and
lemmas the module of that name in capitals (`native_calls`: NativeCalls), and the proofs of its functions follow.
Texts of all crates, crates.txt, edits/ and bench/ are rewritten; docs_names.py does the same for documents.
"""

from __future__ import annotations

import os
import re
import shutil
import sys
import textwrap

from tree import ANTT, CODE, Moves, Tree, files, read, write


def clashes(tree: Tree, moves: Moves) -> list[str]:
    """Names of the target that a module of a source would have too, but for case."""
    found = []
    root = f"{tree.crates}/{moves.target}"
    if not os.path.isdir(root):
        return found
    for part, name_of in (("src", moves.modules.get), ("specs", moves.spec), ("proofs", moves.spec)):
        taken = {os.path.splitext(it)[0].lower() for it in os.listdir(f"{root}/{part}")} if os.path.isdir(f"{root}/{part}") else set()
        for source in moves.modules:
            if (name := name_of(source)).lower() in taken:
                found.append(f"{moves.target}/{part} has a {name} already")
    for source, module in moves.modules.items():
        if re.search(rf"(?m)^(pub )?(mod|fn|struct|enum|use .*\W){module}\b", read(f"{root}/src/lib.rt")):
            found.append(f"{moves.target}/src/lib.rt has a {module} already")
    return found


def rewrite(tree: Tree, moves: Moves) -> None:
    """The texts of all crates name what moves by its new paths."""
    for entry in tree.entries:
        for path in tree.texts(entry.name):
            text = moves.antt(was := read(path))
            if path.endswith(CODE):
                text = moves.code(text, entry.name, entry.below)
                if entry.name != moves.target and entry.name not in moves.modules:
                    text = in_comments(text, moves)
            if text != was:
                write(path, text)


def in_comments(text: str, moves: Moves) -> str:
    """Comments of other crates that name a source: where it has a name that no module or call has beside it."""
    names = "|".join(it for it in moves.modules if "_" in it)
    if not names:
        return text
    return re.sub(r"(?m)^ *//.*$", lambda row: re.sub(rf"`({names})`", lambda it: f"`{moves.target}::{moves.modules[it[1]]}`", row[0]), text)


def open_modules(text: str) -> str:
    """All modules of a root are public: what was below the root of a crate is beside them now."""
    return re.sub(r"(?m)^mod ", "pub mod ", text)


def move_files(tree: Tree, moves: Moves) -> None:
    """The files of the sources stand in the target."""
    for source in moves.modules:
        for path in [it for part in ("src", "specs", "proofs") for it in files(f"{tree.crates}/{source}/{part}")]:
            new = f"{tree.crates}/{moves.path(os.path.relpath(path, tree.crates))}"
            if os.path.exists(new):
                raise SystemExit(f"{new} is there already")
            os.makedirs(os.path.dirname(new), exist_ok=True)
            shutil.move(path, new)
        others = [it for it in files(f"{tree.crates}/{source}") if "/out/" not in it]
        if others:
            raise SystemExit(f"only libraries can be merged, and {others[0]} is of a program")
        shutil.rmtree(f"{tree.crates}/{source}")


def add_lines(tree: Tree, moves: Moves, about: str) -> None:
    """The roots of the target name the new modules."""
    root = f"{tree.crates}/{moves.target}"
    for part in ("specs", "proofs"):
        for source in moves.modules:
            if os.path.isfile(lib := f"{root}/{part}/{moves.spec(source)}.antt"):
                write(lib, open_modules(read(lib)))
                top = f"{root}/{part}/Lib.antt"
                write(top, (read(top) if os.path.isfile(top) else "") + f"pub mod {moves.spec(source)}\n")
    lib = f"{root}/src/lib.rt"
    lines = [f"pub mod {it};" for it in moves.modules.values()]
    if not os.path.isfile(lib):
        write(lib, f"{head_of(about)}#![tactic(auto)]\n\n" + "\n".join(sorted(lines)) + "\n")
        return
    rows = with_head(read(lib), about).rstrip("\n").split("\n")
    at = [number for number, it in enumerate(rows) if re.match(r"(pub )?mod \w+;$", it)]
    if at:
        block = sorted([*(rows[it] for it in at), *lines], key=lambda it: it.split("mod ")[1])
        first = at[0]
        rows = [it for number, it in enumerate(rows) if number not in set(at)]
        rows[first:first] = block
    else:
        head = max((number for number, it in enumerate(rows) if re.match(r"//!|#!\[|ghost use |use |pub use |    .*|};?$", it) and not
                    any(re.match(r"///?(?!/|!)|pub (fn|enum|struct|type|const)|fn |enum |struct |#\[", row) for row in rows[:number])), default=-1)
        rows[head + 1:head + 1] = ["", *sorted(lines)]
    write(lib, "\n".join(rows) + "\n")


def comment(text: str) -> str:
    """A paragraph at the head of a file of code."""
    return "".join(f"//! {it}\n" for it in textwrap.wrap(text, 116))


def head_of(about: str) -> str:
    """What a crate is, up to a semicolon, as the comment at its root."""
    first = about.partition(";")[0]
    return comment(f"{first[:1].upper()}{first[1:]}.")


def with_head(text: str, about: str) -> str:
    """The root of a crate that gets modules: what the whole crate is, and then what its root was said to be."""
    said = re.match(r"(//! .*\n)+", text)
    if not about or not said or text.startswith(head_of(about)):
        return text
    of_root = " ".join(it[4:] for it in said[0].splitlines())
    return f"{head_of(about)}//!\n{comment(f'At the root: {of_root[:1].lower()}{of_root[1:]}')}{text[said.end():]}"


def join_lines(tree: Tree, moves: Moves) -> None:
    """crates.txt: the target stands where the last of its sources stood, on all that they stood on."""
    gone = {*moves.modules, moves.target}
    last, below, settings = 0, [], {}
    for number, entry in enumerate(tree.entries):
        if entry.name in gone:
            last = number
            below += [it for it in entry.below if it not in below and it not in gone]
            for word in entry.settings:
                key, _, value = word.partition("=")
                if key in settings and value.isdigit():
                    value = str(int(settings[key]) + int(value))
                settings[key] = value
    made = []
    for number, entry in enumerate(tree.entries):
        if number == last:
            entry.name, entry.settings, entry.below = moves.target, [f"{k}={v}" if v else k for k, v in settings.items()], below
            made.append(entry)
        elif entry.name not in gone:
            entry.below = list(dict.fromkeys(moves.target if it in gone else it for it in entry.below))
            made.append(entry)
    tree.entries = made
    tree.levels()
    tree.save()


def move_edits(tree: Tree, moves: Moves, below: dict[str, list[str]]) -> None:
    """The wrong bodies of the sources are the target's, and all name what moved by its new paths."""
    for crate in sorted(os.listdir(tree.edits)):
        for path in tree.edit_files(crate):
            text = moves.antt(read(path))
            if crate in moves.modules:
                text = re.sub(r"(?m)^file: (\S+)$", lambda it: "file: " + moves.path(f"{crate}/{it[1]}").partition("/")[2], text)
            rows = text.split("\n")
            rows = [moves.code(it, crate, below.get(crate, [])) if it.startswith(("old:", "new:")) else it for it in rows]
            if crate in moves.modules:
                rows = [re.sub(r"^# fn: (?=\S)", f"# fn: {moves.modules[crate]}::", it) if it.startswith("# fn:") else it for it in rows]
                os.remove(path)
                path = f"{tree.edits}/{moves.target}/{os.path.basename(path)}"
                if os.path.exists(path):
                    path = path.replace(".edit", f"_of_{moves.modules[crate]}.edit")
            write(path, "\n".join(rows))
    for source in moves.modules:
        if os.path.isdir(folder := f"{tree.edits}/{source}") and not os.listdir(folder):
            os.rmdir(folder)
    if os.path.isfile(record := f"{tree.edits}/tried.txt"):
        gone = set(moves.modules)
        write(record, "".join(it + "\n" for it in read(record).splitlines() if it.split()[:1] and it.split()[0] not in gone))


def follow_benches(tree: Tree, moves: Moves, old: list[str]) -> None:
    """Programs in bench/ that are built of this tree's crates name them and their paths."""
    for path in files(f"{tree.top}/bench"):
        try:
            was = read(path)
        except UnicodeDecodeError:
            continue
        if "NEEDS" not in was:
            continue
        rows = []
        for row in moves.paths(was, "", old).split("\n"):
            if re.match(r"NEEDS = |.*\{NAME\}: ", row):
                row = renamed_list(row, moves)
            rows.append(row)
        write(path, "\n".join(rows))


def renamed_list(row: str, moves: Moves) -> str:
    """A line that lists crates, each once."""
    for source in moves.modules:
        row = re.sub(rf"\b{source}\b", moves.target, row)
    target, seen = moves.target, False

    def once(found: re.Match[str]) -> str:
        nonlocal seen
        again, seen = seen, True
        return "" if again else found[0]

    row = re.sub(rf'"{target}", |, "{target}"(?=\])| {target}\b|{target} ' if '"' + target + '"' in row else rf"\b{target} | {target}\b", once, row)
    return row


def merge(tree: Tree, target: str, modules: dict[str, str], about: str = "") -> Moves:
    """Makes crates modules of a crate. Gives the moves that were made."""
    moves = Moves(target, modules)
    for name in modules:
        if name not in tree.names:
            raise SystemExit(f"there is no crate {name}")
    if faults := clashes(tree, moves):
        raise SystemExit("\n".join(faults))
    old = tree.names
    below = {it.name: list(it.below) for it in tree.entries}
    rewrite(tree, moves)
    move_files(tree, moves)
    add_lines(tree, moves, about)
    join_lines(tree, moves)
    move_edits(tree, moves, below)
    follow_benches(tree, moves, old)
    return moves


def rename(tree: Tree, old: str, new: str, about: str) -> None:
    """Gives a crate another name."""
    for entry in tree.entries:
        for path in tree.texts(entry.name):
            text = re.sub(rf"\bRattle\.{old}\.", f"Rattle.{new}.", was := read(path))
            if path.endswith(CODE) and old in entry.below:
                text = re.sub(rf"(?<![\w:.$]){old}::", f"{new}::", text)
            if text != was:
                write(path, text)
    shutil.move(f"{tree.crates}/{old}", f"{tree.crates}/{new}")
    lib = f"{tree.crates}/{new}/src/lib.rt"
    write(lib, re.sub(r"\A(//!.*\n)+", f"//! {about[:1].upper()}{about[1:]}.\n", read(lib)))
    for entry in tree.entries:
        entry.name = new if entry.name == old else entry.name
        entry.below = [new if it == old else it for it in entry.below]
    tree.save()
    for crate in sorted(os.listdir(tree.edits)):
        for path in tree.edit_files(crate):
            text = re.sub(rf"\bRattle\.{old}\.", f"Rattle.{new}.", read(path))
            write(path, re.sub(rf"(?<![\w:.$]){old}::", f"{new}::", text))
    if os.path.isdir(f"{tree.edits}/{old}"):
        shutil.move(f"{tree.edits}/{old}", f"{tree.edits}/{new}")
    if os.path.isfile(record := f"{tree.edits}/tried.txt"):
        write(record, "".join(it + "\n" for it in read(record).splitlines() if it.split()[:1] != [old]))


def left_over(tree: Tree, moves: Moves) -> list[str]:
    """Places of code, definitions and proofs that still name a source as a crate."""
    words = "|".join(moves.modules)
    found = []
    for name in tree.names:
        for path in tree.texts(name):
            for number, row in enumerate(read(path).split("\n"), 1):
                if path.endswith(ANTT) and re.search(rf"\bRattle\.({words})\b", row):
                    found.append(f"{path}:{number}: {row.strip()}")
                elif path.endswith(CODE) and not row.lstrip().startswith("//"):
                    if re.search(rf"\bRattle\.({words})\b|(?<![\w:.])use ({words})\b(?!::)", row):
                        found.append(f"{path}:{number}: {row.strip()}")
    return found


def main(words: list[str]) -> int:
    """Merges, and tells what is left."""
    if len(words) < 3:
        print(__doc__)
        return 2
    tree = Tree(words[0])
    modules = {it.partition("=")[0]: it.partition("=")[2] or it for it in words[2:]}
    moves = merge(tree, words[1], modules, "" if words[1] in tree.names else "several subjects, each a module")
    for it in left_over(tree, moves):
        print(it)
    chain = tree.chain()
    print(f"{len(tree.names)} crates, and {len(chain)} in the longest chain: {' '.join(chain)}")
    return 0


if __name__ == "__main__":
    sys.exit(main(sys.argv[1:]))
