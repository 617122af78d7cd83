#!/usr/bin/env python3
"""Documents follow crates that became modules, and functions that moved to another crate.

    docs_names.py TOP TARGET SOURCE[=MODULE] ..    the names alone, after merge_crates.py with the same words

What is rewritten: paths of files and of code, names in backquotes, the headings of docs/PROVED.md, the crates of
docs/ARCHITECTURE.md (a module stands below its crate, and each crate below what it stands on), and the longest chain in
docs/GATE.md. The measured minutes there keep the names that crates had; a line says so. What is said in prose, as how
many crates are of one group, is for a reader to see.
"""

from __future__ import annotations

import os
import re
import sys
from fnmatch import fnmatchcase

from tree import Moves, Tree, read, write

THEN = "as sampled in the first of these runs"


def documents(tree: Tree) -> list[str]:
    """The documents whose names follow: not CHANGES.md, which tells what was."""
    found = [f"{tree.top}/docs/{it}" for it in sorted(os.listdir(f"{tree.top}/docs")) if it.endswith(".md")]
    return [f"{tree.top}/README.md", *found]


def named(tree: Tree, text: str, moves: Moves) -> str:
    """A text whose paths and names follow."""
    words = "|".join(sorted(moves.modules, key=len, reverse=True))
    target = moves.target

    def path_of(found: re.Match[str]) -> str:
        # (a crate may have a module by the name of another crate)
        root = f"{tree.crates}/{target}/src/{moves.modules[found[1]]}.rt"
        is_its_own = os.path.isfile(root) and re.search(rf"\b{found[2]}\b", read(root))
        return f"{target}::{moves.modules[found[1]]}::{found[2]}" if is_its_own or found[2] == "{" else found[0]

    text = re.sub(rf"(?<![\w/:])((?:crates/)?)((?:{words})/(?:src|specs|proofs)(?:/[\w./+]*\w)?)", lambda it: it[1] + moves.path(it[2]), text)
    text = re.sub(rf"\bedits/({words})/", f"edits/{target}/", text)
    text = re.sub(rf"\bcrates/({words})\b(?!/)", lambda it: f"crates/{target}/src/{moves.modules[it[1]]}", text)
    text = re.sub(rf"(?<![\w:./])({words})::(\w+|\{{)", path_of, text)
    return re.sub(rf"`({words})`", lambda it: f"`{target}::{moves.modules[it[1]]}`", text)


def with_rows(tree: Tree, text: str, moves: Moves) -> str:
    """docs/PROVED.md: the calls and the clauses of a row are named without their crate, and stay."""
    rows = []
    for row in text.split("\n"):
        if cells := re.fullmatch(r"(\|[^|]*\|[^|]*\|)(.*)", row):
            rows.append(cells[1] + named(tree, cells[2], moves))
        else:
            rows.append(named(tree, row, moves))
    return "\n".join(rows)


def with_minutes(tree: Tree, text: str, moves: Moves) -> str:
    """docs/GATE.md: the table of minutes keeps its names, and the text before and after it follows."""
    table = re.search(r"(?m)^\| crate \| minutes \|\n(\|.*\n)+", text)
    if not table:
        return named(tree, text, moves)
    before, after = text[: table.start()], text[table.end() :]
    if re.search(rf"`({'|'.join(moves.modules)})`", table[0]) and not re.search(r"the\s+names\s+that\s+crates\s+had", before):
        before = before.replace(THEN, f"{THEN}, under the names that crates had then")
    return named(tree, before, moves) + table[0] + named(tree, after, moves)


def with_chain(tree: Tree, text: str) -> str:
    """docs/GATE.md: the longest chain, without the programs over it."""
    chain = [it for it in tree.chain() if os.path.isfile(f"{tree.crates}/{it}/src/lib.rt")]
    said = ", ".join(f"`{it}`" for it in chain)
    return re.sub(r"The longest chain is [^.]*?,\s+and\s+the\s+programs\s+over\s+it", f"The longest chain is {said}, and the programs over it", text)


def filled(text: str, was: str, width: int = 120) -> str:
    """A document whose paragraphs with a new line that is too long are filled anew; tables and what is in fences stay."""
    old = set(was.split("\n"))
    done: list[str] = []
    part: list[str] = []
    is_code = False

    def close() -> None:
        if any(len(it) > width and it not in old for it in part):
            hang = re.match(r"[ ]*(?:- |\d+\. )?", part[0])[0]
            words, row, rows = " ".join(part)[len(hang) :].split(), hang, []
            for word in words:
                if row.strip() and row != hang and len(row) + 1 + len(word) > width:
                    rows.append(row)
                    row = " " * len(hang) + word
                else:
                    row = row + word if row == hang else f"{row} {word}"
            done.extend([*rows, row])
        else:
            done.extend(part)
        part.clear()

    for row in text.split("\n"):
        if row.lstrip().startswith("```"):
            is_code = not is_code
        if is_code or not row.strip() or row.startswith(("|", "#", "```", "    ")) or row.lstrip().startswith("```"):
            close()
            done.append(row)
            continue
        if re.match(r" *(- |\d+\. )", row):
            close()
        part.append(row)
    close()
    return "\n".join(done)


def row_name(row: str) -> str:
    """The crate of a row of docs/ARCHITECTURE.md."""
    found = re.match(r"\| `([\w:]+)`", row)
    return found[1] if found else ""


def in_order(tree: Tree, rows: list[str]) -> list[str]:
    """The rows of crates, each with its modules' rows after it and all that it stands on before it."""
    modules: dict[str, list[str]] = {}
    crates: list[str] = []
    for it in rows:
        name, _, module = row_name(it).partition("::")
        if module:
            modules.setdefault(name, []).append(it)
        else:
            crates.append(it)
    told = {row_name(it) for it in crates}
    done: list[str] = []
    while crates:
        known = {row_name(it) for it in done}
        ready = lambda it: row_name(it) not in tree.names or not (set(tree.below(row_name(it))) & told) - known
        row = next((it for it in crates if ready(it)), crates[0])
        crates.remove(row)
        done.append(row)
    return [line for it in done for line in (it, *modules.get(row_name(it), []))]


def with_crates(tree: Tree, text: str, moves: Moves, about: str) -> str:
    """docs/ARCHITECTURE.md: what was a crate is a module's row below that of the target."""
    table = re.search(r"(?m)(^\| crate \| what it is \|.*\n\|[-|]+\n)((?:\|.*\n)+)", text)
    if not table:
        return named(tree, text, moves)
    rows = named(tree, table[2], moves).rstrip("\n").split("\n")
    if moves.target not in {row_name(it) for it in rows}:
        first = next((number for number, it in enumerate(rows) if row_name(it).startswith(f"{moves.target}::")), len(rows))
        rows.insert(first, f"| `{moves.target}` | {about} | |")
    if about:
        rows = [re.sub(r"^(\| `\w+` \|)[^|]*\|", lambda found: f"{found[1]} {about} |", it) if row_name(it) == moves.target else it for it in rows]
    rows = in_order(tree, rows)
    return named(tree, text[: table.start()], moves) + table[1] + "\n".join(rows) + "\n" + named(tree, text[table.end() :], moves)


def follow(tree: Tree, moves: Moves, about: str) -> None:
    """All documents follow a merge."""
    for path in documents(tree):
        was, name = read(path), os.path.basename(path)
        text = was
        if name == "GATE.md":
            text = with_chain(tree, with_minutes(tree, text, moves))
        elif name == "ARCHITECTURE.md":
            text = with_crates(tree, text, moves, about)
        elif name == "PROVED.md":
            text = with_rows(tree, text, moves)
        else:
            text = named(tree, text, moves)
        write(path, filled(text, was))
    for name in ("check_examples.py",):
        if os.path.isfile(path := f"{tree.top}/docs/{name}"):
            text = read(path)
            for source in moves.modules:
                text = re.sub(rf'"{source}" / "src" / "(\w+)\.rt"', lambda it: f'"{moves.target}" / "src" / "{moves.modules[source]}" / "{it[1]}.rt"', text)
            write(path, text)


def rename(tree: Tree, old: str, new: str, about: str) -> None:
    """All documents follow a crate that has another name, and says another thing of itself, but for the table of minutes."""
    for path in documents(tree):
        text = read(path)
        table = re.search(r"(?m)^\| crate \| minutes \|\n(\|.*\n)+", text)
        keeps = table.span() if table else (0, 0)
        parts = [text[: keeps[0]], text[keeps[0] : keeps[1]], text[keeps[1] :]]
        parts[0], parts[2] = (re.sub(rf"\b{old}\b", new, it) for it in (parts[0], parts[2]))
        made = "".join(parts)
        made = re.sub(rf"(?m)^\| `{new}` \| [^|]* \|", lambda _: f"| `{new}` | {about} |", made)
        if path.endswith("PROVED.md"):
            made = re.sub(r"(?m)^### .*$", lambda it: with_name(it[0], old, new), made)
        write(path, filled(made, text))


def with_name(heading: str, old: str, new: str) -> str:
    """A heading that was of a crate by a star is of it by its new name."""
    names = re.findall(r"`([^`]+)`", heading)
    if any("*" in it and fnmatchcase(old, it) for it in names) and not any(fnmatchcase(new, it) for it in names):
        return f"{heading}, `{new}`"
    return heading


def main(words: list[str]) -> int:
    """Documents follow one merge that was made."""
    if len(words) < 3:
        print(__doc__)
        return 2
    modules = {it.partition("=")[0]: it.partition("=")[2] or it for it in words[2:]}
    follow(Tree(words[0]), Moves(words[1], modules), "several subjects, each a module")
    return 0


if __name__ == "__main__":
    sys.exit(main(sys.argv[1:]))
