#!/usr/bin/env python3
"""Says which imports of definitions and lemmas name nothing, or what may not be unfolded, by text alone: in seconds.

    names.py TOP [CRATE ..]

An import is a `use`, a `pub use` or a `ghost use` line of `Rattle.CRATE...` for a crate of the tree. Of what Rattle
generates it is asked whether the module of the code is there, and the type, if one is named.
"""

from __future__ import annotations

import functools
import os
import re
import sys
from dataclasses import dataclass

from tree import ANTT, CODE, Tree, files, read

USE = re.compile(
    r"(?m)^(?P<indent>[ \t]*)(?P<word>(?:unfoldable )?(?:pub )?(?:ghost )?use) (?P<path>Rattle\.[^\s{};]*?)"
    r"(?:\.\{(?P<items>[^}]*)\}| as (?P<alias>\S+?))?;?[ \t]*$"
)
WORD = r"[^\s(){}:;,.=→λ×⊎]+"
DECLARED = re.compile(rf"(?m)^[ \t]*(?:(?:pattern|unfoldable|abbrev|pub|axiom|data|record|ruleset|mutual) )*({WORD}(?: {WORD})*)(?: .*?)?(?= :| where|=|$)")


@dataclass
class Use:
    """An import: its words before the path, the path of the module, the items (None: the module itself), and how it is indented.

    One that is indented is of a block of a type's code, and stands for that alone."""

    word: str
    path: str
    items: list[str] | None
    alias: str | None
    indent: str = ""

    def names(self) -> list[tuple[str, str]]:
        """Each item, and the name that it has in the file."""
        found = []
        for it in self.items or []:
            name, _, other = it.partition(" as ")
            found.append((name.strip(), (other or name).strip()))
        return found


def uses_of(text: str) -> list[Use]:
    """The imports of a file, of this project's and of std's definitions."""
    found = []
    for it in USE.finditer(text):
        items = None if it["items"] is None else [one.strip() for one in it["items"].split(",") if one.strip()]
        found.append(Use(it["word"], it["path"], items, it["alias"], it["indent"]))
    return found


@functools.lru_cache(maxsize=None)
def words_of(path: str) -> frozenset[str]:
    """The words that may be names which a file of definitions or lemmas declares or passes on."""
    text = read(path)
    found: set[str] = set()
    for row in text.split("\n"):
        row = row.strip()
        if row.startswith("--"):
            continue
        if row.startswith(("use ", "mod ", "pub mod ")):
            continue
        found |= set(re.findall(WORD, row))
    for it in uses_of(text):
        if "pub" in it.word:
            found |= {name for _, name in it.names()}
    return frozenset(found)


class Names:
    """What the modules of a tree declare."""

    def __init__(self, tree: Tree) -> None:
        self.tree = tree

    def file_of(self, crate: str, part: str, steps: list[str]) -> str | None:
        """The file of a module of definitions or lemmas."""
        path = f"{self.tree.crates}/{crate}/{part}/" + "/".join(steps)
        return next((it for it in (f"{path}.antt", f"{path}/Lib.antt") if os.path.isfile(it)), None)

    def source_of(self, crate: str, steps: list[str]) -> tuple[str, list[str]] | None:
        """The file of code in which a path begins, and what is left of the path there."""
        root = f"{self.tree.crates}/{crate}/src"
        for count in range(len(steps), 0, -1):
            if os.path.isfile(path := f"{root}/{'/'.join(steps[:count])}.rt"):
                return path, steps[count:]
        return next(((it, steps) for it in (f"{root}/lib.rt", f"{root}/main.rt") if os.path.isfile(it)), None)

    def fault(self, use: Use) -> str | None:
        """What an import names that isn't there."""
        _, crate, part, *steps = [*use.path.split("."), ""]
        steps = [it for it in steps if it]
        if crate not in self.tree.names:
            return None if crate in ("std", "core") or os.path.isdir(f"/opt/rattle/rattle/{crate}") else f"no crate {crate}"
        if part not in ("specs", "proofs"):
            return f"no part {part}"
        if steps and steps[0] in ("declared", "contracts"):
            found = self.source_of(crate, steps[1:])
            if not found:
                return f"no code at {'.'.join(steps[1:])}"
            path, rest = found
            text = read(path)
            if rest and not rest[0].startswith("The") and not re.search(rf"\b(struct|enum|trait|type|fn|impl|mod|const|static|union) .*\b{re.escape(rest[0])}\b", text):
                # (an impl is named by the type and the trait, one after the other)
                of_impl = any(rest[0].startswith(it) for it in re.findall(r"\b(?:struct|enum|trait) (\w+)", text))
                if not of_impl and not re.search(rf"\b{re.escape(rest[0])}\b", text):
                    return f"{os.path.relpath(path, self.tree.top)} has no {rest[0]}"
            return None
        if part == "proofs" and steps and re.match(r"[a-z_+]", steps[0]):
            steps = steps[:-1] if steps[-1] in ("Goals", "Given") else steps
            folder = f"{self.tree.crates}/{crate}/proofs/" + "/".join(steps)
            if os.path.exists(folder) or os.path.isfile(f"{folder}.antt"):
                return None
            found = self.source_of(crate, steps)
            if found and (not found[1] or re.search(rf"\b(fn|impl|struct|enum) .*\b{re.escape(found[1][0])}\b", read(found[0]))):
                return None
            return f"no function at {'.'.join(steps)}"
        path = self.file_of(crate, part, steps)
        if path is None:
            return f"no module {use.path}"
        known = words_of(path)
        lost = [name for name, _ in use.names() if name.split(".")[0] not in known]
        return f"{os.path.relpath(path, self.tree.top)} has no {', '.join(lost)}" if lost else None


def unfolds(names: Names, path: str, text: str) -> list[str]:
    """What a file unfolds and imports, and may not unfold."""
    wanted = {one for row in re.findall(r"(?m)^\s*unfolding (.*)$", text) for one in row.split()}
    found = []
    for use in uses_of(text) if wanted else []:
        _, crate, part, *steps = use.path.split(".")
        file = names.file_of(crate, part, steps) if crate in names.tree.names and steps else None
        if not file or path.startswith(file.removesuffix(ANTT) + "/"):
            continue
        for name, called in use.names():
            if called not in wanted:
                continue
            declared = re.search(rf"(?m)^\s*((?:(?:pattern|unfoldable|abbrev|pub|mutual) )*)(?:{WORD} )*?{re.escape(name)}(?: .*)? :", read(file))
            passed = re.search(rf"(?m)^unfoldable (?:mutual$|pub use .*[{{ ]{re.escape(name)}[,}}])", read(file))
            if not passed and (not declared or not re.search("unfoldable|abbrev", declared[1])):
                found.append(f"{os.path.relpath(path, names.tree.top)}: {name} of {use.path} can't be unfolded there")
    return found


def faults(tree: Tree, crates: list[str]) -> list[str]:
    """The imports of crates that name nothing, and modules that no root names."""
    names, found = Names(tree), []
    for crate in crates:
        below = {"std", "core", crate, *tree.entry(crate).below}
        for path in tree.texts(crate):
            found += unfolds(names, path, read(path)) if path.endswith(ANTT) else []
            for use in uses_of(read(path)):
                if fault := names.fault(use):
                    found.append(f"{os.path.relpath(path, tree.top)}: {use.path}: {fault}")
                elif use.path.split(".")[1] not in below:
                    found.append(f"{os.path.relpath(path, tree.top)}: {use.path}: crates.txt doesn't put it below {crate}")
        found += unnamed(tree, crate)
    return found


def unnamed(tree: Tree, crate: str) -> list[str]:
    """Files of a crate that no line of a root or of a module names."""
    found = []
    root = f"{tree.crates}/{crate}"
    for part in ("specs", "proofs"):
        for path in files(f"{root}/{part}", ANTT):
            inside = os.path.relpath(path, f"{root}/{part}")[:-5].split("/")
            if inside[-1] == "Lib" or any(re.match(r"[a-z_+]", it) for it in inside):
                continue
            parent = f"{root}/{part}/" + ("/".join(inside[:-1]) + ".antt" if inside[:-1] else "Lib.antt")
            if not os.path.isfile(parent) or not re.search(rf"(?m)^(pub )?mod {inside[-1]}$", read(parent)):
                found.append(f"{os.path.relpath(path, tree.top)}: no mod line")
    for path in files(f"{root}/src", CODE):
        inside = os.path.relpath(path, f"{root}/src")[:-3].split("/")
        if inside[-1] in ("lib", "main"):
            continue
        parents = [f"{root}/src/{'/'.join(inside[:-1])}.rt"] if inside[:-1] else [f"{root}/src/lib.rt", f"{root}/src/main.rt"]
        if not any(os.path.isfile(it) and re.search(rf"\bmod {inside[-1]}\b", read(it)) for it in parents):
            found.append(f"{os.path.relpath(path, tree.top)}: no mod line")
    for folder, folders, names in os.walk(f"{root}/proofs"):
        inside = os.path.relpath(folder, f"{root}/proofs").split("/")
        if re.match(r"[a-z_]", inside[0]) and "Answers.antt" in names:
            steps = [it for it in inside if not it.startswith("+")]
            if not os.path.isfile(f"{root}/src/{steps[0]}.rt") and not any(
                re.search(rf"\bfn {steps[0]}\b", read(it)) for it in files(f"{root}/src", "lib.rt", "main.rt")
            ):
                found.append(f"{os.path.relpath(folder, tree.top)}: a proof of no function")
    return found


def main(words: list[str]) -> int:
    """Tells each fault, and ends with 1 if there are any."""
    if not words:
        print(__doc__)
        return 2
    tree = Tree(words[0])
    found = faults(tree, words[1:] or tree.names)
    print("\n".join([*found, f"{len(found)} faults"]))
    return 1 if found else 0


if __name__ == "__main__":
    sys.exit(main(sys.argv[1:]))
