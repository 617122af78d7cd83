#!/usr/bin/env python3
"""Gives modules of code another name, by text alone: the file, the folder of its proofs, and all that names it.

    rename_modules.py TOP CRATE::MODULE[::MODULE ..]=NAME ..    NAME takes the place of the last module

What has that name already is left as it is, so that the same words can be given for a later state of the tree. Wrong
bodies and documents follow where they name the file.
"""

from __future__ import annotations

import os
import re
import subprocess
import sys

from tree import files, read, write


def renamed(text: str, crate: str, path: list[str], name: str, own: bool) -> str:
    """A text of any crate: paths that go through the module, in code and in definitions."""
    old, new = "::".join(path), "::".join([*path[:-1], name])
    text = re.sub(rf"\b{crate}::{old}\b(?!\.rt)", f"{crate}::{new}", text)
    if own:
        text = re.sub(rf"\bcrate::{old}\b", f"crate::{new}", text)
    dots, new_dots = ".".join(path), ".".join([*path[:-1], name])
    for part in ("specs.contracts", "specs.declared", "proofs"):
        text = re.sub(rf"\bRattle\.{crate}\.{re.escape(part)}\.{re.escape(dots)}(?=\.)", f"Rattle.{crate}.{part}.{new_dots}", text)
    return re.sub(rf"\b{crate}/src/{'/'.join(path)}(?=\.rt|/)", f"{crate}/src/{'/'.join([*path[:-1], name])}", text)


def rename(top: str, crate: str, path: list[str], name: str) -> bool:
    """Renames one module, where it is there."""
    root = f"{top}/crates/{crate}"
    at, to = "/".join(path), "/".join([*path[:-1], name])
    if not os.path.isfile(f"{root}/src/{at}.rt"):
        return False
    for part in (f"src/{at}.rt", f"src/{at}", f"proofs/{at}", f"proofs/{at}.antt"):
        if os.path.exists(f"{root}/{part}"):
            goal = f"{root}/{part.replace(at, to, 1)}"
            os.makedirs(os.path.dirname(goal), exist_ok=True)
            subprocess.run(["git", "-C", top, "mv", os.path.relpath(f"{root}/{part}", top), os.path.relpath(goal, top)], check=True)
    parent = f"{root}/src/{'/'.join(path[:-1]) or 'lib'}.rt"
    last = path[-1]
    text = read(parent)
    text = re.sub(rf"(?m)^((?:pub(?:\(\w+\))? )?mod ){last};", rf"\g<1>{name};", text)
    text = re.sub(rf"(?m)^((?:pub(?:\(\w+\))? )?use ){last}::", rf"\g<1>{name}::", text)
    write(parent, re.sub(rf"(?<![\w:.]){last}::(?=\w)", f"{name}::", text))
    for file in files(f"{top}/crates", ".rt", ".antt"):
        own = file.startswith(f"{root}/")
        write(file, renamed(read(file), crate, path, name, own))
    for folder in ("edits", "docs"):
        for file in files(f"{top}/{folder}", ".edit", ".md", ".txt"):
            text = renamed(read(file), crate, path, name, False)
            if folder == "edits" and os.path.basename(os.path.dirname(file)) == crate:
                text = re.sub(rf"(?m)^(file: (?:\.\./)*src/){at}(?=\.rt|/)", rf"\g<1>{to}", text)
            write(file, text)
    return True


def main(words: list[str]) -> int:
    """The command line."""
    if len(words) < 2 or not all("=" in it for it in words[1:]):
        print(__doc__)
        return 2
    for word in words[1:]:
        path, name = word.split("=")
        crate, *modules = path.split("::")
        print(word, "renamed" if rename(words[0], crate, modules, name) else "is not there")
    return 0


if __name__ == "__main__":
    sys.exit(main(sys.argv[1:]))
