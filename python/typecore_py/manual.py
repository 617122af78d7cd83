"""The words of the program as a manual page, and as what shells complete them by, as the parser has them."""

from __future__ import annotations

import argparse
from collections.abc import Callable, Iterator

from . import __version__

SECTIONS = {
    "FILES": "./typecore is the machine. TYPECORE_MACHINE names its program where typecore-py was installed "
    "without it.",
    "SEE ALSO": "docs/PYTHON.md tells what of Python can be said, docs/DIFFERENCES.md what is answered otherwise, and "
    "docs/CHECK.md what --check tells.",
}


def actions(parser: argparse.ArgumentParser) -> Iterator[argparse.Action]:
    """The options that the parser knows, in their order."""
    return (it for it in parser._actions if it.option_strings and it.help is not argparse.SUPPRESS)


def escaped(text: str) -> str:
    """A text as a manual page has it."""
    text = text.replace("\\", "\\e").replace("-", "\\-")
    return f"\\&{text}" if text[:1] in (".", "'") else text


def man(parser: argparse.ArgumentParser) -> str:
    """The manual page: groff's man macros."""
    about, ends = (" ".join((it or "").split()) for it in (parser.description, parser.epilog))
    lines = [
        f'.TH TYPECORE\\-PY 1 "" "typecore\\-py {__version__}"',
        ".SH NAME",
        "typecore\\-py \\- runs Python source on a proved object model",
        ".SH SYNOPSIS",
        escaped(" ".join(parser.format_usage().removeprefix("usage: ").split())),
        ".SH DESCRIPTION",
        escaped(about),
        ".SH OPTIONS",
    ]
    for it in actions(parser):
        value = f" {it.metavar}" if it.nargs != 0 and it.metavar else ""
        lines += [".TP", "\\fB" + escaped(", ".join(it.option_strings)) + "\\fR" + escaped(value)]
        lines.append(escaped(" ".join((it.help or "").split())))
    sections = {"EXIT STATUS": ends.removeprefix("exit status: "), **SECTIONS}
    for name, text in sections.items():
        lines += [f".SH {name}", escaped(text)]
    return "\n".join(lines) + "\n"


def bash(parser: argparse.ArgumentParser) -> str:
    """What bash completes the words by."""
    words = " ".join(word for it in actions(parser) for word in it.option_strings)
    return f"""_typecore_py() {{
  local word=${{COMP_WORDS[COMP_CWORD]}}
  if [[ $word == -* ]]; then
    COMPREPLY=($(compgen -W '{words}' -- "$word"))
  else
    COMPREPLY=($(compgen -f -X '!*.py' -- "$word") $(compgen -d -- "$word"))
  fi
}}
complete -o filenames -F _typecore_py typecore-py
"""


def zsh(parser: argparse.ArgumentParser) -> str:
    """What zsh completes the words by."""
    lines = ["#compdef typecore-py", "_arguments \\"]
    for it in actions(parser):
        told = " ".join((it.help or "").split()).translate({ord(sign): f"\\{sign}" for sign in "[]:"})
        told = told.replace("'", "'\\''")
        value = f":{it.metavar.lower()}:" if it.nargs != 0 and it.metavar else ""
        lines += [f"  '{word}[{told}]{value}' \\" for word in it.option_strings]
    return "\n".join([*lines, "  '*:source:_files -g \"*.py\"'"]) + "\n"


PAGES: dict[str, Callable[[argparse.ArgumentParser], str]] = {"man": man, "bash": bash, "zsh": zsh}
