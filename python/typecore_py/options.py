"""The words of the program."""

from __future__ import annotations

import argparse

from . import __version__
from .telling import MOST_BODIES

MOST_UNITS = 1_000_000_000

ABOUT = """Runs Python source on the machine: each statement is one command, and is answered beside its line. What
the machine's language can't say is refused by name, and nothing is run."""

ENDS = """exit status: 0 all was told; 1 an answer differs from Python's, and is not known to; 2 these words; 3 the
source is refused; 4 it can't be read; 5 the answers can't be written; 6 the machine can't be run, or failed; 130 and
the like: it was told to stop. Known differences from Python are listed in docs/DIFFERENCES.md; a comment
'# differs: NAME' marks one."""


def units(word: str) -> int:
    """The number of units that a word spells."""
    if not (word.isascii() and word.isdigit() and 1 <= int(word) <= MOST_UNITS) or word.startswith("0"):
        raise argparse.ArgumentTypeError(f"a number from 1 to {MOST_UNITS} is wanted, and not {word!r}")
    return int(word)


def bodies(word: str) -> int | None:
    """How many lines of bodies a word asks for: none is all of them."""
    if word != "all" and not (word.isascii() and word.isdigit()):
        raise argparse.ArgumentTypeError(f"a number or 'all' is wanted, and not {word!r}")
    return None if word == "all" else int(word)


def seconds(word: str) -> float:
    """A number of seconds."""
    try:
        found = float(word)
    except ValueError:
        found = 0
    if not 0 < found <= 86_400:
        raise argparse.ArgumentTypeError(f"a number of seconds is wanted, and not {word!r}")
    return found


def parser() -> argparse.ArgumentParser:
    """The words and what they mean."""
    made = argparse.ArgumentParser(prog="typecore-py", description=ABOUT, epilog=ENDS)
    made.add_argument("files", nargs="*", metavar="FILE.py", help="a Python source, or - for standard input")
    made.add_argument("-c", dest="text", metavar="TEXT", help="run this source in place of a file")
    made.add_argument("-i", dest="prompt", action="store_true", help="ask for statements, after those of a file if any")
    made.add_argument(
        "--print", choices=("man", "bash", "zsh"), help="print the manual page, or what a shell completes by"
    )
    made.add_argument("--version", action="version", version=f"typecore-py {__version__}")
    made.add_argument("--units", type=units, default=100_000, metavar="N", help="what each command may spend (100000)")
    made.add_argument(
        "--bodies",
        type=bodies,
        default=MOST_BODIES,
        metavar="N",
        help=f"how many lines of bodies are told of a command, or 'all' ({MOST_BODIES})",
    )
    made.add_argument("--where", action="store_true", help="tell of each fault which bodies were open, and where")
    how = made.add_mutually_exclusive_group()
    how.add_argument("--script", action="store_true", help="print the script that the source becomes, and run nothing")
    how.add_argument(
        "--hierarchy",
        action="store_true",
        help="print the classes of sources or modules with their bases, as ./typecore check reads them",
    )
    how.add_argument("--against-python", action="store_true", help="tell where Python itself answers otherwise")
    how.add_argument("--quiet", action="store_true", help="tell values, faults and what is printed alone")
    how.add_argument("--json", action="store_true", help="tell all as JSON: lines, sources, bodies, ends and classes")
    how.add_argument("--graph", action="store_true", help="tell the classes as a graph for Graphviz")
    how.add_argument("--html", metavar="OUT.html", help="write one page: source, answers and classes")
    made.add_argument(
        "--check",
        action="store_true",
        help="find each class's order, of sources that aren't run or of modules by their names, and tell conflicts",
    )
    made.add_argument("--watch", action="store_true", help="run the file again whenever it changes")
    made.add_argument("--seconds", type=seconds, default=10.0, metavar="N", help="what Python may take a command (10)")
    made.add_argument("--now", action="store_true", help="run ./typecore --now: not proved, built in a minute or two")
    made.add_argument("--machine", metavar="PROGRAM", help="run this built program in place of ./typecore")
    return made


def words(given: list[str] | None) -> argparse.Namespace:
    """What the words of the program ask for. Ends the program where they are wrong."""
    made = parser()
    asked = made.parse_args(given)
    if asked.print:
        return asked
    if asked.text is not None and asked.files:
        made.error("-c is in place of a file")
    if asked.text is None and not asked.files and not asked.prompt:
        made.error("a FILE.py is wanted, or -c TEXT, or -i for a prompt")
    single = [word for word in ("script", "json", "graph", "html", "watch", "prompt") if getattr(asked, word)]
    if single and len(asked.files) > 1:
        made.error(f"{'-i' if single[0] == 'prompt' else '--' + single[0]} takes one file")
    if asked.watch and (asked.text is not None or "-" in asked.files):
        made.error("--watch is of a file")
    if asked.check:
        ways = ("script", "hierarchy", "quiet", "json", "graph", "html", "watch", "prompt", "where")
        if asked.text is not None or any(getattr(asked, it) for it in ways):
            made.error("--check is of files or modules, and goes with --against-python alone of the ways to tell")
    if asked.hierarchy and (asked.text is not None or any(getattr(asked, it) for it in ("watch", "prompt", "where"))):
        made.error("--hierarchy is of files or modules, and goes with no other way to tell")
    others = ("check", "watch", "script", "json", "graph", "html", "against_python")
    if asked.prompt and any(getattr(asked, it) for it in others):
        made.error("-i goes with --quiet alone of the ways to tell")
    if asked.now and asked.machine:
        made.error("--now is of ./typecore, and not of another program")
    return asked
