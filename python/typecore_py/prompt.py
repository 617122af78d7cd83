"""A prompt: each statement is answered at once, after all that were said before, which are run again with it."""

from __future__ import annotations

import codeop
import sys
from collections.abc import Iterator
from pathlib import Path

from . import machine, source
from .refusal import Refusals
from .source import Program
from .telling import Teller

HISTORY = Path.home() / ".typecore_history"

FIRST, MORE = ">>> ", "... "

HELP = """A statement is answered as it is entered; one that goes on over lines ends with an empty line.
:classes  the classes so far     :undo  takes the last statement back     :list  all statements     :quit  ends"""


class Session:
    """The statements that were said so far."""

    def __init__(self, words: list[str], teller: Teller, units: int, is_quiet: bool) -> None:
        self.words = words
        self.teller = teller
        self.units = units
        self.is_quiet = is_quiet
        self.said: list[str] = []

    def run(self, before: str) -> None:
        """Answers statements until there are no more. `before` is the text of a file that comes first."""
        if before:
            self.answer(before)
        for text in statements():
            if text.startswith(":"):
                if not self.order(text.strip()):
                    return
            else:
                self.answer(text)
            self.teller.flush()

    def program(self, said: list[str]) -> Program:
        """What these statements say."""
        return source.read("<prompt>", "".join(said).encode())

    def answer(self, text: str) -> None:
        """Answers a statement, and keeps it unless it is refused."""
        if not text.strip():
            return
        text = text if text.endswith("\n") else text + "\n"
        before = "".join(self.said).count("\n")
        try:
            program = self.program([*self.said, text])
        except Refusals as refusals:
            for refused in refusals.every:
                self.teller.line(f"{refused.line - before}:{refused.column}: {refused.why}")
            return
        answers = machine.run(program.commands, program.helpers, self.words)
        self.said.append(text)
        new = [at for at, it in enumerate(program.commands) if it.line > before]
        told = machine.Answers([answers.replies[at] for at in new], [])
        if self.is_quiet:
            self.teller.values(told)
            return
        for reply in told.replies:
            self.teller.events(reply, 4)
            if reply.end != "= None":
                self.teller.line(self.teller.ended(reply.end))
        self.teller.used_up([program.commands[at] for at in new], told, self.units)

    def order(self, text: str) -> bool:
        """Does what a word with a colon asks for. Tells whether the prompt goes on."""
        if text in (":quit", ":q"):
            return False
        if text == ":undo" and self.said:
            self.teller.line(f"taken back: {self.said.pop().splitlines()[0]}")
        elif text == ":list":
            self.teller.text("".join(self.said))
        elif text == ":classes" and self.said:
            program = self.program(self.said)
            found = machine.run(program.commands, program.helpers, self.words).classes
            if found:
                self.teller.classes(found)
        elif text not in (":undo", ":classes"):
            self.teller.line(HELP)
        return True


def statements() -> Iterator[str]:
    """The statements that are entered, each with its lines, and words with a colon."""
    is_terminal = sys.stdin is not None and sys.stdin.isatty()
    if is_terminal:
        remember()
    lines: list[str] = []
    while True:
        line = next_line(MORE if lines else FIRST, is_terminal)
        if line is None:
            if lines:
                yield "\n".join(lines)
            return
        if not lines and (line.startswith(":") or not line.strip()):
            if line.strip():
                yield line
            continue
        lines.append(line)
        if is_whole("\n".join(lines)):
            yield "\n".join(lines)
            lines = []


def is_whole(text: str) -> bool:
    """Whether a text is a statement to its end, or none that more lines could make one."""
    try:
        return codeop.compile_command(text, "<prompt>", "single") is not None
    except (SyntaxError, ValueError, OverflowError):
        return True


def next_line(prompt: str, is_terminal: bool) -> str | None:
    """The next line, without its end, or nothing where there are no more."""
    if is_terminal:
        try:
            return input(prompt)
        except EOFError:
            print()
            return None
    line = sys.stdin.readline() if sys.stdin is not None else ""
    return line.removesuffix("\n") if line else None


def remember() -> None:
    """Has the lines of earlier prompts be there to be called back, where the terminal can do so."""
    try:
        import atexit
        import readline
    except ImportError:
        return
    try:
        readline.read_history_file(HISTORY)
    except OSError:
        pass
    readline.set_history_length(1000)

    def keep() -> None:
        try:
            readline.write_history_file(HISTORY)
        except OSError:
            pass

    atexit.register(keep)
