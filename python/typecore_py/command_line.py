"""What the words of the program ask for is done here, and the program's end."""

from __future__ import annotations

import argparse
import os
import shutil
import sys
from dataclasses import dataclass, replace
from pathlib import Path

from . import beside, checking, graph, hierarchy, json_telling, machine, manual
from . import options, page, prompt, reports, source, stopping, tracing, watching
from .differences import KNOWN, LAST, Comparison, Difference
from .refusal import Refusals, Refused
from .source import Program
from .telling import NotWritten, Teller

DONE, DIFFERS, USAGE, REFUSED, NOT_READ, NOT_WRITTEN, NOT_RUN = range(7)
# (USAGE is the status with which argparse ends by itself)


# How many bytes it is said of that they are read, and how many commands that they are run, since that takes a while.
LONG, MANY = 500_000, 10_000


@dataclass(frozen=True)
class File:
    """A file that was read: its path as it was given, its bytes, its text, and what it says."""

    path: str
    given: bytes
    text: str
    program: Program


def say(text: str) -> None:
    """Tells something on standard error, where there is one."""
    if sys.stderr is not None:
        try:
            print(f"typecore-py: {text}" if text else "", file=sys.stderr)
        except OSError:
            pass


def main(given: list[str] | None = None) -> int:
    """Runs the program, and gives its exit status."""
    stopping.listen()
    for stream in (sys.stdout, sys.stderr):
        if stream is not None:
            stream.reconfigure(errors="backslashreplace")  # type: ignore[union-attr]
    try:
        status = asked_for(options.words(given))
        if sys.stdout is not None:
            Teller(sys.stdout).flush()
        return status
    except NotWritten as error:
        if str(error):
            say(f"the answers can't be written: {error}")
        leave_output()
        return NOT_WRITTEN
    except machine.MachineFailed as error:
        say(str(error))
        return NOT_RUN
    except stopping.Stopped as stopped:
        leave_output()
        return 128 + stopped.args[0]


def leave_output() -> None:
    """Sees that nothing more is written to standard output as Python ends."""
    if sys.stdout is not None:
        os.dup2(os.open(os.devnull, os.O_WRONLY), sys.stdout.fileno())


def asked_for(asked: argparse.Namespace) -> int:
    """Reads all files before any is run, and does with each what was asked for."""
    if asked.print:
        Teller(sys.stdout).text(manual.PAGES[asked.print](options.parser()))
        return DONE
    if asked.watch:
        return watching.watch(asked.files[0], lambda: all_files(asked))
    if asked.prompt:
        return at_prompt(asked)
    if asked.check or asked.hierarchy:
        return orders(asked)
    return all_files(asked)


def orders(asked: argparse.Namespace) -> int:
    """Finds the order of each class of the files or modules, or tells these classes with their bases."""
    try:
        members = members_of(asked.files)
        teller = Teller(sys.stdout)
        if asked.hierarchy:
            teller.text(reports.text_of(members))
            return DONE
        found = reports.found_by(machine_program(asked), members)
    except hierarchy.NoHierarchy as error:
        say(str(error))
        return NOT_READ
    except hierarchy.TooLong as error:
        say(str(error))
        return REFUSED
    is_well = checking.tell_differences(teller, found) if asked.against_python else checking.tell(teller, found)
    teller.flush()
    return DONE if is_well else DIFFERS


def members_of(files: list[str]) -> list[hierarchy.Member]:
    """The classes of sources, or of modules where what is named is no file."""
    sources = [it for it in files if it.endswith(".py") or Path(it).is_file()]
    if sources and len(sources) < len(files):
        raise hierarchy.NoHierarchy("files and modules can't be mixed")
    members = hierarchy.of_files(sources) if sources else hierarchy.of_modules(files)
    if not members:
        raise hierarchy.NoHierarchy(f"{' '.join(files)}: there is no class")
    return members


def all_files(asked: argparse.Namespace) -> int:
    """Reads all files, and if none is refused does with each what was asked for."""
    files, status = read_all(asked)
    if status != DONE:
        return status
    return max(one_file(file, asked) for file in files)


def read_all(asked: argparse.Namespace) -> tuple[list[File], int]:
    """The files that can be read, and the status of the first that can't."""
    files: list[File] = []
    status = DONE
    for path in asked.files or ["-c"]:
        try:
            files.append(read(path, asked.text))
        except Refusals as refusals:
            for refused in refusals.every:
                print_error(refused.told(path))
            status = status or REFUSED
        except OSError as error:
            say(f"{path}: {error.strerror}")
            status = status or NOT_READ
    return files, status


def print_error(line: str) -> None:
    """Writes a line to standard error, where there is one."""
    if sys.stderr is not None:
        print(line, file=sys.stderr)


def read(path: str, text: str | None) -> File:
    """Reads a file. Raises `Refusals` for what can't be said, and for a mark that names no known difference."""
    if text is not None:
        given = text.encode(errors="surrogateescape")
    elif path == "-":
        if sys.stdin is None:
            raise OSError(0, "standard input is closed")
        given = sys.stdin.buffer.read()
    else:
        given = Path(path).read_bytes()
    if len(given) >= LONG:
        say(f"{path}: reading {len(given):,} bytes")
    program = source.read(path, given)
    marked = [it for it in program.commands if it.mark is not None and it.mark not in KNOWN]
    if marked:
        raise Refusals([Refused(it.line, 1, f"no known difference has the name {it.mark}") for it in marked])
    if len(machine.script_of(program.commands, program.helpers).encode()) > source.LONGEST:
        raise Refusals([Refused(1, 1, "the script has more than 16,777,216 bytes")])
    return File(path, given, source.text_of(given), program)


def one_file(file: File, asked: argparse.Namespace) -> int:
    """Does with one file what was asked for."""
    commands, helpers = file.program.commands, file.program.helpers
    teller = Teller(sys.stdout, asked.bodies)
    if asked.script:
        teller.text(machine.script_of(commands, helpers))
        return DONE
    words = machine_words(asked)
    if asked.html:
        return write_page(file, asked, words)
    if len(commands) >= MANY:
        say(f"{file.path}: running {len(commands):,} commands")
    answers = machine.run(commands, helpers, words)
    if asked.where:
        answers = with_places(file, answers, asked)
    if asked.json:
        teller.text(json_telling.told(file.path, commands, answers))
    elif asked.graph:
        teller.text(graph.of_classes(answers.classes))
    elif asked.against_python:
        return against_python(file, answers, teller, asked.seconds)
    elif asked.quiet:
        teller.values(answers)
    else:
        if len(asked.files) > 1:
            teller.line(f"{file.path}:")
        teller.answers(commands, answers, asked.units, file.text)
    teller.flush()
    return DONE


def with_places(file: File, answers: machine.Answers, asked: argparse.Namespace) -> machine.Answers:
    """The answers with what was open at each fault, from a second run that is traced."""
    program = source.read(file.path, file.given, is_traced=True)
    words = [*machine_program(asked), "run", str(min(asked.units * tracing.TIMES, options.MOST_UNITS))]
    traced = machine.run(program.commands, program.helpers, words)
    same = ((one, two.where if two.lines() == one.lines() else ()) for one, two in zip(answers.replies, traced.replies))
    return machine.Answers([replace(reply, where=where) for reply, where in same], answers.classes)


def write_page(file: File, asked: argparse.Namespace, words: list[str]) -> int:
    """Writes the page of a file."""
    states = machine.run_prefixes(file.program.commands, file.program.helpers, words)
    text = page.of_file(file.path, file.text, file.program.commands, states)
    try:
        Path(asked.html).write_text(text, encoding="utf-8")
    except OSError as error:
        raise NotWritten(f"{asked.html}: {error.strerror}") from None
    return DONE


def at_prompt(asked: argparse.Namespace) -> int:
    """Asks for statements, after those of a file if one is named."""
    before = ""
    if asked.files or asked.text is not None:
        files, status = read_all(asked)
        if status != DONE:
            return status
        before = files[0].text
    teller = Teller(sys.stdout, asked.bodies)
    prompt.Session(machine_words(asked), teller, asked.units, asked.quiet).run(before)
    return DONE


def machine_words(asked: argparse.Namespace) -> list[str]:
    """The words that run the machine."""
    return [*machine_program(asked), "run", str(asked.units)]


def machine_program(asked: argparse.Namespace) -> list[str]:
    """The program that is the machine: a named one, that of the repository, or one on the path."""
    if asked.machine:
        return [asked.machine]
    here = machine.TOP / "typecore"
    if here.is_file():
        return [str(here), *(["--now"] if asked.now else [])]
    found = os.environ.get("TYPECORE_MACHINE") or shutil.which("typecore")
    if not found:
        raise machine.MachineFailed("no machine is here: name its program by --machine, or in TYPECORE_MACHINE")
    return [found]


def against_python(file: File, answers: machine.Answers, teller: Teller, seconds: float) -> int:
    """Compares the answers with Python's, up to the first after which nothing can be compared."""
    commands = file.program.commands
    comparison, found, compared = Comparison(commands), list[Difference](), 0
    for command, reply, python in zip(commands, answers.replies, beside.answers(commands, seconds)):
        compared += 1
        differs = comparison.difference(command, reply, python)
        if differs:
            found.append(differs)
            if differs.known in LAST:
                break
        elif command.mark:
            teller.line(f"{file.path}:{command.line}: marked as {command.mark}, and alike")
    teller.differences(file.path, found)
    teller.summary(file.path, compared, len(commands), found)
    teller.flush()
    return DONE if all(it.is_explained() for it in found) else DIFFERS
