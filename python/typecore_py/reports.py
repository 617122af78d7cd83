"""Hierarchies as the checker reads them, and what its reports tell of each class (docs/CHECK.md)."""

from __future__ import annotations

import json
from collections.abc import Sequence

from .checking import Found
from .hierarchy import LIST_OF_BASES, Member, TooLong
from .machine import MachineFailed, written
from .source import LONGEST


def found_by(program: list[str], members: Sequence[Member]) -> list[Found]:
    """What the checker of this program finds of each class."""
    return found_in(written(text_of(members), [*program, "check"]), members)


def text_of(members: Sequence[Member]) -> str:
    """The classes with their bases as the checker reads them, a line for each."""
    rows = ([it.name, it.bases] for it in members)
    text = "[" + ",\n ".join(json.dumps(row, separators=(",", ":")) for row in rows) + "]\n"
    if len(text.encode()) > LONGEST:
        raise TooLong("the hierarchy has more than 16,777,216 bytes")
    return text


def found_in(report: str, members: Sequence[Member]) -> list[Found]:
    """What a report tells of each class."""
    lines = report.removesuffix("\n").split("\n")
    if len(lines) != len(members):
        raise MachineFailed(f"the report tells of {len(lines)} classes and not of {len(members)}")
    return [found(it, line) for it, line in zip(members, lines)]


def found(member: Member, line: str) -> Found:
    """What its line tells of a class: its order, the first of its bases that has none, or a cycle."""
    word, _, rest = line.partition(" ")
    told = rest.removeprefix(f"{member.name}: ")
    if told != rest and word == "order":
        return Found(member, told)
    if told != rest and word == "none":
        return Found(member, None, f"its base {told} has none")
    if told != rest and word == "cycle":
        return Found(member, None, ", ".join(pair_in_words(it, member) for it in told.split("; ")))
    raise MachineFailed(f"the report has a line that isn't of {member.name}: {line}")


def pair_in_words(pair: str, member: Member) -> str:
    """One class before another, and where: a pair of the cycle of a class."""
    first, _, rest = pair.partition(" < ")
    second, _, place = rest.partition(" in ")
    where = f"the bases of {member.name}" if place == LIST_OF_BASES else place
    return f"{first} twice in {where}" if first == second else f"{first} before {second} in {where}"
