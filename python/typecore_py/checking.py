"""Tells the orders of classes, or what stands against them, beside those that Python gives."""

from __future__ import annotations

from collections.abc import Sequence
from dataclasses import dataclass

from .hierarchy import OBJECT, Member
from .telling import Teller


@dataclass(frozen=True)
class Found:
    """What was found for a class: its order, or why it has none."""

    member: Member
    order: str | None
    why: str = ""


# --- beside Python ---


def pythons(members: Sequence[Member]) -> list[str | None]:
    """The order that Python itself gives each class, or None where it gives none.

    A class of a module is asked for its own; one that was read of a source is made anew with its bases and no body.
    """
    made: dict[str, type] = {}
    names: dict[type, str] = {object: OBJECT}
    orders = list[str | None]()
    for member in members:
        kind = member.python or anew(member, made)
        if kind is not None:
            made[member.name] = kind
            names[kind] = member.name
        orders.append(None if kind is None else ", ".join(names.get(it, it.__qualname__) for it in kind.__mro__))
    return orders


def anew(member: Member, made: dict[str, type]) -> type | None:
    """A class like this one as Python makes it, where it makes one."""
    bases = [object if it == OBJECT else made.get(it) for it in member.bases]
    if None in bases:
        return None
    try:
        return type(member.name, tuple(it for it in bases if it is not None), {})
    except TypeError:
        return None


# --- telling ---


def tell(teller: Teller, found: Sequence[Found]) -> bool:
    """Tells each class's order, or why it has none. Whether each has one."""
    for it in found:
        place = f"{it.member.place}: " if it.member.place else ""
        if it.order is not None:
            teller.line(f"{place}{it.member.name}: {it.order}")
        else:
            teller.line(teller.coloured(f"{place}{it.member.name} has no order: {it.why}", "!"))
    return summary(teller, found)


def summary(teller: Teller, found: Sequence[Found]) -> bool:
    """Tells how many classes have an order. Whether each has one."""
    without = sum(it.order is None for it in found)
    teller.line(f"{len(found)} classes; {'each has an order' if not without else f'{without} without an order'}")
    return not without


def tell_differences(teller: Teller, found: Sequence[Found]) -> bool:
    """Tells where Python's own orders are others. Whether none is."""
    differ = 0
    for it, python in zip(found, pythons([it.member for it in found])):
        if it.order != python:
            differ += 1
            teller.line(f"{it.member.name}")
            teller.line(f"  here    {it.order or f'no order: {it.why}'}")
            teller.line(f"  Python  {python or 'no order'}")
    alike = "each order is Python's" if not differ else f"{differ} differ from Python's"
    teller.line(f"{len(found)} classes; {alike}")
    return not differ
