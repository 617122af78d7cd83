"""The classes as a graph, in the language of Graphviz: an arrow leads from a class to each of its bases."""

from __future__ import annotations

from collections.abc import Sequence
from dataclasses import dataclass

from .machine import NewClass

# The bases of built-in classes, where it isn't `object` alone.
BUILT_IN_ORDERS = {"bool": ["bool", "int", "object"], "object": ["object"]}


@dataclass(frozen=True)
class Node:
    """A class of the graph: its linearisation, by numbers of nodes, and the slots that it fills itself."""

    name: str
    order: tuple[int, ...]
    slots: tuple[str, ...]
    is_built_in: bool


def nodes_of(classes: Sequence[NewClass]) -> list[Node]:
    """The classes of a script and the built-in ones above them. Of classes of one name the last before is meant."""
    orders = [order_of(it) for it in classes]
    made = {it.name for it in classes}
    above = list(dict.fromkeys(name for order in orders for name in order[1:] if name not in made))
    numbers: dict[str, int] = {name: len(classes) + at for at, name in enumerate(above)}
    for at, it in reversed(list(enumerate(classes))):
        numbers[it.name] = at  # (the first of its name, until a later one is met below)
    found: list[Node] = []
    for at, (it, order) in enumerate(zip(classes, orders)):
        found.append(Node(it.name, (at, *(numbers[name] for name in order[1:])), tuple(it.slots.split()), False))
        numbers[it.name] = at
    for name in above:
        order = [numbers[it] for it in BUILT_IN_ORDERS.get(name, [name, "object"]) if it in numbers]
        found.append(Node(name, tuple(order), (), True))
    return found


def order_of(made: NewClass) -> list[str]:
    """The names of a class's linearisation. A name may have commas, and its own is known."""
    rest = made.order.removeprefix(made.name).removeprefix(", ")
    return [made.name, *(rest.split(", ") if rest else [])]


def bases_of(nodes: Sequence[Node], at: int) -> list[int]:
    """The bases of a class, in order: those of its linearisation that no other of it derives from."""
    above = nodes[at].order[1:]
    return [it for it in above if not any(it in nodes[other].order for other in above if other != it)]


def quoted(text: str) -> str:
    """A text as Graphviz reads it."""
    return '"' + text.replace("\\", "\\\\").replace('"', '\\"') + '"'


def of_classes(classes: Sequence[NewClass]) -> str:
    """The graph of the classes."""
    nodes = nodes_of(classes)
    lines = ["digraph classes {", "  rankdir=BT;", '  node [shape=box, fontname="sans-serif"];']
    lines.append('  edge [fontname="sans-serif", fontsize=10];')
    for at, node in enumerate(nodes):
        style = ", style=dashed" if node.is_built_in else ""
        lines.append(f"  n{at} [label={quoted(label(nodes, node))}{style}];".replace("\\\\n", "\\n"))
    for at, node in enumerate(nodes):
        for base in bases_of(nodes, at):
            lines.append(f'  n{at} -> n{base} [label="{node.order.index(base) + 1}"];')
    return "\n".join([*lines, "}"]) + "\n"


def label(nodes: Sequence[Node], node: Node) -> str:
    """What stands in a class's box: its name, its numbered linearisation and its slots."""
    if node.is_built_in:
        return node.name
    order = "  ".join(f"{at}\u00a0{nodes[it].name}" for at, it in enumerate(node.order, 1))
    return f"{node.name}\\n{order}\\n{wrapped(node.slots)}"


def wrapped(words: Sequence[str], width: int = 40) -> str:
    """Words in lines that are not too wide."""
    lines = [""]
    for word in words:
        if lines[-1] and len(lines[-1]) + len(word) >= width:
            lines.append("")
        lines[-1] += f"{' ' if lines[-1] else ''}{word}"
    return "\\n".join(lines)
