"""One page of HTML that wants nothing else: the source beside its answers, and the classes as they stood.

The classes are a graph that Graphviz's `dot` draws where it is installed, and else a nested list. A slider over the
commands shows them as they stood after each.
"""

from __future__ import annotations

import shutil
import subprocess
from collections.abc import Sequence
from html import escape

from . import graph
from .events import CALL, PRINTED
from .machine import Answers, NewClass, Reply
from .page_style import SCRIPT, STYLE
from .source import ENDS_OF_LINES, Command
from .telling import folded

NO_DOT = "Graphviz's dot isn't installed, so the classes are a list: each stands below its first base."


def of_file(path: str, text: str, commands: Sequence[Command], states: Sequence[Answers]) -> str:
    """The page of a file, from the answers to each beginning of its commands."""
    pictures, shown = pictures_of([state.classes for state in states])
    rows = "".join(row(at, command, reply, lines) for at, (command, reply, lines) in enumerate(
        zip(commands, states[-1].replies, pieces(text, commands))
    ))
    figures = "".join(f'<div class="state" id="state{at}" hidden>{it}</div>' for at, it in enumerate(pictures))
    order = ",".join(map(str, shown))
    return (
        '<!doctype html>\n<html lang="en"><head><meta charset="utf-8">'
        "<meta http-equiv=\"Content-Security-Policy\" content=\"default-src 'none'; style-src 'unsafe-inline'; "
        "script-src 'unsafe-inline'\">"
        '<meta name="viewport" content="width=device-width, initial-scale=1">'
        f"<title>{escape(path)}</title><style>{STYLE}</style></head>\n"
        f"<body><header><h1>{escape(path)}</h1></header>\n<main><section class=\"source\">{rows}</section>\n"
        '<section class="classes"><label for="at">Classes after line <output id="line"></output></label>'
        f'<input id="at" type="range" min="0" max="{len(commands) - 1}" value="{len(commands) - 1}">{figures}</section>'
        f"</main>\n<script>const shown=[{order}];{SCRIPT}</script></body></html>\n"
    )


def pieces(text: str, commands: Sequence[Command]) -> list[str]:
    """The text of a file by commands: each with the lines between the one before and its own end."""
    lines, found, begin = ENDS_OF_LINES.split(text), [], 0
    for at, command in enumerate(commands):
        end = command.node.end_lineno or command.line
        last = at == len(commands) - 1
        found.append("\n".join(lines[begin:] if last else lines[begin:end]).strip("\n"))
        begin = max(begin, end)
    return found


def row(at: int, command: Command, reply: Reply, lines: str) -> str:
    """A command: its source, how it ended, and what it started, folded."""
    sort = {"=": "value", "!": "fault"}.get(reply.end[:1], "budget")
    events = "".join(event(text, count) for text, count in folded(reply.events))
    inner = ""
    if events:
        count = len(reply.events)
        inner = f"<details><summary>{count} {'body' if count == 1 else 'bodies'}</summary><ol>{events}</ol></details>"
    return (
        f'<article data-at="{at}" data-line="{command.line}"><div class="number">{command.line}</div>'
        f'<pre class="text">{escape(lines) or "&nbsp;"}</pre>'
        f'<div class="answer"><code class="{sort}">{escape(reply.end)}</code>{inner}</div></article>\n'
    )


def event(text: str, count: int) -> str:
    """A body that was started, or a line that was printed."""
    times = f' <span class="count">&times;{count}</span>' if count > 1 else ""
    if text.startswith(PRINTED):
        return f'<li class="printed">{escape(text.removeprefix(PRINTED))}{times}</li>'
    return f"<li>{escape(text.removeprefix(CALL))}{times}</li>"


def pictures_of(tables: Sequence[list[NewClass]]) -> tuple[list[str], list[int]]:
    """The pictures of the tables of classes that differ, and which of them stands after each command."""
    found: dict[tuple[NewClass, ...], int] = {}
    pictures: list[str] = []
    shown: list[int] = []
    dot = shutil.which("dot")
    for table in tables:
        key = tuple(table)
        if key not in found:
            found[key] = len(pictures)
            pictures.append(picture(table, dot))
        shown.append(found[key])
    return pictures, shown


def picture(classes: Sequence[NewClass], dot: str | None) -> str:
    """The picture of some classes."""
    if not classes:
        return "<p>No class yet.</p>"
    drawn = drawing(classes, dot) if dot else None
    return drawn or f"<p>{NO_DOT}</p>{nested(classes)}"


def drawing(classes: Sequence[NewClass], dot: str) -> str | None:
    """What Graphviz draws, or nothing where that fails."""
    try:
        ran = subprocess.run([dot, "-Tsvg"], input=graph.of_classes(classes).encode(), capture_output=True, timeout=30)
    except (OSError, subprocess.TimeoutExpired):
        return None
    text = ran.stdout.decode(errors="replace")
    return f'<div class="graph">{text[text.index("<svg"):]}</div>' if ran.returncode == 0 and "<svg" in text else None


def nested(classes: Sequence[NewClass]) -> str:
    """The classes as a list, each below its first base."""
    nodes = graph.nodes_of(classes)
    below: dict[int | None, list[int]] = {}
    for at in range(len(nodes)):
        bases = graph.bases_of(nodes, at)
        below.setdefault(bases[0] if bases else None, []).append(at)

    def items(parent: int | None, above: frozenset[int]) -> str:
        here = [at for at in below.get(parent, []) if at not in above]
        told = (f"<li>{described(nodes, at)}{items(at, above | {at})}</li>" for at in here)
        return f"<ul>{''.join(told)}</ul>" if here else ""

    return items(None, frozenset())


def described(nodes: Sequence[graph.Node], at: int) -> str:
    """A class of the list: its name, its numbered linearisation and its slots."""
    node = nodes[at]
    if node.is_built_in:
        return f"<b>{escape(node.name)}</b>"
    order = " ".join(f"<sub>{place}</sub>{escape(nodes[it].name)}" for place, it in enumerate(node.order, 1))
    return f"<b>{escape(node.name)}</b> <span>{order}</span> <small>{escape(' '.join(node.slots))}</small>"
