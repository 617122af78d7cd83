"""What the two builds share: what is said meanwhile, and processes that end with their build."""

from __future__ import annotations

import os
import signal
import subprocess
import sys
from collections.abc import Iterable, Iterator
from contextlib import contextmanager
from pathlib import Path
from typing import Any


class BuildFailed(Exception):
    """The program could not be built: why."""


def say(text: str) -> None:
    """Tells what is done, on standard error where there is one."""
    if sys.stderr is not None:
        print(f"typecore: {text}", file=sys.stderr, flush=True)


def start(words: list[str], **how: Any) -> subprocess.Popen[bytes]:
    """Starts a command in a group of processes of its own."""
    try:
        return subprocess.Popen(words, start_new_session=True, **how)
    except OSError as error:
        raise BuildFailed(f"{words[0]} can't be run: {error.strerror}. Is the Rattle kit on the path?") from None


@contextmanager
def ended_with_this(running: Iterable[subprocess.Popen[bytes]]) -> Iterator[None]:
    """Ends the processes that still run where the block is left."""
    try:
        yield
    finally:
        left = [it for it in running if it.poll() is None]
        for it in left:
            os.killpg(it.pid, signal.SIGTERM)
        for it in left:
            try:
                it.wait(timeout=5)
            except subprocess.TimeoutExpired:
                os.killpg(it.pid, signal.SIGKILL)


def last_words(log: Path, noise: tuple[str, ...]) -> str:
    """What a log says beside its usual lines, at most forty lines of it."""
    lines = [line for line in log.read_text(errors="replace").splitlines() if not any(it in line for it in noise)]
    return "\n".join(lines[-40:])
