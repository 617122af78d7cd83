"""Runs a file again whenever it changes."""

from __future__ import annotations

import os
import sys
import time
from typing import Callable

EVERY = 0.2  # seconds between two looks


def stamp(path: str) -> tuple[int, int] | None:
    """What changes where a file does, or nothing where there is none."""
    try:
        found = os.stat(path)
    except OSError:
        return None
    return found.st_mtime_ns, found.st_size


def watch(path: str, run: Callable[[], int], rounds: int | None = None) -> int:
    """Runs now and after each change, until this is told to stop, or so many rounds are done."""
    done, last, status = 0, None, 0
    while rounds is None or done < rounds:
        now = stamp(path)
        if now is not None and now != last or done == 0:
            if done and sys.stdout.isatty():
                sys.stdout.write("\x1b[2J\x1b[H")
            elif done:
                sys.stdout.write("\n")
            status = run()
            sys.stdout.flush()
            done, last = done + 1, now
        time.sleep(EVERY)
    return status
