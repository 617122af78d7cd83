"""Being told to stop by a signal: it is an exception, which waits while a process is started.

So whoever starts a process always gets to know it, and can end it.
"""

from __future__ import annotations

import signal
import threading
from collections.abc import Iterator
from contextlib import contextmanager


class Stopped(BaseException):
    """This program was told to stop, by the signal of this number."""


class Held:
    """Whether a signal has to wait now, and which one does."""

    is_on = False
    number: int | None = None


def stop(number: int, _frame: object) -> None:
    """Stops this program, or notes that it is to be stopped."""
    if Held.is_on:
        Held.number = number
    else:
        raise Stopped(number)


def listen() -> None:
    """Has signals stop this program."""
    for number in (signal.SIGTERM, signal.SIGHUP, signal.SIGINT):
        signal.signal(number, stop)


@contextmanager
def held() -> Iterator[None]:
    """Has signals wait until the block is left. (They come to the main thread alone.)"""
    if threading.current_thread() is not threading.main_thread():
        yield
        return
    Held.is_on = True
    try:
        yield
    finally:
        Held.is_on = False


def told() -> None:
    """Stops this program where a signal has waited."""
    if Held.number is not None and threading.current_thread() is threading.main_thread():
        number, Held.number = Held.number, None
        raise Stopped(number)
