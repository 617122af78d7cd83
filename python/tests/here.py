"""What tests find here: the machine's program, if there is one, and a way to run the front end."""

from __future__ import annotations

import os
import subprocess
import sys
import unittest
from pathlib import Path

from typecore_py import source
from typecore_py.refusal import Refusals
from typecore_py.source import Program

TOP = Path(__file__).resolve().parents[2]
FRONT = TOP / "typecore-py"


def machine() -> str | None:
    """The machine's program: a named one, the proved one, or the one that --now has kept."""
    named = [os.environ.get("TYPECORE_MACHINE"), TOP / "crates/typecore/out/typecore", TOP / "out/typecore-now"]
    return next((str(it) for it in named if it and os.access(it, os.X_OK)), None)


MACHINE = machine()

needs_machine = unittest.skipIf(MACHINE is None, "no machine is built: ./typecore --now builds one")


def front(*words: str, given: str = "", **how: object) -> subprocess.CompletedProcess[str]:
    """Runs the front end by these words."""
    ran = [sys.executable, str(FRONT), *words]
    kept = {"capture_output": True, "text": True, "timeout": 120, **how}
    return subprocess.run(ran, input=given, check=False, **kept)  # type: ignore[call-overload]


def read(text: str) -> Program:
    """What a source says."""
    return source.read("test.py", text.encode())


def refusals(text: str) -> list[str]:
    """Where and why a source is refused."""
    try:
        read(text)
    except Refusals as found:
        return [f"{it.line}:{it.column}: {it.why}" for it in found.every]
    return []
