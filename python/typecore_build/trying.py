"""Builds the program without any proof, by `rt try`, and keeps it.

`rt try` compiles the program into a folder of its own, runs it there and removes it. A second name for the same file,
given while it is there, keeps it.
"""

from __future__ import annotations

import os
import subprocess
import tempfile
import time
from pathlib import Path

from .processes import BuildFailed, ended_with_this, last_words, say, start

KEPT = "out/typecore-now"

# What the program is run on as it is built: it takes a second, so that it can be seen.
WORDS = ["gen", "7", "400"]

# What a program that was kept has to answer.
SCRIPT, ANSWER = b'[["op","+",33,12]]', b"= 45\n"

LEAST_BYTES = 100_000

STAGES = {"module.bc": "the sources are read; compiling", "program": "compiled; trying it"}

NOISE = ("checked: ", "run=")


def build(top: Path, rt: str) -> None:
    """Builds the program and keeps it. It counts as made when this began."""
    begun = time.time()
    say("building the program without proof, in a minute or two; later runs begin at once")
    with tempfile.TemporaryDirectory(prefix="try-", dir=top / "out") as room:
        found = compiled(top, rt, Path(room))
        program = next((it for it in reversed(found) if answers(it)), None)
        if program is None:
            raise BuildFailed("rt try left no program that could be kept")
        os.utime(program, (begun, begun))
        program.rename(top / KEPT)
    say(f"built in {round(time.time() - begun)} seconds: {KEPT}, which is not proved")


def compiled(top: Path, rt: str, room: Path) -> list[Path]:
    """Runs `rt try`, and gives the programs that it made, oldest first."""
    work, kept, log = room / "work", room / "kept", room / "log"
    work.mkdir()
    kept.mkdir()
    found: dict[int, Path] = {}
    told: set[str] = set()
    with open(log, "wb") as lines:
        how = {"stdin": subprocess.DEVNULL, "stdout": lines, "stderr": subprocess.STDOUT}
        where = {"cwd": top / "crates/typecore", "env": {**os.environ, "TMPDIR": str(work)}}
        trial = start([rt, "try", "--", *WORDS], **where, **how)
        with ended_with_this([trial]):
            while trial.poll() is None:
                look(work, kept, found, told)
                time.sleep(0.01)
    if not found:
        raise BuildFailed(f"the build failed\n{last_words(log, NOISE)}")
    return list(found.values())


def look(work: Path, kept: Path, found: dict[int, Path], told: set[str]) -> None:
    """Gives each program that stands in the folder a second name, and tells how far it is."""
    for folder, _, names in os.walk(work):
        for name in names:
            if name in STAGES and name not in told:
                told.add(name)
                say(STAGES[name])
            try:
                file = os.stat(f"{folder}/{name}")
                if file.st_mode & 0o100 and file.st_size >= LEAST_BYTES and file.st_ino not in found:
                    os.link(f"{folder}/{name}", kept / str(file.st_ino))
                    found[file.st_ino] = kept / str(file.st_ino)
            except FileNotFoundError:
                continue  # (it has been removed meanwhile)


def answers(program: Path) -> bool:
    """Whether the program runs by itself and answers a script."""
    try:
        ran = subprocess.run([program, "run", "100"], input=SCRIPT, capture_output=True, timeout=60, check=False)
    except (OSError, subprocess.TimeoutExpired):
        return False
    return ran.stdout == ANSWER
