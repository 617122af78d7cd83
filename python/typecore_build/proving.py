"""Proves the crates below the program side by side, and then the program."""

from __future__ import annotations

import os
import subprocess
import tempfile
import time
from pathlib import Path

from .crates import Crates, read
from .processes import BuildFailed, ended_with_this, last_words, say, start

PROGRAM = "typecore"

# A proof is begun beside others only where so much memory is free.
FREE_BYTES = 5 * 2**30

NOISE = (": proved", ": modules loaded=", "rt: chose --jobs")


def build(top: Path, rt: str) -> None:
    """Proves and builds the program. It counts as made when this began, so that what changed since is newer."""
    begun = time.time()
    crates = read(top, PROGRAM)
    jobs = os.cpu_count() or 1
    say(f"proving and building the program: {len(crates.below)} crates, up to {jobs} at a time, most of an hour in all")
    prove(crates, top, rt, jobs)
    program = top / "crates" / PROGRAM / "out" / PROGRAM
    if not program.exists():
        raise BuildFailed(f"the build left no program {program}")
    os.utime(program, (begun, begun))
    say(f"proved and built in {round((time.time() - begun) / 60)} minutes")


def prove(crates: Crates, top: Path, rt: str, jobs: int) -> None:
    """Proves the crates, at most so many at a time, each after those that it stands on."""
    running: dict[str, subprocess.Popen[bytes]] = {}
    begun: set[str] = set()
    done: set[str] = set()
    logs = Path(tempfile.mkdtemp(prefix="typecore-build-"))
    with ended_with_this(running.values()):
        while len(done) < len(crates.below):
            for name in crates.ready(done, begun)[: jobs - len(running)]:
                if running and free_memory() < FREE_BYTES:
                    break
                begun.add(name)
                say(f"[{len(begun)}/{len(crates.below)}] {name}")
                running[name] = begin(name, top, rt, logs / name)
            for name in [name for name, it in running.items() if it.poll() is not None]:
                if running.pop(name).returncode != 0:
                    told = last_words(logs / name, NOISE)
                    raise BuildFailed(f"the build failed at {name}; its log is {logs / name}\n{told}")
                done.add(name)
            time.sleep(0.05)
    for log in logs.iterdir():
        log.unlink()
    logs.rmdir()


def begin(name: str, top: Path, rt: str, log: Path) -> subprocess.Popen[bytes]:
    """Begins the proof of a library, or the proof, the build and one run of the program."""
    words = [rt, "run", "--", "run", "1"] if name == PROGRAM else [rt, "lib", "--jobs", "1"]
    with open(log, "wb") as told, tempfile.TemporaryFile() as script:
        script.write(b"[1]")
        script.seek(0)
        return start(words, cwd=top / "crates" / name, stdin=script, stdout=told, stderr=subprocess.STDOUT)


def free_memory() -> int:
    """The bytes of memory that are free, or very many where that isn't told."""
    try:
        with open("/proc/meminfo", encoding="ascii") as it:
            found = next(line for line in it if line.startswith("MemAvailable:"))
        return int(found.split()[1]) * 1024
    except (OSError, StopIteration, ValueError, IndexError):
        return 2**60
