"""The page in a real browser, light and dark, where Chromium is installed."""

from __future__ import annotations

import re
import shutil
import struct
import subprocess
import tempfile
import unittest
import zlib
from pathlib import Path

from typecore_py import page
from typecore_py.machine import Answers, Reply

from .here import read
from .test_telling import DIAMOND

CHROMIUM = shutil.which("chromium") or shutil.which("chromium-browser")

WORDS = ["--headless", "--no-sandbox", "--disable-gpu", "--window-size=1000,600", "--virtual-time-budget=500"]

SOURCE = "class A: pass\nclass B(A): pass\nclass C(A): pass\nclass D(B, C): pass\n"


def first_pixel(picture: bytes) -> tuple[int, ...]:
    """The colour of the first pixel of a PNG picture, which no filter of a line changes."""
    data, at = b"", 8
    while at < len(picture):
        size, kind = struct.unpack(">I4s", picture[at : at + 8])
        data += picture[at + 8 : at + 8 + size] if kind == b"IDAT" else b""
        at += size + 12
    return tuple(zlib.decompress(data)[1:4])


@unittest.skipIf(CHROMIUM is None, "Chromium isn't installed")
class Browser(unittest.TestCase):
    """What the browser makes of the page."""

    def setUp(self) -> None:
        folder = tempfile.TemporaryDirectory()
        self.addCleanup(folder.cleanup)
        self.folder = Path(folder.name)
        commands = read(SOURCE).commands
        replies = [Reply((), "= <class 'A'>"), Reply(("call f()",), "= None"), Reply((), "= 1"), Reply((), "= 2")]
        states = [Answers(replies[: at + 1], DIAMOND[: at + 1]) for at in range(4)]
        (self.folder / "page.html").write_text(page.of_file("a.py", SOURCE, commands, states), encoding="utf-8")

    def run_browser(self, *words: str, at: str = "") -> str:
        place = f"file://{self.folder}/page.html{at}"
        ran = subprocess.run([CHROMIUM, *WORDS, *words, place], capture_output=True, text=True, timeout=120, check=True)
        return ran.stdout

    def test_the_classes_stand_as_they_did(self) -> None:
        for at, line in (("#0", 1), ("#2", 3), ("", 4)):
            text = self.run_browser("--dump-dom", at=at)
            self.assertIn(f'<output id="line">{line}</output>', text)
            shown = re.findall(r'<div class="state" id="state(\d)"( hidden="")?>', text)
            self.assertEqual([state for state, hidden in shown if not hidden], [str(line - 1)])
            self.assertEqual(text.count('class="here"'), 1)

    def test_light_and_dark(self) -> None:
        for scheme, is_light in (("1", True), ("0", False)):
            picture = self.folder / f"{scheme}.png"
            self.run_browser(f"--blink-settings=preferredColorScheme={scheme}", f"--screenshot={picture}")
            self.assertEqual(sum(first_pixel(picture.read_bytes())) > 384, is_light)


if __name__ == "__main__":
    unittest.main()
