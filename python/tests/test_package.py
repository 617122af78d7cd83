"""The package: `pip install .` without a network, and `python -m typecore_py`."""

from __future__ import annotations

import os
import subprocess
import sys
import tempfile
import unittest
from importlib.util import find_spec
from pathlib import Path

from typecore_py import __version__

from .here import MACHINE, TOP, needs_machine


def run(*words: str, **environment: str) -> subprocess.CompletedProcess[str]:
    """Runs Python with these words outside the repository."""
    with tempfile.TemporaryDirectory() as folder:
        how = {"cwd": folder, "env": {**os.environ, **environment}, "timeout": 120}
        return subprocess.run([sys.executable, *words], capture_output=True, text=True, check=False, **how)


class Package(unittest.TestCase):
    """What is installed."""

    @unittest.skipIf(find_spec("pip") is None, "pip isn't installed")
    def test_it_installs_without_a_network(self) -> None:
        with tempfile.TemporaryDirectory() as top:
            # (the front looks for the machine beside the folder that it is installed in)
            folder = f"{top}/lib/packages"
            words = ("install", "--quiet", "--no-index", "--no-warn-script-location", "--target", folder, str(TOP))
            ran = run("-m", "pip", *words, PIP_DISABLE_PIP_VERSION_CHECK="1")
            self.assertEqual(ran.returncode, 0, ran.stderr)
            ran = run("-m", "typecore_py", "--version", PYTHONPATH=folder)
            self.assertEqual(ran.stdout, f"typecore-py {__version__}\n")
            ran = run("-m", "typecore_py", "-c", "7", PYTHONPATH=folder, PATH="/nowhere", TYPECORE_MACHINE="")
            self.assertEqual((ran.returncode, ran.stderr.split(":")[1]), (6, " no machine is here"))
            self.assertTrue((Path(folder) / "bin" / "typecore-py").exists())
            if MACHINE:
                ran = run("-m", "typecore_py", "-c", "7", PYTHONPATH=folder, TYPECORE_MACHINE=MACHINE)
                self.assertEqual(ran.stdout, "1  7  = 7\n")

    @needs_machine
    def test_the_module_runs(self) -> None:
        ran = run("-m", "typecore_py", "--machine", MACHINE, "-c", "1 + 1", PYTHONPATH=str(TOP / "python"))
        self.assertEqual((ran.returncode, ran.stdout), (0, "1  1 + 1  = 2\n"))


class Size(unittest.TestCase):
    """Small modules."""

    def test_no_module_is_long(self) -> None:
        for path in (TOP / "python").rglob("*.py"):
            lines = path.read_text().splitlines()
            self.assertLess(len(lines), 500, path)
            self.assertEqual([it for it in lines if len(it) > 120], [], path)


if __name__ == "__main__":
    unittest.main()
