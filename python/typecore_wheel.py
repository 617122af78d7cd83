"""Makes the package that `pip install .` installs, with Python's standard library alone (PEP 517 and 660)."""

from __future__ import annotations

import base64
import hashlib
import re
import zipfile
from pathlib import Path
from typing import Any

HERE = Path(__file__).resolve().parent
PACKAGE = "typecore_py"
COMMAND = "[console_scripts]\ntypecore-py = typecore_py.command_line:main\n"
WHEEL = "Wheel-Version: 1.0\nGenerator: typecore_wheel\nRoot-Is-Purelib: true\nTag: py3-none-any\n"


def version() -> str:
    """The version that the package tells."""
    found = re.search(r'^__version__ = "(.*)"', (HERE / PACKAGE / "__init__.py").read_text(), re.M)
    assert found, "the package tells its version"
    return found[1]


def metadata() -> str:
    """What is said of the package."""
    about = "Summary: Python source in front of a proved machine of Python's object model\n"
    return f"Metadata-Version: 2.1\nName: typecore-py\nVersion: {version()}\n{about}Requires-Python: >=3.10\n"


def write(folder: str, files: dict[str, str]) -> str:
    """Writes a wheel with these files and its own, and gives its name."""
    stem = f"{PACKAGE}-{version()}"
    info = f"{stem}.dist-info"
    every = {**files, f"{info}/METADATA": metadata(), f"{info}/WHEEL": WHEEL, f"{info}/entry_points.txt": COMMAND}
    name = f"{stem}-py3-none-any.whl"
    with zipfile.ZipFile(Path(folder) / name, "w", zipfile.ZIP_DEFLATED) as wheel:
        record = ""
        for path, text in every.items():
            wheel.writestr(path, text)
            digest = base64.urlsafe_b64encode(hashlib.sha256(text.encode()).digest()).rstrip(b"=").decode()
            record += f"{path},sha256={digest},{len(text.encode())}\n"
        wheel.writestr(f"{info}/RECORD", record + f"{info}/RECORD,,\n")
    return name


def build_wheel(folder: str, _settings: Any = None, _metadata: str | None = None) -> str:
    """A wheel with the package."""
    return write(folder, {f"{PACKAGE}/{it.name}": it.read_text() for it in sorted((HERE / PACKAGE).glob("*.py"))})


def build_editable(folder: str, _settings: Any = None, _metadata: str | None = None) -> str:
    """A wheel that leads to the package where it stands, for `pip install -e .`."""
    return write(folder, {f"{PACKAGE}.pth": f"{HERE}\n"})
