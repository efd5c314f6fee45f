"""Makes the wheel of the package `stragumella`, with the standard library alone (PEP 517).

What the package shares with the C side stands there and is taken from there when the wheel is made: the version
(include/stragumella.h), the texts of refusals (host/refusals.inc), the names of fields (host/fields.inc) and the shared library
itself, which goes into the package's folder.
"""

from __future__ import annotations

import ast
import base64
import hashlib
import os
import platform
import re
import sys
import sysconfig
import zipfile
from pathlib import Path
from typing import Any, Iterator

HERE = Path(__file__).resolve().parent
ROOT = HERE.parent
NAME = "stragumella"
SUMMARY = "Judges, measures and reads Japanese map sheets of 74-byte records by a proved library"
PYTHON = ">=3.9"
# Files in a wheel have a time; a fixed one makes the same wheel of the same files.
TIME = (1980, 1, 1, 0, 0, 0)


class UnsupportedOperation(Exception):
    """What PEP 517 has for a hook that cannot serve."""


# ---- what stands in the C side


def version() -> str:
    """MAJOR.MINOR.PATCH, from the header."""
    header = (ROOT / "include" / "stragumella.h").read_text("ascii")
    return ".".join(re.findall(r"^#define STRAGUMELLA_VERSION_(?:MAJOR|MINOR|PATCH) (\d+)$", header, re.M))


def refusals() -> dict[int, tuple[str, ...]]:
    """By number: message, rule, section, mend. A row of the list reads as a tuple of Python, strings side by side and all."""
    rows = (ROOT / "host" / "refusals.inc").read_text("ascii").split("\nREFUSAL")[1:]
    return {number: tuple(texts) for number, *texts in map(ast.literal_eval, map(str.strip, rows))}


def fields() -> dict[str, tuple[tuple[str, int, int, str], ...]]:
    """By kind: name, first column, width and what it is of each field, in column order."""
    listed: dict[str, tuple[tuple[str, int, int, str], ...]] = {}
    text = (ROOT / "host" / "fields.inc").read_text("ascii")
    for kind, name, start, width, what in re.findall(r'^FIELD\((\w+), "(\w+)", (\d+), (\d+), (\w+)\)$', text, re.M):
        listed[kind] = listed.get(kind, ()) + ((name, int(start), int(width), what),)
    return listed


def soname() -> str:
    return f"libstragumella.so.{version().split('.')[0]}"


def library() -> Path:
    """The shared library for this machine. The product is for x86-64; elsewhere there is one for tests (make own-library)."""
    if sys.platform != "linux":
        raise SystemExit("stragumella: the library is for Linux alone")
    own = platform.machine() == "x86_64"
    path = Path(os.environ.get("STRAGUMELLA_LIBRARY") or ROOT / "target" / ("lib" if own else "native") / soname())
    if not path.is_file():
        raise SystemExit(f"stragumella: no {path}; build it with `make {'library' if own else 'own-library'}`")
    return path


def facts() -> str:
    """The module _facts."""
    lines = [
        '"""Made with the wheel from include/stragumella.h, host/refusals.inc and host/fields.inc."""',
        "",
        "from __future__ import annotations",
        "",
        f"VERSION = {version()!r}",
        f"SONAME = {soname()!r}",
        "",
        "# By number: message, rule, section of RULES, what to mend.",
        "REFUSALS: dict[int, tuple[str, str, str, str]] = {",
        *(f"    {number}: {texts!r}," for number, texts in refusals().items()),
        "}",
        "",
        "# By kind: name, first column, width and what it is of each field, in column order.",
        "FIELDS: dict[str, tuple[tuple[str, int, int, str], ...]] = {",
        *(f"    {kind!r}: {listed!r}," for kind, listed in fields().items()),
        "}",
    ]
    return "\n".join(lines) + "\n"


# ---- the wheel


def metadata() -> str:
    """The wheel's METADATA."""
    return "\n".join(
        [
            "Metadata-Version: 2.1",
            f"Name: {NAME}",
            f"Version: {version()}",
            f"Summary: {SUMMARY}",
            "License: MIT",
            f"Requires-Python: {PYTHON}",
            "Provides-Extra: numpy",
            'Requires-Dist: numpy; extra == "numpy"',
            "Description-Content-Type: text/markdown",
            "",
            (HERE / "README.md").read_text("utf-8"),
        ]
    )


def tag() -> str:
    return f"py3-none-{re.sub('[-.]', '_', sysconfig.get_platform())}"


def contents(info: str) -> Iterator[tuple[str, bytes]]:
    """Every file of the wheel but RECORD: its name and its bytes."""
    for path in sorted((HERE / NAME).glob("*.py")):
        yield f"{NAME}/{path.name}", path.read_bytes()
    yield f"{NAME}/_facts.py", facts().encode("ascii")
    yield f"{NAME}/py.typed", b""
    yield f"{NAME}/{soname()}", library().read_bytes()
    yield f"{info}/LICENSE", (ROOT / "LICENSE").read_bytes()
    yield f"{info}/METADATA", metadata().encode("utf-8")
    yield f"{info}/WHEEL", f"Wheel-Version: 1.0\nGenerator: {NAME}\nRoot-Is-Purelib: false\nTag: {tag()}\n".encode("ascii")


def digest(data: bytes) -> str:
    return "sha256=" + base64.urlsafe_b64encode(hashlib.sha256(data).digest()).decode("ascii").rstrip("=")


def put(wheel: zipfile.ZipFile, name: str, data: bytes) -> None:
    entry = zipfile.ZipInfo(name, TIME)
    entry.compress_type = zipfile.ZIP_DEFLATED
    entry.external_attr = 0o100644 << 16
    wheel.writestr(entry, data)


def build_wheel(wheel_directory: str, config_settings: Any = None, metadata_directory: Any = None) -> str:
    """Makes the wheel and answers its file's name."""
    info = f"{NAME}-{version()}.dist-info"
    file = f"{NAME}-{version()}-{tag()}.whl"
    record = ""
    with zipfile.ZipFile(Path(wheel_directory) / file, "w") as wheel:
        for name, data in contents(info):
            put(wheel, name, data)
            record += f"{name},{digest(data)},{len(data)}\n"
        put(wheel, f"{info}/RECORD", f"{record}{info}/RECORD,,\n".encode("ascii"))
    return file


def build_sdist(sdist_directory: str, config_settings: Any = None) -> str:
    """There is none: the library is built by the Rattle kit, from the whole project."""
    raise UnsupportedOperation("the source of the package is the whole project")
