"""The calls of include/stragumella.h by ctypes, and nothing else: names, structs and where the library is found."""

from __future__ import annotations

import ctypes
import os
from ctypes import c_char_p, c_double, c_int32, c_int64, c_size_t, c_uint8, c_uint32, c_uint64, c_void_p
from pathlib import Path
from typing import Any

from ._facts import SONAME, VERSION

# The version that the library's names bear: that of the header whose structs stand below.
_NAMES = "STRAGUMELLA_" + ".".join(VERSION.split(".")[:2])

NUMBERS = 16
NAME_BYTES = 40
MARKS = 2
RECORD_BYTES = 74
MOST_RECORDS = 6399936


class Outcome(ctypes.Structure):
    _fields_ = [
        ("number", c_uint32),
        ("record", c_uint32),
        ("column", c_uint32),
        ("meshes", c_uint32),
        ("layers", c_uint32),
        ("nodes", c_uint32),
        ("lines", c_uint32),
        ("areas", c_uint32),
        ("records", c_uint32),
        ("need", c_uint64),
    ]


class Place(ctypes.Structure):
    _fields_ = [("number", c_uint32), ("latitude", c_double), ("longitude", c_double)]


class Record(ctypes.Structure):
    _fields_ = [
        ("kind", c_uint32),
        ("numbers", c_int32 * NUMBERS),
        ("name", c_uint8 * NAME_BYTES),
        ("marks", c_uint32 * MARKS),
        ("letters", c_uint32),
    ]


class Reading(ctypes.Structure):
    _fields_ = [("number", c_uint32), ("record", c_uint32), ("column", c_uint32), ("value", Record)]


def _load() -> tuple[str, ctypes.CDLL]:
    """The library that STRAGUMELLA_LIBRARY names, or the one beside this file, or the system's."""
    named = os.environ.get("STRAGUMELLA_LIBRARY")
    beside = Path(__file__).with_name(SONAME)
    path = named or (str(beside) if beside.is_file() else SONAME)
    try:
        return path, ctypes.CDLL(path)
    except OSError as why:
        raise ImportError(f"stragumella: the library cannot be loaded: {why}") from why


_path, _library = _load()
_dlvsym = ctypes.CDLL(None).dlvsym
_dlvsym.restype = c_void_p
_dlvsym.argtypes = [c_void_p, c_char_p, c_char_p]


def _call(name: str, answer: Any, *given: Any) -> Any:
    """A call by its name and version. A library of another version has no such name: it may have other structs."""
    address = _dlvsym(_library._handle, name.encode("ascii"), _NAMES.encode("ascii"))
    if not address:
        raise ImportError(f"stragumella: {_path} has no {name} of version {_NAMES}: it is another version's library")
    return ctypes.CFUNCTYPE(answer, *given)(address)


_words = ctypes.POINTER(c_uint32)
_places = ctypes.POINTER(c_int64)

need = _call("stragumella_need", c_uint64, c_char_p, c_size_t)
due = _call("stragumella_due", c_uint32, c_char_p, c_size_t, c_uint32)
judge = _call("stragumella_judge", Outcome, c_char_p, c_size_t, _words, c_size_t, _places, c_size_t)
all_sums = _call("stragumella_all_sums", Outcome, c_char_p, c_size_t, _words, c_size_t, _places, c_size_t)
position = _call("stragumella_position", Place, c_int32, c_int32, c_int32)
read_record = _call("stragumella_read_record", Reading, c_uint32, c_char_p, c_size_t)
write_record = _call("stragumella_write_record", c_uint32, Record, c_char_p, c_size_t)
