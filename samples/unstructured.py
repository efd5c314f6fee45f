"""Makes the samples with unstructured layers of samples without: unstructured.py NAME writes the sample NAME to standard output.

Meshes are taken over, and layers of theirs are turned from H2 into H1 (docs/RULES.md 1.7 and 5.10): the letters are H1, the A and loop
records are left out, the H's areas and every L's codes and area numbers are 0, and what the totals of H and M count is counted anew (6.6: a
records total leaves its own record out). Nothing else is changed. It needs Python alone, and nothing of the library that judges the samples.
"""

from __future__ import annotations

import sys
from pathlib import Path

HERE = Path(__file__).resolve().parent

Records = list[bytes]

# By sample: what it is made of, and by mesh code the letters of each of its layers.
SAMPLES = {
    "unstructured.dat": ("smallest.dat", {533945: ["H1"]}),
    "kasumigaura-5440-h1.dat": (
        "kasumigaura-5440.dat",
        {544001: ["H1", "H2"], 544002: ["H2", "H1"], 544004: ["H1", "H1"], 544012: ["H2", "H2"], 544024: ["H1"]},
    ),
    "kyushu-4830-h1.dat": ("kyushu-4830.dat", {483012: ["H1"], 483022: ["H1"], 483023: ["H2"], 483033: ["H1"], 483052: ["H1"]}),
}


def number(record: bytes, start: int, end: int) -> int:
    """The number in columns start to end, both counted from 1."""
    return int(record[start - 1 : end])


def put(record: bytes, start: int, end: int, value: int) -> bytes:
    """The record with that number there."""
    return record[: start - 1] + str(value).rjust(end - start + 1).encode("ascii") + record[end:]


def parts(records: Records, letter: bytes) -> list[Records]:
    """Records in parts: each begins with one that has the letter. Coordinates and loops begin with none."""
    starts = [i for i, record in enumerate(records) if record[:1] == letter]
    return [records[i:j] for i, j in zip(starts, [*starts[1:], len(records)])]


def line_without_areas(record: bytes) -> bytes:
    """An L with both codes and both area numbers 0; any other record as it is."""
    if record[:1] == b"L":
        for start in (30, 35, 40, 45):
            record = put(record, start, start + 4, 0)
    return record


def unstructured(layer: Records) -> Records:
    """The layer as an H1: its A records stand behind all others, so what is kept ends before the first one."""
    first = next((i for i, record in enumerate(layer) if record[:1] == b"A"), len(layer))
    h = b"H1" + put(put(layer[0], 15, 19, 0), 25, 29, first - 1)[2:]
    return [h, *map(line_without_areas, layer[1:first])]


def turned(mesh: Records, letters: list[str]) -> Records:
    """The mesh with layers of these letters."""
    layers = parts(mesh[1:], b"H")
    layers = [unstructured(layer) if letter == "H1" else layer for layer, letter in zip(layers, letters)]
    m = put(mesh[0], 42, 46, sum(number(layer[0], 15, 19) for layer in layers))
    m = put(m, 52, 56, sum(map(len, layers)))
    return [m, *(record for layer in layers for record in layer)]


def made(name: str) -> bytes:
    """The sample's bytes."""
    source, letters = SAMPLES[name]
    data = (HERE / source).read_bytes()
    meshes = parts([data[i : i + 74] for i in range(0, len(data), 74)], b"M")
    taken = [turned(mesh, letters[number(mesh[0], 3, 8)]) for mesh in meshes if number(mesh[0], 3, 8) in letters]
    return b"".join(record for mesh in taken for record in mesh)


if __name__ == "__main__":
    if len(sys.argv) != 2 or sys.argv[1] not in SAMPLES:
        sys.exit("usage: unstructured.py " + " | ".join(SAMPLES))
    sys.stdout.buffer.write(made(sys.argv[1]))
