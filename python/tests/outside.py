"""What the tests share: the sample sheets, sheet S by record, and the tool, whose answers the package's are held to."""

import json
import os
import subprocess
from pathlib import Path

ROOT = Path(__file__).resolve().parents[2]
SAMPLES = ROOT / "samples"
SMALLEST = SAMPLES / "smallest.dat"
LAND = SAMPLES / "land-0000.dat"
UNSTRUCTURED = SAMPLES / "unstructured.dat"
MIXED = SAMPLES / "kasumigaura-5440-h1.dat"
COASTS = [SAMPLES / "kasumigaura-5440.dat", SAMPLES / "kyushu-4830.dat"]
REFUSED = sorted(SAMPLES.glob("refused-*.dat"))
TOOL = os.environ.get("STRAGUMELLA_TOOL", str(ROOT / "target" / "host" / "stragumella"))


def told(*words):
    """What the tool prints with --json, an object a line."""
    run = subprocess.run([TOOL, "--json", *map(str, words)], stdout=subprocess.PIPE, stderr=subprocess.PIPE, check=False)
    return [json.loads(line) for line in run.stdout.decode("utf-8").splitlines()]


def with_bytes(data, record, column, text):
    """The file with other bytes from a column of a record on."""
    at = (record - 1) * 74 + column - 1
    return data[:at] + text + data[at + len(text) :]
