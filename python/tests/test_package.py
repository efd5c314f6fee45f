"""The package as it is installed: its version, its library, its structs."""

import ctypes
import os
import re
import shutil
import subprocess
import sys
import tempfile
import unittest
from importlib import metadata
from pathlib import Path

import stragumella
from outside import ROOT
from stragumella import _library
from stragumella._facts import SONAME

HEADER = (ROOT / "include" / "stragumella.h").read_text("ascii")


def started(library):
    """What importing the package with that library prints on standard error."""
    run = subprocess.run(
        [sys.executable, "-c", "import stragumella"],
        env={**os.environ, "STRAGUMELLA_LIBRARY": str(library)},
        stderr=subprocess.PIPE,
        check=False,
    )
    return run.stderr.decode("utf-8")


class Package(unittest.TestCase):
    def test_version(self):
        version = ".".join(re.findall(r"define STRAGUMELLA_VERSION_\w+ (\d+)", HEADER))
        self.assertEqual(stragumella.__version__, version)
        self.assertEqual(metadata.version("stragumella"), version)

    def test_every_call_of_the_header(self):
        """All of them but layer_sums: all_sums gives its answers for all layers at once."""
        calls = set(re.findall(r"\bstragumella_(\w+)\(", HEADER.split('extern "C"')[1]))
        self.assertEqual({name for name in calls if hasattr(_library, name)}, calls - {"layer_sums"})

    def test_names(self):
        for name in stragumella.__all__:
            self.assertTrue(hasattr(stragumella, name), name)

    def test_the_library_stands_beside_the_package(self):
        self.assertTrue(Path(stragumella.__file__).with_name(SONAME).is_file())
        self.assertTrue(Path(stragumella.__file__).with_name("py.typed").is_file())

    def test_library_named_by_the_caller(self):
        beside = Path(stragumella.__file__).with_name(SONAME)
        with tempfile.TemporaryDirectory() as folder:
            moved = shutil.copy(beside, Path(folder) / "other-name.so")
            self.assertEqual(started(moved), "")
            self.assertIn("the library cannot be loaded", started(Path(folder) / "none.so"))

    def test_another_versions_library(self):
        """The names of the version stand in the library's string table; one of another version has others."""
        data = Path(stragumella.__file__).with_name(SONAME).read_bytes()
        names = _library._NAMES.encode("ascii")
        self.assertIn(names + b"\0", data)
        with tempfile.TemporaryDirectory() as folder:
            other = Path(folder) / SONAME
            other.write_bytes(data.replace(names + b"\0", names[:-1] + b"x\0"))
            self.assertIn("another version's library", started(other))

    @unittest.skipIf(shutil.which("cc") is None, "no C compiler to ask")
    def test_structs(self):
        """Each struct is the header's: its size, and its fields by name, place and size."""
        structs = {"outcome": _library.Outcome, "place": _library.Place, "record": _library.Record, "reading": _library.Reading}
        lines, own = [], []
        for name, struct in structs.items():
            c = f"stragumella_{name}"
            lines.append(f'printf("{name} %zu\\n", sizeof({c}));')
            own.append(f"{name} {ctypes.sizeof(struct)}")
            for field, *_ in struct._fields_:
                lines.append(f'printf("{field} %zu %zu\\n", offsetof({c}, {field}), sizeof((({c} *)0)->{field}));')
                own.append(f"{field} {getattr(struct, field).offset} {getattr(struct, field).size}")
        program = '#include <stdio.h>\n#include "stragumella.h"\nint main(void)\n{\n' + "\n".join(lines) + "\nreturn 0;\n}\n"
        with tempfile.TemporaryDirectory() as folder:
            built = str(Path(folder) / "structs")
            subprocess.run(["cc", f"-I{ROOT / 'include'}", "-x", "c", "-o", built, "-"], input=program.encode("ascii"), check=True)
            asked = subprocess.run([built], stdout=subprocess.PIPE, check=True).stdout.decode("ascii").splitlines()
        self.assertEqual(own, asked)


if __name__ == "__main__":
    unittest.main()
