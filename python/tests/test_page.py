"""docs/PYTHON.md, run as it stands: each section by doctest, with what the sections before it left. And the README's program."""

import contextlib
import doctest
import importlib.util
import io
import os
import re
import unittest

from outside import ROOT

PAGE = ROOT / "docs" / "PYTHON.md"


class Page(unittest.TestCase):
    def test_every_section(self):
        names = {}
        tried = 0
        os.chdir(ROOT)
        runner = doctest.DocTestRunner(verbose=False)
        for section in PAGE.read_text("utf-8").split("\n## "):
            title = section.splitlines()[0]
            if title == "Arrays" and importlib.util.find_spec("numpy") is None:
                continue
            test = doctest.DocTestParser().get_doctest(section, names, title, str(PAGE), 0)
            report = []
            found = runner.run(test, out=report.append, clear_globs=False)
            self.assertEqual(found.failed, 0, "".join(report))
            names = test.globs
            tried += found.attempted
        self.assertGreater(tried, 30)

    def test_the_readme(self):
        (program,) = re.findall(r"^```python\n(.*?)^```$", (ROOT / "README.md").read_text("utf-8"), re.M | re.S)
        os.chdir(ROOT)
        with contextlib.redirect_stdout(io.StringIO()) as printed:
            exec(program, {})
        lines = printed.getvalue().splitlines()
        self.assertEqual(len(lines), 53)
        self.assertEqual(lines[0], "Outcome(meshes=45, layers=52, nodes=85, lines=110, areas=78, records=660)")
        self.assertEqual(lines[1], "544000 1 200000000 200000000")


if __name__ == "__main__":
    unittest.main()
