"""Runs the tests, the examples of the docstrings and those of docs/PYTHON.md. (python3 python/tests/run.py [--without-numpy])

The last line is `N passed, M failed, K skipped`.
"""

import doctest
import importlib
import pathlib
import sys
import unittest

PYTHON = pathlib.Path(__file__).resolve().parents[1]
sys.path[0] = str(PYTHON)
if "--without-numpy" in sys.argv:
    sys.modules["numpy"] = None  # (so that importing it fails)


def suite():
    everything = unittest.TestSuite([unittest.defaultTestLoader.discover(str(PYTHON / "tests"), top_level_dir=str(PYTHON))])
    for file in sorted((PYTHON / "signalfern").glob("*.py")):
        module = importlib.import_module("signalfern" if file.stem == "__init__" else f"signalfern.{file.stem}")
        everything.addTests(doctest.DocTestSuite(module) if ">>>" in file.read_text() else [])
    everything.addTests(doctest.DocFileSuite(str(PYTHON.parent / "docs" / "PYTHON.md"), module_relative=False))
    return everything


class Counted(unittest.TextTestResult):
    """Counts what passed. (What was run has the skipped ones in some versions of Python and not in others.)"""

    passed = 0

    def addSuccess(self, test):
        super().addSuccess(test)
        self.passed += 1


if __name__ == "__main__":
    result = unittest.TextTestRunner(stream=sys.stdout, resultclass=Counted).run(suite())
    failed = len(result.failures) + len(result.errors)
    print(f"{result.passed} passed, {failed} failed, {len(result.skipped)} skipped")
    sys.exit(bool(failed))
