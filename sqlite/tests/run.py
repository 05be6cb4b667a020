"""Runs the tests by the sqlite3 shell. (python3 sqlite/tests/run.py EXTENSION [--older] [--share N] [--by "WORD.."] [TEST..])

`--older`: the extension was built as for a SQLite that hands no list over. `--share`: one in so many questions. `--by`: words before the shell's name, as
those of valgrind. The last line is `N passed, M failed, K skipped`.
"""

import argparse
import pathlib
import shlex
import sys
import unittest

sys.path[0] = str(pathlib.Path(__file__).resolve().parents[1])
from tests import common  # noqa: E402

TESTS = pathlib.Path(__file__).resolve().parent


def options():
    parser = argparse.ArgumentParser()
    parser.add_argument("extension", type=pathlib.Path)
    parser.add_argument("--older", action="store_true")
    parser.add_argument("--share", type=int, default=1)
    parser.add_argument("--by", type=shlex.split, default=[])
    parser.add_argument("names", nargs="*", help="these tests alone")
    return parser.parse_intermixed_args()


class Counted(unittest.TextTestResult):
    """Counts what passed. (What was run has the skipped ones in some versions of Python and not in others.)"""

    passed = 0

    def addSuccess(self, test):
        super().addSuccess(test)
        self.passed += 1


if __name__ == "__main__":
    given = options()
    common.extension, common.before = str(given.extension.resolve()), given.by
    common.is_older, common.share = given.older, given.share
    loader = unittest.defaultTestLoader
    suite = loader.loadTestsFromNames(given.names) if given.names else loader.discover(str(TESTS), top_level_dir=str(TESTS.parent))
    result = unittest.TextTestRunner(stream=sys.stdout, resultclass=Counted).run(suite)
    failed = len(result.failures) + len(result.errors)
    print(f"{result.passed} passed, {failed} failed, {len(result.skipped)} skipped")
    sys.exit(bool(failed))
