"""What the tests share: the package from this tree, and lists to try it with."""

import contextlib
import os
import pathlib
import random
import shutil
import sys
import tempfile
import unittest

PYTHON = pathlib.Path(__file__).resolve().parents[1]
ROOT = PYTHON.parent
if str(PYTHON) not in sys.path:
    sys.path.insert(0, str(PYTHON))

try:
    import numpy
except ImportError:
    numpy = None

needs_numpy = unittest.skipIf(numpy is None, "numpy is not installed")


def lists(seed=1):
    """Lists of pairs with blocks of each kind, gaps between them and values of all sizes, by a name."""
    draw = random.Random(seed)
    some = sorted(draw.sample(range(3 * 65536), 60))
    half = sorted(draw.sample(range(65536, 131072), 9000)) + [200000, 2147352575]
    yield "none", [], []
    yield "one", [65536], [-1]
    yield "ends", [0, 2147352575], [-(2**63), 2**63 - 1]
    yield "sparse", some, [draw.randrange(-50, 50) * 7 for _ in some]
    yield "wide", some, [draw.randrange(-(2**63), 2**63) for _ in some]
    yield "few", some, [draw.choice([-(2**60), 5, 2**61]) for _ in some]
    yield "dense", half, [draw.randrange(1000) for _ in half]
    yield "all", list(range(65536, 131075)), [i % 5 for i in range(65536, 131075)]
    yield "runs", list(range(0, 60000, 3)), [3 if i != 17000 else 10**9 for i in range(20000)]


@contextlib.contextmanager
def folder():
    path = tempfile.mkdtemp()
    try:
        yield pathlib.Path(path)
    finally:
        shutil.rmtree(path)


def descriptors():
    """How many files this process has open."""
    return len(os.listdir("/proc/self/fd"))
