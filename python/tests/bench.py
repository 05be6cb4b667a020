"""How long the calls take from Python, beside the same calls from C. To be run by hand, with numpy: python3 python/tests/bench.py [--installed]

Each number is the least of many rounds, in which C and Python take turns: other work on the machine makes some rounds longer and none shorter. The package
is this tree's, or the one that is installed. The last lines hold the worst of each kind against what was promised, by the way that the package takes by
itself; the others tell what it takes by ctypes alone too.
"""

import collections
import ctypes
import itertools
import pathlib
import subprocess
import sys
import tempfile
import time

import numpy

HERE = pathlib.Path(__file__).resolve().parent
if "--installed" not in sys.argv:
    sys.path.insert(0, str(HERE.parent))
import signalfern  # noqa: E402
from signalfern import _exact, _library, _pages  # noqa: E402

PAGE, MILLION = 1000, 1_000_000
# What was promised, and the worst that was measured of each.
PROMISED = {"a page of 1000 ids by numpy's arrays, times C": 1.5, "reading a million pairs, times C": 1.2, "get, microseconds": 2.0}
WORST = dict.fromkeys(PROMISED, 0.0)
A_PAGE, READING, GET = PROMISED


def c_calls(folder):
    """The C program beside this file, with the library that the package uses."""
    include, library = HERE.parents[1] / "include", pathlib.Path(_library._LIBRARY._name).resolve()
    made = pathlib.Path(folder) / "bench.so"
    words = ["cc", "-shared", "-fPIC", "-O2", f"-I{include}", str(HERE / "bench.c"), str(library), f"-Wl,-rpath,{library.parent}", "-o", str(made)]
    subprocess.run(words, check=True)
    calls = ctypes.CDLL(str(made))
    for name in ("page", "read", "read_again", "read_from", "pair_at", "look_up"):
        getattr(calls, f"bench_{name}").restype = ctypes.c_double
    return calls


def words(buffer):
    return ctypes.c_void_p(numpy.frombuffer(buffer, numpy.uint8).ctypes.data), ctypes.c_size_t(len(buffer))


def pointer(numbers):
    return ctypes.c_void_p(numbers.ctypes.data)


def of_python(call, times):
    start = time.perf_counter_ns()
    for _ in range(times):
        call()
    return (time.perf_counter_ns() - start) / times


def least(rounds, *timed):
    """The least of many rounds, of each in turn."""
    return [min(times) for times in zip(*([one() for one in timed] for _ in range(rounds)))]


def show(what, c, python, unit=1e3, name="us"):
    print(f"{what:52} C {c / unit:9.3f} {name}   Python {python / unit:9.3f} {name}   ratio {python / c:5.2f}", flush=True)


def columns(random):
    def column(ids):
        ids = numpy.unique(ids).astype(numpy.uint32)
        return ids, signalfern.write(ids, random.integers(-1000, 1000, len(ids)))

    yield "sparse", *column(random.integers(0, 2_000_000_000, MILLION))
    yield "dense", *column(random.integers(0, 4_000_000, MILLION))
    yield "full", *column(numpy.arange(MILLION))


def pages(random, ids):
    """Ids to ask for: listed ones, others of the same blocks where there are some, and others past all blocks; in any order, and ascending."""
    last = int(ids[-1])
    kinds = {"hits": random.choice(ids, PAGE), "misses past all blocks": random.integers(last + 65536, signalfern.MAX_ID, PAGE).astype(numpy.uint32)}
    between = numpy.setdiff1d(random.integers(0, last, 4 * PAGE), ids).astype(numpy.uint32)
    if len(between) >= PAGE:
        kinds["misses"] = random.permutation(between)[:PAGE]
    for kind, asked in kinds.items():
        yield kind, asked
        yield f"{kind}, ascending", numpy.sort(asked)


def measure_pages(calls, random, name, ids, bytes_):
    column = signalfern.Column(bytes_)
    for kind, asked in pages(random, ids):
        lists = numpy.empty(PAGE, numpy.uint64), numpy.empty(PAGE, numpy.int64), numpy.empty(PAGE, numpy.uint8)
        given, wide = (*words(bytes_), pointer(asked), ctypes.c_size_t(PAGE), *map(pointer, lists), 5), asked.astype(numpy.int64)
        ways = [lambda: column.look_up_many(asked), lambda: column.look_up_many(wide), lambda: column._page(column._bytes(), _exact.taken(asked, _exact.IDS))]
        c, *python = least(1500, lambda: calls.bench_page(*given), *(lambda way=way: of_python(way, 5) for way in ways))
        each = "   ".join(f"{how} {took / 1e3:6.3f} us, {took / c:4.2f}" for how, took in zip(("Python", "of int64", "by ctypes"), python))
        print(f"{name + f': a page of {PAGE} {kind}':52} C {c / 1e3:9.3f} us   {each}", flush=True)
        WORST[A_PAGE] = max(WORST[A_PAGE], *(took / c for took in python[:2]))


def measure_others(calls, random, name, ids, bytes_):
    column, count = signalfern.Column(bytes_), ctypes.c_size_t(len(ids))
    id = int(random.choice(ids))
    c, python = least(1000, lambda: calls.bench_look_up(*words(bytes_), id, 50), lambda: of_python(lambda: column.get(id), 50))
    show(f"{name}: get", c, python)
    WORST[GET] = max(WORST[GET], python / 1e3)
    at = ctypes.c_uint64(len(ids) // 3)
    c, python = least(1000, lambda: calls.bench_pair_at(*words(bytes_), at, 50), lambda: of_python(lambda: column.pair_at(at.value), 50))
    show(f"{name}: pair_at", c, python)
    kept = numpy.zeros(len(ids), numpy.uint32), numpy.zeros(len(ids), numpy.int64)
    for some, rounds, unit, unit_name in ((PAGE, 1000, 1e3, "us"), (len(ids), 50, 1e6, "ms")):
        given = (*words(bytes_), 0, *map(pointer, kept), ctypes.c_size_t(some), 1)
        c, python = least(rounds, lambda: calls.bench_read_from(*given), lambda: of_python(lambda: column.read_from(0, some), 1))
        show(f"{name}: read_from of {some} pairs", c, python, unit, unit_name)
    (each,) = least(300, lambda: of_python(lambda: collections.deque(itertools.islice(column, 20000), 0), 1) / 20000)
    print(f"{name}: iteration, each pair: {each / 1e3:.3f} us", flush=True)
    c, python = least(100, lambda: calls.bench_read(*words(bytes_), count), lambda: of_python(column.read, 1))
    show(f"{name}: read {len(ids)} pairs into new lists", c, python, 1e6, "ms")
    WORST[READING] = max(WORST[READING], python / c)
    (again,) = least(50, lambda: calls.bench_read_again(*words(bytes_), *map(pointer, kept), count))
    show(f"{name}: the same, C into lists written before", again, python, 1e6, "ms")
    WORST[READING] = max(WORST[READING], python / again)


if __name__ == "__main__":
    print(f"pages by {'ctypes' if _pages.MODULE is None else _pages.MODULE.__file__}, the library {_library._LIBRARY._name}", flush=True)
    with tempfile.TemporaryDirectory() as folder:
        calls, random = c_calls(folder), numpy.random.default_rng(1)
        for column in columns(random):
            measure_pages(calls, random, *column)
            measure_others(calls, random, *column)
    for what, most in PROMISED.items():
        print(f"{what}: at most {WORST[what]:.2f}, promised {most}: {'kept' if WORST[what] <= most else 'NOT KEPT'}")
    sys.exit(any(WORST[what] > most for what, most in PROMISED.items()))
