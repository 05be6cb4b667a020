"""Pages of numpy's arrays by the module ``_page``: the same answers as by ctypes, nothing lent that does not fit, and nothing kept."""

import array
import ctypes
import os
import random
import sys
import sysconfig
import threading
import time
import tracemalloc
import unittest

from .common import lists, needs_numpy, numpy

import signalfern
from signalfern import Column, Page, _exact, _pages, errors

DENSE = list(range(0, 30000, 3))


def at_once(column, ids):
    """What the module answers, or None where it says no."""
    return _pages.at_once(_pages.NEEDS, column._bytes().address, column._bytes().bytes, ids)


def by_ctypes(column, ids):
    return column._page(column._bytes(), _exact.taken(ids, _exact.IDS))


@needs_numpy
class There(unittest.TestCase):
    def test_it_is_used(self):
        header = os.path.join(sysconfig.get_path("include"), "Python.h")
        if os.environ.get("SIGNALFERN_CTYPES") or not os.path.exists(header):
            self.skipTest("it is left out, or cannot be built here")
        self.assertIsNotNone(_pages.MODULE)


@needs_numpy
@unittest.skipIf(_pages.MODULE is None, "the module for pages is not there")
class Pages(unittest.TestCase):
    def setUp(self):
        self.column = Column(signalfern.write(DENSE, [id * 7 - 5000 for id in DENSE]))

    def same(self, one, other):
        self.assertEqual([(each.dtype, each.tolist()) for each in one], [(each.dtype, each.tolist()) for each in other])

    def test_same_answers(self):
        draw = random.Random(3)
        for name, ids, values in lists():
            column, listed, order = Column(signalfern.write(ids, values)), dict(zip(ids, values)), {id: at for at, id in enumerate(ids)}
            near = [id + step for id in draw.sample(ids, min(40, len(ids))) for step in (-1, 0, 1)]
            asked = [id for id in [*near, 0, 65536, 2147352575] if 0 <= id <= 2147352575]
            draw.shuffle(asked)
            for dtype in ("uint32", "int32", "uint64", "int64"):
                page = at_once(column, numpy.array(asked, dtype))
                self.assertIs(type(page), Page)
                self.same(page, by_ctypes(column, asked))
                want = [(listed[id], order[id], True) if id in listed else (0, 0, False) for id in asked]
                self.assertEqual(list(zip(*(each.tolist() for each in page))), want, name)
                self.same(column.look_up_many(numpy.array(asked, dtype)), page)

    def test_counts(self):
        for count in (0, 1, 2, 15, 16, 17, 1000, 4099):
            ids = numpy.arange(count, dtype="int64")
            for asked in (ids, ids.astype("uint32")):
                self.same(at_once(self.column, asked), by_ctypes(self.column, ids))

    def test_lent_as_they_are(self):
        ids = numpy.arange(10, dtype="uint32")
        frozen = ids.copy()
        frozen.flags.writeable = False
        for asked in (ids, frozen, ids[3:], ids.astype("int32"), ids.astype("int64"), ids.astype("uint64"), ids.astype("longlong")):
            before = asked.copy()
            self.same(at_once(self.column, asked), by_ctypes(self.column, before))
            self.assertEqual(asked.tolist(), before.tolist())

    def test_not_lent(self):
        """What does not fit is left to ctypes, which copies it, or refuses it."""
        ids = numpy.arange(10, dtype="uint32")
        unaligned = [numpy.frombuffer(b"x" + ids.astype(dtype).tobytes(), dtype, offset=1) for dtype in ("uint32", "int64")]
        strided = [ids[::2], ids[::-1], ids.astype("int64")[::2]]
        other = [ids.astype(dtype) for dtype in ("uint8", "int8", "uint16", "int16", ">u4", ">i8", object)]
        for asked in (*unaligned, *strided, *other, array.array("I", range(10)), list(range(10))):
            self.assertIsNone(at_once(self.column, asked))
            self.same(self.column.look_up_many(asked), by_ctypes(self.column, asked))
        masked = numpy.ma.array(ids, mask=[True] * 10)
        shapes = [numpy.array(5, "uint32"), ids.reshape(2, 5), ids.reshape(10, 1), numpy.zeros((0, 3), "uint32")]
        others = ("float32", "float64", "bool", "complex64", "U2", "S4", "S8", "datetime64[s]", "m8[s]", "f4,f4")
        no_integers = [each for dtype in others for each in (ids.astype(dtype), numpy.zeros(3, dtype))]
        for asked in (masked, *shapes, *no_integers):
            self.assertIsNone(at_once(self.column, asked), asked)
            with self.assertRaises(TypeError):
                self.column.look_up_many(asked)

    def test_nothing_is_cut(self):
        """Each of these is 6, or within the limit, once it is cut to 32 bits or read without its sign."""
        wrong = [("int64", 2**32 + 6), ("int64", 6 - 2**32), ("int64", -1), ("int64", -(2**63)), ("int64", 2**63 - 1), ("uint64", 2**32 + 6)]
        wrong += [("uint64", 2**64 - 1), ("uint64", 2**63 + 6), ("uint32", 2147352576), ("uint32", 2**32 - 1), ("int32", -1), ("int32", -(2**31))]
        wrong += [("int32", 2147352576), ("int64", 2147352576), ("uint64", 2147352576), ("int64", 2**31 + 6)]
        for dtype, id in wrong:
            for ids in ([id], [6] * 20 + [id], [id] + [6] * 20, [6] * 7 + [id] + [6] * 12):
                asked = numpy.array(ids, dtype)
                self.assertIsNone(at_once(self.column, asked), (dtype, id))
                with self.assertRaisesRegex(OverflowError, f"this is {id} "):
                    self.column.look_up_many(asked)

    def test_refusals(self):
        # a block that claims three ids of a list of none (docs/FORMAT.md, step 4)
        broken = Column(bytes.fromhex("01 00 09 10 00 00 00 01 00 00 00 02 00 00 00 02 00 07 00 FF 7F 00 00 FF FF"), checked=False)
        for ids in ([7], [70000, 7, 7], [70000] * 30 + [7]):
            asked = numpy.array(ids, "uint32")
            self.assertIsNone(at_once(broken, asked))
            with self.assertRaisesRegex(errors.Broken, f"number {ids.index(7)} of the list"):
                broken.look_up_many(asked)
        self.assertEqual(broken.look_up_many(numpy.array([70000], "uint32")).found.tolist(), [False])

    def test_its_own_arrays_are_looked_at(self):
        """Were numpy to make other arrays than it is asked for, nothing would be written to them."""
        ids, made = numpy.arange(1000), []

        def other(count, dtype):
            made.append(make(count, dtype))
            return made[-1]

        def read_only(count, dtype):
            array = numpy.zeros(count, dtype)
            array.flags.writeable = False
            return array

        call, kind, _, *rest = _pages.NEEDS
        for make in (
            lambda count, dtype: numpy.zeros(count - 1, dtype),
            lambda count, dtype: numpy.zeros((count, 1), dtype),
            lambda count, dtype: numpy.zeros(2 * count, dtype)[::2],
            lambda count, dtype: numpy.zeros(count, "float64" if dtype == "int64" else dtype),
            lambda count, dtype: numpy.zeros(count, "int64" if dtype == "uint64" else dtype),
            lambda count, dtype: numpy.zeros(count, "uint8" if dtype == "bool" else dtype),
            lambda count, dtype: numpy.zeros(count * dtype.itemsize + 1, "uint8")[1:].view(dtype),
            read_only,
        ):
            del made[:]
            try:
                answer = _pages.at_once((call, kind, other, *rest), self.column._bytes().address, self.column._bytes().bytes, ids)
            except ValueError:  # (numpy's own word for what cannot be lent)
                answer = None
            self.assertIsNone(answer)
            self.assertEqual([each.any() for each in made], [False] * 3)

    def test_misuse_is_an_exception(self):
        lent, ids = self.column._bytes(), numpy.arange(3)
        given = (_pages.NEEDS, lent.address, lent.bytes, ids)
        for wrong in ((), given[:3], (*given, 1), ((), *given[1:]), (list(_pages.NEEDS), *given[1:]), (given[0], None, *given[2:])):
            with self.assertRaises(TypeError):
                _pages.at_once(*wrong)
        for length in (-1, 2**64):
            with self.assertRaises(OverflowError):
                _pages.at_once(*given[:2], length, ids)

        def no_room(count, dtype):
            raise MemoryError

        call, kind, _, *rest = _pages.NEEDS
        with self.assertRaises(MemoryError):
            _pages.at_once((call, kind, no_room, *rest), *given[1:])

    def test_nothing_is_kept(self):
        """Answered, refused or not lent: what was counted is the same after many pages, and so is the memory."""
        asked = [numpy.arange(300, dtype=dtype) for dtype in ("uint32", "int64")]
        asked += [numpy.array([5, 2**32 + 5]), numpy.array([5, 2**32 - 1], "uint32"), numpy.arange(9)[::2], numpy.zeros((2, 2)), numpy.zeros(1, "m8[s]")]
        counted = [*_pages.NEEDS[1:], *asked, None]

        def ask():
            for _ in range(1000):
                for ids in asked:
                    at_once(self.column, ids)

        ask()
        before = [sys.getrefcount(each) for each in counted]
        tracemalloc.start()
        try:
            ask()
            first = tracemalloc.get_traced_memory()[0]
            ask()
            grown = tracemalloc.get_traced_memory()[0] - first
        finally:
            tracemalloc.stop()
        self.assertLess(abs(grown), 1000)
        for one, other in zip(before, [sys.getrefcount(each) for each in counted]):
            self.assertLess(abs(one - other), 50)  # (None is counted by others too)

    def test_nothing_stays_lent(self):
        """A view cannot be let go as long as it is lent: afterwards each can."""
        made = []

        def view(count, dtype):
            made.append(memoryview(bytearray(count * dtype.itemsize)).cast({"int64": "q", "uint64": "Q", "bool": "?"}[dtype.name]))
            return made[-1]

        needs = (_pages.NEEDS[0], memoryview, view, *_pages.NEEDS[3:])
        asked = [(array.array("I", [3, 4]), True), (array.array("q", [3, 4]), True), (array.array("q", [3, 2**32]), False), (b"34", False)]
        # (no list may be unaligned)
        asked += [(memoryview(bytearray(9))[1:].cast("I"), False), (memoryview(bytearray(20))[4:].cast("q"), False)]
        for ids, want in asked:
            del made[:]
            made.append(memoryview(ids))
            page = _pages.at_once(needs, self.column._bytes().address, self.column._bytes().bytes, made[0])
            self.assertEqual(page and [each.tolist() for each in page], [[-4979, 0], [1, 0], [True, False]] if want else None)
            for each in made:
                each.release()

    def test_other_threads_run_meanwhile(self):
        # (in the call's place one that waits: its first argument, the column's address, is then a number of microseconds)
        wait = ctypes.cast(ctypes.CDLL(None).usleep, ctypes.c_void_p).value
        steps, over = [], threading.Event()

        def step():
            while not over.is_set():
                steps.append(time.monotonic())
                time.sleep(0.001)

        thread = threading.Thread(target=step)
        thread.start()
        try:
            start = time.monotonic()
            _pages.at_once((wait, *_pages.NEEDS[1:]), 300000, 0, numpy.zeros(0, "uint32"))
            end = time.monotonic()
        finally:
            over.set()
            thread.join()
        self.assertGreater(end - start, 0.25)
        self.assertGreater(sum(start + 0.05 < at < end - 0.05 for at in steps), 2)

    def test_many_threads(self):
        wrong = []

        def ask(start):
            ids = numpy.arange(start, start + 500, dtype="uint32" if start % 2 else "int64")
            want = [id * 7 - 5000 if id % 3 == 0 and id < 30000 else 0 for id in ids.tolist()]
            for _ in range(200):
                if self.column.look_up_many(ids).values.tolist() != want:
                    wrong.append(start)

        threads = [threading.Thread(target=ask, args=(start,)) for start in range(0, 4000, 501)]
        for thread in threads:
            thread.start()
        for thread in threads:
            thread.join()
        self.assertEqual(wrong, [])
