"""Buffers, files, views and threads: nothing is read that is not there any more."""

import array
import gc
import mmap
import os
import threading
import unittest

from .common import descriptors, folder, needs_numpy, numpy

import signalfern
from signalfern import Column, Layered, Set

PAIRS = [(0, 150), (2, 140), (7, 135)]
COLUMN = signalfern.write([id for id, _ in PAIRS], [value for _, value in PAIRS])
RUNS = signalfern.write([id for id, _ in PAIRS], [value for _, value in PAIRS], 3)


class Buffers(unittest.TestCase):
    def test_any_buffer(self):
        with folder() as path:
            (path / "column").write_bytes(COLUMN)
            with open(path / "column", "rb") as file, mmap.mmap(file.fileno(), 0, access=mmap.ACCESS_READ) as mapped:
                for buffer in (COLUMN, bytearray(COLUMN), memoryview(COLUMN), memoryview(b"x" + COLUMN)[1:], array.array("B", COLUMN), mapped):
                    with Column(buffer) as column:
                        self.assertEqual(list(column), PAIRS)
                        self.assertEqual((bytes(column.buffer), column.buffer.readonly), (COLUMN, True))
                # (a map of the caller's is not closed)
                self.assertEqual(mapped[:], COLUMN)

    def test_bytes_alone(self):
        for wrong in (array.array("I", [1, 2]), memoryview(bytes(32)).cast("Q"), "text", None, [1, 3], 5):
            for call in (Column, signalfern.check, Set, lambda buffer: signalfern.judge_section(buffer, 1, 9)):
                with self.assertRaises(TypeError, msg=wrong):
                    call(wrong)
        with self.assertRaises(BufferError):
            Column(memoryview(COLUMN)[::2])

    @needs_numpy
    def test_numpy_buffers(self):
        self.assertEqual(list(Column(numpy.frombuffer(COLUMN, "uint8"))), PAIRS)
        for wrong in (numpy.frombuffer(COLUMN, "uint8").astype("int64"), numpy.frombuffer(COLUMN + COLUMN, "uint8")[::2]):
            with self.assertRaises((TypeError, ValueError)):
                Column(wrong)

    def test_owner_cannot_resize(self):
        for owner, cut in ((bytearray(COLUMN), lambda: owner.pop()), (array.array("B", COLUMN), lambda: owner.pop())):
            column = Column(owner)
            with self.assertRaises(BufferError):
                cut()
            column.close()
            cut()

    def test_closed(self):
        column = Column(COLUMN)
        column.close()
        column.close()
        ways = [lambda: column[7], lambda: column.get(7), lambda: 7 in column, lambda: column.look_up(7), lambda: column.next(7), lambda: column.read()]
        ways += [lambda: column.read_from(0, 1), lambda: column.look_up_many([7]), lambda: list(column), lambda: iter(column), lambda: column.buffer]
        ways += [lambda: column.digest(), lambda: column.first_between(0, 1), lambda: column.all_between(0, 1), lambda: column.pair_at(0)]
        if numpy is not None:
            ways.append(lambda: column.look_up_many(numpy.array([7], "uint32")))
        for way in ways:
            with self.assertRaisesRegex(ValueError, "closed"):
                way()


class Files(unittest.TestCase):
    def setUp(self):
        room = folder()
        self.path = room.__enter__() / "column"
        self.addCleanup(room.__exit__, None, None, None)
        signalfern.write_file(self.path, [id for id, _ in PAIRS], [value for _, value in PAIRS])

    def test_with(self):
        before = descriptors()
        with Column.open(self.path) as column:
            self.assertEqual((list(column), len(column), column[2]), (PAIRS, 3, 140))
        with self.assertRaisesRegex(ValueError, "closed"):
            column[2]
        self.assertEqual(descriptors(), before)

    def test_refused_files_are_let_go(self):
        before = descriptors()
        self.path.write_bytes(COLUMN + b"x")
        for _ in range(3):
            with self.assertRaises(signalfern.errors.Length):
                Column.open(self.path)
        self.assertEqual(descriptors(), before)

    def test_closing_under_a_live_view_raises(self):
        lives = [lambda column: column.buffer, lambda column: column.buffer[3:5], lambda column: iter(column), lambda column: column.iter_from(7)]
        lives += [lambda column: Layered(column, column).values_of(7)[1], lambda column: iter(Layered(column, column))]
        if numpy is not None:
            lives.append(lambda column: numpy.frombuffer(column.buffer, "uint8"))
        for live in lives:
            column = Column.open(self.path)
            held = live(column)
            with self.assertRaises(BufferError):
                column.close()
            self.assertEqual(column[7], 135)  # (it stays open)
            del held
            gc.collect()
            column.close()
            with self.assertRaisesRegex(ValueError, "closed"):
                column[7]

    def test_a_search_under_way_holds_the_file(self):
        self.path.write_bytes(RUNS)
        column = Column.open(self.path)
        ordinals = column.all_between(136, 150)
        for want in (0, 1):
            with self.assertRaises(BufferError):
                column.close()
            self.assertEqual(next(ordinals), want)
        self.assertEqual(list(ordinals), [])
        column.close()

    def test_an_iteration_at_its_end_lets_go(self):
        column = Column.open(self.path)
        pairs = iter(column)
        self.assertEqual(list(pairs), PAIRS)
        column.close()

    def test_a_closed_buffer_stays_for_an_iteration(self):
        owner = bytearray(RUNS)
        column = Column(owner)
        pairs, ordinals = iter(column), column.all_between(0, 1000)
        column.close()
        with self.assertRaises(BufferError):
            owner.clear()
        self.assertEqual((list(pairs), list(ordinals)), (PAIRS, [0, 1, 2]))
        owner.clear()

    def test_answers_outlive_the_file(self):
        with Column.open(self.path) as column:
            (ids, values), page = column.read(), column.look_up_many([7, 8])
        self.assertEqual((ids.tolist(), values.tolist(), page.values.tolist()), ([0, 2, 7], [150, 140, 135], [135, 0]))

    def test_layered(self):
        before = descriptors()
        with Layered(Column.open(self.path), Column.open(self.path)) as both:
            self.assertEqual(both[7], 135)
        self.assertEqual(descriptors(), before)

    def test_set(self):
        self.path.write_bytes(signalfern.write_set([0, 2, 7]))
        with Set.open(self.path) as some:
            self.assertEqual((len(some), 7 in some), (3, True))
        with self.assertRaisesRegex(ValueError, "closed"):
            some.ordinal(7)


class Threads(unittest.TestCase):
    def run_all(self, jobs):
        wrong = []

        def kept(job):
            try:
                job()
            except BaseException as raised:
                wrong.append(raised)

        threads = [threading.Thread(target=kept, args=(job,)) for job in jobs]
        for thread in threads:
            thread.start()
        for thread in threads:
            thread.join()
        self.assertEqual(wrong, [])

    def test_one_column_many_threads(self):
        ids = list(range(0, 30000, 3))
        values = [id * 7 - 5000 for id in ids]
        column = Column(signalfern.write(ids, values))

        def ask(start):
            for step in range(start, start + 300):
                self.assertEqual(column.get(step), step * 7 - 5000 if step % 3 == 0 else None)
                self.assertEqual(column.next(step).id, -(-step // 3) * 3)
                page = column.look_up_many(range(step, step + 20))
                self.assertEqual(page.values.tolist(), [each * 7 - 5000 if each % 3 == 0 else 0 for each in range(step, step + 20)])
            self.assertEqual([each.tolist() for each in column.read()], [ids, values])

        self.run_all([lambda start=start: ask(start) for start in range(0, 2400, 300)])

    def test_close_during_calls(self):
        """A file is closed again and again while others ask: each answer is right, or says that it is closed; none reads what is gone."""
        with folder() as path:
            count = 200000
            signalfern.write_file(path / "column", range(count), range(count))
            for _ in range(20):
                column, started = Column.open(path / "column"), threading.Barrier(4)

                def ask():
                    started.wait()
                    try:
                        while True:
                            ids, values = column.read()
                            self.assertEqual((int(ids[count - 1]), int(values[count - 1])), (count - 1, count - 1))
                            self.assertEqual(column.get(5), 5)
                    except ValueError as closed:
                        self.assertEqual(str(closed), "it is closed")

                def close():
                    started.wait()
                    while True:
                        try:
                            return column.close()
                        except BufferError:
                            os.sched_yield()

                self.run_all([ask, ask, ask, close])

    def test_a_call_under_way_holds_the_file(self):
        """What a call takes before it starts keeps the file from being closed; when that goes, it can be."""
        with folder() as path:
            signalfern.write_file(path / "column", [5], [1])
            column = Column.open(path / "column")
            under_way = column._bytes()
            with self.assertRaises(BufferError):
                column.close()
            self.assertEqual(column[5], 1)
            del under_way
            column.close()
