"""Corrections, sets, sections, exceptions."""

import pickle
import random
import unittest

from .common import lists

import signalfern
from signalfern import Column, Layer, Layered, Set, errors, judge_section, write, write_set


class Corrections(unittest.TestCase):
    def pairs_of_lists(self):
        draw = random.Random(2)
        all_ids = sorted(draw.sample(range(200000), 90))
        for machine, correction in ((60, 20), (60, 0), (0, 20), (0, 0), (90, 90)):
            yield sorted(draw.sample(all_ids, machine)), sorted(draw.sample(all_ids, correction))

    def test_beside_two_dictionaries(self):
        for ids, above in self.pairs_of_lists():
            machine, correction = {id: id * 3 - 100000 for id in ids}, {id: -id for id in above}
            both = Layered(Column(write(ids, list(machine.values()))), Column(write(above, list(correction.values()), 3)))
            want = sorted({**machine, **correction}.items())
            self.assertEqual((list(both), len(both)), (want, len(want)))
            self.assertEqual(list(zip(*(each.tolist() for each in both.read()))), want)
            asked = [id + step for id in sorted({0, 5, *ids, *above}) for step in (0, 1)]
            page = both.look_up_many(asked)
            for place, id in enumerate(asked):
                by = Layer.CORRECTION if id in correction else Layer.MACHINE
                listed, order = (correction, above) if by else (machine, ids)
                self.assertEqual((both.get(id), both.get(id, "none"), id in both), (listed.get(id), listed.get(id, "none"), id in listed))
                found = both.look_up(id)
                self.assertEqual(found and found[:3], (by, order.index(id), listed[id]) if id in listed else None)
                on_page = (page.values[place], page.ordinals[place], bool(page.found[place]), page.by[place])
                self.assertEqual(on_page, (listed[id], order.index(id), True, by) if id in listed else (0, 0, False, 0))
                after = [pair for pair in want if pair[0] >= id]
                first = both.next(id)
                self.assertEqual(first and first[:2], after[0] if after else None)
                if first:
                    self.assertEqual((first.by, first.ordinal), both.look_up(first.id)[:2])
                self.assertEqual(list(zip(*(each.tolist() for each in both.read_from(id, 7)))), after[:7])
                spoke = [(*pair, int(pair[0] in correction)) for pair in after[:7]]
                self.assertEqual(list(zip(*(each.tolist() for each in both.pairs_from(id, 7)))), spoke)
                if id in listed:
                    self.assertEqual(both[id], listed[id])
                else:
                    with self.assertRaises(KeyError):
                        both[id]
            for low, high in ((-(2**63), 2**63 - 1), (0, 2**63 - 1), (-200000, -1), (1, 0)):
                inside = [pair for pair in want if low <= pair[1] <= high]
                got = both.first_between(low, high)
                self.assertEqual(got and got[:2], inside[0] if inside else None)

    def test_words_of_each(self):
        # docs/FORMAT.md, "A correction on top": (2, -1) on top of document 01's first column
        both = Layered(Column(write([0, 2, 7], [150, 140, 135])), Column(write([2], [-1])))
        self.assertEqual(both.look_up(2), (Layer.CORRECTION, 0, -1, 0, 0))
        self.assertEqual(both.look_up(7), (Layer.MACHINE, 2, 135, 0, 0))
        dense = Layered(Column(write(range(0, 20000, 2), [1] * 10000)), Column(write(range(0, 15000, 3), [2] * 5000)))
        # (document 01: (r div 64) mod 2^(9-6) + 1 where it is listed, 1 where it is not)
        self.assertEqual(dense.look_up(14000), (Layer.MACHINE, 7000, 1, 14000 // 64 % 8 + 1, 1))

    def test_value_bytes(self):
        machine, correction = Column(write([0, 2, 7], [150, 140, 135])), Column(write([2, 3], [0, 5]))
        both = Layered(machine, correction)
        by, view = both.values_of(7)
        self.assertEqual((by, bytes(view), view.readonly), (Layer.MACHINE, bytes(machine.buffer[26:]), True))
        by, view = both.values_of(2)
        self.assertEqual((by, bytes(view)), (Layer.CORRECTION, bytes([0b01000000])))
        self.assertEqual(both.values_of(5), (Layer.MACHINE, b""))

    def test_refused(self):
        # the correction breaks, and the machine column is not asked (docs/FORMAT.md)
        broken = bytes.fromhex("010009100000000100") + write([0, 2, 7], [150, 140, 135])[10:26]
        whole = Column(write([7], [1]))
        damaged, empty = Column(broken, checked=False), Column(write([], []))
        for both, by in ((Layered(whole, damaged), "correction"), (Layered(damaged, empty), "machine")):
            with self.assertRaises(errors.Broken) as caught:
                both[7]
            self.assertIn(by, str(caught.exception))
            with self.assertRaises(errors.Broken):
                both.look_up_many([7])
            with self.assertRaisesRegex(errors.Broken, f"number 1 of the list, by the {by} column"):
                both.look_up_many([65536, 7])
            for read in (lambda: both.read_from(0, 9), lambda: both.pairs_from(0, 9), lambda: next(iter(both))):
                with self.assertRaisesRegex(errors.Broken, f"by the {by} column"):
                    read()
            with self.assertRaises(errors.Damaged):
                both.read()
        # an id that the correction holds does not ask the broken machine column
        both = Layered(damaged, whole)
        self.assertEqual((both[7], both.look_up_many([7]).values.tolist()), (1, [1]))
        # a reading does not pass over what cannot be read, though the correction's pair be nearer
        with self.assertRaisesRegex(errors.Broken, "by the machine column"):
            both.read_from(7, 1)

    def test_pairs_before_a_refusal(self):
        # ids 0 and 9 with 2^63 - 8 and 2^63 - 1: of divisor 8, at byte 16, the second does not fit (document 01, 9)
        great = bytearray(write([0, 9], [2**63 - 8, 2**63 - 1]))
        great[16] = 8
        both = Layered(Column(great, checked=False), Column(write([0, 4], [-1, -4])))
        walk = iter(both)
        self.assertEqual(next(walk), (0, -1))
        for read in (lambda: next(walk), lambda: both.read_from(0, 9), lambda: both.pairs_from(1, 1)):
            with self.assertRaisesRegex(errors.Broken, "by the machine column"):
                read()
        self.assertEqual(both.pairs_from(0, 1)[0].tolist(), [0])
        self.assertEqual([numbers.tolist() for numbers in both.pairs_from(10, 3)], [[], [], []])

    def test_more_than_a_chunk(self):
        ids, above = range(0, 30000, 2), range(0, 30000, 3)
        want = {**dict.fromkeys(ids, 1), **dict.fromkeys(above, -1)}
        columns = write(ids, [1] * len(ids)), write(above, [-1] * len(above))
        for checked in (True, False):
            both = Layered(*(Column(column, checked=checked) for column in columns))
            self.assertEqual(list(both), sorted(want.items()))
            got = both.pairs_from(0, 2**63 - 1)
            self.assertEqual([numbers.tolist() for numbers in got[:2]], [sorted(want), [want[id] for id in sorted(want)]])
            self.assertEqual(got.by.tolist(), [int(id in above) for id in sorted(want)])
            self.assertEqual([len(numbers) for numbers in both.pairs_from(7, 5000)], [5000] * 3)


class Sets(unittest.TestCase):
    def test_documents(self):
        # docs/FORMAT.md, "A set of ids"
        self.assertEqual(write_set([0, 2, 7]).hex(), "01000003000002000700")
        self.assertEqual(write_set(range(65536)).hex(), "01000100")
        self.assertEqual(write_set([place for place in range(65536) if place not in (3, 258)]).hex(), "0100010203000201")
        self.assertEqual(write_set([]).hex(), "00")

    def test_beside_the_list(self):
        for name, ids, _ in lists():
            some = Set(write_set(ids))
            self.assertEqual(len(some), len(ids))
            for id in {0, 65536, 2147352575, *ids[:3], *ids[-3:], *(id + 1 for id in ids[:1])}:
                self.assertEqual((id in some, some.ordinal(id)), (id in ids, ids.index(id) if id in ids else None))

    def test_refused(self):
        wrong = [(b"", errors.Short, 0), (b"\x80\x00", errors.Number, 1), (b"\x01\x00\x03\x01", errors.Damaged, 0), (b"\x00x", errors.Damaged, 0)]
        for bytes_, kind, number in wrong:
            with self.assertRaises(kind) as caught:
                Set(bytes_)
            self.assertEqual(caught.exception.number, number)
        with self.assertRaises(errors.Order) as caught:
            write_set([1, 2, 2])
        self.assertEqual(caught.exception.number, 2)


def turned(section):
    """A sparse section of Lucene 9 as Lucene 8 writes it: each short and each int the other way round, jump entries apart."""
    return b"".join(section[at : at + 2][::-1] for at in range(0, len(section), 2))


class Sections(unittest.TestCase):
    END = bytes.fromhex("ff7f0000ffff")

    def test_each_reason(self):
        # docs/FORMAT.md, "A bare id section": each test failed by bytes made for it
        short = lambda *numbers: b"".join(number.to_bytes(2, "little") for number in numbers)  # noqa: E731
        dense = lambda ones, ranks: short(0, 4095) + ranks + bytes([255]) * (ones // 8) + bytes(8192 - ones // 8)  # noqa: E731
        right = b"".join(min(4096, stride * 512).to_bytes(2, "big") for stride in range(128))
        sparse = short(0, 2, 0, 2, 7)
        self.assertEqual(judge_section(sparse + self.END, 0, 9), 3)
        self.assertEqual(judge_section(turned(sparse + self.END), 0, 9, "big"), 3)
        self.assertEqual(judge_section(dense(4096, right) + self.END, 0, 9), 4096)
        for section, jumps, kind, place in [
            (sparse, 0, errors.CutOff, 10),
            (sparse[:-1], 0, errors.CutOff, 0),
            (sparse + short(0, 0, 1) + self.END, 0, errors.BlockOrder, 10),
            (short(32766, 0, 1) + self.END, 0, errors.BlockOrder, 0),
            (short(0, 2, 0, 7, 7) + self.END, 0, errors.PlaceOrder, 0),
            (dense(4088, right) + self.END, 0, errors.Ones, 0),
            (dense(4096, bytes(256)) + self.END, 0, errors.Rank, 0),
            (sparse + short(32767, 0, 1), 0, errors.EndBlock, 10),
            (sparse + self.END + bytes(8), 1, errors.Jumps, 16),
            (sparse + self.END + b"x", 0, errors.LeftOver, 16),
        ]:
            with self.assertRaises(kind) as caught:
                judge_section(section, jumps, 9)
            self.assertIs(type(caught.exception), kind)
            self.assertEqual((caught.exception.reason, caught.exception.place), (kind.reason, place))

    def test_header(self):
        for jumps, power in ((32768, 9), (0, 6), (0, 16)):
            with self.assertRaises(errors.Header):
                judge_section(self.END, jumps, power)
        with self.assertRaises(ValueError):
            judge_section(self.END, 0, 9, "middle")


class Exceptions(unittest.TestCase):
    def test_numbers_names_and_texts(self):
        with self.assertRaises(signalfern.Refused) as caught:
            write([4, 4], [1, 2])
        raised = caught.exception
        self.assertEqual((raised.refusal, raised.name, raised.number), (3, "ORDER", 1))
        self.assertTrue(str(raised).startswith("refusal 3, ORDER: "))
        self.assertIsInstance(raised, (signalfern.Error, ValueError))

    def test_each_has_a_class_of_its_own(self):
        self.assertEqual(len(set(errors.REFUSALS.values())), 16)
        self.assertEqual(len(set(errors.REASONS.values())), 8)

    def test_they_travel_between_processes(self):
        for kind, given in [*((kind, ("text", 5, "there")) for kind in errors.REFUSALS.values()), *((kind, ("text", 5)) for kind in errors.REASONS.values())]:
            raised = kind(*given)
            again = pickle.loads(pickle.dumps(raised))
            self.assertEqual((type(again), str(again), vars(again)), (kind, str(raised), vars(raised)))
