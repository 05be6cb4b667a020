"""Writing, reading and asking, beside document 01's cases, docs/FORMAT.md's columns and the small reader of plain.py."""

import itertools
import os
import subprocess
import tracemalloc
import unittest

from . import plain
from .common import folder, lists

import signalfern
from signalfern import Column, Edition, Page, errors


def unhex(text):
    return bytes.fromhex(text)


FIRST = unhex("01 03 09 10 00 02 8E 02 05 01 00 00 02 00 00 00 02 00 07 00 FF 7F 00 00 FF FF D0")
# Document 01, "Both sides of each line", and the columns that docs/FORMAT.md takes apart: pairs, edition, power, bytes.
CASES = [
    ([(0, 150), (2, 140), (7, 135)], 1, 9, FIRST),
    ([], 1, 9, unhex("01 00 09 0E 01 00 00 01 00 FF 7F 00 00 FF FF" + "00" * 8)),
    ([(65536, -1)], 1, 0, unhex("01 01 00 24 03 00 01 01 00 01 00 00 00 00 00 FF 7F 00 00 FF FF" + "00" * 16 + "01 00 00 00 06 00 00 00")),
    ([(0, -2), (2, 5), (7, 1)], 2, 9, unhex("02 03 09 10 00 04 03 01 02 00 00 02 00 00 00 02 00 07 00 FF 7F 00 00 FF FF 70 03")),
]


def short_by(column, less):
    """A column of values 0, for which no byte stands in the value section, with a header that counts fewer pairs."""
    count, end = plain.number(column, 1)
    return column[:1] + plain.as_number(count - less) + column[end:]


class Documents(unittest.TestCase):
    def test_whole_columns(self):
        for pairs, edition, power, column in CASES:
            ids, values = [id for id, _ in pairs], [value for _, value in pairs]
            self.assertEqual(signalfern.write(ids, values, edition, power), column)
            self.assertEqual(signalfern.check(column), len(pairs))
            self.assertEqual(list(Column(column)), pairs)

    def test_starred_lines(self):
        # stored numbers 1, 1, 1, 0, 2, 2, 0, 0 at width 2; differences 15 with g 5, and 2997 with g 1; the smallest value of all
        self.assertEqual(signalfern.write(range(8), [1, 1, 1, 0, 2, 2, 0, 0])[-2:], unhex("54 A0"))
        self.assertEqual(plain.read(signalfern.write([0, 1, 2], [135, 140, 150]))[0][5:8], [2, 270, 5])
        self.assertEqual(plain.read(signalfern.write([0, 1, 2], [3, 4, 3000]))[0][5:8], [12, 6, 1])
        self.assertIn(unhex("FF" * 9 + "01"), signalfern.write([0], [-(2**63)]))
        # strides of 512 places with 5, 1 and 2 ids, and the rest of a dense block after them
        ids = [0, 1, 2, 3, 4, 512, 1024, 1025, *range(1536, 1536 + 5000)]
        column = signalfern.write(ids, [0] * len(ids))
        at = column.index(unhex("00 00") + (len(ids) - 1).to_bytes(2, "little")) + 4
        self.assertEqual(column[at : at + 6], unhex("00 00 00 05 00 06"))

    def test_refusals(self):
        for asked, kind, number in [
            (lambda: signalfern.check(unhex("80 00")), errors.Number, 1),
            (lambda: signalfern.check(unhex("80")), errors.Short, 1),
            (lambda: signalfern.check(b""), errors.Short, 0),
            (lambda: signalfern.check(unhex("01 03 89 00")), errors.Number, 3),
            (lambda: signalfern.check(unhex("05")), errors.Edition, 0),
            (lambda: signalfern.check(unhex("01 00 06 0E 01 00 00 01 00")), errors.Header, 0),
            (lambda: signalfern.check(FIRST + b"x"), errors.Length, 0),
            (lambda: signalfern.check(FIRST[:-1] + b"\xd1"), errors.Damaged, 0),
            (lambda: signalfern.write([4, 4], [1, 2]), errors.Order, 1),
            (lambda: signalfern.write([1, 2], [1]), errors.Lengths, 0),
            (lambda: signalfern.write([1], [1], power=6), errors.Power, 0),
            (lambda: signalfern.write([1], [1], power=16), errors.Power, 0),
            (lambda: signalfern.write([1], [1], edition=5), errors.Edition, 0),
            (lambda: signalfern.write_planned([1, 2], [1, 2], [1, 2]), errors.Plan, 0),
            (lambda: Column(FIRST).first_between(0, 1), errors.Edition, 0),
        ]:
            with self.assertRaises(kind) as caught:
                asked()
            self.assertIs(type(caught.exception), kind)
            self.assertEqual((caught.exception.refusal, caught.exception.number), (kind.refusal, number))

    def test_greatest_id(self):
        self.assertEqual(list(Column(signalfern.write([2147352575], [3]))), [(2147352575, 3)])

    def test_sizes_of_blocks(self):
        # a block of 4095 ids has 8194 bytes; 4096 at power 9 8452, at power 0 8196; 65536 has 4
        for count, power, size in [(4095, 9, 8194), (4096, 9, 8452), (4096, 0, 8196), (65536, 9, 4)]:
            self.assertEqual(plain.read(signalfern.write(range(count), [0] * count, power=power))[0][3], size + 6)


class BesidePlain(unittest.TestCase):
    """Every answer beside a dictionary of the pairs, and the bytes beside a reader that was written from docs/FORMAT.md."""

    asked = ""

    def _formatMessage(self, msg, standard):
        return super()._formatMessage(self.asked, standard)

    def columns(self):
        large = {"dense": [(1, 0), (1, 9), (2, 7)], "all": [(1, 9)], "runs": [(1, 9), (3, 9), (4, 9)]}
        for name, ids, values in lists():
            for edition, power in large.get(name, itertools.product(Edition, (0, 9, 15))):
                self.asked = f"{name}, edition {int(edition)}, power {power}"
                yield ids, values, edition, power, signalfern.write(ids, values, edition, power)

    def test_bytes(self):
        for ids, values, edition, power, column in self.columns():
            header, pairs = plain.read(column)
            self.assertEqual(pairs, list(zip(ids, values)))
            self.assertEqual(header[1:3], [len(ids), power])
            self.assertIn(header[0], (1, 4) if edition == 4 else (edition,))
            if edition == 1 and len(ids) < 4096:
                self.assertEqual(column, plain.write(pairs, power))

    def test_read(self):
        for ids, values, edition, power, bytes_ in self.columns():
            column = Column(bytes_)
            self.assertEqual([each.tolist() for each in column.read()], [ids, values])
            self.assertEqual(list(column), list(zip(ids, values)))
            self.assertEqual((len(column), column.power), (len(ids), power))
            self.assertEqual(list(Column(bytes_, checked=False)), list(zip(ids, values)))
            middle = ids[len(ids) // 2] if ids else 5
            for start, count in ((0, 0), (0, 3), (0, 4096), (1, 5000), (middle, 5), (middle, 2**63 - 1), (ids[-1] - 1 if ids else 9, 2), (2147352575, 1)):
                want = [pair for pair in zip(ids, values) if pair[0] >= start][:count]
                for asked in (column, Column(bytes_, checked=False)):
                    got = asked.read_from(start, count)
                    self.assertEqual(list(zip(*(each.tolist() for each in got))), want)
                    self.assertEqual([len(each) for each in got], [len(want)] * 2)
                self.assertEqual(list(itertools.islice(column.iter_from(start), len(want))), want)
                if count == 0:
                    continue
                first = column.next(start)
                self.assertEqual(first and first[:2], want[0] if want else None)
                self.assertEqual(first and first.ordinal, ids.index(want[0][0]) if want else None)

    def test_look_ups(self):
        for ids, values, edition, power, bytes_ in self.columns():
            column, listed = Column(bytes_), dict(zip(ids, values))
            near = {0, 65535, 131072, 2147352575, *ids[:4], *ids[-4:]}
            asked = [id + step for id in near for step in (-1, 0, 1) if 0 <= id + step <= 2147352575]
            for id in asked:
                self.assertEqual(column.get(id), listed.get(id))
                self.assertEqual(column.get(id, "none"), listed.get(id, "none"))
                self.assertEqual(id in column, id in listed)
                found = column.look_up(id)
                if id in listed:
                    self.assertEqual(column[id], listed[id])
                    self.assertEqual(found, (ids.index(id), listed[id], *plain.counts(ids, id, power)))
                else:
                    self.assertIsNone(found)
                    with self.assertRaises(KeyError):
                        column[id]
            page = column.look_up_many(asked + asked[:3])
            self.assertIsInstance(page, Page)
            for place, id in enumerate(asked + asked[:3]):
                got = (page.values[place], page.ordinals[place], bool(page.found[place]))
                self.assertEqual(got, (listed[id], ids.index(id), True) if id in listed else (0, 0, False))

    def test_pair_at(self):
        for ids, values, edition, power, bytes_ in self.columns():
            column, count = Column(bytes_), len(ids)
            ordinals = {0, 1, 2, count // 3, count // 2, 4095, 4096, 16383, 16384, count - 2, count - 1}
            for ordinal in ordinals:
                if 0 <= ordinal < count:
                    self.assertEqual(column.pair_at(ordinal), (ids[ordinal], values[ordinal], ordinal))
            for ordinal in (count, count + 1, 2**32, 2**64 - 1):
                self.assertIsNone(column.pair_at(ordinal))

    def test_between(self):
        for name, ids, values in lists():
            column = Column(signalfern.write(ids, values, Edition.RUNS))
            for low, high in ((-(2**63), 2**63 - 1), (0, 0), (1, 0), (3, 4), (10**6, 10**12), (-(2**63), -1)):
                want = [at for at, value in enumerate(values) if low <= value <= high]
                self.assertEqual(column.first_between(low, high), want[0] if want else None)
                self.assertEqual(list(column.all_between(low, high)), want)
                for start in (0, 1, 16383, 16384, 16385, 19000, len(ids) - 1, len(ids), 2**64 - 1):
                    self.assertEqual(column.first_between(low, high, max(start, 0)), next((at for at in want if at >= start), None))

    def test_between_other_editions(self):
        for edition in (1, 2, 4):
            column = Column(signalfern.write([1, 2], [-(2**60), 2**60], edition))
            for ask in (column.first_between, column.all_between, lambda low, high: column.first_between(low, high, 5)):
                with self.assertRaises(errors.Edition):
                    ask(0, 1)

    def test_plans(self):
        for name, ids, values in lists():
            table = signalfern.plan(values)
            by_table = signalfern.write(ids, values, Edition.TABLE)
            self.assertEqual(by_table, signalfern.write_planned(ids, values, table))
            self.assertEqual(table.tolist(), sorted(set(values)) if plain.read(by_table)[0][0] == 4 else [])
        self.assertEqual(signalfern.plan([-(2**63), 2**63 - 1] * 40).tolist(), [-(2**63), 2**63 - 1])

    def test_empty_page(self):
        page = Column(FIRST).look_up_many([])
        self.assertEqual([len(each) for each in page], [0, 0, 0])


class Unchecked(unittest.TestCase):
    def test_damaged(self):
        damaged = FIRST[:-1] + b"\xd1"
        with self.assertRaises(errors.Damaged):
            Column(damaged)
        column = Column(damaged, checked=False)
        self.assertEqual(column[0], 150)
        with self.assertRaises(errors.Damaged):
            column.read()

    def test_broken(self):
        # a block that claims three ids of a list of none (docs/FORMAT.md, step 4): header of no pairs, with a section of one block
        broken = unhex("01 00 09 10 00 00 00 01 00") + FIRST[10:26]
        column = Column(broken, checked=False)
        asks = [lambda: column[7], lambda: column.get(7), lambda: 7 in column, lambda: column.look_up(7), lambda: column.next(7), lambda: list(column)]
        for ask in (*asks, lambda: column.read_from(0, 1), lambda: column.read_from(7, 2**63 - 1), lambda: next(column.iter_from(1))):
            with self.assertRaises(errors.Broken):
                ask()
        with self.assertRaises(errors.Broken) as caught:
            column.look_up_many([70000, 7, 7])
        self.assertIn("number 1 of the list", str(caught.exception))

    def test_broken_after_some_pairs(self):
        """A step that fails after good pairs: these can be had, and what goes on is refused, so that no short list passes for a whole one."""
        good = list(range(0, 10000, 2))
        for more in (1, 10, 4096):
            ids = [*good, *range(65536, 65536 + more)]
            # (the last block then claims more ids than are left of the list: docs/FORMAT.md, step 4)
            column = Column(short_by(signalfern.write(ids, [0] * len(ids), power=0), 1), checked=False)
            for start, count in ((0, 5000), (1, 4999), (8180, 12), (8180, 910), (9998, 1)):
                want = [id for id in good if id >= start][:count]
                self.assertEqual([each.tolist() for each in column.read_from(start, count)], [want, [0] * count])
                self.assertEqual(list(itertools.islice(column.iter_from(start), count)), [(id, 0) for id in want])
            for start in (0, 8180, 9998, 9999, 65536):
                with self.assertRaises(errors.Broken):
                    column.read_from(start, 5001)
                pairs, got = column.iter_from(start), []
                with self.assertRaises(errors.Broken):
                    for pair in pairs:
                        got.append(pair)
                self.assertEqual(got, [(id, 0) for id in good if id >= start])
            self.assertEqual(column.pair_at(4999), (9998, 0, 4999))
            self.assertIsNone(column.pair_at(4999 + more))
            if more > 1:
                with self.assertRaises(errors.Broken):
                    column.pair_at(5000)

    def test_a_false_count_allocates_nothing(self):
        # a header that claims 2147352576 pairs: 24 GiB, were they made before the check
        claim = unhex("01 80 80 F8 FF 07 09 0E 01 00 00 01 00") + unhex("FF 7F 00 00 FF FF") + bytes(8)
        column = Column(claim, checked=False)
        self.assertEqual(len(column), 2147352576)
        with self.assertRaises(errors.Damaged):
            column.read()
        one = Column(short_by(signalfern.write([5], [0]), 1 - 2147352576), checked=False)
        tracemalloc.start()
        try:
            for each, ids in ((column, []), (one, [5])):
                self.assertEqual(each.read_from(0, 2**63 - 1)[0].tolist(), ids)
                self.assertEqual([id for id, _ in each], ids)
            self.assertLess(tracemalloc.get_traced_memory()[1], 10**6)
        finally:
            tracemalloc.stop()

    def test_header_is_read_at_once(self):
        with self.assertRaises(errors.Length):
            Column(FIRST[:-1], checked=False)


class Files(unittest.TestCase):
    def test_whole_or_not_at_all(self):
        with folder() as path:
            file = path / "scores.column"
            self.assertEqual(signalfern.write_file(file, [0, 2, 7], [150, 140, 135]), 27)
            self.assertEqual(file.read_bytes(), FIRST)
            with self.assertRaises(errors.Order):
                signalfern.write_file(file, [4, 4], [1, 2])
            with self.assertRaises(OSError):
                signalfern.write_file(path / "missing" / "scores.column", [0], [1])
            (path / "taken").mkdir()
            with self.assertRaises(OSError):
                signalfern.write_file(path / "taken", [0], [1])
            self.assertEqual((file.read_bytes(), sorted(os.listdir(path))), (FIRST, ["scores.column", "taken"]))

    def test_mode_is_that_of_a_new_file(self):
        with folder() as path:
            (path / "plain").write_bytes(b"")
            signalfern.write_file(path / "column", [0], [1])
            self.assertEqual((path / "column").stat().st_mode, (path / "plain").stat().st_mode)

    def test_who_has_it_open_keeps_the_old_bytes(self):
        with folder() as path:
            signalfern.write_file(path / "column", [0], [1])
            with Column.open(path / "column") as old:
                signalfern.write_file(path / "column", [0], [2])
                with Column.open(str(path / "column")) as new:
                    self.assertEqual((old[0], new[0]), (1, 2))

    def test_refused_files(self):
        with folder() as path:
            for name, bytes_, kind in (("empty", b"", errors.Short), ("cut", FIRST[:20], errors.Length), ("bad", FIRST[:-1] + b"\xd1", errors.Damaged)):
                (path / name).write_bytes(bytes_)
                with self.assertRaises(kind):
                    Column.open(path / name)
            with self.assertRaises(FileNotFoundError):
                Column.open(path / "none")

    def test_digest(self):
        # (that of sha256sum, of the 27 bytes of document 01's first case)
        digest = subprocess.run(["sha256sum"], input=FIRST, stdout=subprocess.PIPE, check=True).stdout.split()[0].decode()
        self.assertEqual((signalfern.digest(FIRST), Column(FIRST).digest()), (digest, digest))
