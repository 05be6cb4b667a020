"""Every way in which a number could be cut on its way to the library, or changed by a conversion. mutations.py takes the checks out one by one."""

import array
import decimal
import fractions
import unittest

from .common import needs_numpy, numpy

from signalfern import Column, Edition, Layered, Set, _exact, _memory, judge_section, plan, write, write_planned, write_set

ID = 5
# What ctypes makes 5 of, or takes for 5: each must be refused, and none may find the value of id 5.
CUT_IDS = [2**32 + ID, 2**64 + ID, ID - 2**32, ID - 2**64, 2147352576, 2**32 - 1, -1]
NO_INTEGERS = [5.0, 5.5, "5", b"5", None, True, decimal.Decimal(5), fractions.Fraction(5), 5j, [5]]


class HasInt:
    """A number that can be made an int of, but is none."""

    def __int__(self):
        return 5


class HasIndex:
    """A number that is an exact integer."""

    def __index__(self):
        return 5


class Numbers(unittest.TestCase):
    def setUp(self):
        self.column = Column(write([ID], [77], Edition.RUNS))
        self.both = Layered(self.column, Column(write([ID], [78])))
        self.set = Set(write_set([ID]))

    def ways(self):
        """Every call that takes one id."""
        yield from (self.column.get, self.column.__getitem__, self.column.__contains__, self.column.look_up, self.column.next, self.column.iter_from)
        yield from (self.both.get, self.both.__getitem__, self.both.__contains__, self.both.look_up, self.both.next, self.both.iter_from, self.both.values_of)
        yield from (self.set.ordinal, self.set.__contains__)
        yield lambda id: self.column.read_from(id, 1)
        yield lambda id: self.both.read_from(id, 1)
        yield lambda id: self.column.look_up_many([id])
        yield lambda id: self.column.look_up_many((each for each in (1, id)))
        yield lambda id: self.both.look_up_many([id])
        yield lambda id: write([id], [1])
        yield lambda id: write((0, id), [1, 1])
        yield lambda id: write_planned([id], [1], [])
        yield lambda id: write_set([id])

    def refused(self, kind, call, *given):
        with self.assertRaises(kind, msg=f"{call} {given}"):
            call(*given)

    def test_ids(self):
        for way in self.ways():
            way(ID)
            way(HasIndex())
            for id in CUT_IDS:
                self.refused(OverflowError, way, id)
            for id in [*NO_INTEGERS, HasInt()]:
                self.refused(TypeError, way, id)

    def test_values(self):
        ways = [lambda value: write([ID], [value]), lambda value: write([1, 2], (1, value)), lambda value: plan([value])]
        ways += [lambda value: write_planned([ID], [1], [value, 3]), lambda value: write_planned([ID], [value], [])]
        ways += [lambda value: self.column.first_between(value, 9), lambda value: self.column.first_between(0, value)]
        ways += [lambda value: self.column.all_between(value, 9), lambda value: self.column.all_between(0, value)]
        ways += [lambda value: self.both.first_between(value, 9), lambda value: self.both.first_between(0, value)]
        for way in ways:
            for value in (2**63, 2**64 + 5, -(2**63) - 1, 5 - 2**64):
                self.refused(OverflowError, way, value)
            for value in [*NO_INTEGERS, HasInt()]:
                self.refused(TypeError, way, value)
        self.assertEqual(self.column.first_between(-(2**63), 2**63 - 1), 0)
        self.assertEqual(list(Column(write([1, 2], [-(2**63), 2**63 - 1]))), [(1, -(2**63)), (2, 2**63 - 1)])

    def test_other_numbers(self):
        for edition in (2**32 + 1, 1 - 2**32, -1):
            self.refused(OverflowError, lambda: write([ID], [1], edition))
        for power in (2**32 + 9, 9 - 2**32, -1):
            self.refused(OverflowError, lambda: write([ID], [1], 1, power))
            self.refused(OverflowError, lambda: write_planned([ID], [1], [], power))
        end = bytes.fromhex("ff7f0000ffff") + bytes(8)
        self.assertEqual(judge_section(end, 1, 9), 0)
        for jumps, power in ((2**64 + 1, 9), (1 - 2**64, 9), (1, 2**64 + 9), (1, 9 - 2**64)):
            self.refused(OverflowError, judge_section, end, jumps, power)
        for count in (-1, 2**64 + 1, 1 - 2**64):
            self.refused(OverflowError, self.column.read_from, 0, count)
            self.refused(OverflowError, self.both.read_from, 0, count)
        self.assertEqual([len(each.read_from(0, HasIndex())[0]) for each in (self.column, self.both)], [1, 1])
        ordinals = (self.column.pair_at, lambda ordinal: self.column.first_between(0, 99, ordinal))
        for ordinal in (-1, 2**64, -(2**64)):
            for way in ordinals:
                self.refused(OverflowError, way, ordinal)
        for ordinal in [*NO_INTEGERS, HasInt()]:
            for way in ordinals:
                self.refused(TypeError, way, ordinal)
        self.assertEqual([way(HasIndex()) for way in ordinals], [None, None])
        self.assertEqual([way(0) for way in ordinals], [(ID, 77, 0), 0])
        for number in (1.0, True, "1", None):
            self.refused(TypeError, lambda: write([ID], [1], number))
            self.refused(TypeError, lambda: write([ID], [1], 1, number))
            self.refused(TypeError, lambda: write_planned([ID], [1], [], number))
            self.refused(TypeError, judge_section, end, number, 9)
            self.refused(TypeError, judge_section, end, 1, number)
            self.refused(TypeError, self.column.read_from, 0, number)
            self.refused(TypeError, self.both.read_from, 0, number)

    def test_place_in_the_list_is_named(self):
        for ids in ([1, 2, 2**32 + 5], (each for each in (1, 2, 2**32 + 5)), array.array("Q", [1, 2, 2**32 + 5])):
            with self.assertRaisesRegex(OverflowError, r"4294967301 \(number 2 of the list\)"):
                write(ids, [0, 0, 0])


class Buffers(unittest.TestCase):
    """Arrays of the standard library, and views."""

    def test_taken_as_they_are(self):
        want = write([1, 5, 9], [-1, 2, -3])
        for letter in "bBhHiIlLqQ":
            ids = array.array(letter, [1, 5, 9])
            self.assertEqual(write(ids, array.array("b", [-1, 2, -3])), want, letter)
            self.assertEqual(write(memoryview(ids), memoryview(array.array("q", [-1, 2, -3]))), want, letter)
        self.assertEqual(write(bytes([1, 5, 9]), [-1, 2, -3]), want)
        self.assertEqual(write(bytearray([1, 5, 9]), [-1, 2, -3]), want)
        self.assertEqual(write(memoryview(array.array("I", [1, 3, 5, 7, 9]))[::2], [-1, 2, -3]), write([1, 5, 9], [-1, 2, -3]))

    def test_out_of_range(self):
        for letter, id in (("I", 2147352576), ("q", 2**32 + 5), ("q", -1), ("Q", 2**64 - 1), ("i", -5), ("b", -1)):
            for ids in (array.array(letter, [id]), memoryview(array.array(letter, [id]))):
                for call in (lambda: write(ids, [1]), lambda: write_set(ids), lambda: Column(write([5], [1])).look_up_many(ids)):
                    with self.assertRaises(OverflowError, msg=letter):
                        call()
        for call in (lambda: write([1], array.array("Q", [2**63])), lambda: plan(memoryview(array.array("Q", [2**64 - 1])))):
            with self.assertRaises(OverflowError):
                call()

    def test_no_integers(self):
        for wrong in (array.array("d", [5.0]), array.array("f", [5.0]), memoryview(b"5").cast("c"), memoryview(bytes([1])).cast("?"), "5", {5: 1}):
            for call in (lambda: write(wrong, [1]), lambda: write([1], wrong), lambda: Column(write([5], [1])).look_up_many(wrong)):
                with self.assertRaises(TypeError):
                    call()

    def test_dimensions(self):
        square = memoryview(bytes(16)).cast("B").cast("I", [2, 2])
        with self.assertRaises(TypeError):
            write(square, [1, 2])

    def test_unaligned(self):
        # (the library asks for aligned lists: a view of any other is copied)
        for offset in range(8):
            ids, values = bytearray(offset + 8), bytearray(offset + 16)
            ids[offset:], values[offset:] = array.array("I", [5, 9]).tobytes(), array.array("q", [-7, 2**60]).tobytes()
            lent = memoryview(ids)[offset:].cast("I"), memoryview(values)[offset:].cast("q")
            self.assertEqual(write(*lent), write([5, 9], [-7, 2**60]))
            for numbers, kind in zip(lent, (_exact.IDS, _exact.VALUES)):
                taken = _exact.taken(numbers, kind)
                self.assertEqual(_memory.Lent(taken, kind.size).address % kind.size, 0)

    def test_not_copied_where_they_fit(self):
        for letter, kind in (("I", _exact.IDS), ("q", _exact.VALUES)):
            for numbers in (array.array(letter, [1, 2]), memoryview(array.array(letter, [1, 2])), memoryview(array.array(letter, [1, 2])).toreadonly()):
                taken = _exact.taken(numbers, kind)
                self.assertEqual(_memory.Lent(taken, kind.size).address, _memory.Lent(numbers, kind.size).address)


@needs_numpy
class Arrays(unittest.TestCase):
    """numpy's arrays."""

    def setUp(self):
        self.column = Column(write([5], [77]))

    def of_ids(self):
        yield from (lambda ids: write(ids, [1] * len(ids)), write_set, self.column.look_up_many, Layered(self.column, self.column).look_up_many)

    def test_every_integer_type(self):
        want = write([1, 5, 9], [1, 2, 3])
        for order in "<>=":
            for name in ("i1", "u1", "i2", "u2", "i4", "u4", "i8", "u8"):
                dtype = numpy.dtype(order + name)
                self.assertEqual(write(numpy.array([1, 5, 9], dtype), numpy.array([1, 2, 3], dtype)), want, dtype)
        self.assertEqual(write(numpy.array([1, 5, 9], object), numpy.array([1, 2, 3], object)), want)
        self.assertEqual(write([numpy.int8(1), numpy.uint64(5), 9], [numpy.int64(1), 2, 3]), want)
        self.assertEqual(write(numpy.arange(1, 10)[::4], numpy.array([3, 2, 1])[::-1]), want)

    def test_ids_out_of_range(self):
        wrong = [("int64", 2**32 + 5), ("int64", -1), ("uint64", 2**32 + 5), ("uint64", 2**64 - 1), ("uint32", 2147352576), ("uint32", 2**32 - 1)]
        for dtype, id in (*wrong, ("int8", -3), (object, 2**70)):
            for way in self.of_ids():
                for ids in (numpy.array([id], dtype), numpy.array([1, id], dtype), numpy.array([id, 1], dtype), numpy.array([id, 1, id], dtype)[::2]):
                    with self.assertRaises(OverflowError, msg=(dtype, id)):
                        way(ids)
        with self.assertRaisesRegex(OverflowError, r"4294967301 \(number 1 of the list\)"):
            write_set(numpy.array([1, 2**32 + 5]))

    def test_values_out_of_range(self):
        for dtype, value in (("uint64", 2**63), ("uint64", 2**64 - 1), (object, 2**63), (object, -(2**63) - 1)):
            values = numpy.array([value], dtype)
            for call in (lambda: write([1], values), lambda: plan(values), lambda: write_planned([1], [1], values)):
                with self.assertRaises(OverflowError):
                    call()
        # (as floats these two are one number)
        self.assertEqual(list(Column(write([1, 2], numpy.array([2**63 - 1, 2**63 - 2], "uint64")))), [(1, 2**63 - 1), (2, 2**63 - 2)])

    def test_no_integers(self):
        for dtype in ("float64", "float32", "float16", "bool", "complex128", "U1", "S1", "datetime64[s]", "timedelta64[s]", "i4,i4"):
            wrong = numpy.zeros(1, dtype)
            for way in (*self.of_ids(), lambda values: write([1], values), plan):
                with self.assertRaises(TypeError, msg=dtype):
                    way(wrong)
        for wrong in (2.7, 5.0, True, None, "5", numpy.float64(5), numpy.bool_(True)):
            for way in (*self.of_ids(), lambda values: write([1], values), plan):
                for numbers in (numpy.array([wrong], object), [wrong]):
                    with self.assertRaises(TypeError, msg=wrong):
                        way(numbers)

    def test_single_numbers(self):
        for id in (numpy.uint8(5), numpy.int64(5), numpy.uint64(5)):
            self.assertEqual(self.column[id], 77)
        for id in (numpy.int64(2**32 + 5), numpy.uint64(2**64 - 1), numpy.int8(-1)):
            with self.assertRaises(OverflowError):
                self.column[id]
        for id in (numpy.float64(5), numpy.bool_(True), numpy.array([5])):
            with self.assertRaises(TypeError):
                self.column[id]

    def test_dimensions(self):
        for wrong in (numpy.array(5), numpy.array([[5]]), numpy.zeros((0, 3), "uint32")):
            with self.assertRaises(TypeError):
                self.column.look_up_many(wrong)

    def test_masked(self):
        for wrong in (numpy.ma.array([5, 9], mask=[False, True]), numpy.ma.array([5, 9])):
            for way in (*self.of_ids(), plan):
                with self.assertRaises(TypeError):
                    way(wrong)

    def test_unaligned(self):
        for dtype, kind in (("uint32", _exact.IDS), ("int64", _exact.VALUES)):
            numbers = numpy.frombuffer(b"x" + numpy.array([5, 9], dtype).tobytes(), dtype, offset=1)
            taken = _exact.taken(numbers, kind)
            self.assertEqual((taken.tolist(), taken.ctypes.data % kind.size), ([5, 9], 0))

    def test_what_gives_an_array(self):
        class Series:
            def __init__(self, numbers):
                self.numbers = numbers

            def __array__(self, dtype=None, copy=None):
                return self.numbers

            def mask(self):
                """(What a pandas Series has, which is no masked array.)"""

        self.assertEqual(write(Series(numpy.array([1, 5])), Series(numpy.array([3, 4]))), write([1, 5], [3, 4]))
        for wrong, kind in ((numpy.array([2**32 + 5]), OverflowError), (numpy.array([5.0]), TypeError)):
            with self.assertRaises(kind):
                write_set(Series(wrong))

    def test_not_copied_where_they_fit(self):
        for dtype, kind in (("uint32", _exact.IDS), ("int64", _exact.VALUES)):
            numbers = numpy.arange(10).astype(dtype)
            frozen = numbers.copy()
            frozen.flags.writeable = False
            for given in (numbers, frozen, numbers[3:]):
                self.assertIs(_exact.taken(given, kind), given)
            self.assertEqual(write(frozen[:5] if kind is _exact.IDS else range(5), frozen[:5]), write(range(5), range(5)))

    def test_answers_are_arrays(self):
        ids, values = self.column.read()
        page = self.column.look_up_many(numpy.array([5, 6], "uint32"))
        self.assertEqual([str(each.dtype) for each in (ids, values, *page)], ["uint32", "int64", "int64", "uint64", "bool"])


if __name__ == "__main__":
    unittest.main()
