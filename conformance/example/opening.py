"""Columns opened, checked and read whole."""

import math

from basics import (
    BROKEN,
    BUFFER,
    DAMAGED,
    EDITION,
    HEADER,
    LEAST,
    LENGTH,
    MAX_COUNT,
    MAX_JUMPS,
    MOST,
    POWERS,
    RUN,
    WIDTHS_2,
    Faulty,
    Refused,
    at_low,
    fetch,
    gcd_of,
    least_width,
    packed_bytes,
    signed,
    spare_is_0,
    take_number,
    unpack,
    width_for,
)
from blocks import data_bytes, rank_bytes, set_places, shorts
from judging import judge
from writing import table_is_shorter


class Column:
    """The header's numbers, where the id section starts, and the bytes."""

    def __init__(self, numbers, data):
        self.edition, self.n, self.p, self.L, self.J, self.w, self.smallest, self.g, self.V, self.start = numbers
        self.data = data

    def hold_to_the_rules(self):
        if not self.keeps_the_rules():
            raise Refused(HEADER)
        if self.start + self.L + self.V != len(self.data):
            raise Refused(LENGTH)
        self.ids = self.data[self.start : self.start + self.L]
        self.values = self.data[self.start + self.L :]
        self.A = self.L - 8 * self.J
        self.runs = (self.n + RUN - 1) // RUN
        return self

    def keeps_the_rules(self):
        ids = self.n <= MAX_COUNT and self.p in POWERS and self.J <= MAX_JUMPS
        if not (ids and self.g >= 1 and self.L >= 6 + 8 * self.J):
            return False
        packed = packed_bytes(self.n, self.w)
        if self.edition in (1, 2):
            allowed = range(65) if self.edition == 1 else WIDTHS_2
            return self.w in allowed and self.V == packed
        if self.smallest != 0:
            return False
        if self.edition == 3:
            return self.w == 0 and self.V >= 25 * ((self.n + RUN - 1) // RUN)
        if self.edition == 4:
            return 2 <= self.g <= 256 and self.w == least_width(self.g - 1) and self.V == 8 * self.g + packed
        return False

    def value_at(self, i):
        """Step 7."""
        if self.edition == 4:
            code = fetch(self.values, 8 * self.g, self.w, i)
            if code >= self.g:
                raise Refused(BROKEN)
            return signed(self.values, 8 * code)
        if self.edition == 3:
            smallest, _, start, width = self.summary(i // RUN)
            first, k = 25 * self.runs + start, i % RUN
            if width > 64 or (width > 0 and first + packed_bytes(k + 1, width) > self.V):
                raise Refused(BROKEN)
            value = smallest + self.g * fetch(self.values, first, width, k)
        else:
            value = self.smallest + self.g * fetch(self.values, 0, self.w, i, self.edition == 1)
        if not LEAST <= value <= MOST:
            raise Refused(BROKEN)
        return value

    def summary(self, run):
        """Smallest, greatest, start and width of a run."""
        at = 25 * run
        return signed(self.values, at), signed(self.values, at + 8), at_low(self.values, at + 16, 8), self.values[at + 24]


def open_column(data, only=None):
    edition, place = take_number(data, 0)
    if edition not in (1, 2, 3, 4) or (only and edition != only):
        raise Refused(EDITION)
    numbers = [edition]
    for _ in range(8):
        number, place = take_number(data, place)
        numbers.append(number)
    zigzag = numbers[6]
    numbers[6] = zigzag // 2 if zigzag % 2 == 0 else -(zigzag + 1) // 2
    return Column(numbers + [place], data).hold_to_the_rules()


def opened(numbers, data):
    """A column opened before: any numbers may stand in it."""
    names = ("edition", "count", "power", "id_bytes", "jump_count", "width", "smallest", "divisor", "value_bytes", "start")
    return Column([int(numbers[name]) for name in names], data)


# ---- checking and reading


def check(data):
    column = open_column(data)
    if not is_sound(column):
        raise Refused(DAMAGED)
    return column


def is_sound(column):
    try:
        if judge(column.ids, column.J, column.p, "little") != column.n:
            return False
    except Faulty:
        return False
    if column.edition == 3:
        return runs_are_sound(column)
    if column.edition == 4:
        return table_is_sound(column)
    high = column.edition == 1
    if column.w == 0:
        return column.g == 1 and (column.n > 0 or column.smallest == 0)
    stored = unpack(column.values, column.n, column.w, high)
    if not stored or min(stored) != 0 or width_for(column.edition, max(stored)) != column.w:
        return False
    fits_in = column.smallest + column.g * max(stored) <= MOST
    return fits_in and spare_is_0(column.values, column.n, column.w, high) and math.gcd(*stored) == 1


def runs_are_sound(column):
    values, next_start = [], 0
    packed = column.values[25 * column.runs :]
    for run in range(column.runs):
        smallest, greatest, start, width = column.summary(run)
        count = min(RUN, column.n - RUN * run)
        end = start + packed_bytes(count, width)
        if start != next_start or width > 64 or end > len(packed):
            return False
        stored = unpack(packed[start:end], count, width)
        found = [smallest + column.g * x for x in stored]
        least = min(stored) == 0 and least_width(max(stored)) == width
        if not least or max(found) != greatest or not spare_is_0(packed[start:end], count, width):
            return False
        values += found
        next_start = end
    return next_start == len(packed) and column.g == gcd_of(values)


def table_is_sound(column):
    table = [signed(column.values, 8 * code) for code in range(column.g)]
    packed = column.values[8 * column.g :]
    codes = unpack(packed, column.n, column.w)
    if any(a >= b for a, b in zip(table, table[1:])) or set(codes) != set(range(column.g)):
        return False
    return spare_is_0(packed, column.n, column.w) and table_is_shorter(table, column.n)


def read(data, ids_room, values_room):
    column = open_column(data)
    if min(ids_room, values_room) < column.n:
        raise Refused(BUFFER, column.n)
    if not is_sound(column):
        raise Refused(DAMAGED)
    ids, s = [], 0
    while len(ids) < column.n:
        base, count = at_low(column.ids, s, 2) << 16, at_low(column.ids, s + 2, 2) + 1
        size = data_bytes(count, column.p)
        ids += [base + x for x in places_in(column.ids[s + 4 : s + 4 + size], count, column.p)]
        s += 4 + size
    return ids, [column.value_at(i) for i in range(column.n)]


def places_in(data, count, p):
    if count < 4096:
        return shorts(data)
    return range(65536) if count == 65536 else set_places(data[rank_bytes(p) :])
