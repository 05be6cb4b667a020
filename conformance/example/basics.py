"""The numbers of the format, its refusals and reasons, and numbers in bytes and bits."""

import math


MAX_ID = 2147352575
MAX_BLOCK = 32765
MAX_COUNT = 2147352576
MAX_JUMPS = 32767
POWERS = (0, 7, 8, 9, 10, 11, 12, 13, 14, 15)
WIDTHS_2 = (0, 1, 2, 4, 8, 12, 16, 20, 24, 28, 32, 40, 48, 56, 64)
LEAST, MOST = -(2**63), 2**63 - 1
RUN = 16384
END = (32767, 0, 65535)

LENGTHS, POWER, ORDER, RANGE, ROOM, SHORT, NUMBER, EDITION = 1, 2, 3, 4, 6, 7, 8, 9
HEADER, LENGTH, BUFFER, DAMAGED, ID, BROKEN, BACK, PLAN = 10, 11, 12, 13, 14, 15, 16, 17
CUT_OFF, BLOCK_ORDER, PLACE_ORDER, ONES, RANK, END_BLOCK, JUMPS, LEFT_OVER = 1, 2, 3, 4, 5, 6, 7, 8


class Refused(Exception):
    """A refusal: its number, and the number with it."""

    def __init__(self, refusal, number=0):
        super().__init__(refusal, number)
        self.refusal, self.number = refusal, number


class Faulty(Exception):
    """A faulty section: the reason's number and the place."""

    def __init__(self, reason, place):
        super().__init__(reason, place)
        self.reason, self.place = reason, place


def low(number, size):
    return (number % 2 ** (8 * size)).to_bytes(size, "little")


def at_low(data, place, size):
    return int.from_bytes(data[place : place + size], "little")


def signed(data, place):
    return int.from_bytes(data[place : place + 8], "little", signed=True)


def groups(number):
    out = bytearray()
    while number >= 128:
        out.append(number % 128 + 128)
        number //= 128
    out.append(number)
    return bytes(out)


def take_number(data, place):
    """A number in groups of seven bits at a place, and the place after it."""
    number = 0
    for i in range(10):
        if place >= len(data):
            raise Refused(SHORT, len(data))
        byte = data[place]
        if (i > 0 and byte == 0) or (i == 9 and byte != 1):
            raise Refused(NUMBER, place)
        number += byte % 128 * 2 ** (7 * i)
        place += 1
        if byte < 128:
            break
    return number, place


def least_width(most):
    return most.bit_length()


def width_for(edition, most):
    width = least_width(most)
    return width if edition != 2 else min(w for w in WIDTHS_2 if w >= width)


def packed_bytes(count, width):
    return (count * width + 7) // 8


def pack(numbers, width, high=True):
    """Numbers of a width one after the other: high bit first, or low bit first."""
    if width == 0 or not numbers:
        return b""
    size = packed_bytes(len(numbers), width)
    spare = 8 * size - width * len(numbers)
    each = [format(x, "0%db" % width) for x in (numbers if high else reversed(numbers))]
    if high:
        return int("".join(each) + "0" * spare, 2).to_bytes(size, "big")
    return int("".join(each), 2).to_bytes(size, "little")


def fetch(data, start, width, i, high=True):
    """Number i of a width, of the bytes from a start on."""
    if width == 0:
        return 0
    bit = i * width
    first, last = bit // 8, (bit + width + 7) // 8
    piece = data[start + first : start + last]
    if high:
        return int.from_bytes(piece, "big") >> (8 * last - bit - width) & (2**width - 1)
    return int.from_bytes(piece, "little") >> (bit - 8 * first) & (2**width - 1)


def unpack(data, count, width, high=True):
    """All numbers at once, by the digits of the whole."""
    if width == 0:
        return [0] * count
    digits = format(int.from_bytes(data, "big" if high else "little"), "0%db" % (8 * len(data)))
    places = [i * width if high else len(digits) - (i + 1) * width for i in range(count)]
    return [int(digits[place : place + width], 2) for place in places]


def spare_is_0(data, count, width, high=True):
    spare = 8 * len(data) - count * width
    if spare == 0 or not data:
        return True
    return data[-1] % 2**spare == 0 if high else data[-1] >> (8 - spare) == 0


def gcd_of(values):
    """The greatest number that divides each value's difference to the first; 1 if all are equal."""
    g = 0
    for value in values:
        g = math.gcd(g, abs(value - values[0]))
        if g == 1:
            break
    return max(g, 1)
