"""A small reader and writer of columns, written from docs/FORMAT.md alone: what the package's answers are held against."""

import math
from bisect import bisect_left


def number(data, at):
    """A number in groups of seven bits, and where the next one stands."""
    value = shift = 0
    while True:
        value |= (data[at] & 127) << shift
        if data[at] < 128:
            return value, at + 1
        shift, at = shift + 7, at + 1


def low(data, at, size):
    return int.from_bytes(data[at : at + size], "little")


def signed(data, at):
    return int.from_bytes(data[at : at + 8], "little", signed=True)


def bits(section, start, width, edition):
    """The stored number whose first bit is this one of the section."""
    end = start + width
    part = section[start // 8 : -(-end // 8)]
    if edition == 2:
        return (int.from_bytes(part, "little") >> start % 8) & (1 << width) - 1
    return (int.from_bytes(part, "big") >> -end % 8) & (1 << width) - 1


def ids_of(section, power):
    """The ids of an id section, block by block; and the start of its end block."""
    ids, at = [], 0
    while True:
        block, count = low(section, at, 2), low(section, at + 2, 2) + 1
        if block == 32767:
            return ids, at
        at += 4
        if count < 4096:
            places, size = [low(section, at + 2 * i, 2) for i in range(count)], 2 * count
        elif count < 65536:
            ranks = 2 ** (17 - power) if power else 0
            longs = [low(section, at + ranks + 8 * i, 8) for i in range(1024)]
            places, size = [x for x in range(65536) if longs[x // 64] >> x % 64 & 1], ranks + 8192
        else:
            places, size = range(65536), 0
        ids += [block * 65536 + place for place in places]
        at += size


def values_of(header, section):
    """The values of a value section."""
    edition, count, _, _, _, width, smallest, divisor, _ = header
    smallest = -(smallest + 1) // 2 if smallest % 2 else smallest // 2
    if edition < 3:
        return [smallest + divisor * bits(section, i * width, width, edition) for i in range(count)]
    if edition == 4:
        table, codes = [signed(section, 8 * i) for i in range(divisor)], section[8 * divisor :]
        return [table[bits(codes, i * width, width, edition)] for i in range(count)]
    values = []
    for run in range(-(-count // 16384)):
        entry, after = 25 * run, 25 * -(-count // 16384)
        least, start, width = signed(section, entry), low(section, entry + 16, 8), section[entry + 24]
        stored = section[after + start :]
        values += [least + divisor * bits(stored, i * width, width, edition) for i in range(min(16384, count - 16384 * run))]
    return values


def read(column):
    """The pairs of a column."""
    header, at = [], 0
    for _ in range(9):
        each, at = number(column, at)
        header.append(each)
    ids, _ = ids_of(column[at : at + header[3]], header[2])
    return header, list(zip(ids, values_of(header, column[at + header[3] :])))


def counts(ids, id, power):
    """The words and the probes that the look-up of an id counts, by the list."""
    places = [each % 65536 for each in ids[bisect_left(ids, id // 65536 * 65536) : bisect_left(ids, (id // 65536 + 1) * 65536)]]
    place = id % 65536
    if len(places) == 65536:
        return 0, 0
    if len(places) >= 4096:
        if place not in places:
            return 1, 0
        return (place // 64 % 2 ** (power - 6) if power else place // 64) + 1, 0
    least, most, probes = 0, len(places), 0
    while least < most:
        middle, probes = (least + most) // 2, probes + 1
        if places[middle] == place:
            break
        least, most = (middle + 1, most) if places[middle] < place else (least, middle)
    return 0, probes


def as_number(value):
    out = b""
    while value > 127:
        out, value = out + bytes([value & 127 | 128]), value >> 7
    return out + bytes([value])


def write(pairs, power):
    """The column of edition 1 of a list whose blocks are all sparse."""
    ids, values = [id for id, _ in pairs], [value for _, value in pairs]
    section, entries, before = b"", [], 0
    for block in range(ids[-1] // 65536 + 1 if ids else 0):
        entries.append((before, len(section)))
        places = [id % 65536 for id in ids if id // 65536 == block]
        if places:
            section += b"".join(each.to_bytes(2, "little") for each in (block, len(places) - 1, *places))
        before += len(places)
    entries.append((before, len(section)))
    if len(entries) == 2:
        entries = []
    section += bytes.fromhex("ff7f0000ffff") + b"".join(each.to_bytes(4, "little") for entry in entries for each in entry)
    smallest = min(values, default=0)
    divisor = math.gcd(*[abs(value - values[0]) for value in values]) or 1 if values else 1
    width = ((max(values, default=0) - smallest) // divisor).bit_length()
    stored = 0
    for value in values:
        stored = stored << width | (value - smallest) // divisor
    size = -(-len(values) * width // 8)
    packed = (stored << size * 8 - len(values) * width).to_bytes(size, "big")
    smallest = 2 * smallest if smallest >= 0 else -2 * smallest - 1
    header = (1, len(pairs), power, len(section), len(entries), width, smallest, divisor, size)
    return b"".join(map(as_number, header)) + section + packed
