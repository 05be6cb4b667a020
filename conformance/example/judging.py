"""The judge of a bare id section."""

from basics import (
    BLOCK_ORDER,
    CUT_OFF,
    END,
    END_BLOCK,
    HEADER,
    JUMPS,
    LEFT_OVER,
    MAX_BLOCK,
    MAX_JUMPS,
    ONES,
    PLACE_ORDER,
    POWERS,
    RANK,
    Faulty,
    Refused,
)
from blocks import data_bytes, ones, rank_bytes, rank_table, shorts


def judge(data, told, p, order):
    """The count of ids; order is that of the shorts, ints and longs."""
    if told > MAX_JUMPS or p not in POWERS:
        raise Refused(HEADER)

    def number(place, size):
        return int.from_bytes(data[place : place + size], order)

    at = ids = least = 0
    entries = []
    while True:
        if at + 4 > len(data):
            raise Faulty(CUT_OFF, at)
        k, c = number(at, 2), number(at + 2, 2) + 1
        if k == END[0]:
            if at + 6 > len(data):
                raise Faulty(CUT_OFF, at)
            if (number(at + 2, 2), number(at + 4, 2)) != END[1:]:
                raise Faulty(END_BLOCK, at)
            break
        size = data_bytes(c, p)
        if at + 4 + size > len(data):
            raise Faulty(CUT_OFF, at)
        if k < least or k > MAX_BLOCK:
            raise Faulty(BLOCK_ORDER, at)
        reason = block_fault(data[at + 4 : at + 4 + size], c, p, order)
        if reason:
            raise Faulty(reason, at)
        entries += [(ids, at)] * (k + 1 - least)
        ids, at, least = ids + c, at + 4 + size, k + 1
    entries.append((ids, at))
    if len(entries) == 2:
        entries = []
    at += 6
    if told != len(entries):
        raise Faulty(JUMPS, at)
    for before, start in entries:
        if at + 8 > len(data) or number(at, 4) != before or number(at + 4, 4) != start:
            raise Faulty(JUMPS, at)
        at += 8
    if at < len(data):
        raise Faulty(LEFT_OVER, at)
    return ids


def block_fault(data, count, p, order):
    if count < 4096:
        places = shorts(data, order)
        return None if all(a < b for a, b in zip(places, places[1:])) else PLACE_ORDER
    if count == 65536:
        return None
    ranks, bitmap = data[: rank_bytes(p)], data[rank_bytes(p) :]
    if ones(bitmap) != count:
        return ONES
    return None if ranks == rank_table(bitmap, p) else RANK
