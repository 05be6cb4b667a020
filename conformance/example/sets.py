"""Sets of ids."""

from basics import DAMAGED, ID, MAX_BLOCK, MAX_ID, Refused, groups, low, take_number
from blocks import bitmap_of, blocks_of, set_places, shorts
from writing import check_ids, fits


def set_write(ids, room):
    check_ids(ids)
    blocks = blocks_of(ids)
    out = bytearray(groups(len(blocks)))
    for number, places in blocks:
        kind, listed, data = set_block(places)
        out += groups(number) + groups(kind) + groups(listed) + data
    return fits(bytes(out), room)


def set_block(places):
    if len(places) <= 4096:
        return 0, len(places), b"".join(low(x, 2) for x in places)
    if 65536 - len(places) < 4096:
        there = set(places)
        missing = [x for x in range(65536) if x not in there]
        return 1, len(missing), b"".join(low(x, 2) for x in missing)
    return 2, 0, bitmap_of(places)


def damaged_unless(holds):
    if not holds:
        raise Refused(DAMAGED)


def set_blocks(data):
    """Each block's number, kind and places (or missing ones), after all were checked."""
    found, before = [], -1
    blocks, place = take_number(data, 0)
    damaged_unless(blocks <= 32766)
    for _ in range(blocks):
        number, place = take_number(data, place)
        damaged_unless(before < number <= MAX_BLOCK)
        kind, place = take_number(data, place)
        damaged_unless(kind <= 2)
        listed, place = take_number(data, place)
        damaged_unless((1 <= listed <= 4096, listed <= 4095, listed == 0)[kind])
        size = 8192 if kind == 2 else 2 * listed
        damaged_unless(place + size <= len(data))
        piece = data[place : place + size]
        places = set_places(piece) if kind == 2 else shorts(piece)
        if kind == 2:
            damaged_unless(4097 <= len(places) <= 61440)
        else:
            damaged_unless(all(a < b for a, b in zip(places, places[1:])))
        found.append((number, kind, places))
        before, place = number, place + size
    damaged_unless(place == len(data))
    return found


def set_count(kind, places):
    return 65536 - len(places) if kind == 1 else len(places)


def set_find(data, x):
    if x > MAX_ID:
        raise Refused(ID)
    below, answer = 0, None
    for number, kind, places in set_blocks(data):
        if number < x >> 16:
            below += set_count(kind, places)
        elif number == x >> 16:
            r = x & 65535
            listed_below = sum(1 for place in places if place < r)
            if (r in places) != (kind == 1):
                answer = below + (r - listed_below if kind == 1 else listed_below)
    return answer
