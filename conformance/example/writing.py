"""Columns written: values in four editions, plans."""

from basics import (
    EDITION,
    LENGTHS,
    MAX_ID,
    ORDER,
    PLAN,
    POWER,
    POWERS,
    RANGE,
    ROOM,
    RUN,
    Refused,
    gcd_of,
    groups,
    least_width,
    low,
    pack,
    packed_bytes,
    width_for,
)
from blocks import id_section


# ---- values


def value_parts(values, edition):
    """Width, smallest, g (or T) and the value section."""
    g = gcd_of(values)
    smallest = min(values, default=0)
    if edition == 3:
        return 0, 0, g, run_section(values, g)
    width = width_for(edition, (max(values, default=0) - smallest) // g)
    stored = [(v - smallest) // g for v in values]
    return width, smallest, g, pack(stored, width, edition == 1)


def run_section(values, g):
    directory, data = bytearray(), bytearray()
    for first in range(0, len(values), RUN):
        run = values[first : first + RUN]
        smallest, greatest = min(run), max(run)
        width = least_width((greatest - smallest) // g)
        directory += low(smallest, 8) + low(greatest, 8) + low(len(data), 8) + bytes([width])
        data += pack([(v - smallest) // g for v in run], width)
    return bytes(directory + data)


def table_parts(values, table):
    width = least_width(len(table) - 1)
    codes = {value: code for code, value in enumerate(table)}
    section = b"".join(low(v, 8) for v in table) + pack([codes[v] for v in values], width)
    return width, 0, len(table), section


def header_of(edition, n, p, id_bytes, jumps, width, smallest, g, value_bytes):
    zigzag = 2 * smallest if smallest >= 0 else -2 * smallest - 1
    numbers = (edition, n, p, id_bytes, jumps, width, zigzag, g, value_bytes)
    return b"".join(groups(x) for x in numbers)


def plain_sizes(distinct, n):
    """Edition 1's width, smallest, g and V for n values of which these are the distinct ones."""
    g = gcd_of(distinct)
    width = least_width((max(distinct) - min(distinct)) // g)
    return width, min(distinct), g, packed_bytes(n, width)


def table_is_shorter(table, n):
    """What the headers say of the ids is the same in both."""
    width, smallest, g, value_bytes = plain_sizes(table, n)
    plain = len(header_of(1, n, 0, 6, 0, width, smallest, g, value_bytes)) + value_bytes
    width = least_width(len(table) - 1)
    value_bytes = 8 * len(table) + packed_bytes(n, width)
    return len(header_of(4, n, 0, 6, 0, width, 0, len(table), value_bytes)) + value_bytes < plain


def plan_is_accepted(table, values):
    if not table:
        return True
    if not 2 <= len(table) <= 256 or any(a >= b for a, b in zip(table, table[1:])):
        return False
    return set(table) == set(values) and table_is_shorter(table, len(values))


def plan_of(values):
    table = sorted(set(values))
    return table if plan_is_accepted(table, values) else []


# ---- writing


def check_ids(ids):
    for i in range(1, len(ids)):
        if ids[i] <= ids[i - 1]:
            raise Refused(ORDER, i)
    for i, x in enumerate(ids):
        if x > MAX_ID:
            raise Refused(RANGE, i)


def column_of(ids, values, edition, p, table):
    section, jumps = id_section(ids, p)
    if edition == 4 and table:
        width, smallest, g, value_section = table_parts(values, table)
    else:
        edition = 1 if edition == 4 else edition
        width, smallest, g, value_section = value_parts(values, edition)
    head = header_of(edition, len(ids), p, len(section), jumps, width, smallest, g, len(value_section))
    return head + section + value_section


def write(ids, values, edition, p, room):
    if len(ids) != len(values):
        raise Refused(LENGTHS)
    if edition not in (1, 2, 3, 4):
        raise Refused(EDITION)
    if p not in POWERS:
        raise Refused(POWER)
    check_ids(ids)
    return fits(column_of(ids, values, edition, p, plan_of(values) if edition == 4 else []), room)


def write_planned(ids, values, table, p, room):
    if len(ids) != len(values):
        raise Refused(LENGTHS)
    if p not in POWERS:
        raise Refused(POWER)
    check_ids(ids)
    if not plan_is_accepted(table, values):
        raise Refused(PLAN)
    return fits(column_of(ids, values, 4, p, table), room)


def fits(out, room):
    if len(out) > room:
        raise Refused(ROOM, len(out))
    return out
