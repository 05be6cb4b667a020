"""Questions to a column: the look-up, the next candidate, pairs from an id on, the pair with an ordinal, the first value in a range, a correction on
top, by single ids, pages and readings."""

from basics import BACK, BROKEN, BUFFER, EDITION, ID, MAX_BLOCK, MAX_ID, RUN, Refused, at_low
from blocks import data_bytes, ones, rank_bytes, shorts
from opening import open_column


# ---- the look-up


def head_at(column, b):
    """Steps 1 to 4: the block's data and count and the ordinal before it, or none where it is absent."""
    s = o = 0
    if column.J > 0:
        entry = column.A + 8 * min(b, column.J - 1)
        o, s = at_low(column.ids, entry, 4), at_low(column.ids, entry + 4, 4)
    k, c = head(column, s)
    if column.J > 0 and k < b:
        raise Refused(BROKEN)
    if k != b:
        return None
    end = s + 4 + data_bytes(c, column.p)
    if end > column.A or o + c > column.n:
        raise Refused(BROKEN)
    return column.ids[s + 4 : end], c, o


def head(column, s):
    """Step 2: the number and the count of the block at s."""
    if s + 4 > column.A:
        raise Refused(BROKEN)
    return at_low(column.ids, s, 2), at_low(column.ids, s + 2, 2) + 1


def halve(data, count, r):
    """Step 5: the index of r, or none, and the probes."""
    lo, hi, probes = 0, count, 0
    while lo < hi:
        middle = (lo + hi) // 2
        x = at_low(data, 2 * middle, 2)
        probes += 1
        if x == r:
            return middle, probes
        if x < r:
            lo = middle + 1
        else:
            hi = middle
    return None, probes


def dense_place(data, p, r):
    """Step 6: the inner place, or none, and the words."""
    bitmap, own = data[rank_bytes(p) :], r // 64
    word = at_low(bitmap, 8 * own, 8)
    if word >> (r % 64) & 1 == 0:
        return None, 1
    first = rank = 0
    if p > 0:
        stride = r >> p
        first, rank = stride * 2 ** (p - 6), int.from_bytes(data[2 * stride : 2 * stride + 2], "big")
    below = ones(bitmap[8 * first : 8 * own]) + bin(word % 2 ** (r % 64)).count("1")
    return rank + below, own - first + 1


def steps(column, x):
    """Ordinal and value, or none, and the words and probes."""
    r = x & 65535
    block = head_at(column, x >> 16)
    if block is None:
        return None, 0, 0
    data, count, before = block
    words = probes = 0
    if count < 4096:
        inner, probes = halve(data, count, r)
    elif count == 65536:
        inner = r
    else:
        inner, words = dense_place(data, column.p, r)
    if inner is None:
        return None, words, probes
    return pair(column, count, before, inner), words, probes


def pair(column, count, before, inner):
    if inner >= count:
        raise Refused(BROKEN)
    return before + inner, column.value_at(before + inner)


def look_up(data, x, column=None):
    if x > MAX_ID:
        raise Refused(ID)
    return steps(column.hold_to_the_rules() if column else open_column(data), x)


def look_up_page(data, ids, rooms):
    if min(rooms) < len(ids):
        raise Refused(BUFFER, len(ids))
    ordinals, values, kinds, total = [], [], [], 0
    for x in ids:
        try:
            found, words, _ = look_up(data, x)
            total += words
            kind = 0 if found else 1
        except Refused as refusal:
            found, kind = None, refusal.refusal
        ordinals.append(found[0] if found else 0)
        values.append(found[1] if found else 0)
        kinds.append(kind)
    return ordinals, values, kinds, total % 2**64


# ---- the next candidate, the first value in a range


def next_candidate(data, cursor, target, column=None):
    if target > MAX_ID:
        raise Refused(ID)
    if target < cursor:
        raise Refused(BACK)
    column = column.hold_to_the_rules() if column else open_column(data)
    b, r = target >> 16, target & 65535
    while b <= MAX_BLOCK:
        block = head_at(column, b)
        found = first_from(block, column.p, r) if block else None
        if found:
            place, inner = found
            ordinal, value = pair(column, block[1], block[2], inner)
            return b * 65536 + place, ordinal, value
        b, r = b + 1 if block else skip(column, b), 0
    return None


def skip(column, b):
    """The next block that may not be absent: from J-1 on all have one entry."""
    if b < column.J - 1:
        return b + 1
    start = at_low(column.ids, column.A + 8 * (column.J - 1) + 4, 4) if column.J else 0
    k = at_low(column.ids, start, 2)
    if k > b:
        return k
    return b + 1 if column.J else MAX_BLOCK + 1


def first_from(block, p, r):
    """The first place from r on that is not absent, and its inner place."""
    data, count, _ = block
    if count < 4096:
        for i, x in enumerate(shorts(data)):
            if x >= r:
                return x, i
        return None
    if count == 65536:
        return r, r
    bits = int.from_bytes(data[rank_bytes(p) :], "little") >> r
    if bits == 0:
        return None
    place = r + (bits & -bits).bit_length() - 1
    return place, dense_place(data, p, place)[0]


def first_between(data, a, b, column=None, start=0):
    if column and column.edition != 3:
        raise Refused(EDITION)
    column = column.hold_to_the_rules() if column else open_column(data, 3)
    if a > b or start >= column.n:
        return None
    for run in range(start // RUN, column.runs):
        smallest, greatest, _, _ = column.summary(run)
        if smallest > b or greatest < a:
            continue
        for i in range(max(RUN * run, start), min(RUN * (run + 1), column.n)):
            if a <= column.value_at(i) <= b:
                return i
    return None


# ---- pairs from an id on, the pair with an ordinal


def read_from(data, x, room, column=None):
    """Ids and values, at most so many, and whether no listed id is left."""
    found = next_candidate(data, 0, x, column)
    ids, values = [], []
    while found and len(ids) < room:
        ids.append(found[0])
        values.append(found[2])
        if found[0] == MAX_ID:
            return ids, values, True
        try:
            found = next_candidate(data, 0, found[0] + 1, column)
        except Refused:
            return ids, values, False
    return ids, values, found is None


def last_up_to(count, number, sought):
    """By halving: the last of so many numbers that is at or below the one sought."""
    lo, hi = 0, count
    while lo + 1 < hi:
        probe = (lo + hi) // 2
        if number(probe) <= sought:
            lo = probe
        else:
            hi = probe
    return lo


def pair_at(data, ordinal, column=None):
    column = column.hold_to_the_rules() if column else open_column(data)
    if ordinal >= column.n:
        return None
    e = s = 0
    b = last_up_to(column.J, lambda j: at_low(column.ids, column.A + 8 * j, 4), ordinal)
    if column.J > 0:
        e, s = at_low(column.ids, column.A + 8 * b, 4), at_low(column.ids, column.A + 8 * b + 4, 4)
    k, c = head(column, s)
    if k > MAX_BLOCK or (column.J > 0 and k != b):
        raise Refused(BROKEN)
    end = s + 4 + data_bytes(c, column.p)
    if end > column.A or e + c > column.n or not e <= ordinal < e + c:
        raise Refused(BROKEN)
    place = place_with(column.ids[s + 4 : end], c, column.p, ordinal - e)
    return k * 65536 + place, ordinal, column.value_at(ordinal)


def place_with(data, count, p, i):
    """The place with index i in a block of so many ids."""
    if count < 4096:
        return at_low(data, 2 * i, 2)
    if count == 65536:
        return i
    first, places, rank = 0, 65536, 0
    if p > 0:
        rank_of = lambda t: int.from_bytes(data[2 * t : 2 * t + 2], "big")
        stride = last_up_to(2 ** (16 - p), rank_of, i)
        first, places, rank = stride << p, 1 << p, rank_of(stride)
    bitmap, others = data[rank_bytes(p) :], i - rank
    for r in range(first, first + places):
        if bitmap[r // 8] >> (r % 8) & 1:
            if others == 0:
                return r
            others -= 1
    raise Refused(BROKEN)


# ---- a correction on top


def look_up_layered(machine, correction, x, columns=(None, None)):
    """The column's name, ordinal and value, or none, and the words of both; a refusal names its column."""
    under = over = 0
    for name, data, column in (("correction", correction, columns[1]), ("machine", machine, columns[0])):
        try:
            found, words, _ = look_up(data, x, column)
        except Refused as refusal:
            refusal.column = name
            raise
        if name == "correction":
            over = words
        else:
            under = words
        if found:
            return (name,) + found, under, over
    return None, under, over


def look_up_layered_page(machine, correction, ids, rooms, columns=(None, None)):
    """Ordinals, values, kinds and columns, and the sums of words."""
    if min(rooms) < len(ids):
        raise Refused(BUFFER, len(ids))
    places, totals = [], (0, 0)
    for x in ids:
        try:
            found, under, over = look_up_layered(machine, correction, x, columns)
        except Refused as refusal:
            places.append((0, 0, refusal.refusal, number_of(refusal.column)))
            continue
        totals = (totals[0] + under) % 2**64, (totals[1] + over) % 2**64
        places.append((found[1], found[2], 0, number_of(found[0])) if found else (0, 0, 1, 0))
    return [[place[i] for place in places] for i in range(4)], totals


def number_of(name):
    return ("machine", "correction").index(name)


def layered_step(machine, correction, x, columns):
    """The sooner of both columns' next candidates, the correction's at a tie: id, value and the column's number, or none. A refusal names its column,
    the correction's first, and refuses the step even where the other's candidate is nearer."""
    nearest = None
    for name, data, column in (("correction", correction, columns[1]), ("machine", machine, columns[0])):
        try:
            found = next_candidate(data, 0, x, column)
        except Refused as refusal:
            refusal.column = name
            raise refusal
        if found and (nearest is None or found[0] < nearest[0]):
            nearest = found[0], found[2], number_of(name)
    return nearest


def read_layered_from(machine, correction, x, room, columns=(None, None)):
    """Pairs with their columns' numbers, at most so many, and whether no listed id is left."""
    found = layered_step(machine, correction, x, columns)
    pairs = []
    while found and len(pairs) < room:
        pairs.append(found)
        if found[0] == MAX_ID:
            return pairs, True
        try:
            found = layered_step(machine, correction, found[0] + 1, columns)
        except Refused:
            return pairs, False
    return pairs, found is None


def layered_values(machine, correction, x):
    try:
        found, _, _ = look_up_layered(machine, correction, x)
    except Refused:
        found = None
    if not found:
        return "machine", 0, 0
    column = open_column(correction if found[0] == "correction" else machine)
    return found[0], column.start + column.L, column.V
