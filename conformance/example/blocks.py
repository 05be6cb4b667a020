"""Ids in blocks: kinds, rank tables, the id section."""

from basics import END, low


def blocks_of(ids):
    """Block numbers, each with its places."""
    found = {}
    for x in ids:
        found.setdefault(x >> 16, []).append(x & 65535)
    return sorted(found.items())


def bitmap_of(places):
    bits = bytearray(8192)
    for x in places:
        bits[x >> 3] |= 1 << (x & 7)
    return bytes(bits)


def ones(data):
    return bin(int.from_bytes(data, "little")).count("1")


def rank_bytes(p):
    return 2 ** (17 - p) if p > 0 else 0


def data_bytes(count, p):
    if count < 4096:
        return 2 * count
    return 0 if count == 65536 else rank_bytes(p) + 8192


def rank_table(bitmap, p):
    out, before, stride = bytearray(), 0, 2**p // 8
    for t in range(rank_bytes(p) // 2):
        out += before.to_bytes(2, "big")
        before += ones(bitmap[t * stride : (t + 1) * stride])
    return bytes(out)


def block_data(places, p):
    if len(places) < 4096:
        return b"".join(low(x, 2) for x in places)
    if len(places) == 65536:
        return b""
    bitmap = bitmap_of(places)
    return rank_table(bitmap, p) + bitmap


def id_section(ids, p):
    """The section and its count of jump entries."""
    out, entries, before = bytearray(), [], 0
    for number, places in blocks_of(ids):
        entries += [(before, len(out))] * (number + 1 - len(entries))
        out += low(number, 2) + low(len(places) - 1, 2) + block_data(places, p)
        before += len(places)
    entries.append((before, len(out)))
    if len(entries) == 2:
        entries = []
    out += b"".join(low(x, 2) for x in END)
    for ids_before, start in entries:
        out += low(ids_before, 4) + low(start, 4)
    return bytes(out), len(entries)


def shorts(data, order="little"):
    return [int.from_bytes(data[i : i + 2], order) for i in range(0, len(data), 2)]


def set_places(bitmap):
    bits = bin(int.from_bytes(bitmap, "little"))[:1:-1]
    return [x for x, bit in enumerate(bits) if bit == "1"]
