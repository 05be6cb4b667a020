"""Arguments of vectors, as conformance/README.md has them: byte strings, lists, recipes."""

import hashlib
import struct

from basics import at_low
from blocks import set_places


MADE = {}


def noise(seed, count):
    out = bytearray()
    for _ in range(count):
        seed = (seed * 1664525 + 1013904223) % 2**32
        out.append(seed >> 24)
    return bytes(out)


def bytes_piece(piece):
    if isinstance(piece, str):
        return bytes.fromhex(piece)
    if "repeat" in piece:
        return bytes.fromhex(piece["repeat"]) * piece["times"]
    if "noise" in piece:
        return noise(piece["noise"], piece["bytes"])
    order = "big" if piece["order"] == "high" else "little"
    first, step, size = int(piece["from"]), int(piece["step"]), piece["size"]
    each = ((first + i * step) % 2 ** (8 * size) for i in range(piece["count"]))
    return b"".join(x.to_bytes(size, order) for x in each)


def numbers_piece(piece):
    if isinstance(piece, list):
        return [int(x) for x in piece]
    if "bits" in piece:
        bitmap = b"".join(bytes_piece(it) for it in piece["bits"])
        return [int(piece["from"]) + x for x in set_places(bitmap)]
    count = piece["count"]
    if "cycle" in piece:
        cycle = [int(x) for x in piece["cycle"]]
        return [cycle[i % len(cycle)] for i in range(count)]
    if "noise" in piece:
        size, times, plus, modulus = piece["bytes"], int(piece["times"]), int(piece["plus"]), int(piece["mod"])
        drawn = noise(piece["noise"], size * count)
        return [plus + times * (at_low(drawn, i * size, size) % modulus) for i in range(count)]
    return [int(piece["from"]) + i * int(piece["step"]) for i in range(count)]


def list_digest(numbers):
    return hashlib.sha256(struct.pack("<%dq" % len(numbers), *numbers)).hexdigest()


def given_bytes(given):
    if isinstance(given, str):
        return bytes.fromhex(given)
    digest = given["sha256"]
    if digest not in MADE:
        made = b"".join(bytes_piece(piece) for piece in given["pieces"])
        assert hashlib.sha256(made).hexdigest() == digest, "a recipe made wrong"
        MADE[digest] = made
    return MADE[digest]


def given_list(given):
    if isinstance(given, list):
        return [int(x) for x in given]
    digest = given["sha256"]
    if digest not in MADE:
        made = [x for piece in given["pieces"] for x in numbers_piece(piece)]
        assert list_digest(made) == digest and len(made) == given["count"], "a recipe made wrong"
        MADE[digest] = made
    return MADE[digest]
