"""Another maker's bare id section."""

from typing import Any

from . import _library, errors
from ._exact import exact
from ._library import Judgement, faulty, refused
from ._memory import lend


def judge_section(section: Any, jump_count: int, power: int, byte_order: str = "little") -> int:
    """How many ids a section holds: that of Lucene 9, or of Lucene 8 where the byte order is "big". A faulty one is an exception for its reason.

    >>> end = bytes.fromhex("ff 7f 00 00 ff ff") + bytes(8)
    >>> judge_section(end, 1, 9)
    0
    >>> judge_section(end + b"x", 1, 9)
    Traceback (most recent call last):
    signalfern.errors.LeftOver: reason 8, LEFT_OVER: bytes follow the jump entries, at byte 14
    """
    if byte_order not in ("little", "big"):
        raise ValueError(f"a byte order is 'little' or 'big', and this is {byte_order!r}")
    jump_count = exact(jump_count, "a count of jump entries", 0, 2**64 - 1)
    power = exact(power, "a rank power", 0, 2**64 - 1)
    lent, j = lend(section), Judgement()
    _library.judge_section(lent, lent.bytes, jump_count, power, int(byte_order == "big"), j)
    if j.kind == errors.Header.refusal:
        raise refused(j.kind)
    if j.kind:
        raise faulty(j.reason, j.place)
    return int(j.number)
