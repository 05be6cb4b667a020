"""Columns made of pairs, and the check."""

import os
import secrets
from enum import IntEnum
from typing import Any

from . import _library
from ._exact import IDS, VALUES, exact, first_places, new, taken
from ._held import Path
from ._library import MAX_TABLE, done, made
from ._memory import first, lend


class Edition(IntEnum):
    """How a column stores its values."""

    PLAIN = 1  #: in the least width, high bit first
    LUCENE = 2  #: as Lucene 9 packs
    RUNS = 3  #: in runs of 16384 with a width each, and a directory by which a value in a range is found
    TABLE = 4  #: by a table of 2 to 256 distinct values, where that is shorter than PLAIN; else as PLAIN


def _exact_u32(number: Any, what: str) -> int:
    return exact(number, what, 0, 2**32 - 1)


def write(ids: Any, values: Any, edition: int = Edition.PLAIN, power: int = 9) -> bytes:
    """The column of these pairs. Ids ascend strictly.

    >>> write([0, 2, 7], [150, 140, 135]).hex(" ")
    '01 03 09 10 00 02 8e 02 05 01 00 00 02 00 00 00 02 00 07 00 ff 7f 00 00 ff ff d0'
    >>> write([4, 4], [1, 2])
    Traceback (most recent call last):
    signalfern.errors.Order: refusal 3, ORDER: ids must ascend, and one is not above the one before it (1)
    >>> write([2**32 + 5], [1])
    Traceback (most recent call last):
    OverflowError: an id is 0 to 2147352575, and this is 4294967301 (number 0 of the list)
    >>> write([5], [2.7])
    Traceback (most recent call last):
    TypeError: a value must be an integer, not float (number 0 of the list)
    """
    edition, power = _exact_u32(edition, "an edition"), _exact_u32(power, "a rank power")
    ids, values = taken(ids, IDS), taken(values, VALUES)
    return made(_library.write, first(ids), len(ids), first(values), len(values), edition, power)


def plan(values: Any) -> Any:
    """The table of distinct values by which a column of edition 4 is shorter than one of edition 1, as an array; without entries where none is.

    >>> plan([-5, 1000000007, -5, 3] * 10).tolist()
    [-5, 3, 1000000007]
    >>> len(plan([1, 2, 3]))
    0
    """
    values, table = taken(values, VALUES), new(VALUES, MAX_TABLE)
    return first_places(table, done(_library.plan, first(values), len(values), first(table), MAX_TABLE))


def write_planned(ids: Any, values: Any, table: Any, power: int = 9) -> bytes:
    """The column of these pairs by a plan: a table of their distinct values for edition 4, none for edition 1. A wrong plan is refused.

    >>> values = [-5, 1000000007, -5, 3] * 10
    >>> write_planned(range(40), values, plan(values)) == write(range(40), values, Edition.TABLE)
    True
    """
    power = _exact_u32(power, "a rank power")
    ids, values, table = taken(ids, IDS), taken(values, VALUES), taken(table, VALUES)
    return made(_library.write_planned, first(ids), len(ids), first(values), len(values), first(table), len(table), power)


def write_file(path: Path, ids: Any, values: Any, edition: int = Edition.PLAIN, power: int = 9) -> int:
    """Writes the column of these pairs to a file, whole or not at all, and gives its byte count. What was there is replaced by rename, so that who
    has it open keeps the old bytes."""
    column = write(ids, values, edition, power)
    path = os.fspath(path)
    beside = os.path.join(os.path.dirname(path), f".signalfern-{secrets.token_hex(8)}")
    with open(beside, "xb") as file:
        try:
            file.write(column)
            file.flush()
            os.fsync(file.fileno())
            os.replace(beside, path)
        except BaseException:
            os.unlink(beside)
            raise
    return len(column)


def check(column: Any) -> int:
    """How many pairs a column has: of bytes that are no column, to the last bit, an exception.

    >>> check(write([0, 2, 7], [150, 140, 135]))
    3
    >>> check(b"")
    Traceback (most recent call last):
    signalfern.errors.Short: refusal 7, SHORT: the bytes end within a number of the header, or of a set: they are empty or cut off (the number is their count)
    """
    lent = lend(column)
    return done(_library.check, lent, lent.bytes)
