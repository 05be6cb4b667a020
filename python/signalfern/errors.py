"""What the library refuses, and what it finds wrong in an id section: a class for each.

A refusal has the number, the name and the number that comes with it (document 01's table); the sentence is its text.
"""

from typing import Dict, Type


class Error(Exception):
    """Whatever this package refuses for the sake of the data."""


class Refused(Error, ValueError):
    """A call was refused. ``refusal`` is its number, ``name`` its name, ``number`` what comes with it, ``where`` tells of which of several."""

    refusal: int = 0
    name: str = ""

    def __init__(self, text: str, number: int = 0, where: str = "") -> None:
        super().__init__(text, number, where)
        self.text, self.number, self.where = text, number, where

    def __str__(self) -> str:
        said = f"refusal {self.refusal}, {self.name}: {self.text}" + (f" ({self.number})" if self.number else "")
        return said + (f", {self.where}" if self.where else "")


class Lengths(Refused):
    """Ids and values differ in count."""

    refusal, name = 1, "LENGTHS"


class Power(Refused):
    """The rank power is not 0 and not 7 to 15."""

    refusal, name = 2, "POWER"


class Order(Refused):
    """An id is not above the one before; ``number`` is the first such index."""

    refusal, name = 3, "ORDER"


class Range(Refused):
    """An id is above its limit; ``number`` is the first such index."""

    refusal, name = 4, "RANGE"


class Room(Refused):
    """The output is too short; ``number`` is the bytes needed."""

    refusal, name = 6, "ROOM"


class Short(Refused):
    """The bytes end within a number of the header; ``number`` is the byte count."""

    refusal, name = 7, "SHORT"


class Number(Refused):
    """A number of the header is not minimal or needs more than 64 bits; ``number`` is the place of the byte that decided it."""

    refusal, name = 8, "NUMBER"


class Edition(Refused):
    """No edition of ours, or not the one that a call is for."""

    refusal, name = 9, "EDITION"


class Header(Refused):
    """A rule of the header is broken."""

    refusal, name = 10, "HEADER"


class Length(Refused):
    """The header tells of another byte count."""

    refusal, name = 11, "LENGTH"


class Buffer(Refused):
    """A lent list is too short; ``number`` is the places needed."""

    refusal, name = 12, "BUFFER"


class Damaged(Refused):
    """The bytes are no column of any pair list, or no set of any ids."""

    refusal, name = 13, "DAMAGED"


class Id(Refused):
    """The id asked for is above its limit."""

    refusal, name = 14, "ID"


class Broken(Refused):
    """A step of the look-up fails: the bytes are damaged."""

    refusal, name = 15, "BROKEN"


class Back(Refused):
    """The target is below the last one answered."""

    refusal, name = 16, "BACK"


class Plan(Refused):
    """The plan is rejected."""

    refusal, name = 17, "PLAN"


class Faulty(Error, ValueError):
    """An id section is faulty. ``reason`` is the number, ``name`` the name, ``place`` the byte where."""

    reason: int = 0
    name: str = ""

    def __init__(self, text: str, place: int = 0) -> None:
        super().__init__(text, place)
        self.text, self.place = text, place

    def __str__(self) -> str:
        return f"reason {self.reason}, {self.name}: {self.text}, at byte {self.place}"


class CutOff(Faulty):
    """The bytes end within a block."""

    reason, name = 1, "CUT_OFF"


class BlockOrder(Faulty):
    """A block's number is not above the one before, or above 32765."""

    reason, name = 2, "BLOCK_ORDER"


class PlaceOrder(Faulty):
    """The places of a sparse block do not ascend."""

    reason, name = 3, "PLACE_ORDER"


class Ones(Faulty):
    """The ones of a dense block are not as many as its ids."""

    reason, name = 4, "ONES"


class Rank(Faulty):
    """A rank is not the ones before its stride."""

    reason, name = 5, "RANK"


class EndBlock(Faulty):
    """The block numbered 32767 is not the end block."""

    reason, name = 6, "END_BLOCK"


class Jumps(Faulty):
    """The jump entries are not those of the blocks."""

    reason, name = 7, "JUMPS"


class LeftOver(Faulty):
    """Bytes follow the jump entries."""

    reason, name = 8, "LEFT_OVER"


REFUSALS: Dict[int, Type[Refused]] = {kind.refusal: kind for kind in Refused.__subclasses__()}
REASONS: Dict[int, Type[Faulty]] = {kind.reason: kind for kind in Faulty.__subclasses__()}
