"""Numbers that reach the library are the caller's own, or nothing is called.

ctypes and numpy cut numbers without a word: 2**32 + 5 becomes 5, and 2.7 becomes 2. Here an id is an exact integer from 0 to 2147352575 and a value one
of 64 bits with its sign; anything else is a TypeError or an OverflowError. A list of numbers is lent as it is where it is an array of the library's own
type; whole numbers of another type are converted, since no number changes thereby.
"""

import array
from operator import index
from typing import Any, List, NamedTuple, Optional, Tuple

from ._memory import Lent

MAX_ID = 2147352575

try:
    import numpy
except ImportError:  # the standard library's arrays then
    numpy = None  # type: ignore[assignment]


class Kind(NamedTuple):
    """The elements of an array that the library takes or fills."""

    what: str  #: what a number is called in a message
    letter: str  #: array's type
    size: int  #: the bytes of an element
    least: int
    greatest: int
    dtype: Any  #: numpy's type, where numpy is


def _kind(what: str, letter: str, name: str, least: int, greatest: int) -> Kind:
    return Kind(what, letter, array.array(letter).itemsize, least, greatest, None if numpy is None else numpy.dtype(name))


IDS = _kind("an id", "I", "uint32", 0, MAX_ID)
VALUES = _kind("a value", "q", "int64", -(1 << 63), (1 << 63) - 1)
ORDINALS = _kind("an ordinal", "Q", "uint64", 0, (1 << 64) - 1)
FLAGS = _kind("a flag", "B", "uint8", 0, 255)


# (numpy's pass for integers too)
_TRUTHS = (bool,) if numpy is None else (bool, numpy.bool_)


def _whole(number: Any, what: str) -> int:
    """A Python int of an exact integer; True and False are none."""
    if isinstance(number, _TRUTHS):
        raise TypeError(f"{what} must be an integer, not a truth value")
    try:
        return index(number)
    except TypeError:
        raise TypeError(f"{what} must be an integer, not {type(number).__name__}") from None


def exact(number: Any, what: str, least: int, greatest: int) -> int:
    """A whole number within its limits, as a Python int."""
    if type(number) is not int:
        number = _whole(number, what)
    if least <= number <= greatest:
        return number  # type: ignore[no-any-return]
    raise OverflowError(f"{what} is {least} to {greatest}, and this is {number}")


def exact_id(number: Any) -> int:
    """An id: 0 to MAX_ID."""
    if type(number) is int and 0 <= number <= MAX_ID:
        return number
    return exact(number, "an id", 0, MAX_ID)


def exact_value(number: Any) -> int:
    """A value: 64 bits with its sign."""
    return exact(number, "a value", VALUES.least, VALUES.greatest)


def exact_ordinal(number: Any) -> int:
    """An ordinal: 64 bits without a sign."""
    return exact(number, "an ordinal", ORDINALS.least, ORDINALS.greatest)


def new(kind: Kind, count: int) -> Any:
    """A new array of so many places: numpy's where it is installed."""
    if numpy is not None:
        return numpy.empty(count, kind.dtype)
    return array.array(kind.letter, bytes(kind.size)) * count


def taken(numbers: Any, kind: Kind) -> Any:
    """The numbers as a contiguous, aligned array of the kind's type, each within its limits: the caller's own array where it is one."""
    buffer = isinstance(numbers, (array.array, memoryview, bytes, bytearray))
    if numpy is not None:
        if type(numbers) is numpy.ndarray:
            return _taken_numpy(numbers, kind)
        if buffer or hasattr(numbers, "__array__"):
            return _taken_numpy(_as_numpy(memoryview(numbers) if buffer else numbers), kind)
    if buffer:
        return _taken_buffer(memoryview(numbers), kind)
    return _taken_list(numbers, kind)


def _as_numpy(numbers: Any) -> Any:
    """The array of what numpy can view as one: a buffer, a subclass, a series."""
    if isinstance(numbers, numpy.ma.MaskedArray):
        raise TypeError("a masked array has places without a number: fill them yourself")
    return numpy.asarray(numbers)


def _taken_numpy(numbers: Any, kind: Kind) -> Any:
    if numbers.ndim != 1:
        raise TypeError(f"a list of numbers has one dimension, and this array has {numbers.ndim}")
    dtype = numbers.dtype
    if dtype.kind not in "iu":
        if dtype.kind == "O":
            return _taken_list(numbers.tolist(), kind)
        raise TypeError(f"{kind.what} is an integer, and this array is of {dtype}: convert it yourself if no number changes")
    same = dtype == kind.dtype
    if numbers.size and not (same and kind is VALUES):
        for at in (numbers.argmin(), numbers.argmax()) if dtype.kind == "i" else (numbers.argmax(),):
            number = numbers.item(at)  # (a Python int: numpy compares uint64 and int64 as floats)
            if not kind.least <= number <= kind.greatest:
                raise OverflowError(f"{kind.what} is {kind.least} to {kind.greatest}, and this is {number} (number {at} of the list)")
    flags = numbers.flags
    if same and flags.c_contiguous and flags.aligned:
        return numbers
    return numpy.array(numbers, kind.dtype, order="C")


def _taken_buffer(view: memoryview, kind: Kind) -> Any:
    if view.ndim != 1:
        raise TypeError(f"a list of numbers has one dimension, and this buffer has {view.ndim}")
    letter = view.format.lstrip("@")
    if letter not in ("b", "B", "h", "H", "i", "I", "l", "L", "q", "Q", "n", "N"):
        raise TypeError(f"{kind.what} is an integer, and this buffer has elements {view.format!r}")
    fits = letter == kind.letter and view.c_contiguous and Lent(view, kind.size).address % kind.size == 0
    if fits and (kind is VALUES or max(view, default=0) <= kind.greatest):
        return view
    return _taken_list(view.tolist(), kind)


def _taken_list(numbers: Any, kind: Kind) -> "array.array[int]":
    if isinstance(numbers, (str, dict)):
        raise TypeError(f"a list of numbers is needed, not {type(numbers).__name__}")
    if not isinstance(numbers, (list, tuple)):
        numbers = list(numbers)
    made = _taken_ints(numbers, kind)
    return _taken_each(numbers, kind) if made is None else made


def _taken_ints(numbers: Any, kind: Kind) -> "Optional[array.array[int]]":
    """The array of a list that has Python ints within their limits and nothing else; of any other None."""
    # (array alone takes True, and before Python 3.10 whatever has __int__)
    if any(kind_of is not int for kind_of in set(map(type, numbers))):
        return None
    try:
        made = array.array(kind.letter, numbers)
    except OverflowError:
        return None
    return made if max(made, default=0) <= kind.greatest else None


def _taken_each(numbers: Any, kind: Kind) -> "array.array[int]":
    """The array of a list of whole numbers of any type; the first that is none, or is outside the limits, is named."""
    made: List[int] = []
    for at, number in enumerate(numbers):
        try:
            made.append(exact(number, kind.what, kind.least, kind.greatest))
        except (TypeError, OverflowError) as wrong:
            raise type(wrong)(f"{wrong} (number {at} of the list)") from None
    return array.array(kind.letter, made)


def first_places(numbers: Any, count: int) -> Any:
    """The first places of an array that was made here; the array itself where these are all."""
    return numbers if len(numbers) == count else numbers[:count]


def joined(chunks: List[Tuple[Any, ...]], *kinds: Kind) -> Tuple[Any, ...]:
    """Chunks of some arrays each, one after the other, as one chunk of arrays of these kinds."""
    if len(chunks) == 1:
        return chunks[0]
    made = tuple(new(kind, 0) for kind in kinds)
    if numpy is not None:
        return tuple(numpy.concatenate(arrays) for arrays in zip(made, *chunks))
    for chunk in chunks:
        for numbers, more in zip(made, chunk):
            numbers.extend(more)
    return made


def first_refusal(kinds: Any) -> Optional[int]:
    """The first place of a page whose kind is a refusal, or None."""
    if not len(kinds) or (kinds.item(kinds.argmax()) if numpy is not None else max(kinds)) <= 1:
        return None
    return next(at for at, kind in enumerate(kinds.tolist()) if kind > 1)


def where_found(kinds: Any) -> Any:
    """Where the kind of an answer is 0: truth values, as numpy's or as bytes of 1 and 0."""
    if numpy is not None:
        return numpy.logical_not(kinds)
    return array.array("B", kinds.tobytes().translate(b"\x01" + bytes(255)))
