"""A correction column on top of a machine column."""

from enum import IntEnum
from typing import Any, Iterator, NamedTuple, Optional, Tuple

from . import _library
from ._exact import FLAGS, IDS, MAX_ID, ORDINALS, VALUES, exact, exact_id, exact_value, first_places, first_refusal, joined, new, taken, where_found
from ._library import ABSENT, ENDED, FOUND, LayeredAnswer, LayeredPageReply, LayeredReadout, Part, refused
from ._memory import Lent, first
from ._scores import CHUNK, Chunk, Scores
from .column import Column


class Layer(IntEnum):
    """Which of the two columns spoke."""

    MACHINE = 0
    CORRECTION = 1


class LayeredFound(NamedTuple):
    """A listed id: which column spoke, its place in that column's list, its value, and the words counted in each column."""

    by: Layer
    ordinal: int
    value: int
    machine_words: int
    correction_words: int


class LayeredPair(NamedTuple):
    """A listed pair, which column spoke, and the pair's place in that column's list."""

    id: int
    value: int
    by: Layer
    ordinal: int


class LayeredPage(NamedTuple):
    """What a page of ids gave, place by place; ``by`` has the number of the column that spoke. All are 0 where ``found`` is not true."""

    values: Any
    ordinals: Any
    found: Any
    by: Any


class LayeredPairs(NamedTuple):
    """Pairs from an id on, place by place; ``by`` has the number of the column that each came from."""

    ids: Any
    values: Any
    by: Any


def _by(column: int) -> str:
    """The words for the column that refused."""
    return f"by the {Layer(column).name.lower()} column"


class Layered(Scores):
    """Two columns, of which the correction answers for the ids that it holds.

    >>> from signalfern import write
    >>> both = Layered(Column(write([0, 2, 7], [150, 140, 135])), Column(write([7, 9], [200, 210])))
    >>> both[7], both[2], both.get(8), len(both)
    (200, 140, None, 4)
    >>> list(both)
    [(0, 150), (2, 140), (7, 200), (9, 210)]
    >>> both.look_up(2)
    LayeredFound(by=<Layer.MACHINE: 0>, ordinal=1, value=140, machine_words=0, correction_words=0)
    """

    def __init__(self, machine: Column, correction: Column) -> None:
        self.machine, self.correction = machine, correction

    def close(self) -> None:
        """Closes both columns."""
        try:
            self.correction.close()
        finally:
            self.machine.close()

    def __enter__(self) -> "Layered":
        return self

    def __exit__(self, *_: Any) -> None:
        self.close()

    def _hold(self) -> Tuple[Lent, Lent]:
        return self.machine._bytes(), self.correction._bytes()

    def __len__(self) -> int:
        """How many ids the two list together. The correction's ids are looked up in the machine column for this."""
        count, target = len(self.machine) + len(self.correction), 0
        while True:
            ids, _ = self.correction.read_from(target, CHUNK)
            count -= int(sum(self.machine.look_up_many(ids).found))
            if len(ids) < CHUNK:
                return count
            target = int(ids[-1]) + 1

    def _answer(self, id: Any) -> Any:
        machine, correction = self.machine._bytes(), self.correction._bytes()
        a = LayeredAnswer()
        _library.look_up_layered_in(
            self.machine._opened, machine.address, machine.bytes, self.correction._opened, correction.address, correction.bytes, exact_id(id), a
        )
        if a.kind > ABSENT:
            raise refused(a.kind, a.number, _by(a.column))
        return a

    def look_up(self, id: int) -> Optional[LayeredFound]:
        """An id's value with the column that spoke, or None."""
        a = self._answer(id)
        return LayeredFound(Layer(a.column), a.ordinal, a.value, a.machine_words, a.correction_words) if a.kind == FOUND else None

    def look_up_many(self, ids: Any) -> LayeredPage:
        """A page of ids in one call, in any order.

        >>> from signalfern import write
        >>> page = Layered(Column(write([0, 2, 7], [150, 140, 135])), Column(write([7], [200]))).look_up_many([7, 8, 0])
        >>> page.values.tolist(), page.ordinals.tolist(), [bool(found) for found in page.found], page.by.tolist()
        ([200, 0, 150], [0, 0, 0], [True, False, True], [1, 0, 0])
        """
        asked, (machine, correction), reply = taken(ids, IDS), self._hold(), LayeredPageReply()
        count = len(asked)
        values, ordinals, kinds, by = new(VALUES, count), new(ORDINALS, count), new(FLAGS, count), new(FLAGS, count)
        lists = [word for numbers in (asked, ordinals, values, kinds, by) for word in (first(numbers), count)]
        _library.look_up_layered_page_in(
            self.machine._opened, machine.address, machine.bytes, self.correction._opened, correction.address, correction.bytes, *lists, reply
        )
        bad = first_refusal(kinds)
        if reply.refusal or bad is not None:
            raise refused(reply.refusal) if bad is None else refused(int(kinds[bad]), 0, f"for number {bad} of the list, {_by(int(by[bad]))}")
        return LayeredPage(values, ordinals, where_found(kinds), by)

    def next(self, id: int) -> Optional[LayeredPair]:
        """The first listed pair at or above an id, or None."""
        mine, theirs = self.correction.next(id), self.machine.next(id)
        if mine is not None and (theirs is None or mine.id <= theirs.id):
            return LayeredPair(mine.id, mine.value, Layer.CORRECTION, mine.ordinal)
        return None if theirs is None else LayeredPair(theirs.id, theirs.value, Layer.MACHINE, theirs.ordinal)

    def first_between(self, low: int, high: int) -> Optional[LayeredPair]:
        """The first pair with a value from low to high, both included, or None; of any edition. The pairs are gone through in turn.

        >>> from signalfern import write
        >>> Layered(Column(write([0, 2, 7], [150, 140, 135])), Column(write([2], [200]))).first_between(100, 149)
        LayeredPair(id=7, value=135, by=<Layer.MACHINE: 0>, ordinal=2)
        """
        low, high = exact_value(low), exact_value(high)
        return next((self.next(id) for id, value in self if low <= value <= high), None)

    def read(self) -> Tuple[Any, Any]:
        """All ids and all values, as two arrays."""
        machine, correction = self._hold()
        self.correction._check(correction)
        self.machine._check(machine)
        return self.read_from(0, MAX_ID + 1)

    def read_from(self, id: int, count: int) -> Tuple[Any, Any]:
        """The next pairs at or above an id, at most so many, as two arrays."""
        ids, values, _ = self.pairs_from(id, count)
        return ids, values

    def pairs_from(self, id: int, count: int) -> LayeredPairs:
        """The next pairs at or above an id, at most so many, as three arrays: ids, values, and the numbers of their columns.

        >>> from signalfern import write
        >>> pairs = Layered(Column(write([0, 2, 7], [150, 140, 135])), Column(write([7, 9], [200, 210]))).pairs_from(1, 10)
        >>> pairs.ids.tolist(), pairs.values.tolist(), pairs.by.tolist()
        ([2, 7, 9], [140, 200, 210], [0, 1, 1])
        """
        held, target = self._hold(), exact_id(id)
        count = exact(count, "a count", 0, 2**63 - 1)
        chunks = [*self._chunks(held, target, count, self._left(held, target))]
        return LayeredPairs(*joined(chunks, IDS, VALUES, FLAGS))

    def _left(self, held: Tuple[Lent, Lent], target: int) -> int:
        """How many pairs of two checked columns are at or above an id, at most; of others an iteration's number of places."""
        columns = self.machine, self.correction
        if not all(column._checked for column in columns):
            return CHUNK
        return sum(column._left(lent, target) for column, lent in zip(columns, held))

    def _chunks(self, held: Tuple[Lent, Lent], target: int, count: int = MAX_ID + 1, places: int = CHUNK) -> Iterator[Chunk]:
        """The next pairs at or above an id, at most so many, in arrays of at most so many places. A refusal comes after the pairs before it."""
        machine, correction = held
        while count and places and target <= MAX_ID:
            places, readout = min(places, count), LayeredReadout()
            chunk = new(IDS, places), new(VALUES, places), new(FLAGS, places)
            lists = [word for numbers in chunk for word in (first(numbers), places)]
            _library.read_layered_from_in(
                self.machine._opened, machine.address, machine.bytes, self.correction._opened, correction.address, correction.bytes, target, *lists, readout
            )
            if readout.kind > ENDED:
                raise refused(readout.kind, readout.number, _by(readout.column))
            if readout.count:
                yield tuple(first_places(numbers, readout.count) for numbers in chunk)
                target = int(chunk[0][readout.count - 1]) + 1
            if readout.kind == ENDED:
                break
            count -= readout.count

    def values_of(self, id: int) -> "Tuple[Layer, memoryview]":
        """Which column holds the id, and the bytes of its value section, as a view of them; no bytes where neither does."""
        machine, correction, part = self.machine._bytes(), self.correction._bytes(), Part()
        _library.layered_values(machine, machine.bytes, correction, correction.bytes, exact_id(id), part)
        column = (self.machine, self.correction)[part.column]
        return Layer(part.column), column.buffer[part.start : part.start + part.len]
