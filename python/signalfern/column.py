"""Columns: opened and asked."""

from typing import Any, Iterator, NamedTuple, Optional, Tuple

from . import _library
from ._exact import FLAGS, IDS, MAX_ID, ORDINALS, VALUES, exact, exact_id, exact_ordinal, exact_value
from ._exact import first_places, first_refusal, joined, new, taken, where_found
from ._held import Held, Path, mapped
from ._library import ABSENT, ENDED, FOUND, Answer, Between, Candidate, Opened, PageReply, PairAt, Readout, done, look_up_in, look_up_page, refused
from ._memory import Lent, first
from ._pages import NEEDS, Page, at_once
from ._scores import CHUNK, Chunk, Scores
from .writing import Edition


class Found(NamedTuple):
    """A listed id: its place in the list, its value, and what the look-up counted."""

    ordinal: int
    value: int
    words: int
    probes: int


class Pair(NamedTuple):
    """A listed pair and its place in the list."""

    id: int
    value: int
    ordinal: int


class Column(Held, Scores):
    """A column in memory or, by ``open``, in a file; checked unless told otherwise.

    >>> from signalfern import write
    >>> column = Column(write([0, 2, 7], [150, 140, 135]))
    >>> len(column), column[7], column.get(8), 2 in column
    (3, 135, None, True)
    >>> list(column), list(column.iter_from(1))
    ([(0, 150), (2, 140), (7, 135)], [(2, 140), (7, 135)])
    >>> column.look_up(7)
    Found(ordinal=2, value=135, words=0, probes=2)
    >>> column.next(3)
    Pair(id=7, value=135, ordinal=2)
    >>> column[2**32 + 7]
    Traceback (most recent call last):
    OverflowError: an id is 0 to 2147352575, and this is 4294967303
    """

    def __init__(self, buffer: Any, *, checked: bool = True) -> None:
        self._checked = checked
        super().__init__(buffer)

    @classmethod
    def open(cls, path: Path, *, checked: bool = True) -> "Column":
        """The column in a file, which is mapped and not copied. The file must be replaced by rename, as ``write_file`` does, and never cut."""
        return cls(mapped(path), checked=checked)

    def _take(self, lent: Lent) -> None:
        self._opened = Opened()
        _library.open_column(lent, lent.bytes, self._opened)
        if self._opened.refusal:
            raise refused(self._opened.refusal, self._opened.number)
        if self._checked:
            done(_library.check, lent, lent.bytes)

    def _hold(self) -> Lent:
        return self._bytes()

    @property
    def edition(self) -> Edition:
        """How the values are stored."""
        return Edition(self._opened.edition)

    @property
    def power(self) -> int:
        """The rank power."""
        return int(self._opened.power)

    def __len__(self) -> int:
        return int(self._opened.count)

    def _answer(self, id: Any) -> Any:
        lent = self._lent or self._bytes()
        answer = Answer()
        look_up_in(self._opened, lent.address, lent.bytes, exact_id(id), answer)
        if answer.kind > ABSENT:
            raise refused(answer.kind, answer.number)
        return answer

    def look_up(self, id: int) -> Optional[Found]:
        """An id's ordinal and value with the words and probes that the look-up counted, or None."""
        a = self._answer(id)
        return Found(a.ordinal, a.value, a.words, a.probes) if a.kind == FOUND else None

    def look_up_many(self, ids: Any) -> Page:
        """A page of ids in one call, in any order: far faster than one by one.

        >>> from signalfern import write
        >>> page = Column(write([0, 2, 7], [150, 140, 135])).look_up_many([7, 8, 0])
        >>> page.values.tolist(), page.ordinals.tolist(), [bool(found) for found in page.found]
        ([135, 0, 150], [2, 0, 0], [True, False, True])
        """
        lent = self._lent or self._bytes()
        return at_once(NEEDS, lent.address, lent.bytes, ids) or self._page(lent, taken(ids, IDS))

    def _page(self, lent: Lent, asked: Any) -> Page:
        count = len(asked)
        values, ordinals, kinds, reply = new(VALUES, count), new(ORDINALS, count), new(FLAGS, count), PageReply()
        look_up_page(lent.address, lent.bytes, first(asked), count, first(ordinals), count, first(values), count, first(kinds), count, reply)
        bad = first_refusal(kinds)
        if reply.refusal or bad is not None:
            raise refused(reply.refusal) if bad is None else refused(int(kinds[bad]), 0, f"for number {bad} of the list")
        return Page(values, ordinals, where_found(kinds))

    def next(self, id: int) -> Optional[Pair]:
        """The first listed pair at or above an id, or None."""
        lent = self._bytes()
        c = self._candidate(lent, exact_id(id))
        return Pair(c.id, c.value, c.ordinal) if c.kind == FOUND else None

    def _candidate(self, lent: Lent, target: int) -> Any:
        c = Candidate()
        _library.next_in(self._opened, 0, lent.address, lent.bytes, target, c)
        if c.kind > ABSENT:
            raise refused(c.kind, c.number)
        return c

    def pair_at(self, ordinal: int) -> Optional[Pair]:
        """The pair with an ordinal, its place in the list from 0, or None.

        >>> from signalfern import write
        >>> column = Column(write([0, 2, 7], [150, 140, 135]))
        >>> column.pair_at(1), column.pair_at(3)
        (Pair(id=2, value=140, ordinal=1), None)
        """
        lent, p = self._bytes(), PairAt()
        _library.pair_at_in(self._opened, lent.address, lent.bytes, exact_ordinal(ordinal), p)
        if p.kind > ABSENT:
            raise refused(p.kind, p.number)
        return Pair(p.id, p.value, p.ordinal) if p.kind == FOUND else None

    def first_between(self, low: int, high: int, start: int = 0) -> Optional[int]:
        """The first ordinal, from a start on, with a value from low to high, both included, in a column of edition 3; or None.

        >>> from signalfern import write
        >>> column = Column(write([0, 2, 7], [-2, 5, 1], Edition.RUNS))
        >>> column.first_between(0, 5), column.first_between(0, 5, start=2), column.first_between(-1, 0)
        (1, 2, None)
        """
        return self._first_between(self._bytes(), exact_ordinal(start), exact_value(low), exact_value(high))

    def _first_between(self, lent: Lent, start: int, low: int, high: int) -> Optional[int]:
        b = Between()
        _library.first_between_from_in(self._opened, lent.address, lent.bytes, start, low, high, b)
        if b.kind > ABSENT:
            raise refused(b.kind, b.number)
        return int(b.ordinal) if b.kind == FOUND else None

    def all_between(self, low: int, high: int) -> Iterator[int]:
        """Every ordinal with a value from low to high, both included, in turn, in a column of edition 3. A file that is searched so cannot be closed
        before the end, or before the iterator is let go.

        >>> from signalfern import write
        >>> column = Column(write([0, 2, 7], [-2, 5, 1], Edition.RUNS))
        >>> [column.pair_at(ordinal).id for ordinal in column.all_between(0, 5)]
        [2, 7]
        """
        lent, low, high = self._bytes(), exact_value(low), exact_value(high)
        return self._ordinals(lent, self._first_between(lent, 0, low, high), low, high)

    def _ordinals(self, lent: Lent, found: Optional[int], low: int, high: int) -> Iterator[int]:
        while found is not None:
            yield found
            found = self._first_between(lent, found + 1, low, high)

    def read(self) -> Tuple[Any, Any]:
        """All ids and all values, as two arrays.

        >>> from signalfern import write
        >>> ids, values = Column(write([0, 2, 7], [150, 140, 135])).read()
        >>> ids.tolist(), values.tolist()
        ([0, 2, 7], [150, 140, 135])
        """
        lent = self._bytes()
        self._check(lent)
        count = len(self)
        ids, values = new(IDS, count), new(VALUES, count)
        done(_library.read, lent.address, lent.bytes, first(ids), count, first(values), count)
        return ids, values

    def _check(self, lent: Lent) -> None:
        """Checks a column that was not: its count is only what the header claims, and nothing is made by it."""
        if not self._checked:
            done(_library.check, lent, lent.bytes)

    def read_from(self, id: int, count: int) -> Tuple[Any, Any]:
        """The next pairs at or above an id, at most so many, as two arrays.

        >>> from signalfern import write
        >>> ids, values = Column(write([0, 2, 7], [150, 140, 135])).read_from(1, 10)
        >>> ids.tolist(), values.tolist()
        ([2, 7], [140, 135])
        """
        lent, target, count = self._bytes(), exact_id(id), exact(count, "a count", 0, 2**63 - 1)
        # (of a column that was not checked the header's count is a claim: nothing is made by it)
        places = self._left(lent, target) if self._checked else CHUNK
        ids, values = joined([*self._chunks(lent, target, count, places)], IDS, VALUES)
        return ids, values

    def _left(self, lent: Lent, target: int) -> int:
        """How many pairs of a checked column are at or above an id."""
        c = self._candidate(lent, target)
        return len(self) - int(c.ordinal) if c.kind == FOUND else 0

    def _chunks(self, lent: Lent, target: int, count: int = MAX_ID + 1, places: int = CHUNK) -> Iterator[Chunk]:
        """The next pairs at or above an id, at most so many, in arrays of at most so many places. A refusal comes after the pairs before it."""
        while count and places and target <= MAX_ID:
            places, readout = min(places, count), Readout()
            ids, values = new(IDS, places), new(VALUES, places)
            _library.read_from_in(self._opened, lent.address, lent.bytes, target, first(ids), places, first(values), places, readout)
            if readout.kind > ENDED:
                raise refused(readout.kind, readout.number)
            if readout.count:
                yield first_places(ids, readout.count), first_places(values, readout.count)
                target = int(ids[readout.count - 1]) + 1
            if readout.kind == ENDED:
                break
            count -= readout.count
