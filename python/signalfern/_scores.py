"""What a column, and a column with a correction on top, answer alike."""

from typing import Any, Iterator, Tuple

from ._exact import exact_id
from ._library import FOUND

# Some pairs, as an array of ids, one of values and what else comes with them; and how many an iteration takes at a time.
Chunk = Tuple[Any, ...]
CHUNK = 4096


class Scores:
    """Pairs that are asked for by id."""

    def _answer(self, id: Any) -> Any:
        """The library's answer to one id, found or absent."""
        raise NotImplementedError

    def _hold(self) -> Any:
        """What has to be kept for as long as bytes must stay."""
        raise NotImplementedError

    def get(self, id: int, default: Any = None) -> Any:
        """The value of an id, or the default where it is not listed."""
        answer = self._answer(id)
        return answer.value if answer.kind == FOUND else default

    def __getitem__(self, id: int) -> int:
        answer = self._answer(id)
        if answer.kind != FOUND:
            raise KeyError(id)
        return answer.value  # type: ignore[no-any-return]

    def __contains__(self, id: Any) -> bool:
        return self._answer(id).kind == FOUND  # type: ignore[no-any-return]

    def __iter__(self) -> Iterator[Tuple[int, int]]:
        return self.iter_from(0)

    def iter_from(self, id: int) -> Iterator[Tuple[int, int]]:
        """The pairs at or above an id, in turn. A file that is read so cannot be closed before the end, or before the iterator is let go."""
        return self._pairs(exact_id(id), self._hold())

    def _pairs(self, target: int, held: Any) -> Iterator[Tuple[int, int]]:
        for ids, values, *_ in self._chunks(held, target):
            yield from zip(ids.tolist(), values.tolist())

    def _chunks(self, held: Any, target: int) -> Iterator[Chunk]:
        """The pairs at or above an id, some at a time. A refusal comes after the pairs before it."""
        raise NotImplementedError
