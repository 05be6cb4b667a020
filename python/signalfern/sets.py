"""Sets on disk: ids without values."""

from typing import Any, Optional

from . import _library
from ._exact import IDS, exact_id, taken
from ._held import Held, Path, mapped
from ._library import ABSENT, FOUND, Member, done, made, refused
from ._memory import Lent, first


def write_set(ids: Any) -> bytes:
    """The set of these ids, which ascend strictly.

    >>> write_set([0, 2, 7]).hex(" ")
    '01 00 00 03 00 00 02 00 07 00'
    """
    ids = taken(ids, IDS)
    return made(_library.set_write, first(ids), len(ids))


class Set(Held):
    """A set of ids in memory or, by ``open``, in a file, checked when it is made. Each question goes through its bytes, and checks them anew.

    >>> some = Set(write_set([0, 2, 7]))
    >>> len(some), 2 in some, 3 in some, some.ordinal(7)
    (3, True, False, 2)
    """

    @classmethod
    def open(cls, path: Path) -> "Set":
        """The set in a file, which is mapped and not copied."""
        return cls(mapped(path))

    def _take(self, lent: Lent) -> None:
        self._count = done(_library.set_check, lent, lent.bytes)

    def __len__(self) -> int:
        return self._count

    def ordinal(self, id: int) -> Optional[int]:
        """How many ids of the set lie below a listed id; None where it is not listed."""
        lent, member = self._bytes(), Member()
        _library.set_find(lent, lent.bytes, exact_id(id), member)
        if member.kind > ABSENT:
            raise refused(member.kind, member.number)
        return int(member.ordinal) if member.kind == FOUND else None

    def __contains__(self, id: Any) -> bool:
        return self.ordinal(id) is not None
