"""Bytes that an object holds for its questions: a buffer of the caller's, or a mapped file."""

import hashlib
import mmap
import os
import threading
from typing import Any, Optional, TypeVar, Union

from . import errors
from ._library import refused
from ._memory import Lent, lend

Path = Union[str, "os.PathLike[str]"]
_Self = TypeVar("_Self", bound="Held")


class _Map(mmap.mmap):
    """A file that was mapped here, and is closed here."""


def mapped(path: Path) -> _Map:
    """A file's bytes, not copied."""
    with open(path, "rb") as file:
        if os.fstat(file.fileno()).st_size == 0:  # (which cannot be mapped)
            raise refused(errors.Short.refusal)
        return _Map(file.fileno(), 0, access=mmap.ACCESS_READ)


class Held:
    """What is asked by its bytes. They are lent as long as it is open; a call that is under way holds them too, so that no thread can take them away."""

    def __init__(self, buffer: Any) -> None:
        self._closing = threading.Lock()
        self._buffer = buffer
        self._lent: Optional[Lent] = lend(buffer)
        self._take(self._lent)

    def _take(self, lent: Lent) -> None:
        """Opens or checks, before anything is asked."""
        raise NotImplementedError

    def close(self) -> None:
        """Lets the bytes go, and with them the file that was opened. BufferError where the file's bytes are still in use, by a view of them, an
        iteration that is not at its end, or a call in another thread: it then stays open."""
        with self._closing:
            self._lent = None
            if isinstance(self._buffer, _Map):
                try:
                    self._buffer.close()
                except BufferError:
                    self._lent = lend(self._buffer)
                    raise BufferError("the file's bytes are in use: it cannot be closed") from None
            self._buffer = None

    def __enter__(self: _Self) -> _Self:
        return self

    def __exit__(self, *_: Any) -> None:
        self.close()

    def _bytes(self) -> Lent:
        lent = self._lent
        if lent is None:
            raise ValueError("it is closed")
        return lent

    @property
    def buffer(self) -> memoryview:
        """The bytes, not copied and read-only."""
        return memoryview(self._bytes().owner).cast("B").toreadonly()

    def digest(self) -> str:
        """The SHA-256 digest of the bytes."""
        return digest(self.buffer)


def digest(column: Any) -> str:
    """The SHA-256 digest of bytes, which tells whether they are those that were written: a sound column may still hold changed scores.

    >>> digest(b"")
    'e3b0c44298fc1c149afbf4c8996fb92427ae41e4649b934ca495991b7852b855'
    """
    return hashlib.sha256(column).hexdigest()
