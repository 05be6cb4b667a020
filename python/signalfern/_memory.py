"""Where lent memory is: the addresses that the calls are handed."""

import ctypes
from ctypes import POINTER, Structure, c_char, c_char_p, c_int, c_ssize_t, c_void_p
from typing import Any


class _View(Structure):
    """CPython's Py_buffer."""

    _fields_ = [("buf", c_void_p), ("obj", c_void_p), ("len", c_ssize_t), ("itemsize", c_ssize_t), ("readonly", c_int)]
    _fields_ += [("ndim", c_int), ("format", c_char_p), ("shape", c_void_p), ("strides", c_void_p), ("suboffsets", c_void_p), ("internal", c_void_p)]


_get, _release = ctypes.pythonapi.PyObject_GetBuffer, ctypes.pythonapi.PyBuffer_Release
_get.argtypes, _get.restype = [ctypes.py_object, POINTER(_View), c_int], c_int
_release.argtypes, _release.restype = [POINTER(_View)], None


class Lent:
    """Memory that somebody else owns, at its own address and only to be read, for as long as this object lives: until then its owner can neither
    resize nor close it."""

    __slots__ = ("_view", "owner", "address", "bytes")

    def __init__(self, owner: Any, size: int) -> None:
        self._view, self.owner = _View(), owner
        _get(owner, self._view, 0)
        if self._view.itemsize != size:
            raise TypeError(f"elements of {size} bytes are needed, and these have {self._view.itemsize}")
        self.bytes: int = self._view.len
        # (of no bytes an owner may name any address)
        self.address: int = self._view.buf if self.bytes else 0

    @property
    def _as_parameter_(self) -> int:
        return self.address

    def __del__(self) -> None:
        _release(self._view)


def lend(column: Any) -> Lent:
    """The bytes of a column, a set or a section."""
    return Lent(column, 1)


_FIRST = c_char * 1


def first(numbers: Any) -> Any:
    """A pointer to an array's first element, by which the array is held; none where it has no element."""
    if not len(numbers):
        return None
    try:
        return _FIRST.from_buffer(numbers)
    except TypeError:  # only to be read
        return Lent(numbers, memoryview(numbers).itemsize)
