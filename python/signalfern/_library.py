"""The shared library and its calls, by ctypes.

Every call takes numbers and plain pointers alone. A result is a struct of 64-bit words that the caller lends last; nothing is kept between calls, and
ctypes releases the interpreter's lock during each, so that threads may call at the same time.
"""

import ctypes
import os
import pathlib
from ctypes import POINTER, Structure, c_char_p, c_int64, c_size_t, c_uint32, c_uint64, c_void_p
from typing import Any, Callable, List, Type

from . import _build, errors
from ._memory import first

_FOLDER = pathlib.Path(__file__).resolve().parent
VERSION = "0.2.0"


def _struct(name: str, fields: str) -> Type[Structure]:
    """A struct of 64-bit words; a field that ends in * is signed."""
    kinds = [(field.rstrip("*"), c_int64 if field.endswith("*") else c_uint64) for field in fields.split()]
    return type(name, (Structure,), {"__slots__": (), "_fields_": kinds})


Reply = _struct("Reply", "refusal number")
Answer = _struct("Answer", "kind number ordinal value* words probes")
PageReply = _struct("PageReply", "refusal number words")
Opened = _struct("Opened", "refusal number edition count power id_bytes jump_count width smallest divisor value_bytes start")
Candidate = _struct("Candidate", "kind number id ordinal value* last")
Readout = _struct("Readout", "kind number count")
PairAt = _struct("PairAt", "kind number id ordinal value*")
Between = _struct("Between", "kind number ordinal")
LayeredAnswer = _struct("LayeredAnswer", "kind number column ordinal value* machine_words correction_words")
LayeredPageReply = _struct("LayeredPageReply", "refusal number machine_words correction_words")
LayeredReadout = _struct("LayeredReadout", "kind number column count")
Part = _struct("Part", "column start len")
Member = _struct("Member", "kind number ordinal")
Judgement = _struct("Judgement", "kind number place reason")

FOUND, ABSENT = 0, 1
ENDED = 1
ROOM = 6
MAX_TABLE = 256


def _path() -> pathlib.Path:
    """The library: the caller's, the one that was installed with the package, or the repository's, built when it is first asked for."""
    told = os.environ.get("SIGNALFERN_LIBRARY")
    if told:
        return pathlib.Path(told)
    installed = _FOLDER / "libsignalfern.so"
    if installed.exists():
        return installed
    root = _FOLDER.parent.parent
    if not (root / "dist").is_dir():
        raise ImportError(f"signalfern has no library: {installed} is not there, and SIGNALFERN_LIBRARY is not set")
    return _build.built(root, "libsignalfern", ".so", _build.library_sources(root), _build.build_library)


def _loaded() -> ctypes.CDLL:
    path = _path()
    try:
        library = ctypes.CDLL(str(path))
        library.signalfern_version.restype = c_char_p
        version = library.signalfern_version().decode()
    except (OSError, AttributeError) as wrong:
        raise ImportError(f"{path} is not the library of signalfern: {wrong}") from None
    if version.split(".")[:2] != VERSION.split(".")[:2]:
        raise ImportError(f"{path} is signalfern {version}, and this package is for {VERSION}")
    return library


_LIBRARY = _loaded()
_SLICE: List[Any] = [c_void_p, c_size_t]
_COLUMN: List[Any] = [POINTER(Opened)]


def _call(name: str, parameters: List[Any], result: Type[Structure]) -> Callable[..., None]:
    function = getattr(_LIBRARY, f"signalfern_{name}_to")
    function.argtypes, function.restype = [*parameters, POINTER(result)], None
    return function  # type: ignore[no-any-return]


# The calls by their parameters, as the header has them, and the struct that each fills.
write = _call("write", _SLICE * 2 + [c_uint32, c_uint32] + _SLICE, Reply)
write_planned = _call("write_planned", _SLICE * 3 + [c_uint32] + _SLICE, Reply)
plan = _call("plan", _SLICE * 2, Reply)
check = _call("check", _SLICE, Reply)
read = _call("read", _SLICE * 3, Reply)
open_column = _call("open", _SLICE, Opened)
look_up_in = _call("look_up_in", _COLUMN + _SLICE + [c_uint32], Answer)
look_up_page = _call("look_up_page", _SLICE * 5, PageReply)
look_up_page_address = ctypes.cast(_LIBRARY.signalfern_look_up_page_to, c_void_p).value
next_in = _call("next_in", _COLUMN + [c_uint64] + _SLICE + [c_uint32], Candidate)
read_from_in = _call("read_from_in", _COLUMN + _SLICE + [c_uint32] + _SLICE * 2, Readout)
pair_at_in = _call("pair_at_in", _COLUMN + _SLICE + [c_uint64], PairAt)
first_between_from_in = _call("first_between_from_in", _COLUMN + _SLICE + [c_uint64, c_int64, c_int64], Between)
look_up_layered_in = _call("look_up_layered_in", _COLUMN + _SLICE + _COLUMN + _SLICE + [c_uint32], LayeredAnswer)
look_up_layered_page_in = _call("look_up_layered_page_in", _COLUMN + _SLICE + _COLUMN + _SLICE * 6, LayeredPageReply)
read_layered_from_in = _call("read_layered_from_in", _COLUMN + _SLICE + _COLUMN + _SLICE + [c_uint32] + _SLICE * 3, LayeredReadout)
layered_values = _call("layered_values", _SLICE * 2 + [c_uint32], Part)
set_write = _call("set_write", _SLICE * 2, Reply)
set_check = _call("set_check", _SLICE, Reply)
set_find = _call("set_find", _SLICE + [c_uint32], Member)
judge_section = _call("judge_section", _SLICE + [c_uint64, c_uint64, c_uint32], Judgement)


def _text(name: str) -> Callable[[int], bytes]:
    function = getattr(_LIBRARY, f"signalfern_{name}_text")
    function.argtypes, function.restype = [c_uint64], c_char_p
    return function  # type: ignore[no-any-return]


_refusal_text, _reason_text = _text("refusal"), _text("reason")


def refused(refusal: int, number: int = 0, where: str = "") -> errors.Refused:
    """The exception for a refusal."""
    return errors.REFUSALS[refusal](_refusal_text(refusal).decode(), number, where)


def faulty(reason: int, place: int) -> errors.Faulty:
    """The exception for a faulty id section."""
    return errors.REASONS[reason](_reason_text(reason).decode(), place)


def done(call: Callable[..., None], *words: Any) -> int:
    """The number of a reply that is no refusal."""
    reply = Reply()
    call(*words, reply)
    if reply.refusal:
        raise refused(reply.refusal, reply.number)
    return int(reply.number)


def made(call: Callable[..., None], *words: Any) -> bytes:
    """What a call writes, when it is lent as many bytes as it asks for."""
    reply = Reply()
    call(*words, None, 0, reply)
    if reply.refusal != ROOM:
        raise refused(reply.refusal, reply.number)
    out = bytearray(reply.number)
    done(call, *words, first(out), len(out))
    return bytes(out)
