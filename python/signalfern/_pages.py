"""Pages of ids in numpy's arrays without ctypes, where the module ``_page`` could be built: ctypes takes longer than the look-ups of a short page.

It makes the same call of the same library. Where it says no, because an array cannot be lent as it is or an id is refused, the page is asked for by
ctypes, and what is wrong is said there. SIGNALFERN_CTYPES=1 leaves it out.
"""

import importlib
import importlib.util
import os
import pathlib
from typing import Any, Callable, NamedTuple, Optional, Tuple

from . import _build, _library
from ._exact import ORDINALS, VALUES


def _from_the_tree() -> Any:
    root = pathlib.Path(__file__).resolve().parents[2]
    path = _build.built(root, "_page", _build.MODULE_SUFFIX, _build.module_sources(root), _build.build_module)
    spec = importlib.util.spec_from_file_location(f"{__package__}._page", path)
    assert spec is not None and spec.loader is not None
    module = importlib.util.module_from_spec(spec)
    spec.loader.exec_module(module)
    return module


def _module() -> Any:
    """The module that was installed with the package, or the repository's, or None."""
    if VALUES.dtype is None or os.environ.get("SIGNALFERN_CTYPES"):
        return None
    try:
        return importlib.import_module(f"{__package__}._page")
    except ImportError:
        pass
    try:
        return _from_the_tree()
    except (ImportError, OSError):
        return None


class Page(NamedTuple):
    """What a page of ids gave, place by place: value and ordinal are 0 where ``found`` is not true."""

    values: Any
    ordinals: Any
    found: Any


def _no_page(needs: Any, bytes: int, len: int, ids: Any) -> None:
    """What ``_page`` answers where it cannot be used."""


MODULE = _module()
#: The page of an array of ids in a column, by NEEDS and the column's address and length; None where it is to be asked for by ctypes.
at_once: Callable[[Any, int, int, Any], Optional[Page]] = _no_page
NEEDS: Tuple[Any, ...] = ()
if MODULE is not None:
    import numpy

    at_once = MODULE.look_up_page
    NEEDS = _library.look_up_page_address, numpy.ndarray, numpy.empty, VALUES.dtype, ORDINALS.dtype, numpy.dtype(bool), Page
