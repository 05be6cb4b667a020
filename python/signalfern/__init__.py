"""Score columns: pairs of an id and a signed 64-bit score, by proved calls.

>>> import signalfern
>>> column = signalfern.Column(signalfern.write([0, 2, 7], [150, 140, 135]))
>>> column[7]
135
"""

from . import errors
from ._exact import MAX_ID
from ._held import digest
from ._library import VERSION as __version__
from ._pages import Page
from .column import Column, Found, Pair
from .errors import Error, Faulty, Refused
from .layered import Layer, Layered, LayeredFound, LayeredPage, LayeredPair, LayeredPairs
from .sections import judge_section
from .sets import Set, write_set
from .writing import Edition, check, plan, write, write_file, write_planned

__all__ = [
    "Column", "Edition", "Error", "Faulty", "Found", "Layer", "Layered", "LayeredFound", "LayeredPage", "LayeredPair", "LayeredPairs", "MAX_ID", "Page", "Pair",
    "Refused", "Set", "__version__", "check", "digest", "errors", "judge_section", "plan", "write", "write_file", "write_planned", "write_set",
]
