"""The package's structs and parameters are those of include/signalfern.h, word for word; so are names and numbers of refusals."""

import ctypes
import re
import unittest

from .common import ROOT

import signalfern
from signalfern import _library, errors

HEADER = re.sub(r"/\*.*?\*/", " ", (ROOT / "include" / "signalfern.h").read_text(), flags=re.S)
STRUCTS = {
    "reply": _library.Reply,
    "answer": _library.Answer,
    "page": _library.PageReply,
    "column": _library.Opened,
    "candidate": _library.Candidate,
    "readout": _library.Readout,
    "pair": _library.PairAt,
    "between": _library.Between,
    "layered": _library.LayeredAnswer,
    "layered_page": _library.LayeredPageReply,
    "layered_readout": _library.LayeredReadout,
    "part": _library.Part,
    "member": _library.Member,
    "judgement": _library.Judgement,
}
CALLS = {
    name: getattr(_library, {"open": "open_column"}.get(name, name))
    for name in (
        "write write_planned plan check read open look_up_in look_up_page next_in read_from_in pair_at_in first_between_from_in"
        " look_up_layered_in look_up_layered_page_in read_layered_from_in layered_values set_write set_check set_find judge_section"
    ).split()
}
# (a cursor in a struct is its one number)
WORDS = {"uint64_t": ctypes.c_uint64, "int64_t": ctypes.c_int64, "uint32_t": ctypes.c_uint32, "size_t": ctypes.c_size_t}


class Boundary(unittest.TestCase):
    maxDiff = None

    def test_version(self):
        self.assertEqual(re.findall(r'#define SIGNALFERN_VERSION "(.*?)"', HEADER), [signalfern.__version__])

    def test_structs(self):
        found = {name: body for body, name in re.findall(r"typedef struct \{([^}]*)\} signalfern_(\w+);", HEADER)}
        self.assertEqual(sorted(found), sorted([*STRUCTS, "cursor"]))
        for name, struct in STRUCTS.items():
            fields = [tuple(field.split()) for field in found[name].split(";") if field.strip()]
            want = [("last" if kind == "signalfern_cursor" else field, WORDS.get(kind, ctypes.c_uint64)) for kind, field in fields]
            self.assertEqual(struct._fields_, want, name)

    def test_parameters(self):
        for name, call in CALLS.items():
            (given,) = re.findall(rf"void signalfern_{name}_to\(([^)]*)\);", HEADER)
            want = []
            for parameter in given.split(","):
                kind = parameter.replace("const", "").rsplit(maxsplit=1)[0]
                struct = re.match(r"\s*(?:const )?signalfern_(\w+) \*", parameter)
                want.append(ctypes.POINTER(STRUCTS[struct[1]]) if struct else ctypes.c_void_p if "*" in parameter else WORDS[kind.strip()])
            self.assertEqual(list(call.argtypes), want, name)
            self.assertIsNone(call.restype)

    def test_refusals_and_reasons(self):
        numbers = {name: int(number) for name, number in re.findall(r"SIGNALFERN_(\w+) = (\d+)", HEADER)}
        kinds = {"FOUND": _library.FOUND, "ABSENT": _library.ABSENT, "NONE": _library.ABSENT, "ENDED": _library.ENDED, "ROOM": _library.ROOM}
        self.assertEqual({name: numbers[name] for name in kinds}, kinds)
        for kind in errors.REFUSALS.values():
            self.assertEqual(numbers[kind.name], kind.refusal)
        self.assertEqual(sorted(errors.REFUSALS), [1, 2, 3, 4, *range(6, 18)])
        for kind in errors.REASONS.values():
            self.assertEqual(numbers[kind.name], kind.reason)
        self.assertEqual(sorted(errors.REASONS), list(range(1, 9)))

    def test_limits(self):
        limits = dict(re.findall(r"#define SIGNALFERN_(\w+) (\d+)u", HEADER))
        self.assertEqual((limits["MAX_ID"], limits["MAX_TABLE"]), (str(signalfern.MAX_ID), str(_library.MAX_TABLE)))
        self.assertEqual([int(limits[edition.name]) for edition in signalfern.Edition], [edition.value for edition in signalfern.Edition])
