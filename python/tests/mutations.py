"""Takes the checks of numbers out of the package, one at a time, and sees that test_exact.py fails each time; then those of memory, by test_memory.py,
those of the answers, by test_columns.py and, with a correction on top, test_others.py, and those of the module for pages, by test_pages.py.

(python3 python/tests/mutations.py [--without-numpy])
"""

import importlib
import os
import pathlib
import shutil
import signal
import subprocess
import sys
import sysconfig
import tempfile
import unittest

HERE = pathlib.Path(__file__).resolve().parent
if "--without-numpy" in sys.argv:
    sys.modules["numpy"] = None  # (so that importing it fails)
try:
    import numpy
except ImportError:
    numpy = None

ANY, WITH, WITHOUT = "any", "with numpy", "without numpy"
# Where the edit shows, the file, what stands there, and what is put in its place.
NUMBERS = [
    (ANY, "_exact", "    if least <= number <= greatest:\n", "    if True:\n"),
    (ANY, "_exact", "    if isinstance(number, _TRUTHS):\n", "    if False:\n"),
    (WITH, "_exact", "(bool, numpy.bool_)", "(bool,)"),
    (ANY, "_exact", "return index(number)", "return int(number)"),
    (ANY, "_exact", "type(number) is int and 0 <= number <= MAX_ID", "type(number) is int"),
    (ANY, "_exact", "type(number) is int and 0 <= number <= MAX_ID", "type(number) is int and number <= MAX_ID"),
    (ANY, "_exact", "MAX_ID = 2147352575", "MAX_ID = 2**32 - 1"),
    (ANY, "_exact", '-(1 << 63), (1 << 63) - 1)', '-(1 << 64), (1 << 64) - 1)'),
    (WITH, "_exact", "    if numbers.ndim != 1:\n", "    if False:\n"),
    (WITH, "_exact", '    if dtype.kind not in "iu":\n', '    if dtype.kind == "O":\n'),
    (WITH, "_exact", '    if dtype.kind not in "iu":\n', '    if dtype.kind not in "iub":\n'),
    (WITH, "_exact", "return _taken_list(numbers.tolist(), kind)", "return numpy.array(numbers, kind.dtype)"),
    (WITH, "_exact", "if not kind.least <= number <= kind.greatest:", "if False:"),
    (WITH, "_exact", '(numbers.argmin(), numbers.argmax()) if dtype.kind == "i" else (numbers.argmax(),)', "(numbers.argmax(),)"),
    (WITH, "_exact", '(numbers.argmin(), numbers.argmax()) if dtype.kind == "i" else (numbers.argmax(),)', "(numbers.argmin(),)"),
    (WITH, "_exact", "number = numbers.item(at)", "number = numbers[at]"),
    (WITH, "_exact", "not (same and kind is VALUES)", "not same"),
    (WITH, "_exact", "same and flags.c_contiguous and flags.aligned", "same and flags.c_contiguous"),
    (WITH, "_exact", "same and flags.c_contiguous and flags.aligned", "same and flags.aligned"),
    (WITH, "_exact", "same and flags.c_contiguous and flags.aligned", "flags.c_contiguous and flags.aligned"),
    (WITH, "_exact", "same = dtype == kind.dtype", "same = dtype.itemsize == kind.size"),
    (WITH, "_exact", "    if isinstance(numbers, numpy.ma.MaskedArray):\n", "    if False:\n"),
    (WITHOUT, "_exact", "max(view, default=0) <= kind.greatest", "True"),
    (WITHOUT, "_exact", "letter == kind.letter and", "view.itemsize == kind.size and"),
    (WITHOUT, "_exact", "view.c_contiguous and Lent", "Lent"),
    (WITHOUT, "_exact", "and Lent(view, kind.size).address % kind.size == 0", ""),
    (WITHOUT, "_exact", "    if view.ndim != 1:\n", "    if False:\n"),
    (ANY, "_exact", "    if any(kind_of is not int for kind_of in set(map(type, numbers))):\n", "    if False:\n"),
    (ANY, "_exact", "return made if max(made, default=0) <= kind.greatest else None", "return made"),
    (ANY, "_exact", "made.append(exact(number, kind.what, kind.least, kind.greatest))", "made.append(number)"),
    (ANY, "_exact", "isinstance(numbers, (str, dict))", "isinstance(numbers, str)"),
    (ANY, "writing", "return exact(number, what, 0, 2**32 - 1)", "return number"),
    (ANY, "writing", "return exact(number, what, 0, 2**32 - 1)", "return exact(number, what, 0, 2**64 - 1)"),
    (ANY, "sections", 'jump_count = exact(jump_count, "a count of jump entries", 0, 2**64 - 1)', "pass"),
    (ANY, "sections", 'power = exact(power, "a rank power", 0, 2**64 - 1)', "pass"),
    (ANY, "column", "lent.bytes, exact_id(id), answer", "lent.bytes, id, answer"),
    (ANY, "column", "self._candidate(lent, exact_id(id))", "self._candidate(lent, id)"),
    (ANY, "column", 'exact_id(id), exact(count, "a count", 0, 2**63 - 1)', 'id, exact(count, "a count", 0, 2**63 - 1)'),
    (ANY, "column", 'exact_id(id), exact(count, "a count", 0, 2**63 - 1)', 'exact_id(id), exact(count, "a count", 0, 2**65)'),
    (ANY, "column", 'exact_id(id), exact(count, "a count", 0, 2**63 - 1)', "exact_id(id), max(0, count)"),
    (ANY, "column", "exact_ordinal(start), exact_value(low), exact_value(high))", "start, exact_value(low), exact_value(high))"),
    (ANY, "column", "exact_ordinal(start), exact_value(low), exact_value(high))", "exact_ordinal(start), low, exact_value(high))"),
    (ANY, "column", "exact_ordinal(start), exact_value(low), exact_value(high))", "exact_ordinal(start), exact_value(low), high)"),
    (ANY, "column", "low, high = self._bytes(), exact_value(low), exact_value(high)", "low, high = self._bytes(), low, exact_value(high)"),
    (ANY, "column", "low, high = self._bytes(), exact_value(low), exact_value(high)", "low, high = self._bytes(), exact_value(low), high"),
    (ANY, "column", "exact_ordinal(ordinal), p)", "ordinal, p)"),
    (ANY, "_scores", "self._pairs(exact_id(id), self._hold())", "self._pairs(id, self._hold())"),
    (ANY, "layered", "correction.bytes, exact_id(id), a", "correction.bytes, id, a"),
    (ANY, "layered", "correction.bytes, exact_id(id), part", "correction.bytes, id, part"),
    (ANY, "layered", "low, high = exact_value(low), exact_value(high)", "low, high = low, exact_value(high)"),
    (ANY, "layered", "low, high = exact_value(low), exact_value(high)", "low, high = exact_value(low), high"),
    (ANY, "layered", 'count = exact(count, "a count", 0, 2**63 - 1)', "count = max(0, count)"),
    (ANY, "layered", "held, target = self._hold(), exact_id(id)", "held, target = self._hold(), id"),
    (ANY, "layered", "taken(ids, IDS), self._hold()", "ids, self._hold()"),
    (ANY, "sets", "lent.bytes, exact_id(id), member", "lent.bytes, id, member"),
]
MEMORY = [
    (ANY, "_scores", "self._pairs(exact_id(id), self._hold())", "self._pairs(exact_id(id), None)"),
    (ANY, "_held", "self._lent = lend(self._buffer)\n", "pass\n"),
    (ANY, "_held", "if isinstance(self._buffer, _Map):", "if isinstance(self._buffer, mmap.mmap):"),
    (ANY, "_held", "if isinstance(self._buffer, _Map):", "if False:"),
    (ANY, "_held", 'raise ValueError("it is closed")', 'return lend(b"")'),
    (ANY, "_memory", "        if self._view.itemsize != size:", "        if False:"),
    (ANY, "column", "return self._ordinals(lent, ", "return self._ordinals(Lent(bytes(self.buffer), 1), "),
]
CALLS = ("between", "between_other_editions", "pair_at", "read")
ANSWERS = [
    (WITH, "column", "places = self._left(lent, target) if self._checked else CHUNK", "places = self._left(lent, target)"),
    (ANY, "column", "return len(self) - int(c.ordinal) if c.kind == FOUND else 0", "return len(self) - int(c.ordinal) - 1 if c.kind == FOUND else 0"),
    (ANY, "column", "raise refused(readout.kind, readout.number)", "break"),
    (ANY, "column", "            if readout.kind == ENDED:\n", "            if readout.count < places:\n"),
    (ANY, "column", "            count -= readout.count\n", "            break\n"),
    (ANY, "column", "target = int(ids[readout.count - 1]) + 1", "target = int(ids[readout.count - 1]) + 2"),
    (ANY, "column", "first_places(ids, readout.count), first_places", "ids, first_places"),
    (ANY, "column", "while count and places and target <= MAX_ID:", "while places and target <= MAX_ID:"),
    (ANY, "column", "self._first_between(lent, found + 1, low, high)", "self._first_between(lent, found + 2, low, high)"),
    (ANY, "column", "        if p.kind > ABSENT:\n", "        if False:\n"),
    (ANY, "column", "        if b.kind > ABSENT:\n", "        if False:\n"),
    (ANY, "column", "if p.kind == FOUND else None", "if True else None"),
    (ANY, "_exact", "        return chunks[0]\n", "        return chunks[0][::-1]\n"),
    (WITH, "_exact", "zip(made, *chunks))", "zip(made, *chunks[:-1]))"),
    (WITHOUT, "_exact", "            numbers.extend(more)\n", "            numbers = more\n"),
]
LAYERS = [
    (ANY, "layered", "raise refused(readout.kind, readout.number, _by(readout.column))", "break"),
    (ANY, "layered", "refused(readout.kind, readout.number, _by(readout.column))", "refused(readout.kind, readout.number, _by(1 - readout.column))"),
    (ANY, "layered", "_by(int(by[bad]))", "_by(1)"),
    (ANY, "layered", "            if readout.kind == ENDED:\n", "            if readout.count < places:\n"),
    (ANY, "layered", "            count -= readout.count\n", "            break\n"),
    (ANY, "layered", "target = int(chunk[0][readout.count - 1]) + 1", "target = int(chunk[0][readout.count - 1]) + 3"),
    (ANY, "layered", "while count and places and target <= MAX_ID:", "while places and target <= MAX_ID:"),
    (ANY, "layered", "where_found(kinds), by)", "where_found(kinds), kinds)"),
    (ANY, "layered", "        self.machine._check(machine)\n", ""),
]
LOCKED = "done = answered(call, bytes, len, ids, narrow, lists);\n"
PAGES = [
    (WITH, "_page.c", "list->ndim == 1 && ", ""),
    (WITH, "_page.c", "strchr(letters, list->format[0]) && ", ""),
    (WITH, "_page.c", "(uintptr_t)list->buf % size == 0", "1"),
    (WITH, "_page.c", 'fits(&ids, "iI", 4)', 'fits(&ids, "iIf", 4)'),
    (WITH, "_page.c", 'fits(&ids, "iI", 4)', 'fits(&ids, "I", 4)'),
    (WITH, "_page.c", 'fits(&ids, "lLqQ", 8)', 'fits(&ids, "lLqQd", 8)'),
    (WITH, "_page.c", 'fits(&ids, "lLqQ", 8)', 'fits(&ids, "LQq", 8)'),
    (WITH, "_page.c", "return all >> 32 == 0;", "return 1;"),
    (WITH, "_page.c", "return all >> 32 == 0;", "return all >> 33 == 0;"),
    (WITH, "_page.c", "all |= ids[i];", "all = ids[i];"),
    (WITH, "_page.c", "any |= kinds[i];", "any = kinds[i];"),
    (WITH, "_page.c", "kinds[i] ^= SIGNALFERN_ABSENT;", ""),
    (WITH, "_page.c", "return any <= SIGNALFERN_ABSENT;", "return 1;"),
    (WITH, "_page.c", "reply.refusal == 0 && ", ""),
    (WITH, "_page.c", "Py_BEGIN_ALLOW_THREADS\n    done = answered(call, bytes, len, ids, narrow, lists);\n    Py_END_ALLOW_THREADS\n", LOCKED),
    (WITH, "_page.c", "PyMem_RawFree(narrow);", ""),
    (WITH, "_page.c", 'fits(&lists[VALUES], "lq", 8)', "1"),
    (WITH, "_page.c", 'fits(&lists[ORDINALS], "LQ", 8)', "1"),
    (WITH, "_page.c", 'fits(&lists[FOUND], "?", 1)', "1"),
    (WITH, "_page.c", "PyBUF_WRITABLE | ", ""),
    (WITH, "_page.c", "PyBuffer_Release(&lists[--lent]);", "lent--;"),
    (WITH, "_page.c", "        PyBuffer_Release(&ids);\n", ""),
    (WITH, "_page.c", "    Py_XDECREF(given[0]);\n", ""),
    (WITH, "_page.c", "    Py_XDECREF(page);\n", ""),
    (WITH, "_page.c", "PyErr_ExceptionMatches(PyExc_ValueError)", "0"),
    (WITH, "_page.c", "!PyTuple_Check(words[WHAT]) || ", ""),
    (WITH, "_page.c", " || PyTuple_GET_SIZE(words[WHAT]) != NEEDS)", ")"),
    (WITH, "_page.c", "(PyObject *)Py_TYPE(words[IDS]) != PyTuple_GET_ITEM(words[WHAT], ARRAY)", "0"),
]
CAUGHT, PASSED, UNUSABLE = 0, 1, 2


def tried(folder, tests):
    """What these tests say of the package in a folder: run in a process of its own, that has numpy loaded already."""
    child = os.fork()
    if child == 0:
        ended = UNUSABLE
        try:
            with open(os.devnull, "w") as nowhere:
                os.dup2(nowhere.fileno(), 1)
                os.dup2(nowhere.fileno(), 2)
            signal.alarm(300)  # (an edit after which a test does not end is none to be kept here)
            sys.path[0] = str(folder)
            for name in tests.split():
                importlib.import_module(".".join(name.split(".")[:2]))
            suite = unittest.defaultTestLoader.loadTestsFromNames(tests.split())
            ended = PASSED if unittest.TextTestRunner(failfast=True).run(suite).wasSuccessful() else CAUGHT
        finally:
            os._exit(ended)
    return os.waitstatus_to_exitcode(os.waitpid(child, 0)[1])


def library():
    """The library that the package in this tree takes: its copies are elsewhere."""
    ask = "from signalfern import _library; print(_library._LIBRARY._name)"
    return subprocess.run([sys.executable, "-c", ask], cwd=HERE.parent, stdout=subprocess.PIPE, text=True, check=True).stdout.strip()


def can_build_pages():
    return numpy is not None and os.path.exists(os.path.join(sysconfig.get_path("include"), "Python.h"))


def with_module(folder):
    """Puts the module for pages into a copy of the package."""
    (folder / "include").symlink_to(HERE.parents[1] / "include")
    words = ["import sys, pathlib; sys.path.insert(0, sys.argv[1]); import _build; root = pathlib.Path(sys.argv[2])"]
    words += ["_build.build_module(root, root / 'python' / 'signalfern' / f'_page{_build.MODULE_SUFFIX}')"]
    return subprocess.run([sys.executable, "-c", "; ".join(words), str(HERE.parent / "signalfern"), str(folder)]).returncode == 0


def as_expected(folder, name, old, new, tests, want):
    """Whether the tests of a package with this edit end as they must."""
    package = folder / "python"
    for part in ("signalfern", "tests"):
        shutil.copytree(HERE.parent / part, package / part, ignore=shutil.ignore_patterns("__pycache__"))
    file = package / "signalfern" / (name if "." in name else f"{name}.py")
    text = file.read_text()
    file.write_text(text.replace(old, new))
    return text.count(old) == 1 and (tests != "tests.test_pages" or with_module(folder)) and tried(package, tests) == want


def main():
    os.environ["SIGNALFERN_LIBRARY"] = library()
    other = WITHOUT if numpy is not None else WITH
    passed, failed = 0, 0
    columns = " ".join(f"tests.test_columns.{name}" for name in ("Unchecked", *(f"BesidePlain.test_{each}" for each in CALLS)))
    all_edits = [("tests.test_exact", NUMBERS), ("tests.test_memory", MEMORY), (columns, ANSWERS), ("tests.test_others.Corrections", LAYERS)]
    for tests, edits in all_edits + [("tests.test_pages", PAGES)] * can_build_pages():
        # (the first is no edit, and must pass)
        for number, (where, name, old, new) in enumerate([(ANY, "__init__", '"""Score', '"""Score'), *edits]):
            if where != other:
                with tempfile.TemporaryDirectory() as folder:
                    right = as_expected(pathlib.Path(folder), name, old, new, tests, CAUGHT if number else PASSED)
                passed, failed = passed + right, failed + (not right)
                if not right:
                    print(f"mutations: {tests} is not as it must be with {old.strip()!r} as {new.strip()!r} in {name}")
    print(f"{passed} passed, {failed} failed, 0 skipped")
    return failed != 0


if __name__ == "__main__":
    sys.exit(main())
