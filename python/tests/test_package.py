"""The package is built, by pip's way and by itself, and says what is missing."""

import os
import pathlib
import shutil
import subprocess
import sys
import sysconfig
import unittest
import zipfile

from .common import PYTHON, ROOT, folder, numpy

ASK = "import signalfern; print(signalfern.__version__, signalfern.Column(signalfern.write([5], [77]))[5], signalfern.__file__)"
PAGE = "import signalfern, numpy; print(signalfern._pages.MODULE, signalfern.Column(signalfern.write([5], [77])).look_up_many(numpy.array([5, 6])).values)"
HEADER = pathlib.Path(sysconfig.get_path("include"), "Python.h")


def run(*words, **settings):
    """What a program prints, with an environment in which no library is named."""
    environment = {name: value for name, value in os.environ.items() if name not in ("SIGNALFERN_LIBRARY", "SIGNALFERN_CTYPES", "PYTHONPATH")}
    done = subprocess.run(words, stdout=subprocess.PIPE, stderr=subprocess.STDOUT, text=True, env={**environment, **settings})
    return done.returncode, done.stdout


class Package(unittest.TestCase):
    def test_wheel(self):
        with folder() as path:
            make = f"import sys; sys.path.insert(0, {str(PYTHON)!r}); import build_backend; print(build_backend.build_wheel({str(path)!r}))"
            code, name = run(sys.executable, "-c", make)
            self.assertEqual(code, 0, name)
            wheel = path / name.strip()
            with zipfile.ZipFile(wheel) as packed:
                self.assertIsNone(packed.testzip())
                names = packed.namelist()
                packed.extractall(path / "installed")
            for file in [*(each.name for each in (PYTHON / "signalfern").glob("*.py")), "py.typed", "libsignalfern.so"]:
                self.assertIn(f"signalfern/{file}", names)
            record = next(each for each in names if each.endswith("RECORD"))
            self.assertEqual(sorted(line.split(",")[0] for line in (path / "installed" / record).read_text().split()), sorted(names))
            code, said = run(sys.executable, "-c", ASK, PYTHONPATH=str(path / "installed"))
            self.assertEqual(code, 0, said)
            version, value, file = said.split()
            self.assertEqual((value, pathlib.Path(file).parents[1]), ("77", path / "installed"))
            self.assertIn(f"signalfern-{version}-", wheel.name)
            self.pages_of(path / "installed", path / "installed" / "signalfern")

    def pages_of(self, package, folder):
        """Pages are asked for by the module in this folder, or by ctypes where it is left out, taken away, or cannot be built."""
        if numpy is None:
            return
        modules = list(folder.glob("_page*.so"))
        self.assertEqual(len(modules), HEADER.is_file())
        code, said = run(sys.executable, "-c", PAGE, PYTHONPATH=str(package))
        self.assertEqual((code, said.endswith("[77  0]\n"), all(str(each) in said for each in modules)), (0, True, True), said)
        self.assertEqual(run(sys.executable, "-c", PAGE, PYTHONPATH=str(package), SIGNALFERN_CTYPES="1"), (0, "None [77  0]\n"))
        for module in modules:
            module.unlink()
        self.assertEqual(run(sys.executable, "-c", PAGE, PYTHONPATH=str(package), CC="no-such-compiler"), (0, "None [77  0]\n"))

    def test_without_the_header(self):
        """A wheel is made all the same, and says so."""
        with folder() as path:
            make = "import sys, sysconfig; was = sysconfig.get_path; sysconfig.get_path = lambda name: '/none' if name == 'include' else was(name); "
            make += f"sys.path.insert(0, {str(PYTHON)!r}); import build_backend; build_backend.build_wheel({str(path)!r})"
            code, said = run(sys.executable, "-c", make)
            self.assertEqual((code, said), (0, "signalfern: without its module for pages of numpy's arrays: /none/Python.h is not there\n"))
            (wheel,) = path.iterdir()
            with zipfile.ZipFile(wheel) as packed:
                self.assertEqual([name for name in packed.namelist() if name.endswith(".so")], ["signalfern/libsignalfern.so"])

    @unittest.skipUnless(HEADER.is_file(), "Python.h is not there")
    def test_no_warnings(self):
        words = ["cc", "-std=gnu11", "-O3", "-Wall", "-Wextra", "-Wconversion", "-Wshadow", "-Werror", "-c", "-o", os.devnull]
        code, said = run(*words, f"-isystem{HEADER.parent}", f"-I{ROOT / 'include'}", str(PYTHON / "signalfern" / "_page.c"))
        self.assertEqual((code, said), (0, ""))

    def test_from_the_tree(self):
        # (a tree of links, so that nothing is left in this one)
        with folder() as path:
            for part in ("dist", "c", "include"):
                (path / part).symlink_to(ROOT / part)
            shutil.copytree(PYTHON / "signalfern", path / "python" / "signalfern")
            for _ in range(2):
                code, said = run(sys.executable, "-c", ASK, PYTHONPATH=str(path / "python"))
                self.assertEqual((code, said.split()[1:]), (0, ["77", str(path / "python" / "signalfern" / "__init__.py")]), said)
                self.assertEqual(len(list((path / "target" / "python").iterdir())), 2 if numpy is not None and HEADER.is_file() else 1)
            self.pages_of(path / "python", path / "target" / "python")

    def test_what_is_missing_is_said(self):
        with folder() as path:
            code, said = run(sys.executable, "-c", ASK, PYTHONPATH=str(PYTHON), SIGNALFERN_LIBRARY=str(path / "none.so"))
            self.assertIn("ImportError", said)
            self.assertIn("none.so is not the library of signalfern", said)

            def build(root):
                start = f"import sys, pathlib; sys.path.insert(0, {str(PYTHON / 'signalfern')!r}); import _build; "
                return start + f"_build.build_library(pathlib.Path({str(root)!r}), pathlib.Path({str(path / 'made.so')!r}))"

            code, said = run(sys.executable, "-c", build(ROOT), CC="no-such-compiler")
            self.assertIn("needs a C compiler", said)
            code, said = run(sys.executable, "-c", build(path))
            self.assertIn("is not there: signalfern is built in its repository", said)
            self.assertEqual(os.listdir(path), [])

    def test_another_version_is_refused(self):
        with folder() as path:
            (path / "other.c").write_text('const char *signalfern_version(void) { return "0.1.9"; }')
            subprocess.run(["cc", "-shared", "-fPIC", str(path / "other.c"), "-o", str(path / "other.so")], check=True)
            code, said = run(sys.executable, "-c", ASK, PYTHONPATH=str(PYTHON), SIGNALFERN_LIBRARY=str(path / "other.so"))
            self.assertIn("is signalfern 0.1.9, and this package is for", said)
