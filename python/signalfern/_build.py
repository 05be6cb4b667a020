"""Builds what is not Python, by the machine's C compiler: the shared library, and the module for pages of numpy's arrays.

The library is the repository's assembly, ``dist/signalfern-*.s``, which was made from the proved one, and ``c/names.c``, the names of the refusals.
The module is ``_page.c`` beside this file, and needs the header of this Python.
"""

import hashlib
import os
import pathlib
import platform
import shlex
import subprocess
import sysconfig
import tempfile
from typing import Callable, List

Sources = List[pathlib.Path]
MODULE_SUFFIX = str(sysconfig.get_config_var("EXT_SUFFIX"))


class BuildError(ImportError):
    """It cannot be built here."""


def _there(root: pathlib.Path, names: "list[str]") -> Sources:
    for name in names:
        if not (root / name).is_file():
            raise BuildError(f"{root / name} is not there: signalfern is built in its repository (by pip 21.3 or later, which does not copy the folder)")
    return [root / name for name in names]


def library_sources(root: pathlib.Path) -> Sources:
    """What the library is built from, below the repository's root: assembly and C first, then what these need."""
    processors = {"x86_64": "x86-64", "aarch64": "aarch64"}
    processor = processors.get(platform.machine())
    if platform.system() != "Linux" or processor is None:
        raise BuildError("signalfern is for Linux on x86-64 and ARM64; set SIGNALFERN_LIBRARY to a library of your own")
    return _there(root, [f"dist/signalfern-{processor}.s", "c/names.c", "c/signalfern.map", "include/signalfern.h"])


def module_sources(root: pathlib.Path) -> Sources:
    """What the module is built from, below the repository's root."""
    return _there(root, ["python/signalfern/_page.c", "include/signalfern.h"])


def build_library(root: pathlib.Path, library: pathlib.Path) -> None:
    """Writes the shared library, whole or not at all."""
    calls, names, shown, _ = library_sources(root)
    _compile(["-O2", f"-I{root / 'include'}", str(calls), str(names), f"-Wl,--version-script={shown}", "-Wl,-z,defs"], library)


def build_module(root: pathlib.Path, module: pathlib.Path) -> None:
    """Writes the module, whole or not at all."""
    code, _ = module_sources(root)
    header = pathlib.Path(sysconfig.get_path("include"), "Python.h")
    if not header.is_file():
        raise BuildError(f"{header} is not there")
    _compile(["-O3", "-DNDEBUG", f"-I{header.parent}", f"-I{sysconfig.get_path('platinclude')}", f"-I{root / 'include'}", str(code)], module)


def _compile(given: "list[str]", made: pathlib.Path) -> None:
    words = [*shlex.split(os.environ.get("CC") or "cc"), "-shared", "-fPIC", *given]
    try:
        made.parent.mkdir(parents=True, exist_ok=True)
    except OSError as wrong:
        raise BuildError(f"there is no place for the library: {wrong}; set SIGNALFERN_LIBRARY to one that was built elsewhere") from None
    with tempfile.TemporaryDirectory(dir=made.parent) as folder:
        new = pathlib.Path(folder) / made.name
        try:
            said = subprocess.run([*words, "-o", str(new)], stdout=subprocess.PIPE, stderr=subprocess.STDOUT, text=True)
        except FileNotFoundError:
            raise BuildError(f"signalfern needs a C compiler to build its library, and {words[0]!r} is not there") from None
        if said.returncode != 0:
            raise BuildError(f"{words[0]} cannot build {made.name}:\n{said.stdout}")
        new.replace(made)


def built(root: pathlib.Path, name: str, suffix: str, sources: Sources, build: Callable[[pathlib.Path, pathlib.Path], None]) -> pathlib.Path:
    """What is built in the repository, below target/python: when it is first asked for, and again when its sources are others."""
    made_from = hashlib.sha256(b"".join(source.read_bytes() for source in sources)).hexdigest()[:16]
    path = root / "target" / "python" / f"{name}-{made_from}{suffix}"
    if not path.exists():
        build(root, path)
    return path
