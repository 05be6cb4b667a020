"""Makes a wheel of this package by the standard library and the machine's C compiler, so that `pip install ./python` fetches nothing.

A wheel is a zip file of the package, what was built for it among it, and of three small files about it.
"""

import base64
import hashlib
import pathlib
import re
import sys
import sysconfig
import tempfile
import zipfile

HERE = pathlib.Path(__file__).resolve().parent
ROOT = HERE.parent
sys.path.insert(0, str(HERE / "signalfern"))
import _build  # noqa: E402  (by itself: the package cannot be imported before its library is there)

sys.path.pop(0)
VERSION = re.findall(r'^VERSION = "(.*)"$', (HERE / "signalfern" / "_library.py").read_text(), re.M)[0]
NAME = f"signalfern-{VERSION}"
ABOUT = f"""Metadata-Version: 2.1
Name: signalfern
Version: {VERSION}
Summary: Score columns: pairs of an id and a signed 64-bit score, by proved calls
License: Apache-2.0
Requires-Python: >=3.9
"""


def _platform() -> str:
    return sysconfig.get_platform().replace("-", "_").replace(".", "_")


def _package():
    return sorted(path for path in (HERE / "signalfern").iterdir() if path.suffix in (".py", ".typed"))


class _Wheel:
    def __init__(self, path):
        self.zip, self.record = zipfile.ZipFile(path, "w", zipfile.ZIP_DEFLATED), []

    def add(self, name, data, mode=0o644):
        # (one date for all, so that the same files give the same wheel)
        about = zipfile.ZipInfo(name, (2026, 1, 1, 0, 0, 0))
        about.external_attr = (0o100000 | mode) << 16
        about.compress_type = zipfile.ZIP_DEFLATED
        self.zip.writestr(about, data)
        digest = base64.urlsafe_b64encode(hashlib.sha256(data).digest()).rstrip(b"=").decode()
        self.record.append(f"{name},sha256={digest},{len(data)}")

    def close(self):
        name = f"{NAME}.dist-info/RECORD"
        self.zip.writestr(zipfile.ZipInfo(name, (2026, 1, 1, 0, 0, 0)), "\n".join([*self.record, f"{name},,", ""]))
        self.zip.close()


def _about(wheel, tag):
    wheel.add(f"{NAME}.dist-info/METADATA", ABOUT.encode())
    wheel.add(f"{NAME}.dist-info/WHEEL", f"Wheel-Version: 1.0\nGenerator: signalfern\nRoot-Is-Purelib: false\nTag: {tag}\n".encode())
    wheel.add(f"{NAME}.dist-info/LICENSE", (ROOT / "LICENSE").read_bytes())


def _built(folder):
    """The library, and the module for pages where this Python's header is there."""
    library, module = pathlib.Path(folder) / "libsignalfern.so", pathlib.Path(folder) / f"_page{_build.MODULE_SUFFIX}"
    _build.build_library(ROOT, library)
    yield library
    try:
        _build.build_module(ROOT, module)
        yield module
    except _build.BuildError as wrong:
        print(f"signalfern: without its module for pages of numpy's arrays: {wrong}")


def build_wheel(wheel_directory, config_settings=None, metadata_directory=None):
    # (for any Python 3: the module's name says for which it is, and every other one asks by ctypes)
    tag = f"py3-none-{_platform()}"
    name = f"{NAME}-{tag}.whl"
    wheel = _Wheel(pathlib.Path(wheel_directory) / name)
    for path in _package():
        wheel.add(f"signalfern/{path.name}", path.read_bytes())
    with tempfile.TemporaryDirectory() as folder:
        for path in _built(folder):
            wheel.add(f"signalfern/{path.name}", path.read_bytes(), 0o755)
    _about(wheel, tag)
    wheel.close()
    return name


def build_editable(wheel_directory, config_settings=None, metadata_directory=None):
    name = f"{NAME}-py3-none-any.whl"
    wheel = _Wheel(pathlib.Path(wheel_directory) / name)
    wheel.add("signalfern.pth", f"{HERE}\n".encode())
    _about(wheel, "py3-none-any")
    wheel.close()
    return name


class UnsupportedOperation(Exception):
    """What this backend does not do."""


def build_sdist(sdist_directory, config_settings=None):
    raise UnsupportedOperation("the source of this package is the repository: there is no archive of it apart")
