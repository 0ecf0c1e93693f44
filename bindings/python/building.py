"""Builds the package for pip and similar tools (PEP 517 and PEP 660), with the library and the licences in it.

It needs only Python, and no network. In the repository the library is that of `release/`, and an unpacked sdist has it in
the package already. If there are a C compiler and Python's headers, the extension is built over the library's archive,
and the wheel is for CPython 3.10 and later. Otherwise the package is without it, and the wheel is for any Python 3.
"""

import base64
import hashlib
import io
import os
import pathlib
import platform
import re
import shlex
import shutil
import subprocess
import sys
import sysconfig
import tarfile
import tempfile
import zipfile

HERE = pathlib.Path(__file__).resolve().parent
TOP = HERE.parent.parent
PACKAGE = HERE / "mmdb"
BROUGHT = ("release/libmmdb.so", "release/THIRD-PARTY", "LICENSE-MIT", "LICENSE-APACHE")
# What the extension is built of, beside its own source.
BUILT_OF = ("release/libmmdb.a", "release/mmdb.h")
SOURCES = (
    "_mmdb.c",
    "_cursor.c",
    "_interrupts.c",
    "_kept.c",
    "_named.c",
    "_prepared.c",
    "_quotes.c",
    "_records.c",
    "_rows.c",
    "_statement.c",
    "_turns.c",
)
HEADER = "_mmdb.h"
EXTENSION = "_mmdb.abi3.so"
# (what the archive has stays in the extension, which needs no more of it than its calls)
HOW = ("-std=c99", "-O2", "-fPIC", "-fvisibility=hidden", "-shared", "-s", "-Wl,--exclude-libs,ALL")
VERSION = re.search(r'^__version__ = "(.*)"$', (PACKAGE / "__init__.py").read_text(), re.MULTILINE)[1]
NAME = f"mmdb-{VERSION}"
TAGS = {True: "cp310-abi3-linux_x86_64", False: "py3-none-linux_x86_64"}
METADATA = f"""\
Metadata-Version: 2.1
Name: mmdb
Version: {VERSION}
Summary: A relational database in main memory, in your own process
License: MIT OR Apache-2.0
Classifier: Operating System :: POSIX :: Linux
Classifier: Programming Language :: Python :: 3
Classifier: Topic :: Database :: Database Engines/Servers
Classifier: Typing :: Typed
Requires-Python: >=3.8
Description-Content-Type: text/markdown

{(HERE / "README.md").read_text()}"""
WHEEL = "Wheel-Version: 1.0\nGenerator: mmdb\nRoot-Is-Purelib: false\nTag: {}\n"


def build_wheel(wheel_directory, config_settings=None, metadata_directory=None):
    """Makes a wheel for x86-64 Linux, and gives its name."""
    files = {f"mmdb/{path.name}": path.read_bytes() for path in [*_modules(), *_brought(BROUGHT)]}
    extension = _extension()
    if extension is not None:
        files[f"mmdb/{EXTENSION}"] = extension
    return _wheel(wheel_directory, files, extension is not None)


def build_editable(wheel_directory, config_settings=None, metadata_directory=None):
    """Makes a wheel that leads to the package where it stands, and brings the library and the extension there."""
    for source in _brought(BROUGHT):
        if source.parent != PACKAGE:
            shutil.copy(source, PACKAGE)
    extension = _extension()
    (PACKAGE / EXTENSION).unlink(missing_ok=True)
    if extension is not None:
        (PACKAGE / EXTENSION).write_bytes(extension)
    return _wheel(wheel_directory, {"mmdb.pth": f"{HERE}\n".encode()}, extension is not None)


def build_sdist(sdist_directory, config_settings=None):
    """Packs the sources with the library, and gives the name of what it made."""
    sources = [PACKAGE / name for name in (*SOURCES, HEADER)]
    files = {f"mmdb/{path.name}": path for path in [*_modules(), *sources, *_brought(BROUGHT), *_brought(BUILT_OF)]}
    files.update((name, HERE / name) for name in ("README.md", "building.py", "pyproject.toml"))
    with tarfile.open(pathlib.Path(sdist_directory, f"{NAME}.tar.gz"), "w:gz", format=tarfile.PAX_FORMAT) as sdist:
        for name, path in files.items():
            sdist.add(path, f"{NAME}/{name}")
        about = tarfile.TarInfo(f"{NAME}/PKG-INFO")
        about.size = len(METADATA.encode())
        sdist.addfile(about, io.BytesIO(METADATA.encode()))
    return f"{NAME}.tar.gz"


def _extension():
    """The bytes of the extension. None where there is no compiler or no header, or the variable MMDB_PURE is set."""
    headers = pathlib.Path(sysconfig.get_path("include"))
    if os.environ.get("MMDB_PURE") or not _is_for_the_stable_abi() or not (headers / "Python.h").is_file():
        return None
    compiler = shlex.split(os.environ.get("CC") or sysconfig.get_config_var("CC") or "cc")
    archive, header = _brought(BUILT_OF)
    with tempfile.TemporaryDirectory() as folder:
        built = pathlib.Path(folder, EXTENSION)
        sources = [PACKAGE / name for name in SOURCES]
        words = [*compiler, *HOW, f"-I{headers}", f"-I{header.parent}", *sources, archive, "-o", built]
        try:
            ran = subprocess.run(words, cwd=folder, capture_output=True, text=True, check=False)
        except OSError as why:
            return _left_out(str(why))
        return _left_out(ran.stderr) if ran.returncode else built.read_bytes()


def _is_for_the_stable_abi():
    """Whether this Python takes extensions of the stable ABI of 3.10."""
    is_without_lock = sysconfig.get_config_var("Py_GIL_DISABLED")
    return platform.python_implementation() == "CPython" and sys.version_info >= (3, 10) and not is_without_lock


def _left_out(why):
    """Tells why the extension isn't built."""
    sys.stderr.write(f"mmdb: the extension can't be built, so that the package goes by ctypes: {why.strip()}\n")


def _modules():
    """The package without what is brought into it."""
    return [*sorted(PACKAGE.glob("*.py")), *sorted(PACKAGE.glob("*.pyi")), PACKAGE / "py.typed"]


def _brought(names):
    """What is brought into the package under these names. Ends the build where one is missing."""
    is_unpacked = (HERE / "PKG-INFO").exists()
    found = [PACKAGE / pathlib.Path(name).name if is_unpacked else TOP / name for name in names]
    for source in found:
        if not source.is_file():
            why = "it comes with the repository, and scripts/make-release renews it; the package is built there"
            raise SystemExit(f"mmdb: {source} is missing, without which there is no package: {why}")
    return found


def _wheel(folder, files, has_extension):
    """Makes a wheel of these files, whose bytes are given by their names, and gives its name."""
    about, tag = f"{NAME}.dist-info", TAGS[has_extension]
    files = {**files, f"{about}/METADATA": METADATA.encode(), f"{about}/WHEEL": WHEEL.format(tag).encode()}
    record = "".join(f"{name},sha256={_digest(content)},{len(content)}\n" for name, content in files.items())
    files[f"{about}/RECORD"] = f"{record}{about}/RECORD,,\n".encode()
    with zipfile.ZipFile(pathlib.Path(folder, f"{NAME}-{tag}.whl"), "w", zipfile.ZIP_DEFLATED) as wheel:
        for name, content in files.items():
            # (the same sources give the same bytes, so no file has a time of its own)
            entry = zipfile.ZipInfo(name)
            entry.external_attr = 0o100644 << 16
            wheel.writestr(entry, content, zipfile.ZIP_DEFLATED)
    return f"{NAME}-{tag}.whl"


def _digest(content):
    return base64.urlsafe_b64encode(hashlib.sha256(content).digest()).rstrip(b"=").decode()
