"""Builds of the package for Python, in a copy whose release is the tested library.

What must hold: BROUGHT, BUILT_OF and SOURCES list what bindings/python/building.py copies, reads and compiles.
"""

import functools
import os
import pathlib
import shutil
import subprocess
import sys
import tempfile
import zipfile

from . import harness, tested

FOLDER = harness.ROOT / "bindings" / "python"
BROUGHT = {"libmmdb.so", "LICENSE-APACHE", "LICENSE-MIT", "THIRD-PARTY"}
BUILT_OF = {"libmmdb.a", "mmdb.h"}
PARTS = ("cursor", "interrupts", "kept", "mmdb", "named", "prepared", "quotes", "records", "rows", "statement", "turns")
SOURCES = {f"_{part}.c" for part in PARTS} | {"_mmdb.h"}
EXTENSION = "_mmdb.abi3.so"
# (pip reads these; nothing is to be sought in a network, and nothing kept)
QUIETLY = {"PIP_NO_INDEX": "1", "PIP_NO_CACHE_DIR": "1", "PIP_DISABLE_PIP_VERSION_CHECK": "1", "PIP_ROOT_USER_ACTION": "ignore"}
# Whether a Python has what the extension is built with.
BUILDS = """
import pathlib, platform, shutil, sys, sysconfig
headers = pathlib.Path(sysconfig.get_path("include"), "Python.h")
compiler = shutil.which((sysconfig.get_config_var("CC") or "cc").split()[0])
sys.exit(not (platform.python_implementation() == "CPython" and sys.version_info >= (3, 10) and headers.is_file() and compiler))
"""
ROOM = tempfile.TemporaryDirectory(prefix="mmdb-tests-")


def ran(*words, cwd, **variables):
    """How a command ended, without the variables by which these tests find the binding."""
    others = ("MMDB_LIBRARY", "MMDB_PURE", "MMDB_EXTENDED", "PYTHONPATH", "CC")
    how = {name: value for name, value in os.environ.items() if name not in others}
    how.update(PYTHONDONTWRITEBYTECODE="1", **QUIETLY, **variables)
    return subprocess.run(words, cwd=cwd, env=how, capture_output=True, text=True, timeout=harness.SECONDS, check=False)


@functools.cache
def has_extension(python=sys.executable):
    """Whether a Python builds the package with the extension."""
    return ran(python, "-c", BUILDS, cwd="/").returncode == 0


def copy_of_sources(top):
    """Makes a copy of what a build reads, and gives the folder of the package's sources there."""
    sources = top / "bindings" / "python"
    shutil.copytree(FOLDER, sources, ignore=shutil.ignore_patterns("__pycache__", EXTENSION, *BROUGHT))
    (top / "release").mkdir()
    for name in ("LICENSE-MIT", "LICENSE-APACHE", "release/THIRD-PARTY"):
        shutil.copy(harness.ROOT / name, top / name)
    for name in ("libmmdb.so", *BUILT_OF):
        shutil.copy(tested.library() / name, top / "release")
    return sources


def wheel(sources, folder, **variables):
    """How the building of a wheel into a folder ended. It tells the name of the wheel."""
    program = f"import building; print(building.build_wheel({str(folder)!r}))"
    return ran(sys.executable, "-c", program, cwd=sources, **variables)


@functools.cache
def extended():
    """A folder with the package and its extension."""
    room = pathlib.Path(ROOM.name)
    ended = wheel(copy_of_sources(room / "copy"), room)
    if ended.returncode or ended.stderr:
        raise AssertionError(ended.stdout + ended.stderr)
    with zipfile.ZipFile(room / ended.stdout.strip()) as packed:
        packed.extractall(room / "extended")
    return room / "extended"
