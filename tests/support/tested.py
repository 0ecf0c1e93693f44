"""Which program and which library the tests run. No other module chooses: `MMDB_TESTED=release`, which tests/quick sets, selects the
release and needs no toolchain. Otherwise it is the program that the toolchain built here, and a library of these sources.

What must hold: every test takes the program from PROGRAM, or from harness, and the library from `library`.
"""

import functools
import os
import pathlib
import shutil
import subprocess
import tempfile
import unittest

ROOT = pathlib.Path(__file__).resolve().parents[2]
DIGEST = ROOT / "scripts" / "digest"
RELEASE = ROOT / "release"
IS_RELEASE = {"built": False, "release": True}[os.environ.get("MMDB_TESTED", "built")]
PROGRAM = RELEASE / "mmdb" if IS_RELEASE else ROOT / "crates" / "mmdb" / "out" / "mmdb"
# Holds a library that is built here until the tests end.
ROOM = tempfile.TemporaryDirectory(prefix="mmdb-tests-")


def release_is_of_these_sources():
    """Whether the digests of the released program and library match their files and the sources."""
    return digests_match(RELEASE / "mmdb.digests", RELEASE / "mmdb") and library_is_of_these_sources(RELEASE)


def library_is_of_these_sources(folder):
    """Whether the digests of a folder's library match its files and the sources."""
    return digests_match(folder / "libmmdb.digests", "--library", folder)


def digests_match(noted, *words):
    """Whether a file has the digests that scripts/digest prints for these words."""
    if not noted.is_file():
        return False
    printed = subprocess.run([DIGEST, *words], capture_output=True, text=True, check=False)
    return printed.returncode == 0 and printed.stdout == noted.read_text()


@functools.cache
def library():
    """The folder with libmmdb.a, libmmdb.so and mmdb.h. It is the release's if the release is tested. Otherwise MMDB_LIBRARY names it;
    without that it is the release's if that is of these sources, and a new build if not."""
    named = os.environ.get("MMDB_LIBRARY")
    if named and not IS_RELEASE:
        return pathlib.Path(named).resolve()
    if IS_RELEASE or library_is_of_these_sources(RELEASE):
        return RELEASE
    subprocess.run([ROOT / "scripts" / "make-library", ROOM.name], check=True)
    return pathlib.Path(ROOM.name)


def requires(*commands):
    """Skips a test of the release if one of these commands is not installed. In the gate the test fails instead."""
    for command in commands:
        if IS_RELEASE and shutil.which(command) is None:
            raise unittest.SkipTest(f"{command} is not installed")


# For tests that run the crates' own tests.
requires_toolchain = unittest.skipIf(IS_RELEASE, "the crates' tests are built by the toolchain")
