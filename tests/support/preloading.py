"""Libraries that are preloaded into a program, to count its calls of the C library or to change their results."""

import pathlib
import subprocess
import tempfile

from . import tested
from .harness import SUPPORT


class Library:
    """One of the C files beside this one, built into a temporary folder."""

    def __init__(self, name):
        tested.requires("cc")
        self.room = tempfile.TemporaryDirectory(prefix="mmdb-tests-")
        self.path = pathlib.Path(self.room.name) / f"{name}.so"
        words = ["cc", "-O1", "-shared", "-fPIC", "-fno-builtin", "-o", self.path, SUPPORT / f"{name}.c"]
        subprocess.run(words, check=True)

    def close(self):
        self.room.cleanup()
