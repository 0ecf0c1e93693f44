"""Ways to run the shell in tests: through a pipe, at a terminal of its own, and in this process.

What must hold: each test has a folder of its own, in which the shell keeps its history and looks for its init file.
"""

import codecs
import contextlib
import io
import os
import pathlib
import pty
import select
import signal
import subprocess
import sys
import tempfile
import time
import unittest

from . import harness, shell_modules, tested

from mmdb_shell import boxes, reading
from mmdb_shell.shell import Settings, Shell
from mmdb_shell.trouble import Bailed

RUN = [sys.executable, str(shell_modules.FOLDER / "mmdb-shell")]
WHERE = {"MMDB_LIBRARY": str(tested.library()), "PYTHONDONTWRITEBYTECODE": "1", "INPUTRC": "/dev/null", "TERM": "xterm", "PAGER": ""}
COMPANY = [
    "table dept (id int, name text)",
    "table emp (id int, name text, dept ref dept null)",
    "index emp dept tree",
    "insert dept (10, 'toys')",
    "insert emp (1, 'Ann', 10)",
    "insert emp (2, '', null)",
]


class WithFolder(unittest.TestCase):
    """A test with a folder of its own."""

    def setUp(self):
        room = tempfile.TemporaryDirectory(prefix="mmdb-tests-")
        self.addCleanup(room.cleanup)
        self.room = pathlib.Path(room.name)

    def file(self, name, content):
        (self.room / name).write_bytes(content if isinstance(content, bytes) else content.encode())
        return str(self.room / name)

    def environment(self, **variables):
        return {**os.environ, **WHERE, "XDG_STATE_HOME": str(self.room / "state"), "XDG_CONFIG_HOME": str(self.room / "config"), **variables}


class Piped(WithFolder):
    """A test of lines that nobody types."""

    def ran(self, lines, *said, **how):
        stream = lines if isinstance(lines, bytes) else "".join(f"{line}\n" for line in lines).encode()
        how = {"env": self.environment(), "capture_output": True, "timeout": harness.SECONDS, "check": False, **how}
        return subprocess.run([*RUN, *said], input=stream, **how)

    def check(self, lines, out, err=(), status=None, said=()):
        ran = self.ran(lines, *said)
        self.assertEqual(ran.stderr.decode().splitlines(), [f"mmdb-shell: {line}" for line in err])
        self.assertEqual(ran.stdout.decode().splitlines(), list(out))
        self.assertEqual(ran.returncode, (1 if err else 0) if status is None else status)


class Typed:
    """A shell at a terminal of its own."""

    def __init__(self, environment, *said):
        self.process, self.terminal = pty.fork()
        if self.process == 0:
            for number in (signal.SIGINT, signal.SIGHUP):
                signal.signal(number, signal.SIG_DFL)
            os.execve(RUN[0], [*RUN, *said], environment)
        # (at Ctrl-C the terminal drops what it hasn't shown yet, from the middle of a character on too)
        self.decoder = codecs.getincrementaldecoder("utf-8")("replace")
        self.seen = ""

    def read(self):
        """Takes what has come."""
        self.seen += self.decoder.decode(os.read(self.terminal, 65536)).replace("\r\n", "\n")

    def type(self, keys):
        os.write(self.terminal, keys.encode())

    def wait_for(self, text, seconds=harness.SECONDS):
        """What is seen up to a text, and that text."""
        latest = time.monotonic() + seconds
        while text not in self.seen:
            if not select.select([self.terminal], [], [], max(0, latest - time.monotonic()))[0]:
                raise AssertionError(f"{text!r} never came, but {self.seen!r}")
            try:
                self.read()
            except OSError as why:
                raise AssertionError(f"{text!r} never came, but {self.seen!r}, and the end") from why
        before, self.seen = self.seen.split(text, 1)
        return before + text

    def sees(self, text, seconds=0.3):
        """Whether a text comes soon. What has come stays to be waited for."""
        latest = time.monotonic() + seconds
        while text not in self.seen and select.select([self.terminal], [], [], max(0, latest - time.monotonic()))[0]:
            self.read()
        return text in self.seen

    def interrupt(self):
        """Types Ctrl-C until a new prompt comes: Python doesn't see one that comes just when it begins to wait for a key."""
        for _ in range(harness.SECONDS):
            self.type("\x03")
            with contextlib.suppress(AssertionError):
                return self.wait_for("mmdb> ", 1)
        raise AssertionError(f"there is no new prompt, but {self.seen!r}")

    def interrupt_line(self, line):
        """Types a line that goes on until Ctrl-C, which ends it. One that comes before the line begins takes a new prompt alone."""
        for _ in range(20):
            self.type(line + "\n")
            self.wait_for(line + "\n")
            if "interrupted\n" in self.interrupt():
                return
        raise AssertionError(f"{line} is never interrupted")

    def ask(self, line):
        """What a line is answered."""
        self.type(line + "\n")
        self.wait_for(line + "\n")
        return self.wait_for("mmdb> ")[: -len("mmdb> ")]

    def end(self):
        """The status that it ends with."""
        latest = time.monotonic() + harness.SECONDS
        while time.monotonic() < latest:
            process, status = os.waitpid(self.process, os.WNOHANG)
            if process:
                with contextlib.suppress(OSError):
                    os.close(self.terminal)
                return os.waitstatus_to_exitcode(status)
            with contextlib.suppress(OSError):
                if select.select([self.terminal], [], [], 0.01)[0]:
                    self.read()
        raise AssertionError("it doesn't end")


class AtATerminal(WithFolder):
    """A test of a shell at a terminal."""

    def typed(self, *said, **variables):
        shell = Typed(self.environment(**variables), *said)
        shell.wait_for("mmdb> ")
        return shell


class InThisProcess(WithFolder):
    """A test with a shell whose blocks are small."""

    def shell(self, block=64, rows=Settings().rows):
        out, err = io.StringIO(), io.StringIO()
        shell = Shell(Settings(rows=rows, block=block), out, err, boxes.look("utf-8"), False)
        self.addCleanup(lambda: shell.db.close())
        return shell

    def do(self, shell, *lines, said="", refused=""):
        """Does lines, and checks what is said and what is refused."""
        for stream in (shell._out, shell._err):
            stream.seek(0)
            stream.truncate()
        with contextlib.suppress(Bailed):
            shell.run(reading.Stream(io.BytesIO("".join(f"{line}\n" for line in lines).encode()), ""))
        self.assertEqual(shell._err.getvalue().replace("mmdb-shell: ", ""), refused and f"line {len(lines)}: {refused}\n")
        if said is not None:
            self.assertEqual(shell._out.getvalue(), said)
