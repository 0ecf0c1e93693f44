"""The tested program, and ways to feed it a stream: whole, in pieces, and row by row of tests/rows."""

import array
import fcntl
import os
import pathlib
import select
import subprocess
import tempfile
import termios
import time

from . import model, sizes, tested
from .tested import PROGRAM, ROOT

SUPPORT = pathlib.Path(__file__).resolve().parent
TESTS = SUPPORT.parent
ROWS = TESTS / "rows"
VERSION = (ROOT / "VERSION").read_text().strip()
SECONDS = sizes.size(60, 3_600)
POLICIES = ("auto", "scan", "hash", "tree", "merge")


class Ended:
    """How a run of the program ended."""

    def __init__(self, status, out, err):
        self.status = status
        self.out = out
        self.err = err


def run_whole(stream, words=(), **how):
    """Runs the program over a stream that a pipe holds whole."""
    ran = subprocess.run([PROGRAM, *words], input=stream, capture_output=True, timeout=SECONDS, check=False, **how)
    return Ended(ran.returncode, ran.stdout, ran.stderr)


def run_in_pieces(pieces, words=(), **how):
    """Runs the program over a stream that a pipe gives piece by piece: each is sent once the last has been read."""
    with tempfile.TemporaryFile() as out, tempfile.TemporaryFile() as err:
        with subprocess.Popen([PROGRAM, *words], stdin=subprocess.PIPE, stdout=out, stderr=err, bufsize=0, **how) as program:
            try:
                for piece in pieces:
                    os.write(program.stdin.fileno(), piece)
                    wait_until_read(program)
            except BrokenPipeError:
                pass
            program.stdin.close()
            status = program.wait(timeout=SECONDS)
        out.seek(0)
        err.seek(0)
        return Ended(status, out.read(), err.read())


def wait_until_read(program):
    """Waits until the program has read all that its pipe held, or has ended."""
    held = array.array("i", [0])
    latest = time.monotonic() + SECONDS
    while time.monotonic() < latest:
        fcntl.ioctl(program.stdin.fileno(), termios.FIONREAD, held)
        if held[0] == 0 or program.poll() is not None:
            return
    raise TimeoutError("the program stopped reading")


def read_bytes(pipe, most):
    """What a pipe gives until there are so many bytes, or it ends, or nothing comes for long."""
    got = b""
    while len(got) < most and select.select([pipe], [], [], SECONDS)[0]:
        more = pipe.read(most - len(got))
        if not more:
            break
        got += more
    return got


def pieces_of(stream, size):
    return [stream[at : at + size] for at in range(0, len(stream), size)]


def rows():
    """The rows: streams beside the answers that they must have, by name."""
    for stream in sorted(ROWS.glob("*.in")):
        yield stream.stem, stream.read_bytes(), stream.with_suffix(".out").read_bytes()


def limited_rows():
    """The rows under limits of their own, which the program doesn't take and the library does, with these limits."""
    for stream in sorted((ROWS / "limited").glob("*.in")):
        most = map(str.split, stream.with_suffix(".limits").read_text().splitlines())
        limits = model.Limits(**{what: int(number) for what, number in most})
        yield stream.stem, limits, stream.read_bytes(), stream.with_suffix(".out").read_bytes()


def list_of_crates(*names):
    """The lines of crates.txt for these crates. A copy with this list has fewer sources: crates that are not listed are the toolchain's."""
    lines = (ROOT / "crates.txt").read_text().splitlines(keepends=True)
    return "".join(line for line in lines if line.partition(":")[0].split()[:1] in [[name] for name in names])


def crate_tests(ending):
    """The crates' tests whose names end like this, each with the binary that has it. The release has none."""
    if tested.IS_RELEASE:
        return
    for binary in sorted((ROOT / "crates").glob("*/out/*_tests")):
        listed = subprocess.run([binary, "--list"], capture_output=True, text=True, check=True).stdout
        for line in listed.splitlines():
            name = line.removesuffix(": test")
            if name.endswith(ending):
                yield binary, name
