"""Calls of the library, as bytes for the programs in programs/.

What must hold: programs/calls.h reads what this writes.
"""

from . import model


def call(name, *parts):
    """A call: its name, the lengths of its parts, and these."""
    return b" ".join([name, *(b"%d" % len(part) for part in parts)]) + b"\n" + b"".join(parts)


def asked(line, block):
    """The call that asks a request, and none of a line without bytes."""
    if model.block_length(line):
        yield call(b"load", line, block)
    elif line:
        yield call(b"command", line)


def line_by_line(stream):
    """The calls that ask each request of a stream."""
    for unit in model.units_of(stream):
        yield from asked(*unit)
