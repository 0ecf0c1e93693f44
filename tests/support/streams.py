"""Streams of command lines and their answers, taken apart."""

import re

from . import model

# A record of CSV, and an answer without the block that a dump has. What a listing declares stands before its `ok`.
RECORD = re.compile(rb'(?:[^"\n]|"[^"]*")*\n')
LINES = re.compile(rb"(?:(?:table|index) .*\n)*.*\n")


def units_of(stream):
    """The units of a stream that have an answer, each with its line feed and its block."""
    return [line + b"\n" + block for line, block in model.units_of(stream) if not model.is_silent(model.without_return(line))]


def whole_units_of(stream):
    """The front of a stream where its last whole unit ends: each has its line feed, and all bytes of its block."""
    end = 0
    for line, block in model.units_of(stream):
        behind = end + len(line) + 1 + model.block_length(line)
        if behind > len(stream):
            break
        end = behind
    return stream[:end]


def end_of_the_first(out, at):
    """Where the answer ends that begins there. One that begins with `rows N` has N + 1 records, and `load T N` has N bytes."""
    lines = LINES.match(out, at)
    if lines is None:
        raise AssertionError("the last answer does not end with a line feed")
    end = lines.end()
    if lines[0].startswith(b"rows "):
        for _ in range(int(lines[0][5:]) + 1):
            end = RECORD.match(out, end).end()
    return end + model.block_length(lines[0][:-1])


def answers_of(out):
    """The answers that the program wrote, one by one."""
    answers, at = [], 0
    while at < len(out):
        end = end_of_the_first(out, at)
        answers.append(out[at:end])
        at = end
    if at > len(out):
        raise AssertionError("the last answer is cut short")
    return answers


def whole(stream, answers):
    """A stream and its answers without a load at its end whose block is cut short, and with a line feed behind its last
    line. A stream that is fed has no end that the library is told of, so such a load isn't answered."""
    units = list(model.units_of(stream))
    if units and len(units[-1][1]) < model.block_length(units[-1][0]):
        stream = whole_units_of(stream)
        answers = b"".join(answers_of(answers)[:-1])
    if stream and not units[-1][1] and not stream.endswith(b"\n"):
        stream += b"\n"
    return stream, answers
