"""How often each instruction of the library runs, which valgrind's callgrind counts, summed by function."""

import collections
import re
import subprocess

from . import tested

FUNCTION = re.compile(r"[0-9a-f]+ <(.*)>:")
INSTRUCTION = re.compile(r" +([0-9a-f]+):\t(\S+)")
# What stands between functions and in front of loops, and is never reached or does nothing.
FILLERS = {"nop", "nopw", "nopl", "xchg", "data16", "cs", "int3", "ud2"}


def functions():
    """The instructions of each of the library's functions, by their addresses."""
    words = ["objdump", "-d", "--no-show-raw-insn", tested.library() / "libmmdb.so"]
    listed = subprocess.run(words, capture_output=True, text=True, check=True).stdout
    found, within = {}, []
    for line in listed.splitlines():
        function, instruction = FUNCTION.fullmatch(line), INSTRUCTION.match(line)
        if function:
            within = found.setdefault(function[1], [])
        elif instruction and instruction[2] not in FILLERS:
            within.append(int(instruction[1], 16))
    return found


def counts(told):
    """How often each address of the library was reached, as callgrind tells it."""
    found, within, is_call = collections.Counter(), False, False
    for line in told:
        if line.startswith("ob="):
            within = "/libmmdb.so" in line
        elif line.startswith("calls="):
            is_call = True
        elif within and line.startswith("0x"):
            if not is_call:
                address, _, count = line.split()
                found[int(address, 16)] += int(count)
            is_call = False
    return found


def watched(program, tape, to):
    """Runs a program over a tape under callgrind, and gives the counts."""
    options = ["--tool=callgrind", "--dump-instr=yes", "--compress-pos=no", "--compress-strings=no", f"--callgrind-out-file={to}"]
    with open(tape, "rb") as calls:
        subprocess.run(["valgrind", "-q", *options, program], stdin=calls, check=True)
    with open(to, encoding="utf-8", errors="replace") as told:
        return counts(told)


class Function:
    """A function: its crate, how often it was entered, and how many of its instructions were reached."""

    def __init__(self, name, addresses, reached):
        self.name = name
        self.crate = name.split("::")[0]
        self.entered = reached[addresses[0]] if addresses else 0
        self.instructions = len(addresses)
        self.reached = sum(address in reached for address in addresses)
        self.parts = parts_unreached(addresses, reached)


def parts_unreached(addresses, reached):
    """The parts of a function that were never reached: for each its first address, and how many instructions it has."""
    parts, at_end = [], False
    for address in addresses:
        if address in reached:
            at_end = False
        elif at_end:
            parts[-1][1] += 1
        else:
            parts.append([address, 1])
            at_end = True
    return parts
