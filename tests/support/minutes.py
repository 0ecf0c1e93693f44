"""How long the parts of a command take: /proc is read while its processes run, and each is attributed to a crate and a kind of work.

What must hold: `part_of` recognizes the processes that `rt ci` starts.
"""

import collections
import os
import pathlib
import re
import threading
import time

SECONDS_APART = 0.2
ALL = "all crates"
TICKS = os.sysconf("SC_CLK_TCK")


class Spent:
    """What was spent on one part of one crate, in seconds."""

    def __init__(self):
        self.wall = 0.0
        self.processor = 0.0


class Watch:
    """Watches a process and those below it until `end` is called. Tells when a part of a crate begins."""

    def __init__(self, process, tell):
        self.process = process
        self.tell = tell
        self.spent = collections.defaultdict(Spent)
        self.last_of = {}
        self.has_ended = threading.Event()
        self.thread = threading.Thread(target=self.look_until_ended, daemon=True)
        self.thread.start()

    def end(self):
        self.has_ended.set()
        self.thread.join()

    def look_until_ended(self):
        last = time.monotonic()
        while not self.has_ended.wait(SECONDS_APART):
            now = time.monotonic()
            for key in self.look():
                self.spent[key].wall += now - last
            last = now

    def look(self):
        """Adds what each process took since the last look, and gives the crates and parts that run."""
        running = set()
        for process in below(self.process):
            try:
                words, folder, began, took = of_process(process)
            except (OSError, ValueError):
                continue
            key = part_of(words, folder)
            if key is None:
                continue
            if key not in self.spent:
                self.tell(*key)
            for counted in (key, (ALL, key[1])):
                running.add(counted)
                self.spent[counted].processor += took - self.last_of.get((process, began), 0.0)
            self.last_of[process, began] = took
        return running


def below(process):
    """The processes below one, and none where it has ended meanwhile."""
    for child in children_of(process):
        yield child
        yield from below(child)


def children_of(process):
    try:
        listed = [*pathlib.Path(f"/proc/{process}/task").glob("*/children")]
        return [child for thread in listed for child in thread.read_text().split()]
    except OSError:
        return []


def of_process(process):
    """A process's words, its folder, when it began, and the seconds of processor that it took itself."""
    at = pathlib.Path(f"/proc/{process}")
    words = (at / "cmdline").read_bytes().decode(errors="replace").split("\0")
    fields = (at / "stat").read_text().rpartition(")")[2].split()
    return words, os.readlink(at / "cwd"), fields[19], (int(fields[11]) + int(fields[12])) / TICKS


def part_of(words, folder):
    """The crate and the part that a process of `rt ci` works for: its proof, its edits, the proof of its tests, or a run."""
    run = next((re.fullmatch(r".*/rt-run-[^/]*/bin/(.*?)(_tests)?", word) for word in words if "/rt-run-" in word), None)
    if run:
        return run[1], "tests' run" if run[2] else "run"
    if os.path.basename(words[0]) != "rattle" or "--crate-name" not in words:
        return None
    crate = words[words.index("--crate-name") + 1]
    if "/rt-edit-" in folder:
        return crate, "edits"
    return crate, "tests' proof" if "--test" in words else "proof"
