"""How many bytes the program holds at marks in a stream. A mark is a select from an empty table; count_held.c prints a line before each
answer.
"""

import os
import re

from . import harness, preloading

#: The table of the marks, a mark, and its answer.
FRONT = b"table marks (id int)\n"
MARK = b"select * from marks\n"
MARKED = b"rows 0\nmarks.id\n"
HELD = re.compile(rb"\n\[held (\d+), most \d+\]\n")


class Counter:
    """The library that counts what a program holds."""

    def __init__(self):
        self.library = preloading.Library("count_held")

    def close(self):
        self.library.close()

    def run(self, pieces):
        """Runs the program, and gives how it ended, its answers, and the bytes that it held at each mark. A mark is a piece."""
        ended = harness.run_in_pieces(pieces, env={**os.environ, "LD_PRELOAD": str(self.library.path)})
        held = [int(number) for number in re.findall(HELD.pattern + MARKED, ended.out)]
        return ended, HELD.sub(b"", ended.out), held
