"""The command that shows which way a select goes: its steps as a tree, and how long it took."""

from __future__ import annotations

import time
from typing import TYPE_CHECKING, Iterator, List

from .boxes import LINES
from .dotted import dotted
from .showing import count
from .trouble import Trouble

if TYPE_CHECKING:
    from .shell import Shell


@dotted(
    ".plan SELECT",
    "shows which way a select goes, how many rows it has, and how long it took",
    ".plan select * from emp where dept = 10",
    is_open=True,
)
def _plan(shell: Shell, line: str) -> None:
    bound, values = shell.parameters.bind(line.encode())
    if not line.startswith("select"):
        raise Trouble("only a select has a plan")
    steps = shell.db.plan(bound.decode(), *values)
    began = time.perf_counter()
    rows = shell.db.select(bound.decode(), *values)
    took = time.perf_counter() - began
    shell.say("".join(_tree(steps, "└─ " if shell.look.marks == LINES else "+- ")))
    shell.say(f"{count(rows)} in {took * 1000:.3f} ms\n")


def _tree(steps: List[str], branch: str) -> Iterator[str]:
    """The lines of a tree in which each step stands below the one before it."""
    for depth, step in enumerate(steps):
        yield f"{' ' * len(branch) * (depth - 1)}{branch if depth else ''}{step}\n"
