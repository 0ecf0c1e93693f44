"""Commands that begin and end transactions, and the one that takes the last change back."""

from __future__ import annotations

from typing import TYPE_CHECKING

from .dotted import dotted

if TYPE_CHECKING:
    from .shell import Shell


@dotted(
    ".begin",
    "begins a transaction, or a savepoint in one",
    "All changes but drops are done in it, selects see them, and .rollback takes them back.\n"
    "In a transaction it sets a savepoint: .commit and .rollback end the innermost.",
)
def _begin(shell: Shell) -> None:
    shell.transactions.begin()


@dotted(".commit", "ends the transaction, or the savepoint, and keeps its changes")
def _commit(shell: Shell) -> None:
    shell.transactions.commit()


@dotted(".rollback", "ends the transaction, or the savepoint, and takes its changes back")
def _rollback(shell: Shell) -> None:
    shell.transactions.rollback()


@dotted(
    ".undo",
    "takes the last change back",
    "A change is a command that is done: an insert, an update, a delete, a load, a .load, an .import, or a table or an index\n"
    "that is declared. Drops can't be undone. After .undo nothing more can be.",
)
def _undo(shell: Shell) -> None:
    shell.note(f"undone: {shell.transactions.undo()}")
