"""The state of the indexes of a table."""

from __future__ import annotations

from typing import List, NamedTuple, Optional


class Index(NamedTuple):
    """An index of a table, and its state. What only the other kind has is None."""

    #: The name of its column.
    column: str
    #: `tree` or `hash`.
    kind: str
    #: How many rows it has: all of the table.
    rows: int
    #: The height of a tree in nodes.
    height: Optional[int]
    #: How many nodes a tree has, of at most 32 rows each.
    nodes: Optional[int]
    #: The average number of rows in a node of a tree, rounded down.
    fill: Optional[int]
    #: How many buckets a hash has.
    buckets: Optional[int]
    #: The number of rows in the fullest bucket of a hash.
    longest: Optional[int]


def indexes_of(answer: str) -> List[Index]:
    """The indexes in an answer."""
    return [_index_of(record.split(",")) for record in answer.splitlines()[2:]]


def _index_of(fields: List[str]) -> Index:
    column, kind, rows, *others = fields
    height, nodes, fill, buckets, longest = (int(field) if field else None for field in others)
    return Index(column, kind, int(rows), height, nodes, fill, buckets, longest)
