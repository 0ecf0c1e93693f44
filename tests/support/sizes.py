"""The sizes of tests: small in tests/run and so in the gate, large in tests/fire, least in tests/quick.

What must hold: tests/fire sets `is_large` before it imports anything else of this package, and tests/quick sets MMDB_SIZES=least.
A test checks the same in each size; only the number of rows, streams or calls differs.
"""

import os

is_large = False
is_least = os.environ.get("MMDB_SIZES") == "least"


def size(small, large, least=None):
    """A test's size. Without a least size it is small in tests/quick too."""
    if is_large:
        return large
    return small if least is None or not is_least else least


def said(name, default):
    """In large sizes the number that the environment sets, otherwise the default."""
    return int(os.environ.get(name, default)) if is_large else default
