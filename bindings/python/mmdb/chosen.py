"""Which form of the package is taken: the extension, if it was built, else ctypes."""

from __future__ import annotations

import os
from typing import Any


def _extension() -> Any:
    """The extension. None where it wasn't built, and where the variable MMDB_PURE or MMDB_LIBRARY is set: it has a library
    of its own, so that it isn't taken where another is named."""
    if os.environ.get("MMDB_PURE") or os.environ.get("MMDB_LIBRARY"):
        return None
    try:
        from . import _mmdb
    except ImportError:
        return None
    return _mmdb


extension = _extension()
