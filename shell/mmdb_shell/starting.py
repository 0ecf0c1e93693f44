"""The start of the shell, where the library may not be found."""

from __future__ import annotations

import os
import sys
from typing import List, Optional

from .trouble import NO_LIBRARY, fail


def main(words: Optional[List[str]] = None) -> int:
    """Runs the shell on the words of its start, and gives its exit status."""
    if sys.stderr is None:
        sys.stderr = open(os.devnull, "w")
    try:
        from . import running
    except (ImportError, AttributeError, OSError) as why:
        return fail(NO_LIBRARY, f"the library of mmdb can't be loaded: {str(why).replace('mmdb: ', '', 1)}")
    return running.main(words)
