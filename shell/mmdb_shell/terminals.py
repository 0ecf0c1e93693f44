"""How large the terminal is."""

from __future__ import annotations

import os
import sys
from typing import Tuple

_USUAL = (80, 24)


def size() -> Tuple[int, int]:
    """The columns and lines of the terminal: as COLUMNS and LINES say, else as it says itself. (The module shutil knows
    it too, and takes long to load.)"""
    said = [os.environ.get(name, "") for name in ("COLUMNS", "LINES")]
    told = [int(word) if word.isdecimal() else 0 for word in said]
    if not all(told):
        try:
            there = os.get_terminal_size(sys.__stdout__.fileno())
        except (AttributeError, ValueError, OSError):
            there = os.terminal_size(_USUAL)
        told = [said or found for said, found in zip(told, there)]
    columns, lines = (found or usual for found, usual in zip(told, _USUAL))
    return columns, lines
