"""Ctrl-C, and the end of a terminal."""

from __future__ import annotations

import os
import signal
import threading
from types import FrameType
from typing import Callable, Optional


class Interrupts:
    """What Ctrl-C does: it is noted, and only where it is allowed it raises KeyboardInterrupt at once. So none comes
    between a call of the library and what has to follow it. A select that is under way is asked to end."""

    def __init__(self, ask: Callable[[], object] = lambda: None) -> None:
        self._is_allowed = False
        self._is_noted = False
        self._ask = ask

    def install(self) -> None:
        """Takes Ctrl-C, and lets the end of the terminal, or of the shell's time, unwind the program. What was ignored
        where the shell was begun, as by nohup, stays ignored."""
        ends = {signal.SIGINT: self.on_interrupt, signal.SIGHUP: self._on_end, signal.SIGTERM: self._on_end}
        for number, taken in ends.items():
            if signal.getsignal(number) is not signal.SIG_IGN:
                signal.signal(number, taken)
        self._watch()

    def _watch(self) -> None:
        """Has a thread ask selects to end: Python calls a function for a signal only between the calls of the library, and notes in
        a pipe at once that one came."""
        read_end, write_end = os.pipe()
        os.set_blocking(write_end, False)
        signal.set_wakeup_fd(write_end, warn_on_full_buffer=False)
        threading.Thread(target=self._ask_on_interrupts, args=(read_end,), daemon=True).start()

    def _ask_on_interrupts(self, signals: int) -> None:
        while True:
            if signal.SIGINT in os.read(signals, 256):
                self._ask()

    def allowed(self) -> "_Allowed":
        """Lets KeyboardInterrupt come meanwhile, and at once if one was noted."""
        return _Allowed(self)

    def allow(self, is_allowed: bool) -> bool:
        """Says whether KeyboardInterrupt may come at once, and gives what was said before."""
        before, self._is_allowed = self._is_allowed, is_allowed
        return before

    def check(self) -> None:
        """Raises KeyboardInterrupt if one was noted."""
        if self._is_noted:
            self._is_noted = False
            raise KeyboardInterrupt

    def forget(self) -> None:
        """Forgets what was noted."""
        self._is_noted = False

    def on_interrupt(self, _number: int, _frame: Optional[FrameType]) -> None:
        """Takes one Ctrl-C."""
        if self._is_allowed:
            self._is_allowed = False
            raise KeyboardInterrupt
        self._is_noted = True
        # (with the extension this may be called in a select, which goes on if nobody else asks)
        self._ask()

    def _on_end(self, number: int, _frame: Optional[FrameType]) -> None:
        raise SystemExit(128 + number)


class _Allowed:
    """A while in which KeyboardInterrupt may come. (It is entered for each line, so it is no generator.)"""

    def __init__(self, interrupts: Interrupts) -> None:
        self._interrupts = interrupts
        self._before = False

    def __enter__(self) -> None:
        self._before = self._interrupts.allow(True)
        try:
            self._interrupts.check()
        except KeyboardInterrupt:
            self._interrupts.allow(self._before)
            raise

    def __exit__(self, *_: object) -> None:
        self._interrupts.allow(self._before)
