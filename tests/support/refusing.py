"""Runs of a program in which one call for memory fails."""

import bisect
import os
import subprocess
import tempfile

from . import preloading
from .harness import SECONDS, Ended

MOST_CALLS = 100_000


class Refuser:
    """The library that refuses one call for memory."""

    def __init__(self):
        self.library = preloading.Library("refuse_nth")

    def close(self):
        self.library.close()

    def run(self, command, stream, nth):
        """Runs a command with its nth call for memory refused. Gives how it ended, and whether it made that call."""
        return self.refused(command, nth, input=stream)

    def run_over_file(self, command, stream, nth):
        """The same over a file, which is read in the same pieces each time, so that the calls are the same too."""
        with tempfile.TemporaryFile() as file:
            file.write(stream)
            file.seek(0)
            return self.refused(command, nth, stdin=file)

    def refused(self, command, nth, **given):
        hears, tells = os.pipe()
        with os.fdopen(hears, "rb") as heard:
            try:
                how = {"LD_PRELOAD": str(self.library.path), "REFUSE_NTH": str(nth), "REFUSE_TOLD": str(tells)}
                ran = subprocess.run(
                    command,
                    **given,
                    capture_output=True,
                    timeout=SECONDS,
                    check=False,
                    pass_fds=[tells],
                    env={**os.environ, **how},
                )
            finally:
                os.close(tells)
            return Ended(ran.returncode, ran.stdout, ran.stderr), heard.read() != b""

    def calls(self, command, stream, most=MOST_CALLS):
        """How many calls for memory a command makes that answers a file, where they are fewer than the most."""
        return bisect.bisect_left(range(1, most), True, key=lambda nth: not self.run_over_file(command, stream, nth)[1])

    def each_run(self, command, stream=b"", apart=1):
        """Refuses each call for memory in turn, or every `apart`th, until a run makes no such call. Yields how each run ended."""
        for nth in range(1, MOST_CALLS, apart):
            ended, is_met = self.run(command, stream, nth)
            yield nth, ended, is_met
            if not is_met:
                return
        raise AssertionError(f"{command} makes {MOST_CALLS} calls for memory or more")
