"""Handles in a child of fork, while another thread of the program is in a call: in each call from C, before each call for memory. A call in
the child that waits is ended by an alarm, and the test fails.
"""

from support import compiling, sizes

FORKS = sizes.size(20, 1_000, 10)
SOURCE = compiling.PROGRAMS / "fork.c"
WRAPPED = [f"-Wl,--wrap={call}" for call in compiling.CALLS]
ROOM = compiling.Room()


def tearDownModule():
    ROOM.close()


class Forked(compiling.Programs):
    def check(self, name, *sanitized):
        words = [*compiling.C, "-pthread", f"-DFORKS={FORKS}", *sanitized]
        program = ROOM.compiled(name, SOURCE, words, WRAPPED)
        self.check_ran(program)
        self.check_ran([program, "running"])

    def test_each_call(self):
        self.check("fork")

    def test_under_the_sanitizers_of_addresses(self):
        self.check("fork-address", "-DHAS_LOCKS=1", *compiling.SANITIZED)
