"""Which instructions of the library are reached by random streams and the rows, in large sizes (`tests/fire reached`). The calls of the
library are recorded, and made again under valgrind, some of them with calls for memory refused. What is never reached is printed.
MMDB_FIRST, MMDB_STREAMS and MMDB_SEED select streams, as for `many_streams`.
"""

import pathlib
import random
import shutil
import unittest

import test_many_streams
from support import compiling, harness, model, reached, shapes, sizes, tape

# Of how many streams calls for memory are refused, which, and how many commands these have at most.
REFUSED_STREAMS = 10
REFUSED_CALLS = [*range(1, 60), *range(61, 600, 7)]
MOST_UNITS = 40
# Streams of large tables beside those of MMDB_STREAMS, of each form.
LARGE_STREAMS = 3
STREAMS = sizes.said("MMDB_STREAMS", 500)
CRATES = {line.split(":")[0].split()[0] for line in (harness.ROOT / "crates.txt").read_text().splitlines() if ":" in line}
# Whose functions are told one by one: the indexes, the plans and the joins. Much of them stands within their callers.
TOLD = ("ttree", "ttree_node", "lin_hash", "plan_chooser", "temp_list", "join_ops", "project_hash")
ROTATE, RAISE, MERGE = "ttree::rotate::rotate", "ttree::steps::raise", "ttree::settle::merge_child"
# Of how many instructions a part is told that was never reached.
LEAST_TOLD = 40
ROOM = compiling.Room()


def tearDownModule():
    ROOM.close()


@unittest.skipUnless(sizes.is_large and shutil.which("valgrind") and shutil.which("objdump"), "in large sizes only, with valgrind and objdump")
class Reached(unittest.TestCase):
    def test_what_the_streams_reach(self):
        words = [*compiling.C, "-fno-builtin", harness.SUPPORT / "refuse_nth.c"]
        program = ROOM.sharing("tape", compiling.PROGRAMS / "tape.c", words)
        calls = self.recorded()
        counts = reached.watched(program, calls, ROOM.path / "counts")
        found = [reached.Function(name, addresses, counts) for name, addresses in reached.functions().items()]
        own = [function for function in found if function.crate in CRATES or function.name.startswith("mmdb_")]
        tell(own, found)
        for name in (ROTATE, RAISE, MERGE):
            self.assertGreater(entered(own, name), 0, name)

    def recorded(self):
        """The file of the calls that the streams and the rows make."""
        path = pathlib.Path(ROOM.path / "tape.calls")
        with path.open("wb") as to:
            for number, stream in enumerate(all_streams()):
                calls = self.calls_of(stream)
                to.write(b"".join(calls))
                if number % max(1, STREAMS // REFUSED_STREAMS) == 0 and len(stream.units) <= MOST_UNITS:
                    to.writelines(with_refusals(calls))
        return path

    def calls_of(self, stream):
        with tape.recorded() as calls:
            self.assertEqual(test_many_streams.differences(stream), [])
        return calls.calls


def all_streams():
    """The random streams, those of large tables, and the rows."""
    for number in range(test_many_streams.FIRST, test_many_streams.FIRST + STREAMS):
        yield test_many_streams.stream_at(number)
    for number in range(LARGE_STREAMS * len(shapes.LARGE_FORMS)):
        draw = random.Random(f"{test_many_streams.SEED} large {number}")
        stream = shapes.stream(draw, shapes.LARGE_FORMS[number % len(shapes.LARGE_FORMS)])
        yield test_many_streams.Stream(stream, draw, model.Limits(), harness.POLICIES[number % len(harness.POLICIES)])
    rows = [(stream, model.Limits()) for _, stream, _ in harness.rows()]
    rows += [(stream, limits) for _, limits, stream, _ in harness.limited_rows()]
    for number, (stream, limits) in enumerate(rows):
        whole = test_many_streams.whole(stream)
        yield test_many_streams.Stream(whole, random.Random(number), limits, harness.POLICIES[number % len(harness.POLICIES)])


def with_refusals(calls):
    """The calls on four of the handles, of a whole stream, of lines, of statements and in transactions: again and again, each time
    with another call for memory refused."""
    opened = [at for at, call in enumerate(calls) if call.startswith(b"open ")]
    handles = [calls[at:end] for at, end in zip(opened, [*opened[1:], len(calls)])]
    for nth in REFUSED_CALLS:
        for handle in handles[:1] + handles[-3:]:
            yield b"refuse %d 0 0\n" % nth
            yield from handle


def entered(functions, front):
    return sum(function.entered for function in functions if function.name.startswith(front))


def tell(own, all_functions):
    print(f"\nseed {test_many_streams.SEED}, streams {test_many_streams.FIRST} to {test_many_streams.FIRST + STREAMS - 1}")
    rotations = entered(own, ROTATE)
    double = entered(own, RAISE) - rotations
    print(f"rotations: {rotations - double} single, {double} double; merges of nodes: {entered(own, MERGE)}")
    for crate in TOLD:
        listed = ", ".join(f"{each.name.removeprefix(crate + '::')} {each.entered}" for each in own if each.crate == crate)
        print(f"{crate}: {listed}")
    for what, functions in (("mmdb's own code", own), ("all code of the library", all_functions)):
        total, there = sum(each.instructions for each in functions), sum(each.reached for each in functions)
        print(f"{what}: {there} of {total} instructions, {sum(each.reached > 0 for each in functions)} of {len(functions)} functions")
    print("never reached: " + ", ".join(each.name for each in own if not each.reached))
    print(f"parts of {LEAST_TOLD} instructions and more that were never reached:")
    for each in own:
        parts = ", ".join(f"{address:x} ({count})" for address, count in each.parts if count >= LEAST_TOLD)
        if parts and each.reached:
            print(f"  {each.name}, entered {each.entered} times: {parts}", flush=True)
