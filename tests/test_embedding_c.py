"""The library in C and C++ programs: the header, the examples, each status, memory and its refusal.

What must hold: EXPORTS lists every call of the header.
"""

import os
import re
import shutil
import subprocess
import unittest

from support import compiling, harness, refusing, tested

EXAMPLES = harness.ROOT / "examples" / "c"
PAGE = harness.ROOT / "docs" / "c.md"
STATEMENTS = {
    *("mmdb_prepare", "mmdb_bind_integer", "mmdb_bind_text", "mmdb_bind_null"),
    *("mmdb_execute", "mmdb_execute_many", "mmdb_columns", "mmdb_count", "mmdb_first", "mmdb_finalize"),
}
LINES = {
    *("mmdb_command", "mmdb_load", "mmdb_query", "mmdb_feed", "mmdb_answer", "mmdb_refusal"),
    *("mmdb_indexes", "mmdb_version", "mmdb_plan"),
}
REASONS = {"mmdb_reason", "mmdb_prepare_reason", "mmdb_statement_reason"}
INTERRUPTS = {"mmdb_interrupter_open", "mmdb_interrupt", "mmdb_interrupter_close"}
SHARING = {"mmdb_share", "mmdb_leave", "mmdb_clone"}
SAVES = {"mmdb_save", "mmdb_restore_open", "mmdb_restore_take", "mmdb_restore_end", "mmdb_restore_close"}
CURSORS = {"mmdb_cursor_open", "mmdb_cursor_fetch", "mmdb_cursor_close"}
TRANSACTIONS = {"mmdb_begin", "mmdb_commit", "mmdb_rollback", "mmdb_transactions"}
EXPORTS = {"mmdb_open", "mmdb_close", *STATEMENTS, *LINES, *INTERRUPTS, *REASONS, *SHARING, *SAVES, *CURSORS, *TRANSACTIONS}
C_STANDARDS, CPP_STANDARDS = ("c99", "c11", "c17", "c2x"), ("c++11", "c++14", "c++17", "c++20")
STRICT = ["-Wall", "-Wextra", "-Wpedantic", "-Wconversion", "-Wsign-conversion", "-Wshadow", "-Wcast-qual", "-Wcast-align", "-Wundef"]
STRICT_C = [*STRICT, "-Wstrict-prototypes", "-Wmissing-prototypes", "-Wbad-function-cast", "-Wdeclaration-after-statement"]
STRICT_CPP = [*STRICT, "-Wold-style-cast", "-Wzero-as-null-pointer-constant", "-Wuseless-cast"]
# (a cell is found by adding to a pointer, which later versions of clang call unsafe in C++)
EVERYTHING = ["-Weverything", "-Wno-padded", "-Wno-unknown-warning-option", "-Wno-unsafe-buffer-usage"]
# A program that makes no handle of any kind but a closed one.
ALONE = """#include "mmdb.h"

int main(void)
{
    mmdb db = MMDB_CLOSED;
    mmdb_interrupter interrupter = MMDB_NO_INTERRUPTER;
    mmdb_restore restore = MMDB_NO_RESTORE;
    mmdb_cursor cursor = MMDB_NO_CURSOR;
    mmdb_save_mark mark = MMDB_SAVE_BEGIN;
    mmdb_bytes piece;
    mmdb_interrupt(&interrupter);
    mmdb_interrupter_close(&interrupter);
    mmdb_save(&db, &mark, &piece);
    mmdb_restore_close(&restore);
    mmdb_cursor_close(&cursor);
    mmdb_close(&db);
    return 0;
}
"""
ROOM = compiling.Room()


def tearDownModule():
    ROOM.close()


class Header(unittest.TestCase):
    """The header by itself, and the names that a library shows."""

    def test_it_compiles_alone_as_c_and_as_cpp(self):
        tested.requires("cc", "c++")
        source = ROOM.path / "alone.c"
        source.write_text('#include "mmdb.h"\n')
        warned = [*compiling.WARNINGS, f"-I{compiling.INCLUDE}", "-c", source, "-o", ROOM.path / "alone.o"]
        for standard in ("c99", "c17"):
            with self.subTest(standard):
                subprocess.run(["cc", f"-std={standard}", *warned], check=True)
        for standard in ("c++11", "c++20"):
            with self.subTest(standard):
                subprocess.run(["c++", "-x", "c++", f"-std={standard}", *warned], check=True)

    def check_strict(self, compiler, language, standards, options):
        """A program that includes it compiles without a word under these options, as each standard."""
        source = ROOM.path / "strict.c"
        source.write_text(ALONE)
        for standard in standards:
            with self.subTest(compiler=compiler, standard=standard):
                words = [compiler, "-x", language, f"-std={standard}", *options, "-Werror", f"-I{compiling.INCLUDE}", "-fsyntax-only", source]
                ended = subprocess.run(words, capture_output=True, text=True, check=False)
                self.assertEqual((ended.stderr, ended.returncode), ("", 0))

    def test_no_option_of_gcc_warns(self):
        tested.requires("gcc", "g++")
        self.check_strict("gcc", "c", C_STANDARDS, STRICT_C)
        self.check_strict("g++", "c++", CPP_STANDARDS, STRICT_CPP)

    @unittest.skipUnless(shutil.which("clang"), "clang is not installed")
    def test_no_option_of_clang_warns(self):
        self.check_strict("clang", "c", C_STANDARDS, EVERYTHING)
        self.check_strict("clang", "c++", CPP_STANDARDS, EVERYTHING)

    def test_the_shared_library_shows_its_calls_alone(self):
        tested.requires("nm")
        words = ["nm", "-D", "--defined-only", "--format=posix", tested.library() / "libmmdb.so"]
        shown = subprocess.run(words, stdout=subprocess.PIPE, text=True, check=True).stdout
        self.assertEqual({line.split()[0] for line in shown.splitlines()}, EXPORTS)


class Examples(compiling.Programs):
    """Each example writes what stands beside it, however it is built, and whichever call for memory is refused."""

    def each(self, name, words=compiling.C, and_with=()):
        examples = sorted(EXAMPLES.glob("*.c"))
        self.assertGreater(len(examples), 0)
        for source in examples:
            with self.subTest(source.name):
                program = ROOM.compiled(f"{source.stem}-{name}", source, words, and_with)
                yield program, source.with_suffix(".expected").read_bytes()

    def test_as_c(self):
        for program, expected in self.each("c"):
            self.check_ran(program, expected)

    def test_as_cpp(self):
        for program, expected in self.each("cpp", compiling.CPP):
            self.check_ran(program, expected)

    def test_under_sanitizers(self):
        for program, expected in self.each("sanitized", [*compiling.C, *compiling.SANITIZED]):
            self.check_ran(program, expected)

    def test_all_memory_is_given_back(self):
        for program, expected in self.each("counted", and_with=compiling.COUNTED):
            self.check_counted(program, expected)

    def test_with_the_shared_library_and_each_call_for_memory_refused(self):
        refuser = refusing.Refuser()
        self.addCleanup(refuser.close)
        for source in sorted(EXAMPLES.glob("*.c")):
            program = ROOM.sharing(f"{source.stem}-shared", source)
            expected = source.with_suffix(".expected").read_bytes()
            self.check_ran(program, expected)
            runs = [self.refused(*run, expected) for run in refuser.each_run([program])]
            self.assertIn(True, runs, "no call for memory of the library was refused")

    def refused(self, nth, ended, is_met, expected):
        """Checks a run with one refusal, and gives whether it ended early for want of memory."""
        with self.subTest(refused_call=nth):
            self.assertIn(ended.status, (0, 1))
            if ended.status == 0:
                self.assertEqual((ended.out, ended.err), (expected, b""))
            else:
                self.assertTrue(is_met)
                self.assertIn(b"no memory", ended.err)
        return ended.status == 1


class Page(compiling.Programs):
    """The first program of docs/c.md writes what the page says."""

    def setUp(self):
        program, expected = re.search(r"```c\n(.*?)```.*?```text\n(.*?)```", PAGE.read_text(), re.S).groups()
        self.source, self.expected = ROOM.path / "first.c", expected.encode()
        self.source.write_text(program)

    def test_as_c_and_as_cpp(self):
        self.check_ran(ROOM.compiled("first-c", self.source), self.expected)
        self.check_ran(ROOM.compiled("first-cpp", self.source, compiling.CPP), self.expected)

    @unittest.skipUnless(shutil.which("pkg-config"), "pkg-config is not installed")
    def test_as_pkg_config_tells(self):
        found = {**os.environ, "PKG_CONFIG_PATH": str(tested.library()), "LD_LIBRARY_PATH": str(tested.library())}
        words = ["pkg-config", "--cflags", "--libs", "mmdb"]
        told = subprocess.run(words, stdout=subprocess.PIPE, text=True, check=True, env=found).stdout.split()
        program = ROOM.path / "first-told"
        subprocess.run([*compiling.C, self.source, *told, "-o", program], check=True)
        self.check_ran(program, self.expected, env=found)


class Embedding(compiling.Programs):
    """The programs of tests/support/programs, which check the calls themselves."""

    def check_program(self, name):
        source = compiling.PROGRAMS / f"{name}.c"
        self.check_counted(ROOM.compiled(name, source, and_with=compiling.COUNTED))
        self.check_counted(ROOM.compiled(f"{name}-sanitized", source, [*compiling.C, *compiling.SANITIZED], compiling.COUNTED))

    def test_each_status_is_met(self):
        self.check_program("statuses")

    def test_each_status_of_statements_is_met(self):
        self.check_program("statements")

    def test_each_select_is_counted(self):
        self.check_program("counts")

    def test_each_select_has_first_rows(self):
        self.check_program("firsts")

    def test_changes_raise_the_numbers_of_tables(self):
        self.check_program("versions")

    def test_databases_are_copied(self):
        self.check_program("clones")

    def test_statements_do_many_rows_of_values(self):
        self.check_program("many")

    def test_each_status_of_queries_is_met(self):
        self.check_program("queries")

    def test_each_status_of_the_reasons_of_statements_is_met(self):
        self.check_program("reasons")

    def test_each_call_for_memory_is_refused(self):
        self.check_program("refused")

    def test_each_call_for_memory_of_statements_is_refused(self):
        self.check_program("statements_refused")
