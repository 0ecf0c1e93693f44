"""The manual pages: their form, that they agree with the other pages, and that their examples do what they say."""

import os
import re
import shutil
import subprocess
import unittest

from support import compiling, harness, tested

PROGRAM, LIBRARY, SHELL = (harness.ROOT / "docs" / "man" / name for name in ("mmdb.1", "mmdb.3", "mmdb-shell.1"))
LANGUAGE = (harness.ROOT / "docs" / "language.md").read_text()
RUNNING = (harness.ROOT / "docs" / "running.md").read_text()
HEADER = (harness.ROOT / "include" / "mmdb.h").read_text()
ESCAPES = {r"\(dq": '"', r"\(aq": "'", r"\-": "-", r"\e": "\\"}
ROOM = compiling.Room()


def tearDownModule():
    ROOM.close()


def examples(page):
    """The texts of a page that are to be typed as they stand."""
    for example in re.findall(r"^\.EX\n(.*?)^\.EE$", page.read_text(), re.MULTILINE | re.DOTALL):
        yield re.sub(r"\\(?:\(..|.)", lambda escape: ESCAPES[escape[0]], example)


class Form(unittest.TestCase):
    """No reader of such pages finds fault with them."""

    def check(self, *words):
        for page in (PROGRAM, LIBRARY, SHELL):
            with self.subTest(page.name):
                ran = subprocess.run([*words, page], capture_output=True, text=True, check=False)
                self.assertEqual((ran.returncode, ran.stdout, ran.stderr), (0, "", ""))

    @unittest.skipUnless(shutil.which("groff"), "groff is not installed")
    def test_groff_warns_of_nothing(self):
        self.check("groff", "-ww", "-man", "-t", "-Tutf8", "-z")

    @unittest.skipUnless(shutil.which("mandoc"), "mandoc is not installed")
    def test_mandoc_warns_of_nothing(self):
        self.check("mandoc", "-T", "lint")


class Contents(unittest.TestCase):
    """What they tell is so."""

    def test_each_refusal_is_told(self):
        refusals = re.findall(r"^\| (\d\d) \| `([^`]*)` \|", LANGUAGE, re.MULTILINE)
        self.assertGreater(len(refusals), 20)
        self.assertEqual(re.findall(r"^(\d\d)\t(.*)$", PROGRAM.read_text().replace(r"\-", "-"), re.MULTILINE), refusals)

    def test_each_word_of_the_program_is_told(self):
        words = set(re.findall(r"^ +(?:-\w, )?--(\w+)", harness.run_whole(b"", ["--help"]).out.decode(), re.MULTILINE))
        self.assertGreater(len(words), 5)
        options = re.search(r"^\.SH OPTIONS$(.*?)^\.SH", PROGRAM.read_text(), re.MULTILINE | re.DOTALL)[1]
        self.assertEqual(set(re.findall(r"\\-\\-(\w+)", options)), words)
        self.assertEqual(set(re.findall(r"^\| `--(\w+)", RUNNING, re.MULTILINE)), words)

    def test_each_status_of_the_library_is_told(self):
        statuses = re.findall(r"MMDB_\w+(?= = )", re.search(r"typedef enum mmdb_status \{(.*?)\}", HEADER, re.DOTALL)[1])
        values = re.search(r"^\.SH RETURN VALUE$(.*?)^\.SH", LIBRARY.read_text(), re.MULTILINE | re.DOTALL)[1]
        self.assertEqual(re.findall(r"^\.TP\n\.B (MMDB_\w+)$", values, re.MULTILINE), statuses)

    def test_each_call_of_the_library_is_told(self):
        calls = re.findall(r"^(?:static inline )?(?:uint32_t|size_t|void|const \w+|mmdb_bytes) \*?(mmdb_(?!checked)\w+)\(", HEADER, re.MULTILINE)
        told = re.findall(r'^\.BI "[\w ]*\*?(mmdb_\w+)\(', LIBRARY.read_text(), re.MULTILINE)
        self.assertEqual(told, calls)

    def check_typed(self, page, folder, **variables):
        (example,) = examples(page)
        typed, answers = re.fullmatch(r"\$ (.*?\| \S+\n)(.*)", example, re.DOTALL).groups()
        where = {**os.environ, "PATH": f"{folder}:{os.environ['PATH']}", **variables}
        self.assertEqual(subprocess.run(["bash", "-c", typed], stdout=subprocess.PIPE, text=True, check=True, env=where).stdout, answers)

    def test_the_example_of_the_program(self):
        self.check_typed(PROGRAM, harness.PROGRAM.parent)

    def test_the_example_of_the_shell(self):
        self.check_typed(SHELL, harness.ROOT / "shell", MMDB_LIBRARY=str(tested.library()), PYTHONDONTWRITEBYTECODE="1")

    def test_the_example_of_the_library(self):
        program, _ = examples(LIBRARY)
        source = ROOM.path / "first.c"
        source.write_text(program)
        ran = compiling.ran(ROOM.compiled("first", source))
        self.assertEqual((ran.status, ran.out, ran.err), (0, b"ok\nok 1\nrows 1\nt.id,t.name\n1,Ann\n", b""))
