"""The binding for Python as a package: pip builds and installs it without a network, and mypy checks its types."""

import functools
import os
import pathlib
import shutil
import sys
import tempfile
import unittest

from support import binding, building_package, embedding, harness, tested
from support.building_package import ran

# (the package wants pip 20.0, and these tests one that installs into another Python)
ASKS = "import pip; assert tuple(map(int, pip.__version__.split('.')[:2])) >= (22, 3)"
TYPED = harness.SUPPORT / "programs" / "typed.py"
TAGS = {True: "cp310-abi3-linux_x86_64", False: "py3-none-linux_x86_64"}
HOW = {True: "extension", False: "ctypes"}


def python_that_does(program):
    """This Python or the system's, where one does a program. None where neither does."""
    for python in (sys.executable, "/usr/bin/python3"):
        if os.path.exists(python) and ran(python, "-c", program, cwd="/").returncode == 0:
            return python
    return None


@functools.cache
def builder():
    """A Python that has pip, if there is one."""
    return python_that_does(ASKS)


@functools.cache
def checker():
    """A Python that has mypy, if there is one."""
    return python_that_does("import mypy")


@unittest.skipUnless(builder(), "no Python here has pip from 22.3 on")
class Builds(unittest.TestCase):
    """Builds in a copy of what a build reads, whose release is the library that is tested."""

    def setUp(self):
        room = tempfile.TemporaryDirectory(prefix="mmdb-tests-")
        self.addCleanup(room.cleanup)
        self.room = pathlib.Path(room.name)
        self.top = self.room / "copy"
        self.sources = building_package.copy_of_sources(self.top)

    def install(self, what, **variables):
        """How pip's installation of a folder or an sdist ended, into a folder of its own."""
        return ran(builder(), "-m", "pip", "install", "--target", self.room / "installed", what, cwd=self.room, **variables)

    def sdist(self):
        (self.room / "sdist").mkdir()
        program = f"import building; print(building.build_sdist({str(self.room / 'sdist')!r}))"
        return ran(sys.executable, "-c", program, cwd=self.sources)

    def check_installed(self, has_extension):
        """The package is whole, and finds its library by itself."""
        package = self.room / "installed" / "mmdb"
        names = {path.name for path in package.iterdir()} - {"__pycache__"}
        extension = {building_package.EXTENSION} if has_extension else set()
        sources = {path.name for path in (self.sources / "mmdb").iterdir()} - building_package.SOURCES
        self.assertEqual(names, sources | building_package.BROUGHT | extension)
        self.assertTrue({"py.typed", "_mmdb.pyi"} < names)
        self.assertEqual((package / "libmmdb.so").read_bytes(), (tested.library() / "libmmdb.so").read_bytes())
        (about,) = (self.room / "installed").glob("mmdb-*.dist-info")
        self.assertEqual(about.name, f"mmdb-{harness.VERSION}.dist-info")
        self.assertIn(f"\nTag: {TAGS[has_extension]}\n", (about / "WHEEL").read_text())
        program, printed = embedding.first_program("docs/python.md", "python")
        program += "print(mmdb.implementation)\n"
        for variables, how in (({}, HOW[has_extension]), ({"MMDB_PURE": "1"}, "ctypes")):
            used = ran(sys.executable, "-c", program, cwd=self.room, PYTHONPATH=str(package.parent), **variables)
            self.assertEqual((used.stderr, used.stdout), ("", f"{printed}{how}\n"))

    def test_by_pip(self):
        ended = self.install(self.sources)
        self.assertEqual(ended.returncode, 0, ended.stdout + ended.stderr)
        self.check_installed(building_package.has_extension(builder()))

    def test_without_a_compiler(self):
        for variables, told in (({"CC": "/nowhere/cc"}, "mmdb: the extension can't be built, .*/nowhere/cc"), ({"MMDB_PURE": "1"}, None)):
            with self.subTest(variables=variables):
                shutil.rmtree(self.room / "installed", ignore_errors=True)
                ended = self.install(self.sources, PIP_VERBOSE="1", **variables)
                self.assertEqual(ended.returncode, 0, ended.stdout + ended.stderr)
                if told and building_package.has_extension(builder()):
                    self.assertRegex(ended.stdout + ended.stderr, told)
                self.check_installed(False)

    def test_without_what_a_compiler_wants(self):
        (self.top / "release" / "mmdb.h").write_text("#error this is no header\n")
        ended = building_package.wheel(self.sources, self.room)
        self.assertEqual((ended.returncode, ended.stdout), (0, f"mmdb-{harness.VERSION}-{TAGS[False]}.whl\n"))
        if building_package.has_extension():
            self.assertRegex(ended.stderr, "(?s)mmdb: the extension can't be built, .*this is no header")

    def test_by_an_sdist(self):
        ended = self.sdist()
        self.assertEqual(ended.returncode, 0, ended.stdout + ended.stderr)
        (self.top / "release" / "libmmdb.so").unlink()
        (packed,) = (self.room / "sdist").iterdir()
        self.assertEqual(f"{packed.name}\n", ended.stdout)
        ended = self.install(packed)
        self.assertEqual(ended.returncode, 0, ended.stdout + ended.stderr)
        shutil.rmtree(self.top / "release")
        self.check_installed(building_package.has_extension(builder()))

    def test_without_the_library(self):
        missing = self.top / "release" / "libmmdb.so"
        missing.unlink()
        for ended in (self.install(self.sources), self.sdist()):
            self.assertNotEqual(ended.returncode, 0)
            self.assertRegex(ended.stdout + ended.stderr, f"mmdb: {missing} is missing, without which there is no package")
        self.assertFalse((self.room / "installed").exists())
        self.assertEqual(list((self.room / "sdist").iterdir()), [])

    def test_the_same_sources_give_the_same_wheel(self):
        for name in ("one", "other"):
            (self.room / name).mkdir()
            ended = building_package.wheel(self.sources, self.room / name)
            self.assertEqual(ended.returncode, 0, ended.stderr)
            if building_package.has_extension():
                self.assertEqual(ended.stderr, "")
        ((one,), (other,)) = [list((self.room / name).iterdir()) for name in ("one", "other")]
        self.assertEqual((one.name, one.read_bytes()), (other.name, other.read_bytes()))

    def test_in_an_environment(self):
        """By pip into a virtual environment, whole and editable, and out again."""
        python = self.room / "env" / "bin" / "python"
        ended = ran(sys.executable, "-m", "venv", "--without-pip", self.room / "env", cwd=self.room)
        self.assertEqual(ended.returncode, 0, ended.stderr)
        pip = (builder(), "-m", "pip", "--python", python)
        for words, package in (((), self.room / "env"), (("--editable",), self.sources)):
            ended = ran(*pip, "install", *words, self.sources, cwd=self.room)
            self.assertEqual(ended.returncode, 0, ended.stdout + ended.stderr)
            told = ran(python, "-c", "import mmdb; print(mmdb.__file__, mmdb.implementation, mmdb.Database().closed)", cwd=self.room)
            self.assertEqual(told.stderr, "")
            self.assertTrue(told.stdout.startswith(f"{package}/"), told.stdout)
            self.assertIn(f" {HOW[building_package.has_extension(python)]} False\n", told.stdout)
            ended = ran(*pip, "uninstall", "--yes", "mmdb", cwd=self.room)
            self.assertEqual(ended.returncode, 0, ended.stdout + ended.stderr)
            self.assertNotEqual(ran(python, "-c", "import mmdb", cwd=self.room).returncode, 0)


class Typed(unittest.TestCase):
    """The program whose types are checked."""

    def test_it_runs(self):
        ended = binding.run_python(str(TYPED))
        self.assertEqual((ended.err, ended.status), ("", 0))
        self.assertEqual(ended.out.splitlines()[-1], "error 41 key exists: column 11: t has a row with the key 1 True")


@unittest.skipUnless(checker(), "no Python here has mypy")
class Types(unittest.TestCase):
    """The annotations, and those who use them."""

    def test_mypy_finds_nothing(self):
        words = [checker(), "-m", "mypy", "--strict", "--cache-dir=/dev/null"]
        checked = [binding.FOLDER / "mmdb", TYPED, harness.ROOT / "examples" / "python", harness.ROOT / "shell" / "mmdb_shell"]
        ended = ran(*words, *checked, cwd=binding.FOLDER, MYPYPATH=str(binding.FOLDER))
        self.assertEqual((ended.returncode, ended.stderr), (0, ""), ended.stdout)
