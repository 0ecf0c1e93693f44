"""./install, ./install --remove and scripts/make-package, from a copy whose release is the tested program and library.

What must hold: FILES lists what scripts/installed does, in the form that ./install writes.
"""

import functools
import os
import pathlib
import re
import resource
import shutil
import subprocess
import sys
import tempfile
import unittest

from support import compiling, embedding, harness, tested

# The package for Python, as it stands in the repository.
MODULES = [path.name for path in (harness.ROOT / "bindings" / "python" / "mmdb").iterdir() if path.suffix in (".py", ".pyi", ".typed")]
FILES = {
    "bin/mmdb",
    "bin/mmdb-shell",
    "include/mmdb.h",
    "lib/libmmdb.a",
    "lib/libmmdb.so",
    "lib/libmmdb.so.MAJOR",
    "lib/libmmdb.so.VERSION",
    "lib/pkgconfig/mmdb.pc",
    "lib/python3/dist-packages/mmdb/libmmdb.so",
    *(f"lib/python3/dist-packages/mmdb/{name}" for name in MODULES),
    "share/doc/mmdb/CHANGELOG.md",
    "share/doc/mmdb/LICENSE-APACHE",
    "share/doc/mmdb/LICENSE-MIT",
    "share/doc/mmdb/README.md",
    "share/doc/mmdb/THIRD-PARTY",
    "share/doc/mmdb/docs/c.md",
    "share/doc/mmdb/docs/guide.md",
    "share/doc/mmdb/docs/installing.md",
    "share/doc/mmdb/docs/language.md",
    "share/doc/mmdb/docs/plans.md",
    "share/doc/mmdb/docs/python.md",
    "share/doc/mmdb/docs/running.md",
    "share/doc/mmdb/docs/shell.md",
    "share/doc/mmdb/docs/threads.md",
    "share/doc/mmdb/docs/transactions.md",
    "share/man/man1/mmdb.1",
    "share/man/man1/mmdb-shell.1",
    "share/man/man3/mmdb.3",
    "share/mmdb/installed",
    *(f"share/mmdb/shell/mmdb_shell/{module.name}" for module in (harness.ROOT / "shell" / "mmdb_shell").glob("*.py")),
}
# Holds the copy that each test has a copy of.
ROOM = tempfile.TemporaryDirectory(prefix="mmdb-tests-")
MAJOR = harness.VERSION.split(".")[0]
# Who has no right to write into a folder of root's.
NOBODY = {"user": 65534, "group": 65534, "extra_groups": []} if os.geteuid() == 0 else {}


def tearDownModule():
    ROOM.cleanup()


def named(files, version=harness.VERSION):
    return {file.replace("VERSION", version).replace("MAJOR", MAJOR) for file in files}


def below(folder):
    """The files and links below a folder, without what Python makes of its modules."""
    found = {path for path in folder.rglob("*") if path.is_symlink() or not path.is_dir()}
    return {str(path.relative_to(folder)) for path in found if path.parent.name != "__pycache__"}


def note(top):
    """Notes that the release of a copy is of its sources."""
    for digests, words in (("mmdb", ["release/mmdb"]), ("libmmdb", ["--library", "release"])):
        told = subprocess.run(["scripts/digest", *words], cwd=top, stdout=subprocess.PIPE, check=True).stdout
        (top / "release" / f"{digests}.digests").write_bytes(told)


@functools.cache
def model_copy():
    """A copy of what ./install reads, with a release of the program and the library that were built."""
    top = pathlib.Path(ROOM.name)
    top.chmod(0o755)
    (top / "release").mkdir()
    for name in ("install", "README.md", "CHANGELOG.md", "LICENSE-MIT", "LICENSE-APACHE", "release/THIRD-PARTY"):
        shutil.copy(harness.ROOT / name, top / name)
    for name in ("scripts", "include", "docs", "bindings/python", "shell"):
        shutil.copytree(harness.ROOT / name, top / name)
    (top / "crates").symlink_to(harness.ROOT / "crates")
    (top / "crates.txt").write_text(harness.list_of_crates("mmdb", "mmdb_c"))
    shutil.copy(harness.PROGRAM, top / "release")
    for name in ("libmmdb.a", "libmmdb.so", "libmmdb.so.0", "mmdb.h", "mmdb.pc"):
        shutil.copy(tested.library() / name, top / "release")
    note(top)
    return top


class Installs(unittest.TestCase):
    """Tests with a copy and a folder to install into."""

    def setUp(self):
        room = tempfile.TemporaryDirectory(prefix="mmdb-tests-")
        self.addCleanup(room.cleanup)
        self.room = pathlib.Path(room.name)
        self.room.chmod(0o755)
        self.top = self.room / "copy"
        shutil.copytree(model_copy(), self.top, symlinks=True)
        self.prefix = self.room / "prefix"

    def ran(self, *words, how=None, **variables):
        command = [self.top / "install", *words]
        where = {**os.environ, "DESTDIR": "", **variables}
        told = {"cwd": self.room, "capture_output": True, "text": True, "timeout": harness.SECONDS, "check": False}
        return subprocess.run(command, env=where, **told, **(how or {}))

    def install(self, *words, **variables):
        ran = self.ran(*(words or [self.prefix]), **variables)
        self.assertEqual((ran.returncode, ran.stdout), (0, ""), ran.stderr)
        return ran.stderr

    def refused(self, status, why, *words, how=None):
        """What is refused changes nothing, and says why in lines of its own."""
        before = below(self.room)
        ran = self.ran(*words, how=how)
        self.assertEqual((ran.returncode, ran.stdout), (status, ""), ran.stderr)
        self.assertIn(why, ran.stderr)
        self.assertEqual([line for line in ran.stderr.splitlines() if not line.startswith("mmdb: ")], [])
        self.assertEqual(below(self.room), before)


class Places(Installs):
    """What stands where, and that it is taken away again."""

    def test_the_files_and_their_end(self):
        self.install()
        self.assertEqual(below(self.prefix), named(FILES))
        self.assertEqual((self.prefix / "bin" / "mmdb").read_bytes(), harness.PROGRAM.read_bytes())
        for name in ("libmmdb.so", f"libmmdb.so.{MAJOR}", f"libmmdb.so.{harness.VERSION}"):
            self.assertEqual((self.prefix / "lib" / name).read_bytes(), (tested.library() / "libmmdb.so").read_bytes())
        ran = self.ran("--remove", self.prefix)
        self.assertEqual(ran.returncode, 0, ran.stderr)
        self.assertFalse(self.prefix.exists())

    def test_other_files_stay(self):
        others = {"bin/other", "lib/python3/other.py", "share/mmdb/mine", "file"}
        for other in others:
            (self.prefix / other).parent.mkdir(parents=True, exist_ok=True)
            (self.prefix / other).write_text("mine")
        (self.prefix / "share" / "man").mkdir()
        self.install()
        self.assertEqual(below(self.prefix), named(FILES) | others)
        self.install()
        self.assertEqual(self.ran("--remove", self.prefix).returncode, 0)
        self.assertEqual(below(self.prefix), others)
        self.assertTrue((self.prefix / "share" / "man").is_dir())
        self.assertFalse((self.prefix / "include").exists())

    def test_a_newer_version_takes_the_older_away(self):
        self.install()
        pc = self.top / "release" / "mmdb.pc"
        pc.write_text(re.sub("(?m)^Version: .*", f"Version: {MAJOR}.999.0", pc.read_text()))
        note(self.top)
        self.assertIn(f"version {MAJOR}.999.0 is installed", self.install())
        self.assertEqual(below(self.prefix), named(FILES, f"{MAJOR}.999.0"))
        self.assertEqual(self.ran("--remove", self.prefix).returncode, 0)
        self.assertFalse(self.prefix.exists())

    def test_the_package_takes_the_place_of_the_module(self):
        listed = self.top / "scripts" / "installed"
        now = listed.read_text()
        older = [line for line in now.splitlines() if not line.startswith("PYTHON/")]
        older += ["PYTHON/mmdb.py 644 README.md", "PYTHON/libmmdb.so -> ../../libmmdb.so.MAJOR"]
        listed.write_text("\n".join(older))
        self.install()
        self.assertTrue((self.prefix / "lib" / "python3" / "dist-packages" / "mmdb.py").is_file())
        listed.write_text(now)
        self.install()
        self.assertEqual(below(self.prefix), named(FILES))

    def test_a_relative_prefix_with_blanks(self):
        self.install("a folder/../b c")
        self.assertEqual(below(self.room / "b c"), named(FILES))
        self.assertIn(f"prefix={self.room}/b c\n", (self.room / "b c" / "lib" / "pkgconfig" / "mmdb.pc").read_text())

    def test_below_destdir(self):
        self.install("/usr", DESTDIR=str(self.room / "staged"))
        staged = self.room / "staged" / "usr"
        self.assertEqual({re.sub("python3[^/]*/(dist|site)-", "python3/dist-", file) for file in below(staged)}, named(FILES))
        for file in below(staged) - {"bin/mmdb", "lib/libmmdb.a"}:
            self.assertNotIn(bytes(self.room), (staged / file).read_bytes(), file)
        self.assertEqual(self.ran("--remove", "/usr", DESTDIR=str(self.room / "staged")).returncode, 0)
        self.assertEqual(below(self.room / "staged"), set())


class Uses(Installs):
    """What is installed works by itself."""

    def setUp(self):
        super().setUp()
        self.install()
        self.lib = self.prefix / "lib"
        self.where = {key: value for key, value in os.environ.items() if key not in ("MMDB_LIBRARY", "PYTHONDONTWRITEBYTECODE")}
        self.where["PKG_CONFIG_PATH"] = str(self.lib / "pkgconfig")

    def said_by(self, *words, **variables):
        how = {"stdout": subprocess.PIPE, "text": True, "timeout": harness.SECONDS, "check": True}
        return subprocess.run([*words], env={**self.where, **variables}, **how).stdout

    def test_the_program_runs(self):
        _, stream, answers = next(harness.rows())
        ran = subprocess.run([self.prefix / "bin" / "mmdb"], input=stream, capture_output=True, check=False)
        self.assertEqual((ran.returncode, ran.stdout, ran.stderr), (0, answers, b""))

    def test_the_modules_are_compiled(self):
        for folder in (self.prefix / "share" / "mmdb" / "shell" / "mmdb_shell", self.lib / "python3" / "dist-packages" / "mmdb"):
            compiled = {path.name.partition(".")[0] for path in (folder / "__pycache__").iterdir()}
            self.assertEqual(compiled, {path.stem for path in folder.glob("*.py")})

    def test_the_shell_runs(self):
        lines = "table t (id int)\ninsert t (7)\nselect * from t\n"
        where = {**self.where, "PATH": f"{self.prefix}/bin:{self.where['PATH']}"}
        ran = subprocess.run(["mmdb-shell"], input=lines, capture_output=True, text=True, env=where, timeout=harness.SECONDS, check=False)
        self.assertEqual((ran.returncode, ran.stdout, ran.stderr), (0, "t.id\n7\n", ""))
        self.assertEqual(self.ran("--remove", self.prefix).returncode, 0)
        self.assertFalse(self.prefix.exists())

    def test_the_package_is_imported(self):
        program, printed = embedding.first_program("docs/python.md", "python")
        modules = self.lib / "python3" / "dist-packages"
        self.assertEqual(self.said_by(sys.executable, "-c", program, PYTHONPATH=str(modules)), printed)
        self.assertEqual(self.ran("--remove", self.prefix).returncode, 0)
        self.assertFalse(self.prefix.exists())

    def test_a_folder_of_which_python_knows_gets_the_package(self):
        ask = "import site; print(*site.getsitepackages(), sep='\\n')"
        self.said_by(sys.executable, "-m", "venv", "--without-pip", self.room / "env")
        self.install(self.room / "env", PATH=f"{self.room}/env/bin:{os.environ['PATH']}")
        modules = pathlib.Path(self.said_by(self.room / "env" / "bin" / "python3", "-c", ask).split("\n", maxsplit=1)[0])
        self.assertTrue((modules / "mmdb" / "__init__.py").is_file())
        told = self.said_by(self.room / "env" / "bin" / "python3", "-c", "import mmdb; print(mmdb.__file__)")
        self.assertEqual(told, f"{modules}/mmdb/__init__.py\n")

    @unittest.skipUnless(shutil.which("pkg-config"), "pkg-config is not installed")
    def test_c_programs_are_built_by_pkg_config(self):
        page = (harness.ROOT / "docs" / "c.md").read_text()
        program, expected = re.search(r"```c\n(.*?)```.*?```text\n(.*?)```", page, re.DOTALL).groups()
        (self.room / "first.c").write_text(program)
        for name, asked, more in (("shared", ["--libs"], []), ("static", ["--libs-only-L"], ["-l:libmmdb.a"])):
            with self.subTest(name):
                built = self.room / name
                told = self.said_by("pkg-config", "--cflags", *asked, "mmdb").split()
                subprocess.run([*compiling.C, self.room / "first.c", *told, *more, "-o", built], check=True)
                found = {"LD_LIBRARY_PATH": str(self.lib)} if name == "shared" else {}
                self.assertEqual(self.said_by(built, **found), expected)
                needed = re.findall(r"NEEDED.*\[(libmmdb.*)\]", self.said_by("readelf", "-d", built))
                self.assertEqual(needed, [f"libmmdb.so.{MAJOR}"] if name == "shared" else [])
        self.assertEqual(self.said_by("pkg-config", "--modversion", "mmdb").strip(), harness.VERSION)
        self.assertEqual(self.said_by("pkg-config", "--variable=prefix", "mmdb").strip(), str(self.prefix))


@unittest.skipUnless(shutil.which("dpkg-deb"), "dpkg-deb is not installed")
class Package(Installs):
    """The package for Debian."""

    def make(self, *words):
        how = {"cwd": self.room, "capture_output": True, "text": True, "timeout": harness.SECONDS, "check": False}
        return subprocess.run([self.top / "scripts" / "make-package", *words], **how)

    def made(self, folder):
        ran = self.make(folder)
        self.assertEqual((ran.returncode, ran.stdout), (0, ""), ran.stderr)
        return self.room / folder / f"mmdb_{harness.VERSION}-1_amd64.deb"

    def test_what_it_has(self):
        package = self.made("made")
        self.assertEqual(self.made("again").read_bytes(), package.read_bytes())
        subprocess.run(["dpkg-deb", "--raw-extract", package, self.room / "raw"], check=True)
        raw = self.room / "raw"
        doc = "share/doc/mmdb/"
        here = named(FILES) - {f"{doc}CHANGELOG.md", f"{doc}LICENSE-APACHE", f"{doc}LICENSE-MIT", "share/mmdb/installed"}
        here |= {f"{doc}changelog.gz", f"{doc}changelog.Debian.gz", f"{doc}copyright", "share/lintian/overrides/mmdb"}
        self.assertEqual(below(raw / "usr"), {f"{file}.gz" if "/man/" in file else file for file in here})
        subprocess.run(["md5sum", "--check", "--quiet", "DEBIAN/md5sums"], cwd=raw, check=True)
        fields = dict(line.split(": ", 1) for line in (raw / "DEBIAN" / "control").read_text().splitlines() if line[0] != " ")
        self.assertEqual((fields["Package"], fields["Version"]), ("mmdb", f"{harness.VERSION}-1"))
        self.assertEqual((raw / "DEBIAN" / "prerm").stat().st_mode & 0o777, 0o755)
        self.assertEqual((raw / "usr" / "bin" / "mmdb").read_bytes(), harness.PROGRAM.read_bytes())

    @unittest.skipUnless(shutil.which("lintian"), "lintian is not installed")
    def test_lintian_finds_no_error(self):
        words = ["lintian", "--allow-root", "--fail-on=error", self.made("made")]
        ran = subprocess.run(words, stdout=subprocess.PIPE, stderr=subprocess.STDOUT, text=True, check=False)
        self.assertEqual(ran.returncode, 0, ran.stdout)

    def test_what_is_refused(self):
        (self.room / "file").write_text("")
        for status, why, *words in (
            (64, "usage: scripts/make-package"),
            (64, "usage: scripts/make-package", "a", "b"),
            (64, "usage: scripts/make-package", "--purge"),
            (70, "there is no folder file", "file"),
        ):
            with self.subTest(words):
                ran = self.make(*words)
                self.assertEqual((ran.returncode, ran.stdout), (status, ""))
                self.assertIn(why, ran.stderr)
        (self.top / "release" / "mmdb").unlink()
        self.assertEqual(self.make("made").returncode, 70)
        self.assertEqual(below(self.room / "made"), set())


class Refusals(Installs):
    """What can't be installed or removed leaves all as it was."""

    def test_wrong_words(self):
        for words in (["--purge"], ["-r"], ["--"], ["a", "b"], [""], ["--remove", "--as-released"], ['a"b'], ["a\nb"], ["$x"]):
            with self.subTest(words):
                self.refused(2, "usage: ./install", *words)

    def test_help(self):
        for word in ("--help", "-h"):
            ran = self.ran(word)
            self.assertEqual((ran.returncode, ran.stderr), (0, ""))
            self.assertIn("usage: ./install", ran.stdout)

    def test_a_prefix_that_is_no_folder(self):
        (self.room / "file").write_text("")
        (self.room / "nowhere").symlink_to("nothing")
        for prefix in ("file", "file/below", "nowhere"):
            with self.subTest(prefix):
                self.refused(1, "is not a folder", prefix)
        (self.prefix / "share").mkdir(parents=True)
        (self.prefix / "share" / "man").write_text("")
        self.refused(1, f"{self.prefix}/share/man is not a folder", self.prefix)

    def test_no_right_to_write(self):
        self.prefix.mkdir(0o555)
        self.refused(1, f"there is no right to write into {self.prefix}", self.prefix, how=NOBODY)
        self.prefix.chmod(0o755)
        self.install()
        (self.prefix / "bin").chmod(0o555)
        self.addCleanup((self.prefix / "bin").chmod, 0o755)
        self.refused(1, f"there is no right to write into {self.prefix}/bin", "--remove", self.prefix, how=NOBODY)

    def test_a_file_of_another(self):
        (self.prefix / "bin").mkdir(parents=True)
        (self.prefix / "bin" / "mmdb").write_text("another's")
        self.refused(1, f"{self.prefix}/bin/mmdb is there and was not installed", self.prefix)

    def test_what_fell_short_is_removed(self):
        """Files have fewer bytes than the program, and more than the list."""
        most = 1 << 16
        ran = self.ran(self.prefix, how={"preexec_fn": lambda: resource.setrlimit(resource.RLIMIT_FSIZE, (most, most))})
        self.assertEqual((ran.returncode, ran.stdout), (1, ""))
        self.assertIn(f"could not be installed whole; ./install --remove {self.prefix} takes away", ran.stderr)
        self.assertNotEqual(below(self.prefix), set())
        self.install("--remove", self.prefix)
        self.assertFalse(self.prefix.exists())

    def test_a_place_where_no_folder_can_be_made(self):
        ran = self.ran("/proc/mmdb")
        self.assertEqual((ran.returncode, ran.stderr.splitlines()[-1]), (1, "mmdb: so nothing is installed"))

    def test_nothing_to_remove(self):
        self.refused(1, "nothing is installed", "--remove", self.prefix)

    def test_a_damaged_list(self):
        self.install()
        for line in ("../copy/README.md", "/etc/passwd", "", "bin/../../x", "a\tb"):
            with self.subTest(line):
                (self.prefix / "share" / "mmdb" / "installed").write_text(f"bin/mmdb\n{line}\n")
                self.refused(1, "is damaged", "--remove", self.prefix)
                self.refused(1, "is damaged", self.prefix)

    def test_a_release_of_other_sources(self):
        with open(self.top / "include" / "mmdb.h", "a", encoding="utf-8") as header:
            header.write("/* changed */\n")
        self.refused(1, "of other sources", self.prefix)
        self.assertIn("of other sources", self.install("--as-released", self.prefix))
        self.assertEqual(below(self.prefix), named(FILES))
        self.assertNotIn("/* changed */", (self.prefix / "include" / "mmdb.h").read_text())

    def test_a_release_that_is_not_whole(self):
        release = self.top / "release"
        for name in ("mmdb", "libmmdb.so", "mmdb.pc", "mmdb.h", "mmdb.digests", "libmmdb.digests"):
            with self.subTest(name):
                kept = (release / name).read_bytes()
                (release / name).write_bytes(kept + b"x\n")
                self.refused(1, "has other digests", "--as-released", self.prefix)
                (release / name).unlink()
                self.refused(1, "release", "--as-released", self.prefix)
                (release / name).write_bytes(kept)
