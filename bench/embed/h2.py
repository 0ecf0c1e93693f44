"""H2, a database in Java, where it is installed: how its program is compiled and run."""

import pathlib
import shutil
import subprocess

JAR = pathlib.Path("/usr/share/java/h2.jar")
SOURCE = pathlib.Path(__file__).resolve().parent / "H2Side.java"
# A page of memory that is asked for is a large one, as for the C library.
LARGE_PAGES = "-XX:+UseTransparentHugePages"
# Java tells on the standard error what a machine can't do, and not among the figures.
SAYS_APART = "-XX:+DisplayVMOutputToStderr"


def is_installed():
    return JAR.is_file() and all(shutil.which(command) for command in ("java", "javac"))


def compiled(folder, *words):
    """The words that run the program, which is compiled into a folder."""
    subprocess.run(["javac", *words, "-cp", JAR, "-d", folder, SOURCE], check=True)
    return ["java", LARGE_PAGES, SAYS_APART, "-cp", f"{JAR}:{folder}", SOURCE.stem]
