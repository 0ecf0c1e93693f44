"""A run of the shell: its streams, the lines that it does, and its exit status."""

from __future__ import annotations

import gc
import io
import os
import sys
from typing import List, Optional, TextIO

import mmdb

from . import commands
from .boxes import PLAIN, look
from .files import opened
from .options import Options, options_of
from .reading import Stream, Terminal, prompt_in
from .shell import Settings, Shell
from .trouble import DONE, INTERRUPTED, NO_MEMORY, REFUSED, UNWRITABLE, Bailed, Quit, Trouble, Unwritable, fail


def main(words: Optional[List[str]]) -> int:
    """Runs the shell on the words of its start, and gives its exit status."""
    options = options_of(sys.argv[1:] if words is None else words)
    if sys.stdin is None:
        return fail(REFUSED, "standard input is closed")
    if sys.stdout is None:
        return fail(UNWRITABLE, "standard output is closed")
    # Rows are many objects and no circles, so a search for circles is seldom worth its time.
    gc.set_threshold(50_000, 20, 100)
    try:
        return _run(options)
    except mmdb.NoMemory:
        return fail(NO_MEMORY, "no memory")
    except Unwritable as why:
        _give_up(sys.stdout)
        return fail(UNWRITABLE, f"standard output can't be written to: {why}")
    except KeyboardInterrupt:
        return INTERRUPTED
    except SystemExit:
        _give_up(sys.stdout)
        raise


def _give_up(stream: TextIO) -> None:
    """Lets a stream that may not be written to any more end in silence."""
    nowhere = os.open(os.devnull, os.O_WRONLY)
    os.dup2(nowhere, stream.fileno())
    os.close(nowhere)


def _run(options: Options) -> int:
    is_at_terminal = sys.stdin.isatty() and sys.stdout.isatty()
    _encode(sys.stdout, None if is_at_terminal else "utf-8", "replace" if is_at_terminal else "surrogateescape")
    _encode(sys.stderr, None, "backslashreplace")
    drawn = look(sys.stdout.encoding, is_folded=is_at_terminal)
    if options.is_plain:
        drawn = drawn._replace(marks=PLAIN)
    settings = Settings(options.policy, options.rows, options.block)
    shell = Shell(settings, sys.stdout, sys.stderr, drawn, is_at_terminal)
    shell.mode, shell.bails = options.mode or shell.mode, options.bails
    shell.interrupts.install()
    try:
        return _session(shell, options)
    finally:
        shell.db.close()


def _encode(stream: TextIO, encoding: Optional[str], errors: str) -> None:
    """Says how a stream writes characters. Where nobody looks at them they stay what they are, in UTF-8."""
    if isinstance(stream, io.TextIOWrapper):
        stream.reconfigure(encoding=encoding, errors=errors)


def _session(shell: Shell, options: Options) -> int:
    """Does what was asked for, to its end or to that which a line asks for."""
    is_asked = bool(options.files or options.lines)
    is_typed = shell.is_at_terminal and not is_asked
    try:
        if not _begun(shell, options, is_typed):
            return REFUSED
        if is_typed:
            _at_terminal(shell)
        elif is_asked:
            _do_asked(shell, options)
        else:
            shell.run(Stream(sys.stdin.buffer, ""))
    except Quit as why:
        if why.status is not None:
            return why.status
    except Bailed:
        pass
    finally:
        _end_output(shell)
        if shell.transactions.count:
            shell.tell("a transaction was open, and ends with the database: it wasn't committed")
    return REFUSED if shell.refused and not is_typed else DONE


def _end_output(shell: Shell) -> None:
    """Ends the place where answers go, and shows those that weren't shown yet."""
    try:
        shell.output.back()
    except Trouble as why:
        shell.refused += 1
        shell.tell(str(why))
    shell.output.flush()


def _begun(shell: Shell, options: Options, is_typed: bool) -> bool:
    """Restores the dump that was named, and does the init file. Tells whether the session goes on."""
    try:
        if options.restored is not None:
            commands.filing.restore(shell, options.restored)
    except (mmdb.Refused, Trouble, MemoryError) as why:
        return _refused(shell, why)
    if options.init is not None:
        return _do_file(shell, options.init)
    if options.has_init and is_typed and os.path.exists(init_file()):
        _do_init(shell)
    return True


def _do_init(shell: Shell) -> None:
    """Does the user's init file at a terminal. Where it ends early, the prompt comes all the same."""
    try:
        _do_file(shell, init_file())
    except Bailed:
        pass
    except KeyboardInterrupt:
        shell.tell("interrupted")


def init_file() -> str:
    """The file whose lines are done first at a terminal."""
    folder = os.environ.get("XDG_CONFIG_HOME", "")
    folder = folder if os.path.isabs(folder) else os.path.join(os.path.expanduser("~"), ".config")
    return os.path.join(folder, "mmdb", "init")


def _do_asked(shell: Shell, options: Options) -> None:
    """Does the files and the lines that were named."""
    for path in options.files:
        if path == "-":
            shell.run(Stream(sys.stdin.buffer, ""))
        elif not _do_file(shell, path):
            return
    for line in options.lines:
        shell.run(Stream(io.BytesIO(line.encode("utf-8", "surrogateescape")), "-c"))


def _do_file(shell: Shell, path: str) -> bool:
    """Does the lines of a file, and tells whether it could be read."""
    try:
        with opened(path, shell.interrupts) as file:
            shell.run_file(Stream(file, path))
        return True
    except Trouble as why:
        return _refused(shell, why)


def _refused(shell: Shell, why: Exception) -> bool:
    """Tells what ends the session, which doesn't go on."""
    shell.refused += 1
    shell.tell(str(why) or "no memory was found for it")
    return False


def _at_terminal(shell: Shell) -> None:
    """Answers what is typed."""
    # Not without a terminal, as readline looks at one as soon as it is there.
    from . import editing

    terminal = Terminal()
    terminal.prompt = lambda: prompt_in(shell.transactions.count)
    history = editing.prepare(shell, terminal)
    try:
        shell.output.say(
            f"mmdb {mmdb.__version__}, with tables in main memory that end with this shell; .help tells more.\n"
        )
        shell.run(terminal)
        shell.output.say("\n")
    finally:
        editing.keep(shell, history)
