"""Files that are written whole or not at all."""

from __future__ import annotations

import errno
import os
import stat
from contextlib import contextmanager
from typing import BinaryIO, Callable, Iterator, Optional, Tuple

# Below these stand devices, and what a process has open.
_STRAIGHT = ("/dev/", "/proc/")
# The files that this process has open, by their numbers.
_OPEN = "/proc/self/fd"


def _opened(name: str) -> BinaryIO:
    return open(name, "wb")


@contextmanager
def written(name: str, straight: Callable[[str], BinaryIO] = _opened) -> Iterator[BinaryIO]:
    """A file to be written, which takes its place once it is whole: if that fails, what stood there stays. What is no
    plain file, as a pipe or a device, is written straight. Raises OSError."""
    is_there = os.path.exists(name)
    if os.path.isdir(name):
        raise _error(errno.EISDIR, name)
    if is_there and not os.access(name, os.W_OK):
        raise _error(errno.EACCES, name)
    if name.startswith(_STRAIGHT) or is_there and not os.path.isfile(name):
        with straight(name) as file:
            yield file
    else:
        yield from _replacing(os.path.realpath(name))


def _error(number: int, name: str) -> OSError:
    return OSError(number, os.strerror(number), name)


def _replacing(place: str) -> Iterator[BinaryIO]:
    folder, name = os.path.split(place)
    if not os.path.exists(folder):
        raise _error(errno.ENOENT, folder)
    number, new = _begun(folder, name)
    try:
        with open(number, "wb") as file:
            os.fchmod(number, _mode(place))
            yield file
            file.flush()
            os.fsync(number)
            new = new or _linked(number, place)
            if new is not None:
                os.replace(new, place)
    except BaseException:
        if new is not None:
            os.unlink(new)
        raise


def _begun(folder: str, name: str) -> Tuple[int, Optional[str]]:
    """A new file, which has no name until it is whole, so that a process that is killed leaves none behind. Where there is
    no such file to be had, or none that could be linked, it has a name beside its place."""
    try:
        if os.path.isdir(_OPEN):
            return os.open(folder, os.O_TMPFILE | os.O_WRONLY, 0o600), None
    except OSError:
        pass  # (what is wrong with the folder is told by the next)
    # (it takes a while to load)
    import tempfile

    try:
        return tempfile.mkstemp(dir=folder, prefix=f".{name[:60]}.")
    except OSError as why:
        raise OSError(why.errno, why.strerror, folder) from why


def _linked(number: int, place: str) -> Optional[str]:
    """Gives a file without a name that of its place; or, where something stands there, another, which it tells."""
    try:
        _link(number, place)
        return None
    except FileExistsError:
        folder, name = os.path.split(place)
        new = os.path.join(folder, f".{name[:60]}.{os.urandom(8).hex()}")
        _link(number, new)
        return new


def _link(number: int, name: str) -> None:
    numbers = os.open(_OPEN, os.O_RDONLY)
    try:
        # (with a folder that the number stands in, the file is linked, and not what /proc has in its place)
        os.link(str(number), name, src_dir_fd=numbers)
    finally:
        os.close(numbers)


def _mode(place: str) -> int:
    """The rights of the file that stands there, or of a new one."""
    if os.path.exists(place):
        return stat.S_IMODE(os.stat(place).st_mode)
    mask = os.umask(0)
    os.umask(mask)
    return 0o666 & ~mask
