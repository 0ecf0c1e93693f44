"""CSV of any size: its pieces, cut into whole records, and its records as a load has them."""

from __future__ import annotations

import collections.abc
import functools
import io
import itertools
import operator
import re
import warnings
from typing import TYPE_CHECKING, Any, Iterable, Iterator, List, Optional, Protocol, Sequence, Tuple, Union

from .chosen import extension
from .errors import CsvWarning, WrongType, WrongValue
from .loads import Records, blocks, checked_names, header_of, written
from .quotes import MARK, Form, first_odd
from .values import Column, as_bytes, joined_records, quoted_fields

#: How many bytes or characters are read at once.
PIECE = 1 << 20

# How many records with quote marks are read at once. (Of more, the collector of garbage would look at each again and again.)
_READ_AT_ONCE = 500

# How long a record may be.
_LONGEST = 1 << 24

_ENDS = re.compile("\r\n|\r|\n")


class Readable(Protocol):
    """A file of text or of bytes, or what reads as one."""

    def read(self, count: int, /) -> Union[str, bytes]:
        """At most so many bytes or characters, and none at the end."""


# ---- pieces


def pieces_of(given: Any) -> Iterator[bytes]:
    """A CSV piece by piece, that is given as text, as bytes, as a file, or as an iterable of pieces."""
    if isinstance(given, (str, bytes, bytearray, memoryview)):
        content = as_bytes(given)
        return iter([content]) if len(content) <= PIECE else (content[at : at + PIECE] for at in range(0, len(content), PIECE))
    if callable(getattr(given, "read", None)):
        return map(as_bytes, _read(given))
    if isinstance(given, collections.abc.Iterable):
        return _gathered(map(as_bytes, given))
    raise WrongType(f"mmdb: a CSV is a str, bytes, a file or an iterable of these, not {type(given).__name__}")


def _read(file: Any) -> Iterator[Any]:
    while True:
        piece = file.read(PIECE)
        if isinstance(piece, (str, bytes)) and not piece:
            return
        yield piece


def _gathered(pieces: Iterable[bytes]) -> Iterator[bytes]:
    """Pieces, such as lines, joined to longer ones."""
    held: List[bytes] = []
    size = 0
    for piece in pieces:
        held.append(piece)
        size += len(piece)
        if size >= PIECE:
            yield b"".join(held)
            held, size = [], 0
    yield b"".join(held)


def front_of(pieces: Iterator[bytes], size: int) -> bytes:
    """The front of a CSV, up to its end or to more than so many bytes."""
    held: List[bytes] = []
    while size >= 0:
        piece = next(pieces, None)
        if piece is None:
            break
        held.append(piece)
        size -= len(piece)
    return held[0] if len(held) == 1 else b"".join(held)


# ---- whole records


def cut(pieces: Iterable[bytes], first: int, others: int) -> Iterator[bytes]:
    """A CSV in chunks of whole records, of which the first and the others have at most so many bytes. One in which no
    record ends is longer, and the last."""
    left, most = b"", first
    for piece in pieces:
        left += piece
        while len(left) > most:
            end = records_end(left, max(most, 0))
            if not end:
                yield left
                return
            yield left[:end]
            left, most = left[end:], max(others, 0)
    if left:
        yield left


def _whole(pieces: Iterable[bytes], form: Form) -> Iterator[bytes]:
    """A CSV in chunks of whole records."""
    left = b""
    for piece in pieces:
        left += piece
        end = records_end(left, len(left), form)
        if end:
            yield left[:end]
            left = left[end:]
        elif len(left) > _LONGEST:
            break
    if left:
        yield left


def records_end(text: bytes, most: int, form: Form = Form()) -> int:
    """Where the last record ends that ends within the first `most` bytes, which begin with one; 0 where none does."""
    # Quoted fields are passed many at once, and those behind the last of these places one by one. (Mostly a record ends there.)
    places, at = [0], 0
    while form.quote and text.find(form.quote, at, most) >= 0:
        many = form.many.match(text, at, most)
        opening = form.opening.search(text, many.end() if many else at, most)
        if not opening:
            break
        at = _behind_quotes(text, opening.end(), most, form)
        places.append(at)
    ends = (_end_behind(text, place, most, form) for place in reversed(places))
    return next(filter(None, ends), 0)


def _end_behind(text: bytes, at: int, most: int, form: Form) -> int:
    """The same, of records behind a place that is in no quoted field."""
    end = 0
    while True:
        opening = form.opening.search(text, at, most) if form.quote else None
        stop = opening.start() if opening else most
        end = max(end, text.rfind(b"\n", at, stop) + 1, text.rfind(b"\r", at, stop) + 1)
        if not opening:
            return end
        at = _behind_quotes(text, stop + 1, most, form)


def _behind_quotes(text: bytes, at: int, most: int, form: Form) -> int:
    """Where a quoted field ends whose first byte behind the opening mark stands at `at`."""
    while True:
        at = text.find(form.quote, at, most)
        if at < 0:
            return most
        if text[at + 1 : at + 2] != form.quote:
            return at + 1
        at += 2


# ---- odd quote marks


class Watch:
    """Watches for the first field whose quote marks are odd. It is warned of in the line of a caller, or raised."""

    def __init__(self, form: Form, is_strict: bool, caller: Any) -> None:
        self._form, self._is_strict, self._caller = form, is_strict, caller
        self._is_over = False

    def look(self, chunk: bytes, number: int) -> None:
        """Looks at some records, of which the first has this number."""
        odd = None if self._is_over else first_odd(chunk, self._form, number)
        if odd is None:
            return
        self._is_over = True
        if self._is_strict:
            raise WrongValue(odd.told())
        names = self._caller.f_globals
        warnings.warn_explicit(
            CsvWarning(odd.told(), odd.record),
            CsvWarning,
            self._caller.f_code.co_filename,
            self._caller.f_lineno,
            names.get("__name__"),
            names.setdefault("__warningregistry__", {}),
        )


# ---- records in the order of columns


def _not_picked(
    content: bytes, separator: bytes, width: int, places: Tuple[int, ...], is_checked: bool, has_quotes: bool
) -> Optional[Tuple[bytes, int]]:
    """The records of a load, with line feeds between them, that have fields of records, and how many they are. Each has so many
    fields, which may stand between quote marks; those of the columns are in these places, or -1 for none. They are checked for what
    needs quote marks in a block. Gives None where one has another number of fields, or odd marks. (Only the extension has them.)"""
    return None


if TYPE_CHECKING or extension is None:
    picked_lines = _not_picked
else:
    picked_lines = extension.picked_lines


class Picked:
    """The records of a CSV, with the fields that columns take, as a load has them."""

    def __init__(self, table: str, columns: List[Column], names: Optional[Sequence[str]], form: Form) -> None:
        self._table, self._declared, self._form = table, columns, form
        self._separator = form.separator.decode()
        self._names = None if names is None or not columns else checked_names(table, columns, names)
        #: The names of the block.
        self.header = encode(header_of(columns))
        self._width = 0
        self._places: List[Optional[int]] = []
        self._numbers: Tuple[int, ...] = ()

    def blocks(self, pieces: Iterator[bytes], watch: Watch, limit: int) -> Iterator[bytes]:
        """The blocks of a load of a CSV, each of at most so many bytes."""
        if not self._declared:
            # (there is no such table, as the library says)
            return iter([b""])
        records = self._records(pieces, watch)
        # (the header is known then)
        first = list(itertools.islice(records, 1))
        return blocks(self.header, itertools.chain(first, records), limit)

    def _records(self, pieces: Iterable[bytes], watch: Watch) -> Iterator[Records]:
        """The records of a CSV, chunk by chunk, without that of its names, which gives the header."""
        before = -1
        for chunk in _whole(pieces, self._form):
            watch.look(chunk, before + 1)
            if len(chunk) > _LONGEST:
                raise WrongValue(f"mmdb: record {before + 1} of the CSV has more than {_LONGEST} bytes")
            has_quotes = bool(self._form.quote) and self._form.quote in chunk
            if before >= 0 and (not has_quotes or self._form.quote == Form().quote):
                is_checked = has_quotes or self._form != Form()
                picked = picked_lines(chunk, self._form.separator, self._width, self._numbers, is_checked, has_quotes)
                if picked:
                    yield Records(picked[0], functools.partial(_records_in, picked[0]))
                    before += picked[1]
                    continue
            text = chunk[len(MARK) if before < 0 and chunk.startswith(MARK) else 0 :].decode("utf-8", "surrogateescape")
            several: Iterable[Any] = self._read(text, before) if has_quotes else [_lines_of(text)]
            for found in several:
                if before < 0 and found:
                    names = found.pop(0)
                    self._take_names(names if has_quotes else names.split(self._separator))
                    before = 0
                if found:
                    columns = self._columns(found, before) if has_quotes else self._columns_of_lines(found, before)
                    yield written(joined_records(list(map(quoted_fields, columns))), encode)
                    before += len(found)
        if before < 0:
            raise WrongValue("mmdb: the CSV has no record of names")

    def _read(self, text: str, before: int) -> Iterator[List[List[str]]]:
        """The fields of the records of a text with quote marks, of some records at once."""
        import csv

        reader = csv.reader(io.StringIO(text, newline=""), delimiter=self._separator, quotechar=self._form.quote.decode())
        records = filter(None, reader)
        while True:
            found: List[List[str]] = []
            try:
                found.extend(itertools.islice(records, _READ_AT_ONCE))
            except csv.Error as why:
                raise WrongValue(f"mmdb: the CSV has a bad record behind record {before + len(found)}: {why}") from None
            if not found:
                return
            before += len(found)
            yield found

    def _take_names(self, fields: List[str]) -> None:
        """Finds the fields of the columns by the record of names."""
        self._width = len(fields)
        if self._names is None:
            self.header = encode(joined_records([quoted_fields([field]) for field in fields])[0])
            self._place(range(self._width))
            return
        for name in self._names:
            if fields.count(str(name)) != 1:
                many = "no column" if str(name) not in fields else "several columns"
                raise WrongValue(f"mmdb: the CSV has {many} {name}: its first record is the names of its columns")
        self._place(fields.index(column.name) if column.name in self._names else None for column in self._declared)

    def _place(self, places: Iterable[Optional[int]]) -> None:
        """Keeps where the fields of the columns are."""
        self._places = list(places)
        self._numbers = tuple(-1 if at is None else at for at in self._places)

    def _columns(self, found: List[List[str]], before: int) -> List[List[str]]:
        """The fields that the columns take of some records."""
        self._check_widths(list(map(len, found)), self._width, before)
        nulls = [""] * len(found)
        return [nulls if at is None else list(map(operator.itemgetter(at), found)) for at in self._places]

    def _columns_of_lines(self, lines: List[str], before: int) -> List[List[str]]:
        """The same of records without quote marks, each a line. (To split each line would take several times as long.)"""
        separator = self._separator
        self._check_widths(list(map(str.count, lines, itertools.repeat(separator))), self._width - 1, before)
        nulls, fields = [""] * len(lines), separator.join(lines).split(separator)
        return [nulls if at is None else fields[at :: self._width] for at in self._places]

    def _check_widths(self, counts: List[int], wanted: int, before: int) -> None:
        """Raises WrongValue where a record has another number of fields, or of separators, than the names."""
        if set(counts) != {wanted}:
            at, count = next((at, count) for at, count in enumerate(counts) if count != wanted)
            count += self._width - wanted
            raise WrongValue(f"mmdb: record {before + 1 + at} of the CSV has {count} fields, and its names are {self._width}")


def _records_in(content: bytes) -> Iterator[bytes]:
    """The records of these, which have line feeds between them, and in them only between quote marks."""
    lines = iter(content.split(b"\n"))
    for line in lines:
        record, is_open = [line], line.count(b'"') % 2
        while is_open:
            record.append(next(lines))
            is_open ^= record[-1].count(b'"') % 2
        yield b"\n".join(record)


def _lines_of(text: str) -> List[str]:
    """The lines of a text that have a character."""
    return list(filter(None, _ENDS.split(text) if "\r" in text else text.split("\n")))


def encode(text: str) -> bytes:
    """The bytes that a text was read of, which are others than UTF-8 too."""
    return text.encode("utf-8", "surrogateescape")
