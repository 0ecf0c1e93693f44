"""A database, by lines and by statements."""

from __future__ import annotations

import contextlib
import functools
import itertools
import os
import sys
import weakref
from typing import (
    TYPE_CHECKING,
    Any,
    Callable,
    Dict,
    Generator,
    Iterable,
    Iterator,
    List,
    Mapping,
    NoReturn,
    Optional,
    Sequence,
    Tuple,
    Type,
    TypeVar,
    Union,
)

from . import dumps, watching
from .chosen import extension
from .conversions import Converter, converter_of
from .csvs import Picked, Readable, Watch, cut, front_of, pieces_of
from .errors import Interrupted, InTransaction, NoMemory, NoTransaction, OperationalError, Refused, Shared, WrongType, WrongUse, refusal_of
from .files import written
from .handles import Handle
from .indexes import Index, indexes_of
from .lines import CHANGES, Placed, check_kind, check_line, filled_table, one_line, placed
from .loads import CHUNK, MANY, Arrange, blocks_of_rows, by_name, by_order, chunked, header_of, in_whole, kept_names, plain_blocks
from .pages import PAGE, page_size, rows_by_page
from .quotes import Form, form_of
from .rows import Row, Rows, Shape, most_rows, shape_of
from .statement import Statement
from .values import Column, Value, as_bytes, columns_of, encoded, stored_rows, stored_values

if TYPE_CHECKING:
    from .readers import Reader

#: How plans are chosen. No policy changes an answer.
POLICIES = ("auto", "scan", "hash", "tree", "merge")

#: The greatest number of rows of a table, and of bytes of a block.
MOST = 1 << 24

#: The parameters of one line: values in their order, or by name.
Parameters = Union[Sequence[Any], Mapping[str, Any]]

_Restored = TypeVar("_Restored", bound="Database")

# The lines of the calls that don't take all.
_TAKEN = {"select": ("select",), "change": CHANGES}

# The statuses of mmdb.h for a call that isn't done.
_NOT_OPEN, _NOT_ONE_REQUEST, _NO_MEMORY, _NO_SUCH_STATEMENT, _TOO_LARGE = 1, 6, 7, 9, 13
_SHARED, _NO_TRANSACTION, _IN_TRANSACTION, _INTERRUPTED = 14, 15, 16, 18

# The databases of this process, which a child of fork has copies of.
_DATABASES: weakref.WeakSet[Database] = weakref.WeakSet()


def _begin_child() -> None:
    """Renews the turns of all databases in a child of fork, which has none of the threads that had them."""
    for database in list(_DATABASES):
        database._renew_turn()
        if database._watches:
            database._watches.keep_one_thread()


if hasattr(os, "register_at_fork"):
    os.register_at_fork(after_in_child=_begin_child)


class Database(Handle):
    """A database in main memory, without tables at first.

    `policy` is one of `POLICIES`. `rows` is the most rows of a table, 1 to `MOST`; `block` the most bytes of a
    block of a load or a dump, up to `MOST`. Used as a context manager, it is closed at the end.
    Each call of a closed one but `close` raises ValueError.

    Threads may share it: their calls run one after another. A signal handler and a `__del__` must not use it, but for `interrupt`.
    """

    def __init__(self, policy: str = "auto", rows: int = MOST, block: int = MOST) -> None:
        if policy not in POLICIES:
            raise WrongUse(f"mmdb: a policy is one of {', '.join(POLICIES)}, not {policy!r}")
        if not 1 <= rows <= MOST or not 0 <= block <= MOST:
            raise WrongUse(f"mmdb: rows lie from 1 to {MOST}, and block from 0 to {MOST}")
        self._declared: Optional[Dict[str, List[Column]]] = None
        self._converters: Dict[str, Converter] = {}
        self._block = block
        #: Whose its tables are: a reader has that of the database that shares them.
        self._source = object()
        #: The functions that are told of changes, if there ever was one.
        self._watches: Optional[watching.Watches] = None
        super().__init__(POLICIES.index(policy), rows, block)
        _DATABASES.add(self)

    def __enter__(self) -> Database:
        return self

    def __exit__(self, *_: object) -> None:
        self.close()

    def __copy__(self) -> Database:
        """A database of its own with the same tables, rows and indexes, for `copy.copy`.

        They are copied as they lie in memory, and not by a dump. Raises `InTransaction` in a transaction.
        """
        copied = Database(block=self._block)
        try:
            with self._turn:
                self._clone(copied)
        except BaseException:
            copied.close()
            raise
        if self._converters:
            copied._read_by(self._converters)
        return copied

    def __reduce__(self) -> Any:
        raise TypeError("mmdb: a Database isn't pickled; copy.copy makes a copy of one")

    if TYPE_CHECKING:
        # (these are those of the handle, so that what goes well doesn't come by here)

        def execute(self, line: str, /, *parameters: Any, **named: Any) -> Any:
            """Does what a command says, and gives what it answers.

            Each `?` of the line that stands in no text is the place of a parameter, an int, a str or None, which is
            null, or a value of a type with an adapter. Where the places are of the form `:name`, the parameters are given
            as keywords, or as a mapping.

            A select gives its `Rows`; `insert`, `update` and `delete` give how many rows they were about; `tables`
            gives the text of the declarations, each with a line feed, and `dump` the text of the load that it answers.
            All other commands give None, and so do comments and blank lines. A command may be written over several
            lines, some of which may be comments.

            Raises `Refused` where it is refused. Raises ValueError where the parameters don't fit the places, a text
            has a lone surrogate, an integer has more than 64 bits, a text that is written in the line has a line feed,
            or it is a load with a block. Raises TypeError where a parameter is of any other type, float among them.
            """

        def select(self, line: str, /, *parameters: Any, **named: Any) -> Rows:
            """Does a select, and gives its rows.

            Raises what `execute` raises, and TypeError for a line that begins with the word of another command.
            """

        def change(self, line: str, /, *parameters: Any, **named: Any) -> int:
            """Does an insert, an update or a delete, and gives how many rows it was about.

            Raises what `execute` raises, and TypeError for a line that begins with the word of another command.
            """

    def prepare(self, line: str) -> Statement:
        """An insert, an update, a delete or a select that is prepared once, to be executed many times.

        Raises `Refused` if it is refused whatever its parameters are. Raises TypeError for a line that begins with
        the word of another command.
        """
        return Statement(self, line)

    def count(self, line: str, /, *parameters: Any, **named: Any) -> int:
        """How many rows a select shows: they are counted, and none is made.

        Raises what `select` raises.
        """
        check_kind("count", line, "select")
        at = placed(line)
        count: int = self._count(str.__str__(line), at, at.fitting(parameters, named))
        return count

    def first(self, most: int, line: str, /, *parameters: Any, **named: Any) -> Rows:
        """The first rows of a select, so many at most, in the order in which `select` returns all of them.

        Of one table no more rows are looked at than it takes, unless an index on another column finds them. So a large table
        is read page by page, by `where id > ?` and the last key of a page, and it may change between two pages.

        Raises what `select` raises, and ValueError if `most` is less than 0.
        """
        check_kind("first", line, "select")
        count, at = most_rows(most), placed(line)
        rows: Rows = self._first(str.__str__(line), at, (count, *at.fitting(parameters, named)))
        return rows

    def iterate(self, line: str, /, *parameters: Any, page: int = PAGE, **named: Any) -> Generator[Row, None, None]:
        """The rows of a select one after the other, as `select` returns them, of which so many are held at a time.

        The first page is read at once, and each further one when it is asked for, of one table by the last key. If the table was
        changed since, the iterator raises `Changed` in the place of the first row of the page. (A place `:page` takes its value from
        a mapping.)

        A select of several tables, a `distinct` one, and one that has as many items or conditions as may be hold their rows as
        references, and the tables: until the last page was read, or `close()` of the iterator, a change raises `Shared`. In a
        transaction they are read whole.

        Raises what `select` raises, and ValueError if `page` is less than 1.
        """
        check_kind("iterate", line, "select")
        at, size = placed(line), page_size(page)
        return rows_by_page(self, str.__str__(line), at, stored_values(at.fitting(parameters, named)), size)

    def executemany(self, line: str, rows: Iterable[Parameters]) -> int:
        """Executes an insert, an update or a delete with each row of parameters, and returns the number of all rows.

        Each row is a tuple or list of values, or a mapping of names to values. All are checked before the first is
        executed, so if one doesn't fit nothing is done. If one is refused, those before it are done, and
        `Refused.line` says which it was. No call of another thread comes between.

        Raises what `change` raises.
        """
        check_kind("executemany", line, *CHANGES)
        at = placed(line)
        given = at.fitting_rows(rows)
        if at.is_statement and given:
            return self._execute_each(at, given, functools.partial(self._done_many, str.__str__(line), at))
        lines = [encoded(at.filled(values)) for values in stored_rows(given)]
        with self._turn:
            return sum(map(self._counted, lines))

    def _execute_each(self, at: Placed, rows: List[Tuple[Any, ...]], do: Callable[[List[Tuple[Any, ...]]], int]) -> int:
        """Executes a line with each of these rows of values, by a function or, where it puts many rows in, by loads as far as
        these go."""
        # (the extension puts many in by one call itself)
        table = filled_table(at) if len(rows) >= MANY and extension is None else None
        if table is None:
            return do(rows)
        with self._alone():
            count = self._put_in(table, rows)
            return count + do(rows[count:]) if count < len(rows) else count

    def _put_in(self, table: str, rows: List[Tuple[Any, ...]]) -> int:
        """Puts rows in by loads, up to one that is refused, and gives how many went in. None do if a load can't have them."""
        count = 0
        for block, size in plain_blocks(self._known(table), rows, self._block):
            try:
                with self._turn:
                    self._loaded(table, block)
            except (Refused, Shared):
                break
            count += size
        return count

    def interrupt(self) -> None:
        """Asks the select to end that is under way, by any thread: its call raises `Interrupted`. Nothing is waited for.

        Nothing is done if none is under way, and if it is closed. What changes tables or answers texts goes on to its end.
        """
        self._interrupt()

    def begin(self) -> None:
        """Begins a transaction, which `commit` or `rollback` ends. In another it is a savepoint of that.

        It is one of the database, for all threads. Raises `Shared` while readers or iterators share the tables.
        """
        with self._turn:
            self._begin()

    def commit(self) -> None:
        """Ends the innermost transaction, and keeps what was done in it.

        A rollback of an outer one still undoes it. Raises `NoTransaction` if none is open.
        """
        with self._turn:
            self._commit()

    def rollback(self) -> None:
        """Ends the innermost transaction, and restores the tables that it began with, for which it needs no memory.

        Raises `NoTransaction` if none is open.
        """
        with self._turn:
            is_watched = self._undo()
        if is_watched:
            self._tell()

    @property
    def in_transaction(self) -> bool:
        """Whether a transaction is open."""
        with self._turn:
            return self._transactions() > 0

    @contextlib.contextmanager
    def transaction(self) -> Iterator[None]:
        """A transaction for a `with`, at whose end it is committed. At an exception it is rolled back.

        Those that were begun in it and are still open end with it. Raises what `begin` raises, and at its end
        `NoTransaction` if it was ended before.
        """
        with self._turn:
            self._begin()
            depth = self._transactions()
        try:
            yield
        except BaseException:
            with self._turn:
                self._end(depth, self._undo)
            if self._watches:
                self._tell()
            raise
        with self._turn:
            if self._transactions() < depth:
                self._failed(_NO_TRANSACTION)
            self._end(depth, self._commit)

    def load(self, table: str, rows: Iterable[Iterable[Any]], columns: Optional[Sequence[Optional[str]]] = None) -> int:
        """Puts these rows into a table, all of them or none, and gives how many they are.

        Each row has a value for each column, in their order, or in that of `columns`: the names of the columns, or None
        for a value that is left out. Columns that aren't named get nulls. A text may have line feeds here.

        The rows may be any number. They are taken from an iterator one after another, and sent in blocks. If these are
        several, they are one transaction. Other threads wait with their calls while many rows are taken, so the iterator
        must not wait for them.

        Raises `Refused` as the language says. Raises ValueError if a row has another number of values, a text has a
        lone surrogate, an integer has more than 64 bits, or an empty text would go into a reference that takes nulls,
        where a load would read null. Raises TypeError if a value has another type than its column, and if a row is a
        str, a dict or no row at all. Whatever is raised, also by the iterator, no row has gone in.
        """
        names = kept_names(columns)
        return self._load_rows(table, rows, lambda declared: by_order(table, declared, names))

    def load_dicts(self, table: str, dicts: Iterable[Mapping[str, Any]], columns: Optional[Sequence[str]] = None) -> int:
        """Puts rows into a table that are given by the names of its columns, all of them or none.

        With `columns` only these are taken of each dict, and others get nulls. Raises what `load` raises, and ValueError
        if a dict lacks a column or, without `columns`, has a key that is none.
        """
        names = kept_names(columns)
        return self._load_rows(table, dicts, lambda declared: by_name(table, declared, names))

    def load_csv(
        self,
        table: str,
        block: Union[str, bytes, Readable, Iterable[Union[str, bytes]]],
        strict: bool = False,
        *,
        columns: Optional[Sequence[str]] = None,
        separator: str = ",",
        quote: Optional[str] = '"',
    ) -> int:
        """Puts the rows of a CSV into a table, all of them or none, and gives how many they are.

        It is text or bytes, a file, or an iterable of pieces, as lines are, of any size. Its first record has the names of
        all columns, in their order. With `columns` it has the names of its own columns, in any order: those that are
        named are taken, and columns of the table that aren't named get nulls. Fields are separated by `separator`, and
        those that `quote` encloses may have any character; without it none do. Raises what `load` raises.

        A field whose quote mark is never closed holds all that follows, and `"x"y` is read as `xy`. The first such field is
        warned of by a `CsvWarning`. With `strict` it raises ValueError, and no row goes in.
        """
        form, pieces = form_of(separator, quote), pieces_of(block)
        watch = Watch(form, strict, sys._getframe(1))
        if columns is None and form == Form():
            return self._load_file(table, pieces, watch)
        with self._alone():
            picked = Picked(table, self._known(table), columns, form)
            return self._load_blocks(table, picked.blocks(pieces, watch, self._block))

    def _load_rows(self, table: str, rows: Iterable[Any], arranged: Callable[[List[Column]], Arrange]) -> int:
        """Puts rows into a table, which a function arranges in the order of its columns."""
        rest = iter(rows)
        given = list(itertools.islice(rest, CHUNK))
        if len(given) < CHUNK:
            count = self._load_few(table, given, arranged)
            if count is not None:
                return count
        with self._alone():
            declared = self._known(table)
            return self._load_blocks(table, blocks_of_rows(declared, arranged(declared), chunked(given, rest), self._block))

    def _load_few(self, table: str, rows: List[Any], arranged: Callable[[List[Column]], Arrange]) -> Optional[int]:
        """Puts rows into a table. Does nothing, and gives None, if they are more than one block.

        It is made while other threads may use the database, and again if the table was declared anew meanwhile.
        """
        columns = self._known(table)
        while True:
            blocks = list(blocks_of_rows(columns, arranged(columns), [rows], self._block))
            if len(blocks) > 1:
                return None
            with self._turn:
                before, columns = columns, self._columns(table)
                count = self._loaded(table, blocks[0]) if columns == before else None
            if self._watches:
                self._tell()
            if count is not None:
                return count

    def _load_file(self, table: str, pieces: Iterator[bytes], watch: Watch) -> int:
        """Puts in a CSV that is in the form of a load."""
        front = front_of(pieces, self._block)
        if len(front) <= self._block:
            watch.look(front, 0)
            with self._turn:
                count = self._loaded(table, front)
            if self._watches:
                self._tell()
            return count
        count, names = 0, b""
        with self._alone(), self.transaction():
            names_of_others = encoded(header_of(self._known(table))) + b"\n"
            for chunk in cut(itertools.chain((front,), pieces), self._block, self._block - len(names_of_others)):
                watch.look(chunk, count + 1 if names else 0)
                count += self._load_more(table, names + chunk, count)
                names = names_of_others
        return count

    def _load_blocks(self, table: str, blocks: Iterator[bytes]) -> int:
        """Puts in some blocks, in a transaction if they are several."""
        first, second = next(blocks), next(blocks, None)
        if second is None:
            return self._load_more(table, first, 0)
        count = 0
        with self.transaction():
            for block in itertools.chain((first, second), blocks):
                count += self._load_more(table, block, count)
        return count

    def _load_more(self, table: str, block: bytes, before: int) -> int:
        """Puts in a block, before which so many records went in."""
        try:
            with self._turn:
                return self._loaded(table, block)
        except Refused as why:
            raise in_whole(why, before) from None

    def _known(self, table: str) -> List[Column]:
        """The columns of a table. None where there is no such table."""
        with self._turn:
            return self._columns(table)

    @contextlib.contextmanager
    def _alone(self) -> Iterator[None]:
        """Has other threads wait with their calls."""
        self._keep()
        try:
            yield
        finally:
            self._end_keeping()
            if self._watches:
                self._tell()

    def convert(self, column: str, to: Union[None, type, Converter]) -> None:
        """Has a column read as a type, in the rows of selects and dumps from now on.

        `column` is its full name, as `"emp.hired"`. `to` is a type with a converter, as `datetime.date` or an Enum; a
        function that takes an int or a str; or None, which has the column read as it is stored. Nulls stay None.
        """
        if not isinstance(column, str) or column.count(".") != 1:
            raise WrongType(f"mmdb: a column is named as table.column, not {column!r}")
        if to is None:
            self._converters.pop(column, None)
        else:
            self._converters[column] = converter_of(to)
        self._read_by(self._converters)
        with self._turn:
            self._forget()

    def _read_by(self, converters: Dict[str, Converter]) -> None:
        """Has columns read by these from now on."""
        self._converters = dict(converters)
        # (it stands in the place of the method, so that it costs nothing where no column is converted)
        setattr(self, "_shaped", functools.partial(_shape_with, dict(converters)))

    def dump(self, table: str) -> Rows:
        """All rows of a table by rising keys, with the bare names of its columns.

        They are no block, whose bytes are limited. Raises `Refused` if there is no such table.
        """
        with self._turn:
            table = self._named(table)
        line = f"select * from {table}"
        rows: Rows = self._done(line, placed(line), ())
        rows.names = tuple(name.rpartition(".")[2] for name in rows.names)
        return rows

    def indexes(self, table: str) -> List[Index]:
        """The state of the indexes of a table: that of its key, and then the declared ones in order.

        Raises `Refused` if there is no such table; its line is the name.
        """
        with self._turn:
            return self._indexes_of(table)

    def version(self, table: str = "") -> int:
        """The number of the newest change of a table's rows, or of all tables if none is named.

        Each command that changes rows raises it, so whoever keeps something beside a table sees by it that this is old. A rollback
        raises that of every table, and what is refused raises none. `watch` tells of it. Raises `Refused` if there is no such table.
        """
        name = encoded(table)
        with self._turn:
            version = self._version(name)
            if isinstance(version, bytes):
                # (a dump is refused for the same reason)
                raise refusal_of(version, name, self._reason(b"dump " + name, b""))
        return version

    def watch(self, function: Callable[[int], object], table: str = "") -> watching.Watch:
        """Has a function told of the changes of a table, or of any if none is named, until the `Watch` that it gives is closed.

        After each call that raised the number which `version` gives, and before it returns or raises, the function is called with the
        newest one. That is so within a transaction too, and of a rollback. A table that is dropped or that a rollback takes away is
        told by the number of all; until it is declared again nothing is told of it, nor before there is one of that name.

        The function is called by the thread that made the call. Other threads go on meanwhile, and may call it with a newer number. It
        may use the database; what it changes is told by a further call of it, once it has returned. What it raises is raised by the
        call, whose changes stand.
        """
        name = encoded(table)
        with self._turn:
            if self._watches is None:
                self._watches = watching.Watches()
            return self._watches.begin(self, function, name)

    def plan(self, line: str, /, *parameters: Any, **named: Any) -> List[str]:
        """The plan of a select, in words for people: a step in each line. The select is not done.

        Raises `Refused` if the line is refused, and with the number 20 if it is no select.
        """
        check_line(line)
        at = placed(line)
        sent = encoded(at.filled(stored_values(at.fitting(parameters, named))))
        with self._turn:
            answer = self._plan(sent)
            if answer.startswith(b"error "):
                raise refusal_of(answer, sent, self._reason(sent, b""), at.given if at.places else None)
        return answer.decode().splitlines()

    def save(self, path: Union[str, os.PathLike[str]]) -> None:
        """Writes all tables, their rows and their indexes to a file, which `restore` reads.

        The file takes the place of another at that path once it is whole; if something is raised, that one is as it was.
        In a transaction its changes are saved too. Other threads wait with their calls meanwhile. It needs memory for a
        block, and for the keys of a table that is longer than one.

        Raises OSError if the file can't be written. Raises ValueError for a row that no dump can hold: one whose key has a
        line feed and in which a reference that takes nulls is the empty text, or that is longer than a block.
        """
        self._check_open()
        with written(os.fsdecode(path)) as file:
            dumps.write(self, file)

    @classmethod
    def restore(
        cls: Type[_Restored], path: Union[str, os.PathLike[str]], policy: str = "auto", rows: int = MOST, block: int = MOST
    ) -> _Restored:
        """A new database with the tables, rows and indexes of a file that `save` has written, or the shell's `.dump`.

        The others are those of the constructor. Raises OSError if the file can't be read. Raises ValueError, a `DataError`,
        if it is no dump, a part of one, of a version that isn't known, or has a line that is refused.
        """
        name = os.fsdecode(path)
        with open(name, "rb") as file:
            db = cls(policy, rows, block)
            try:
                dumps.restore(db, file, name)
            except BaseException:
                db.close()
                raise
        return db

    def reader(self) -> Reader:
        """A reader of these tables, for a thread that reads while others do.

        While there is one, a change of the tables raises `Shared`. Raises `InTransaction` if a transaction is open.
        """
        from .readers import Reader

        return Reader(self)

    def share(self, reader: Reader) -> None:
        """Has a reader that has left its tables share these. Its statements stay. Raises what `reader` raises."""
        from .readers import Reader

        if not isinstance(reader, Reader):
            raise WrongType(f"mmdb: a reader shares tables, not a {type(reader).__name__}")
        with self._turn, reader._turn:
            if reader.closed:
                raise WrongUse("mmdb: the reader is closed")
            self._share(reader)
            reader._source = self._source
            reader._forget_columns()

    def answer(self, line: Union[str, bytes], block: Optional[bytes] = None) -> bytes:
        """The bytes that the library answers to a line, refusals too. They are empty for comments and blank lines.

        `block` is the block of a load. Raises ValueError if the line has a line feed, or if it asks for a block of
        another length than the one given.
        """
        with self._turn:
            answer = self._answer(as_bytes(line), None if block is None else as_bytes(block))
        if self._watches:
            self._tell()
        return answer

    def reason(self, line: Union[str, bytes], block: Optional[bytes] = None) -> Optional[str]:
        """Why `answer` was a refusal of this line with its block, in a line of words for people.

        Call it right after that call, with nothing between, while the tables are unchanged. It is None if that was no
        refusal, and if memory ran out for the words.
        """
        with self._turn:
            return self._reason(as_bytes(line), b"" if block is None else as_bytes(block))

    # What a handle asks for if it has no way of its own.

    def _perform(self, call: str, line: Any, parameters: Tuple[Any, ...], named: Mapping[str, Any]) -> Any:
        """Does what a line says that came to one of the calls."""
        if call in _TAKEN:
            check_kind(call, line, *_TAKEN[call])
        check_line(line)
        at = placed(line)
        values = at.fitting(parameters, named)
        if at.is_statement:
            return self._done(str.__str__(line), at, values)
        sent = encoded(at.filled(values))
        with self._turn:
            outcome = _outcome(one_line(line), self._accepted(sent, written=None if at.places else at.given))
        if self._watches:
            self._tell()
        return outcome

    def _stored_values(self, values: Iterable[Any]) -> Tuple[Value, ...]:
        """Values as columns store them. Raises what is wrong with one of them."""
        return stored_values(values)

    def _stored_rows(self, rows: Iterable[Iterable[Any]]) -> List[Tuple[Value, ...]]:
        """The same of rows of values."""
        return stored_rows(rows)

    def _shaped(self, names: Tuple[str, ...], kinds: Tuple[int, ...]) -> Shape:
        """What rows with these columns are made of."""
        return shape_of(names, kinds)

    def _refuse(self, at: Union[Placed, str], values: Sequence[Any], answer: bytes, reason: Optional[str]) -> NoReturn:
        """Raises the refusal that the library has just answered to a statement with these values, or to a line, for this
        reason."""
        if isinstance(at, str):
            raise refusal_of(answer, encoded(at), reason)
        told = None if reason is None else at.pointed(reason)
        raise refusal_of(answer, encoded(at.filled(values)), told, at.given)

    def _failed(self, status: int) -> NoReturn:
        """Raises what a call says that the library didn't do."""
        if status == _NO_MEMORY:
            raise NoMemory(90, "no memory")
        if status == _NOT_OPEN or self.closed:
            raise WrongUse("mmdb: the database is closed")
        if status == _NO_SUCH_STATEMENT:
            raise WrongUse("mmdb: the statement is closed")
        if status == _NOT_ONE_REQUEST:
            raise WrongUse("mmdb: a line has no line feed, and a load has a block as long as it says")
        if status == _TOO_LARGE:
            many = "the texts of the rows are more than 4 GiB, or there are 4294967296 statements, or 2^64 rows to count"
            raise OperationalError(f"mmdb: {many}")
        if status == _SHARED:
            raise Shared("mmdb: readers or iterators share the tables, and nothing changes them until all have left or are closed")
        if status == _INTERRUPTED:
            raise Interrupted("mmdb: the select was interrupted")
        if status == _NO_TRANSACTION:
            raise NoTransaction("mmdb: no transaction is open")
        if status == _IN_TRANSACTION:
            raise InTransaction("mmdb: this isn't done in a transaction: commit it or roll it back first")
        raise WrongUse(f"mmdb: the library answers {status}")

    def _check_open(self) -> None:
        """Raises WrongUse if the database is closed."""
        with self._turn:
            if self.closed:
                self._failed(_NOT_OPEN)

    def _asked(self, line: Union[str, bytes], block: Optional[bytes] = None) -> bytes:
        """What is answered. Raises the refusal where it is one."""
        with self._turn:
            return self._accepted(as_bytes(line), block)

    def _tell(self) -> None:
        """Tells those who watch of the changes by this thread, unless it has other threads wait: then it does at the end of that.
        It wants no turn."""
        if self._watches and not self._is_kept:
            self._watches.tell()

    # The calls below need their turn held.

    def _note(self) -> None:
        """Takes note of changes, of which those who watch are told at the end of the call."""
        if self._watches:
            self._watches.note(self)

    def _end(self, depth: int, end: Callable[[], object]) -> None:
        """Ends the transactions from this one on, the innermost first."""
        while self._transactions() >= depth:
            end()

    def _undo(self) -> bool:
        """Ends the innermost transaction, and restores the tables that it began with, whose columns may be others. Gives whether
        somebody is to be told."""
        try:
            return self._rollback()
        finally:
            self._forget_columns()

    def _answer(self, line: bytes, block: Optional[bytes] = None) -> bytes:
        """What is answered. After a declaration, and a call that was interrupted, the columns are known no longer."""
        try:
            answer = self._command(line) if block is None else self._load(line, block)
            # (a declaration and a drop answer `ok`, and nothing else is answered so shortly)
            if len(answer) == 3:
                self._forget_columns()
            return answer
        except BaseException:
            self._forget_columns()
            raise

    def _accepted(self, line: bytes, block: Optional[bytes] = None, written: Optional[str] = None) -> bytes:
        """What is answered to a line, which was written so. Raises the refusal where it is one."""
        answer = self._answer(line, block)
        if answer.startswith(b"error "):
            raise refusal_of(answer, line, self._reason(line, block or b""), written)
        return answer

    def _counted(self, line: bytes, block: Optional[bytes] = None) -> int:
        """How many rows an insert, an update, a delete or a load was about."""
        return int(self._accepted(line, block)[3:])

    def _loaded(self, table: str, block: bytes) -> int:
        """Loads a block. It is empty for a missing table, and the library says what is wrong."""
        return self._counted(encoded(f"load {table} {len(block)}"), block)

    def _named(self, table: str) -> str:
        """The name of a table that is there, without blanks around it. The library says what is wrong with another."""
        if self._columns(table):
            return table
        return self._accepted(encoded(f"dump {table}")).decode().split(" ", 2)[1]

    def _indexes_of(self, table: str) -> List[Index]:
        """The state of the indexes of a table."""
        name = encoded(table)
        answer = self._indexes(name)
        if answer.startswith(b"error "):
            # (a dump is refused for the same reason)
            raise refusal_of(answer, name, self._reason(b"dump " + name, b""))
        return indexes_of(answer.decode())

    def _forget_columns(self) -> None:
        """Forgets what is known of the columns, which may have been declared anew."""
        self._declared = None
        self._forget()

    def _columns(self, table: str) -> List[Column]:
        """The columns of a table, for which the library is asked once. None where there is no such table."""
        if self._declared is None:
            self._declared = columns_of(self._accepted(b"tables").decode())
        return self._declared.get(table, [])


def _shape_with(converters: Dict[str, Converter], names: Tuple[str, ...], kinds: Tuple[int, ...]) -> Shape:
    """What rows with these columns are made of, some of which are read by converters."""
    found = tuple(map(converters.get, names))
    shape = shape_of(names, kinds)
    return shape._replace(converters=found) if any(found) else shape


def _outcome(line: str, answer: bytes) -> Any:
    """The result of a command that is no statement."""
    if answer == b"ok\n" or not answer:
        return None
    if line.lstrip(" \t").startswith("tables"):
        return answer[: answer.rindex(b"ok ")].decode()
    return int(answer[3:]) if answer.startswith(b"ok ") else answer.decode()
