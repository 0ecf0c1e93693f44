"""mmdb, a relational database in main memory, in this process.

    with mmdb.Database() as db:
        db.execute("table book (id int, title text)")
        db.change("insert book (?, ?)", 1, "Middlemarch")
        for book in db.select("select * from book where id < :most", most=10):
            print(book.id, book.title)

The library is part of the extension `_mmdb`, if that was built. Otherwise, and if the environment variable MMDB_PURE or
MMDB_LIBRARY is set, it is `libmmdb.so`, by ctypes: from the folder that MMDB_LIBRARY names, else from this package or
beside it, else from where the system keeps libraries.
"""

from .conversions import Adapter, Converter, register_adapter, register_converter
from .database import MOST, POLICIES, Database, Parameters
from .dbapi import (
    BINARY,
    DATETIME,
    NUMBER,
    ROWID,
    STRING,
    Binary,
    Connection,
    Cursor,
    Date,
    DateFromTicks,
    Time,
    TimeFromTicks,
    Timestamp,
    TimestampFromTicks,
    apilevel,
    connect,
    paramstyle,
    threadsafety,
)
from .errors import (
    Changed,
    CsvWarning,
    DatabaseError,
    DataError,
    Error,
    IntegrityError,
    InterfaceError,
    InternalError,
    Interrupted,
    InTransaction,
    NoMemory,
    NotSupportedError,
    NoTransaction,
    OperationalError,
    ProgrammingError,
    Refused,
    Shared,
    Warning,  # pylint: disable=redefined-builtin
)
from .handles import implementation
from .indexes import Index
from .readers import Reader
from .rows import Row, Rows
from .statement import Statement
from .values import Value
from .watching import Watch

__all__ = [
    "BINARY",
    "DATETIME",
    "MOST",
    "NUMBER",
    "POLICIES",
    "ROWID",
    "STRING",
    "Adapter",
    "Binary",
    "Changed",
    "Connection",
    "Converter",
    "CsvWarning",
    "Cursor",
    "DataError",
    "Database",
    "DatabaseError",
    "Date",
    "DateFromTicks",
    "Error",
    "InTransaction",
    "Index",
    "IntegrityError",
    "InterfaceError",
    "InternalError",
    "Interrupted",
    "NoMemory",
    "NoTransaction",
    "NotSupportedError",
    "OperationalError",
    "Parameters",
    "ProgrammingError",
    "Reader",
    "Refused",
    "Row",
    "Rows",
    "Shared",
    "Statement",
    "Time",
    "TimeFromTicks",
    "Timestamp",
    "TimestampFromTicks",
    "Value",
    "Warning",
    "Watch",
    "apilevel",
    "connect",
    "implementation",
    "paramstyle",
    "register_adapter",
    "register_converter",
    "threadsafety",
]
__version__ = "0.1.0"
