"""Rows as a stream of Arrow, by its C interface and the PyCapsule of that, without any other package.

The structures are those of https://arrow.apache.org/docs/format/CDataInterface.html. What must hold: whoever takes a
structure calls its `release` once, or the capsule does. Until then what it points to is kept in _KEPT.
"""

from __future__ import annotations

import ctypes
import itertools
import struct
from typing import Any, Dict, List, Sequence

from .conversions import adapted

# A type, a batch, and the stream of both, each with a function that is called when it isn't used any more.
_RELEASE = ctypes.CFUNCTYPE(None, ctypes.c_void_p)


class _Schema(ctypes.Structure):
    pass


_Schema._fields_ = [
    ("format", ctypes.c_char_p),
    ("name", ctypes.c_char_p),
    ("metadata", ctypes.c_char_p),
    ("flags", ctypes.c_int64),
    ("n_children", ctypes.c_int64),
    ("children", ctypes.POINTER(ctypes.POINTER(_Schema))),
    ("dictionary", ctypes.POINTER(_Schema)),
    ("release", _RELEASE),
    ("private_data", ctypes.c_void_p),
]


class _Array(ctypes.Structure):
    pass


_Array._fields_ = [
    ("length", ctypes.c_int64),
    ("null_count", ctypes.c_int64),
    ("offset", ctypes.c_int64),
    ("n_buffers", ctypes.c_int64),
    ("n_children", ctypes.c_int64),
    ("buffers", ctypes.POINTER(ctypes.c_void_p)),
    ("children", ctypes.POINTER(ctypes.POINTER(_Array))),
    ("dictionary", ctypes.POINTER(_Array)),
    ("release", _RELEASE),
    ("private_data", ctypes.c_void_p),
]

_GET = ctypes.CFUNCTYPE(ctypes.c_int, ctypes.c_void_p, ctypes.c_void_p)
_ERROR = ctypes.CFUNCTYPE(ctypes.c_void_p, ctypes.c_void_p)


class _Stream(ctypes.Structure):
    _fields_ = [
        ("get_schema", _GET),
        ("get_next", _GET),
        ("get_last_error", _ERROR),
        ("release", _RELEASE),
        ("private_data", ctypes.c_void_p),
    ]


# What takes a structure may have nulls in this column.
_NULLABLE = 2
_NAME, _OF_STRUCTURES, _NO_NAME = b"arrow_array_stream", b"+s", b""
_FORMATS = {int: b"l", str: b"u"}

# Python's own calls, with types that are no matter of other packages.
_PYTHON = ctypes.PyDLL(None)
_NEW_CAPSULE, _POINTER_OF = _PYTHON.PyCapsule_New, _PYTHON.PyCapsule_GetPointer
_NEW_CAPSULE.restype, _NEW_CAPSULE.argtypes = ctypes.py_object, [ctypes.c_void_p, ctypes.c_char_p, ctypes.c_void_p]
_POINTER_OF.restype, _POINTER_OF.argtypes = ctypes.c_void_p, [ctypes.c_void_p, ctypes.c_char_p]
_KEEP_FOR_EVER = _PYTHON.Py_IncRef
_KEEP_FOR_EVER.restype, _KEEP_FOR_EVER.argtypes = None, [ctypes.py_object]

# What the structures that are in use point to, by the number that each has as its private data.
_KEPT: Dict[int, Any] = {}
_numbers = itertools.count(1)


def stream_of(names: Sequence[str], types: Sequence[type], columns: Sequence[List[Any]]) -> Any:
    """A capsule of a stream with these columns, in one batch."""
    batch = _Batch(names, types, columns)
    stream = _Stream(_GET_SCHEMA, _GET_NEXT, _GET_LAST_ERROR, _RELEASE_STREAM, _keep([batch, True]))
    address = ctypes.addressof(stream)
    _STREAMS[address] = stream
    return _NEW_CAPSULE(address, _NAME, ctypes.cast(_END_CAPSULE, ctypes.c_void_p))


# The streams of capsules, by their addresses.
_STREAMS: Dict[int, _Stream] = {}


def _keep(what: Any) -> int:
    number = next(_numbers)
    _KEPT[number] = what
    return number


class _Batch:
    """Columns in the form of Arrow."""

    def __init__(self, names: Sequence[str], types: Sequence[type], columns: Sequence[List[Any]]) -> None:
        self.names = [name.encode() for name in names]
        self.formats = [_FORMATS[kind] for kind in types]
        self.count = len(columns[0]) if columns else 0
        self.columns = [
            (_integers if kind is int else _texts)(list(map(adapted, values))) for kind, values in zip(types, columns)
        ]

    def fill_schema(self, at: int) -> None:
        """Makes a structure at an address the type of the batch."""
        children = [
            _Schema(format, name, None, _NULLABLE, 0, None, None, _RELEASE_SCHEMA, _keep(self))
            for format, name in zip(self.formats, self.names)
        ]
        pointers = (ctypes.POINTER(_Schema) * len(children))(*[ctypes.pointer(child) for child in children])
        kept = _keep((self, children, pointers))
        made = _Schema(_OF_STRUCTURES, _NO_NAME, None, 0, len(children), pointers, None, _RELEASE_SCHEMA, kept)
        ctypes.memmove(at, ctypes.addressof(made), ctypes.sizeof(made))

    def fill_array(self, at: int) -> None:
        """Makes a structure at an address the batch itself."""
        children = [self._array(len(buffers), buffers, nulls) for nulls, buffers in self.columns]
        pointers = (ctypes.POINTER(_Array) * len(children))(*[ctypes.pointer(child) for child in children])
        none = (ctypes.c_void_p * 1)(None)
        kept = _keep((self, children, pointers, none))
        made = _Array(self.count, 0, 0, 1, len(children), none, pointers, None, _RELEASE_ARRAY, kept)
        ctypes.memmove(at, ctypes.addressof(made), ctypes.sizeof(made))

    def _array(self, count: int, buffers: Sequence[Any], nulls: int) -> _Array:
        addresses = (ctypes.c_void_p * count)(*(buffer and ctypes.addressof(buffer) for buffer in buffers))
        kept = _keep((self, addresses))
        return _Array(self.count, nulls, 0, count, 0, addresses, None, None, _RELEASE_ARRAY, kept)


def _buffer(content: bytes) -> Any:
    """Bytes that have an address, also where there are none."""
    return ctypes.create_string_buffer(content, max(len(content), 8))


def _validity(values: Sequence[Any]) -> Any:
    """A bit for each value, which is 0 for a null. None where there are no nulls."""
    if None not in values:
        return None
    bits = bytearray((len(values) + 7) // 8)
    for at, value in enumerate(values):
        if value is not None:
            bits[at >> 3] |= 1 << (at & 7)
    return _buffer(bytes(bits))


def _integers(values: Sequence[Any]) -> Any:
    """How many nulls a column of integers has, and its buffers."""
    content = struct.pack(f"={len(values)}q", *(value or 0 for value in values))
    return values.count(None), [_validity(values), _buffer(content)]


def _texts(values: Sequence[Any]) -> Any:
    """The same of a column of texts."""
    encoded = [(value or "").encode() for value in values]
    ends = list(itertools.accumulate(map(len, encoded), initial=0))
    if ends[-1] >= 1 << 31:
        raise OverflowError("mmdb: the texts of a column have 2 gigabytes and more, which an Arrow array doesn't hold")
    content = struct.pack(f"={len(ends)}i", *ends)
    return values.count(None), [_validity(values), _buffer(content), _buffer(b"".join(encoded))]


def _taken(stream: int) -> Any:
    return _KEPT[_Stream.from_address(stream).private_data or 0]


def _get_schema(stream: int, at: int) -> int:
    _taken(stream)[0].fill_schema(at)
    return 0


def _get_next(stream: int, at: int) -> int:
    taken = _taken(stream)
    batch, is_to_come = taken
    taken[1] = False
    if is_to_come:
        batch.fill_array(at)
    else:
        # (an array that is released ends the stream)
        ctypes.memset(at, 0, ctypes.sizeof(_Array))
    return 0


def _release_schema(at: int) -> None:
    _release(_Schema.from_address(at))


def _release_array(at: int) -> None:
    _release(_Array.from_address(at))


def _release(structure: Any) -> None:
    """Releases a structure with its children, but for those that somebody has taken."""
    for number in range(structure.n_children):
        child = structure.children[number].contents
        if child.release:
            child.release(ctypes.addressof(child))
    _let_go(structure)


def _release_stream(at: int) -> None:
    _let_go(_Stream.from_address(at))


def _let_go(structure: Any) -> None:
    _KEPT.pop(structure.private_data or 0, None)
    structure.release = ctypes.cast(0, _RELEASE)


def _end_capsule(capsule: int) -> None:
    """Releases the stream of a capsule, where nobody has taken it."""
    address = _POINTER_OF(capsule, _NAME)
    stream = _STREAMS.pop(address)
    if stream.release:
        stream.release(address)


_GET_SCHEMA, _GET_NEXT = _GET(_get_schema), _GET(_get_next)
_GET_LAST_ERROR = _ERROR(lambda stream: None)
_RELEASE_SCHEMA, _RELEASE_ARRAY, _RELEASE_STREAM = map(_RELEASE, (_release_schema, _release_array, _release_stream))
_END_CAPSULE = _RELEASE(_end_capsule)
# (they may be called as long as anybody has a structure, also while the process ends)
for _kept in (_GET_SCHEMA, _GET_NEXT, _GET_LAST_ERROR, _RELEASE_SCHEMA, _RELEASE_ARRAY, _RELEASE_STREAM, _END_CAPSULE, _NAME):
    _KEEP_FOR_EVER(_kept)
