"""The library, by the extension if that was built, else by ctypes. Both have the same three classes."""

from __future__ import annotations

from typing import TYPE_CHECKING

from .chosen import extension

if TYPE_CHECKING:
    from ._mmdb import Cursor, Handle, Prepared
elif extension is not None:
    Cursor, Handle, Prepared = extension.Cursor, extension.Handle, extension.Prepared
else:
    from .library import Cursor, Handle, Prepared

#: How the library is reached: by the `extension`, or by `ctypes`.
implementation = "ctypes" if extension is None else "extension"

__all__ = ["Cursor", "Handle", "Prepared", "implementation"]
