"""Records the calls that this process makes of the library, so that programs/tape.c can make them again.

What must hold: programs/tape.c reads what this writes.
"""

import contextlib

from . import embedded


class Tape:
    """The calls, as that program reads them."""

    def __init__(self):
        self.calls = []
        # The handles by their addresses, each with its number. That which was opened last has the number 0.
        self.handles = {}
        self.current = 0

    def number(self, at):
        """The number of a handle, which has one from its first call until it is closed."""
        free = set(range(len(self.handles) + 1)) - set(self.handles.values())
        return self.handles.setdefault(at, min(free))

    def be_on(self, at):
        """Writes down which handle the next call is on, where the last one was on another."""
        number = self.number(at)
        if number != self.current:
            self.add(b"on", number)
            self.current = number

    def open(self, at, policy, rows, block):
        self.handles, self.current = {at: 0}, 0
        self.add(b"open", policy, rows, block)

    def share(self, _, reader):
        self.add(b"share", self.number(reader))

    def close(self, at):
        self.add(b"close")
        del self.handles[at]

    def save(self, _, mark, __):
        """The next piece, which is the first where the mark is at the beginning."""
        self.add(b"save", embedded.Mark.from_address(mark).part == 0)

    def add(self, name, *numbers, behind=b""):
        first, second, third = (*numbers, 0, 0, 0)[:3]
        self.calls.append(b"%s %d %d %d\n%s" % (name, first, second, third % 2**64, behind))

    def written(self):
        """What writes each call down, by the name that embedded.py has for it."""
        return {
            "COMMAND": lambda at, line, length, to: self.add(b"command+", length, behind=line),
            "LOAD": lambda at, line, length, block, more, to: self.add(b"load+", length, more, behind=line + block),
            "FEED": lambda at, piece, length: self.add(b"feed+", length, behind=piece),
            "ANSWER": lambda at, to: self.add(b"answer"),
            "REFUSAL": lambda at: self.add(b"refusal"),
            "REASON": lambda at, line, length, block, more, to: self.add(b"reason+", length, more, behind=line + block),
            "PREPARE_REASON": lambda at, line, length, to: self.add(b"why_line+", length, behind=line),
            "STATEMENT_REASON": lambda at, of, to: self.add(b"why", of),
            "INDEXES": lambda at, name, length, to: self.add(b"indexes+", length, behind=name),
            "PREPARE": lambda at, line, length, to: self.add(b"prepare+", length, behind=line),
            "BIND_INTEGER": lambda at, *numbers: self.add(b"integer", *numbers),
            "BIND_TEXT": lambda at, of, place, text, length: self.add(b"text+", length, 0, of << 32 | place, behind=text),
            "BIND_NULL": lambda at, *numbers: self.add(b"null", *numbers),
            "EXECUTE": lambda at, of, to: self.add(b"execute", of),
            "COLUMNS": lambda at, of, to: self.add(b"columns", of),
            "FIRST": lambda at, of, most, to: self.add(b"first", of, most),
            "COUNT": lambda at, of, to: self.add(b"count", of),
            "CURSOR_OPEN": lambda at, of, to: self.add(b"cursor_open", of),
            "FINALIZE": lambda at, of: self.add(b"finalize", of),
            "BEGIN": lambda at: self.add(b"begin"),
            "COMMIT": lambda at: self.add(b"commit"),
            "ROLLBACK": lambda at: self.add(b"rollback"),
            "TRANSACTIONS": lambda at: self.add(b"transactions"),
            "SHARE": self.share,
            "LEAVE": lambda at: self.add(b"leave"),
            "QUERY": lambda at, line, length, to: self.add(b"query+", length, behind=line),
            "SAVE": self.save,
            "CLOSE": self.close,
        }

    def written_without_handle(self):
        """The same of calls that are on no handle. One restore and one cursor are open at a time."""
        return {
            "OPEN": self.open,
            "CURSOR_FETCH": lambda at, most, to: self.add(b"cursor_fetch", most),
            "CURSOR_CLOSE": lambda at: self.add(b"cursor_close"),
            "RESTORE_OPEN": lambda at, *numbers: self.add(b"restore_open", *numbers),
            "RESTORE_TAKE": lambda at, piece, length, to: self.add(b"restore_take+", length, behind=piece),
            "RESTORE_END": lambda at, db: self.add(b"restore_end", self.number(db)),
            "RESTORE_CLOSE": lambda at: self.add(b"restore_close"),
        }


@contextlib.contextmanager
def recorded():
    """The tape of the calls that are made in it."""
    tape, before = Tape(), {}
    written = {name: on_its_handle(tape, write) for name, write in tape.written().items()}
    for name, write in {**written, **tape.written_without_handle()}.items():
        before[name] = getattr(embedded, name)
        setattr(embedded, name, both(write, before[name]))
    try:
        yield tape
    finally:
        for name, call in before.items():
            setattr(embedded, name, call)


def on_its_handle(tape, write):
    def written(at, *given):
        tape.be_on(at)
        write(at, *given)

    return written


def both(write, call):
    def made(*given):
        write(*given)
        return call(*given)

    return made
