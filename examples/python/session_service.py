"""A service with many sessions, nearly half of them anonymous. Each second some begin, some are prolonged, some sign in, and all that
have ended go at once, by a range of the tree on their time. `session_service.py 200000` keeps 200,000 of them at a time.

Run where mmdb is installed, or with MMDB_LIBRARY as the folder of libmmdb.so, and PYTHONPATH as bindings/python.
"""

import sys
from typing import Optional

import mmdb

USERS = 100
#: How many seconds a session lasts that nobody prolongs, and how many are watched.
LIFE, SECONDS = 20, 60


class Service:
    """Sessions by token. An anonymous one has no user, which is a null. Times are seconds, by the clock of who calls."""

    def __init__(self, db: mmdb.Database) -> None:
        self.db = db
        db.execute("table user (name text)")
        db.execute("table session (token text, user ref user null, until int)")
        db.execute("index session user hash")
        db.execute("index session until tree")
        self._begin = db.prepare("insert session (?, ?, ?)")
        self._find = db.prepare("select user from session where token = ? and until > ?")
        self._prolong = db.prepare("update session set until = ? where token = ?")
        self._sign_in = db.prepare("update session set user = ? where token = ?")
        self._expire = db.prepare("delete session where until <= ?")

    def begin(self, token: str, user: Optional[str], now: int) -> None:
        self._begin.execute(token, user, now + LIFE)

    def is_open(self, token: str, now: int) -> bool:
        """Whether there is such a session that hasn't ended, though it may not be taken out yet."""
        return len(self._find.execute(token, now)) == 1

    def prolong(self, token: str, now: int) -> bool:
        changed: int = self._prolong.execute(now + LIFE, token)
        return changed == 1

    def sign_in(self, token: str, user: str) -> bool:
        """An anonymous session becomes one of a user, and keeps its token."""
        changed: int = self._sign_in.execute(user, token)
        return changed == 1

    def expire(self, now: int) -> int:
        """Takes out all that have ended, and gives how many they were."""
        ended: int = self._expire.execute(now)
        return ended

    def counts(self) -> str:
        """How many there are, of users and anonymous."""
        named, unnamed = (self.db.count(f"select token from session where user {sign} null") for sign in ("<>", "="))
        return f"{named} of users, {unnamed} anonymous"


def token_of(second: int, number: int) -> str:
    return f"{second:04x}-{number:06x}"


def pass_second(service: Service, now: int, each: int) -> int:
    """What happens in a second in which so many sessions begin. Gives how many have ended."""
    for number in range(each):
        service.begin(token_of(now, number), f"user {number % USERS}" if number % 2 else None, now)
    for number in range(0, each, 10):
        # (those that began two seconds ago are there still, and those of very long ago may be)
        service.prolong(token_of(now - 2, number), now)
        service.sign_in(token_of(now - 2, number), f"user {number % USERS}")
    return service.expire(now)


def main() -> None:
    sessions = int(sys.argv[1]) if len(sys.argv) > 1 else 2_000
    each = sessions // LIFE
    with mmdb.Database() as db:
        service = Service(db)
        db.load("user", [(f"user {number}",) for number in range(USERS)])
        ended = 0
        for now in range(SECONDS):
            ended += pass_second(service, now, each)
            if now % 15 == 14:
                print(f"at {now}: {service.counts()}, {ended} have ended")
        for token in (token_of(SECONDS - 1, 0), token_of(SECONDS - LIFE, 0), token_of(SECONDS - LIFE, 1), "' or until > '0"):
            print(f"{token} is open:", service.is_open(token, SECONDS))


if __name__ == "__main__":
    main()
