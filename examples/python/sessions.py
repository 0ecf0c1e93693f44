"""Who is signed in: a table of sessions by token, with the users that they are of and the time when they end.

Run where mmdb is installed, or with MMDB_LIBRARY as the folder of libmmdb.so, and PYTHONPATH as bindings/python.
"""

from typing import List, Optional, Tuple

import mmdb


class Sessions:
    """The sessions of some users. Times are seconds, by the clock of who calls."""

    def __init__(self, db: mmdb.Database) -> None:
        self.db = db
        db.execute("table user (name text, mail text)")
        db.execute("table session (token text, user ref user, ends int)")
        db.execute("index session user hash")
        db.execute("index session ends tree")
        # (what each request asks is prepared once; what is asked more seldom is kept by its line)
        self.find_mail = db.prepare(
            "select mail from session join user on session.user = user.name where token = :token and ends > :now"
        )
        self.set_end = db.prepare("update session set ends = ? where token = ?")

    def sign_up(self, name: str, mail: str) -> bool:
        """Takes a user in, if the name isn't taken."""
        try:
            self.db.change("insert user (?, ?)", name, mail)
        except mmdb.Refused as why:
            if why.number != 41:
                raise
            return False
        return True

    def sign_in(self, token: str, name: str, ends: int) -> bool:
        """Begins a session, if there is such a user."""
        try:
            self.db.change("insert session (?, ?, ?)", token, name, ends)
        except mmdb.Refused as why:
            if why.number != 42:
                raise
            return False
        return True

    def mail_of(self, token: str, now: int) -> Optional[str]:
        """The mail of the user whose session a token is, if it hasn't ended. A stranger may have sent any text."""
        found = self.find_mail.execute(token=token, now=now)
        mail: Optional[str] = found[0].mail if found else None
        return mail

    def of(self, name: str) -> List[Tuple[str, int]]:
        """The sessions of a user."""
        return [(session.token, session.ends) for session in self.db.select("select * from session where user = ?", name)]

    def prolong(self, token: str, ends: int) -> bool:
        changed: int = self.set_end.execute(ends, token)
        return changed == 1

    def sign_out(self, name: str) -> int:
        """Ends all sessions of a user, and gives how many they were."""
        return self.db.change("delete session where user = ?", name)

    def sweep(self, now: int) -> int:
        """Takes out the sessions that have ended, and gives how many they were. The tree on `ends` finds them."""
        return self.db.change("delete session where ends <= ?", now)


def main() -> None:
    with mmdb.Database() as db:
        sessions = Sessions(db)
        for name, mail in (("ann", "ann@example.org"), ("o'hara", "bo@example.org")):
            print(f"sign up {name}:", sessions.sign_up(name, mail))
        print("sign up ann again:", sessions.sign_up("ann", "other@example.org"))
        for token, name, ends in (("k3f9", "ann", 100), ("77aa", "ann", 250), ("p0?x", "o'hara", 180)):
            print(f"sign in {name}, until {ends}:", sessions.sign_in(token, name, ends))
        print("sign in eve:", sessions.sign_in("0000", "eve", 500))

        print("at 90, k3f9 is of", sessions.mail_of("k3f9", 90))
        print("at 90, p0?x is of", sessions.mail_of("p0?x", 90))
        print("at 90, x' or token <> ' is of", sessions.mail_of("x' or token <> '", 90))
        print("prolong 77aa:", sessions.prolong("77aa", 400))
        print("ended by 200:", sessions.sweep(200))
        print("at 200, k3f9 is of", sessions.mail_of("k3f9", 200))
        print("sessions of ann:", sessions.of("ann"))
        print("sign out ann:", sessions.sign_out("ann"), "session")

        rows = [(f"t{number:04}", ("ann", "o'hara")[number % 2], 1_000 + number) for number in range(500)]
        print("loaded:", db.load("session", rows))
        print("ended by 1200:", sessions.sweep(1_200))
        left = db.dump("session")
        print("left:", len(left), "the first", left.dicts()[0])


if __name__ == "__main__":
    main()
