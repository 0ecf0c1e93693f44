"""Four threads read and a fifth writes, behind a lock, so that the library's calls for memory can be counted. Then the handles are closed,
dropped or left, in several orders."""

import itertools
import threading

import mmdb

READERS = 4
TEXT = "a text that is longer than a slot of few bytes"


def opened():
    db = mmdb.Database()
    db.execute("table t (id int, s text)")
    db.load("t", ((number, f"{TEXT} {number}") for number in range(100)))
    return db, [db.reader() for _ in range(READERS)]


def threads_behind_a_lock():
    db, readers = opened()
    lock, wrong = threading.Lock(), []

    def read(reader):
        with lock:
            find = reader.prepare("select s from t where id >= ?")
        for _ in range(50):
            with lock:
                wrong.extend(row for row in find.execute(0) if not row.s.startswith(TEXT))
        with lock:
            find.close()

    def write():
        for number in range(20):
            with lock:
                for reader in readers:
                    reader.leave()
                with db.transaction():
                    db.execute("insert t (?, ?)", 1_000 + number, f"{TEXT} {number}")
                for reader in readers:
                    db.share(reader)

    threads = [threading.Thread(target=write), *(threading.Thread(target=read, args=(reader,)) for reader in readers)]
    for thread in threads:
        thread.start()
    for thread in threads:
        thread.join()
    assert not wrong and all(len(reader.dump("t")) == 120 for reader in readers), wrong
    for handle in (db, *readers):
        handle.close()


def ends_in_each_order():
    for order in itertools.permutations(range(3)):
        db, readers = opened()
        handles = [db, *readers[:2]]
        rows = [handle.select("select * from t") for handle in handles]
        readers[2].leave()
        for at in order:
            handles[at].close()
        del db, readers, handles
        assert {len(each) for each in rows} == {100}


threads_behind_a_lock()
ends_in_each_order()
