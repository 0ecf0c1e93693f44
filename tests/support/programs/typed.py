"""A program that uses the package as its annotations allow: mypy finds nothing in it in strict mode."""

import contextlib
import datetime
import pathlib
import tempfile
from typing import Iterator, List, Tuple

import mmdb


def hired(db: mmdb.Database, day: datetime.date) -> List[Tuple[int, str]]:
    rows: mmdb.Rows = db.select("select id, name from emp where hired < :day", day=day)
    rows.sort("name", reverse=True)
    rows.sort(key=len)
    return [(row.id, row["name"]) for row in rows]


with mmdb.Database() as database:
    database.execute("table emp (id int, name text, hired text, pay int)")
    database.convert("emp.hired", datetime.date)
    database.convert("emp.pay", lambda cents: cents / 100)
    count: int = database.change("insert emp (?, ?, ?, ?)", 1, "Ann", datetime.date(2026, 1, 1), 150)
    count += database.load("emp", [(2, "Bob", datetime.date(2026, 1, 2), 100)])
    count += database.load_csv("emp", "id,name,hired,pay\n3,Cy,2026-01-03,1\n", strict=True)
    with database.prepare("select * from emp where id = ?") as statement:
        names: Tuple[str, ...] = statement.names
        first: mmdb.Row = statement.execute(1)[0]
        print(count, names, first.name, first[0], {first: 1}, hired(database, datetime.date(2027, 1, 1)))
    told: List[int] = []
    watch: mmdb.Watch = database.watch(told.append, table="emp")
    with watch, database.transaction():
        count += database.load("emp", iter([(100, "Di", "2026-01-04", 4)]), ("pay", "name", "hired", "id"))
    with database.reader() as reader:
        found: mmdb.Rows = reader.select("select name from emp where id > ?", 1)
        each: Iterator[mmdb.Row] = reader.iterate("select name from emp where id > :id", id=1, page=100)
        print(found == [next(each), *each])
        reader.leave()
        database.share(reader)
    with contextlib.closing(database.iterate("select distinct name from emp", page=1)) as names_of:
        one: mmdb.Row = next(names_of)
        print(one.name)
    with tempfile.TemporaryDirectory(prefix="mmdb-tests-") as folder:
        database.save(pathlib.Path(folder, "all.mmdb"))
        with mmdb.Database.restore(f"{folder}/all.mmdb", policy="tree") as restored:
            count += restored.change("delete emp")
    for name, group in database.dump("emp").group("name").items():
        print(name, group.sum("pay"), group.column("id"), group.names)
    mmdb.register_adapter(complex, str)
    mmdb.register_converter(complex, complex)

connection: mmdb.Connection = mmdb.connect()
try:
    with connection.cursor() as cursor:
        cursor.execute("table t (id int)").executemany("insert t (?)", [(1,), (True,)])
except connection.IntegrityError as why:
    print(str(why).splitlines()[0], mmdb.DATETIME == datetime.date)
