"""The words of the language, and what is told of them and of its refusals."""

from __future__ import annotations

from typing import Dict

#: The words that begin a line, with the spelling of it and what it does.
COMMANDS: Dict[str, str] = {
    "table": "table T (a int, b text, c ref U, d ref U null)\n"
    "declares a table; its first column is its key, and c has keys of rows of U",
    "drop": "drop table T | drop index T c tree|hash\ntakes a table with its rows out, or an index",
    "index": "index T c tree|hash\ndeclares an index on a column: a tree for = < <= > >=, a hash for =",
    "insert": "insert T (1, 'it''s', null)\nputs one row in, a value for each column",
    "update": "update T set b = 'x', c = 2 where a < 9 and b <> 'y'\n"
    "puts values into each row that meets the conditions",
    "delete": "delete T where a >= 9 and b = 'y'\ntakes out each row that meets the conditions",
    "select": "select [distinct] *|c, T.d, ... from T [join U on T.c = U.a] [where a = 1 and U.b > 'x']\n"
    "shows rows by rising keys, after up to three joins; conditions have = <> < <= > >=",
    "load": "load T N\nputs in the rows of the N bytes below the line, a CSV with the columns' names in front",
    "dump": "dump T\nshows a load of all rows of a table",
    "tables": "tables\nshows the declarations of all tables and indexes",
}

#: The words inside a command, with what they say.
KEYWORDS: Dict[str, str] = {
    "and": "one more condition: where a = 1 and b = 'x'; a row has to meet all of them, and there are at most 8",
    "distinct": "select distinct b from T shows each list of values once, by rising values",
    "from": "the table that a select reads: select * from T",
    "hash": "an index for =, in constant time: index T c hash",
    "int": "a column of integers, from -9223372036854775808 to 9223372036854775807",
    "join": "pairs rows where two columns are equal and not null: select * from T join U on T.c = U.a; at most 3 of them",
    "null": "no value; only a column c ref U null takes it, and only = and <> meet it",
    "on": "the two columns of a join: join U on T.c = U.a",
    "ref": "a column whose values are keys of rows of another table: c ref U, or c ref U null, which takes null too",
    "set": "the new values of an update: update T set b = 'x', c = 2 where a < 9",
    "text": "a column of texts in UTF-8, each of at most 1,024 bytes; it is spelled 'it''s'",
    "tree": "an index for = < <= > >=, in the order of the values: index T c tree; each key has one",
    "where": "the conditions that rows have to meet: where a = 1 and T.b <> 'x'",
}

#: The signs of the language, with what they say.
SIGNS: Dict[str, str] = {
    "=": "equal; where c = null meets the nulls",
    "<>": "not equal; where c <> null meets what is no null",
    "<": "less; texts are ordered by their bytes, integers by size",
    "<=": "less or equal",
    ">": "greater",
    ">=": "greater or equal",
    "*": "all columns: select * from T",
    ".": "a column of one of the tables: T.c",
    ",": "stands between columns, values and the parts of a set",
    "(": "begins the columns of a table and the values of an insert, which ) ends",
    ")": "ends what ( begins",
    "'": "begins and ends a text; '' is one ' in it",
    "#": "begins a line that is a comment",
    ";": "ends a command, and another may follow in the line; it is the shell's, and no sign of the language",
    "?": "the place of a value that .parameter set 1 VALUE gives",
    ":": "begins the name of such a place: :least",
}

#: The language in short.
LANGUAGE = """\
table T (a int, b text, c ref U, d ref U null)
drop table T
index T c tree|hash
drop index T c tree|hash
insert T (1, 'it''s', null)
update T set b = 'x', c = 2 [where CONDITIONS]
delete T [where CONDITIONS]
select [distinct] *|c, T.d, ... from T [join U on T.c = U.a] [where CONDITIONS]
load T N, and below it N bytes of CSV
dump T
tables
# a comment
CONDITIONS are a = 1 and T.b <> 'x' and so on; there is no or.
The first column of a table is its key. A reference names the key of a row that is there.
Words are in small letters. Names are letters, digits and _, at most 32, and none of these words:
  and delete distinct drop dump from hash index insert int join load null
  on ref select set table tables text tree update where
Signs:"""

#: The words that are no names.
RESERVED = frozenset(
    "and delete distinct drop dump from hash index insert int join load null on ref select set table tables text tree"
    " update where".split()
)

#: What each refusal means, by its number.
REFUSALS: Dict[int, str] = {
    10: "a line has at most 8,192 bytes",
    11: "a line is UTF-8",
    12: "a block has at most 16,777,216 bytes, or the limit that the shell was started with",
    13: "the input ended inside the block of a load",
    20: "the line spells no command; words are in small letters, and .help lists the commands",
    30: "no table of that name is declared; .tables lists those that are",
    31: "a table of that name is declared already",
    32: "a column is none of these tables, or stands in two of them and wants its table in front, as T.c",
    33: "a column is named twice where it can stand once",
    34: "a select names each table once",
    35: "a value, or a column of a join, is of another type than the column it meets; no key is a reference or null",
    36: "the key of a row can't be changed: delete the row and insert another",
    37: "there are at most 64 tables, 16 columns or items, 8 conditions and 3 joins",
    38: "that index isn't declared; the tree of a key can't be dropped",
    39: "that index is declared already; each key has a tree from the start",
    40: "a column of another table refers to the table; drop that table first",
    41: "a row with that key is there already",
    42: "a reference names no row that is there",
    43: "the table has as many rows as it can have",
    44: "a row of another table refers to a row that would go",
    45: "an insert has a value for each column, in their order",
    46: "a text has at most 1,024 bytes",
    61: "a CSV begins with the names of all columns, in their order",
    62: "the record has another number of fields than the table has columns, or a field that is no value of its column",
    64: "the dump would be longer than a block can be; .save and .dump write it in pieces",
    90: "no memory was found for it, and nothing has changed",
}
