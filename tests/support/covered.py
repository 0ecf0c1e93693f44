"""Tables that count what streams cover: commands, refusals, the plans of each policy, and how often the trees and hashes of the library
grew and shrank.

What must hold: WORDS has every command, so that a run of many streams fails if one of them is never drawn.
"""

import collections

from . import harness, model, plans

CHANGES = (b"insert", b"update", b"delete", b"load")
# What is seen of indexes from command to command: of what they tell, by its place, what it is called that there is more of it,
# and that there is less.
TOLD = {
    "tree": {3: ("levels of trees more", "levels of trees fewer"), 4: ("nodes of trees more", "nodes of trees fewer")},
    "hash": {6: ("splits of buckets", "folds of buckets")},
}
SHAPED = [word for told in TOLD.values() for both in told.values() for word in both]
WORDS = ("table", "drop_table", "index", "drop_index", "insert", "update", "delete", "select", "load", "dump", "tables")


def stands(row, test):
    (_, place), sign, value = test
    return model.stands(row[place], sign, value)


def joined(members, table, outer, inner):
    """Rows so far, each with each row of one more table that has an equal value."""
    by_value = collections.defaultdict(list)
    for row in table.rows:
        by_value[row[inner]].append(row)
    values = [(member, member[outer[0]][outer[1]]) for member in members]
    return [[*member, row] for member, value in values if value is not None for row in by_value[value]]


class Tables(model.Tables):
    """The tables of the model, with a count of pairs: what is counted, and of which kind."""

    def __init__(self, limits):
        super().__init__(limits)
        self.count = collections.Counter()

    def answer(self, line, block):
        answer = super().answer(line, block)
        number = answer[6:8].decode() if answer.startswith(b"error ") else None
        self.count["requests", "refused" if number else "done" if answer else "silent"] += 1
        if number:
            self.count["refusals", number] += 1
        return answer

    def update(self, name, settings, conditions):
        answer = super().update(name, settings, conditions)
        self.count_search(name, conditions)
        return answer

    def delete(self, name, conditions):
        answer = super().delete(name, conditions)
        self.count_search(name, conditions)
        return answer

    def select(self, distinct, items, name, joins, conditions):
        answer = super().select(distinct, items, name, joins, conditions)
        names = [name, *(join[0] for join in joins)]
        sides = [self.sides(names[: at + 1], join) for at, join in enumerate(joins)]
        tests = [(self.meant(names, column), sign, value) for column, sign, value in conditions]
        self.count_plans([self.by_name[other] for other in names], sides, tests)
        return answer

    def count_search(self, name, conditions):
        table = self.by_name[name]
        tests = [(table.place(column), sign) for column, sign, _ in conditions]
        for policy in harness.POLICIES:
            self.count["plans", f"{policy} {plans.of_rows(policy, table, tests)}"] += 1

    def count_plans(self, tables, sides, tests):
        """Counts the plan of the first table of a select, and of each join."""
        of_first = [(place, sign) for (number, place), sign, _ in tests if number == 0]
        rows = self.rows_so_far(tables, sides, tests)
        for policy in harness.POLICIES:
            plan = plans.of_rows(policy, tables[0], of_first)
            self.count["plans", f"{policy} {plan}"] += 1
            for at, ((number, place), inner) in enumerate(sides):
                both = plans.Side(tables[number], place), plans.Side(tables[at + 1], inner)
                if at == 0 and plan == "Scan":
                    self.count["joins of two tables", f"{policy} {plans.of_first_join(policy, *both)}"] += 1
                else:
                    self.count["joins of the rows so far", f"{policy} {plans.of_next_join(policy, rows[at], *both)}"] += 1

    @staticmethod
    def rows_so_far(tables, sides, tests):
        """How many rows there are before each join: those that pass the tests of the tables so far."""
        members, numbers = [[row] for row in tables[0].rows], []
        for at, side in enumerate([*sides, None]):
            own = [test for test in tests if test[0][0] == at]
            members = [member for member in members if all(stands(member[at], test) for test in own)]
            numbers.append(len(members))
            if side:
                members = joined(members, tables[at + 1], *side)
        return numbers


def counted(word):
    """A command that is counted, whether it is refused or not."""
    does = Tables.__dict__.get(word, getattr(model.Tables, word))

    def do(self, *said):
        self.count["commands", word.replace("_", " ")] += 1
        return does(self, *said)

    return do


for name in WORDS:
    setattr(Tables, name, counted(name))


class Shapes:
    """How the indexes of each table stood when they were looked at last, and what there has been more or less of since. Where a
    command brings both it is the difference that is seen."""

    def __init__(self, count):
        self.count = count
        self.seen = {}

    def look(self, handle, line):
        """Looks at the table that a line has changed."""
        words = line.split(maxsplit=2)
        if words and words[0] in CHANGES:
            for record in handle.indexes(words[1]).decode().splitlines()[2:]:
                self.compare(words[1], record.split(","))

    def compare(self, table, told):
        column, kind = told[:2]
        before = self.seen.get((table, column, kind), told)
        for place, (more, fewer) in TOLD[kind].items():
            difference = int(told[place]) - int(before[place])
            self.count["shapes", more if difference > 0 else fewer] += abs(difference)
        self.seen[table, column, kind] = told
