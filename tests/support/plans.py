"""Which plan each policy chooses for a select. No answer shows the plan, so this says what a stream asks for, not what was done.

What must hold: it follows docs/plans.md.
"""

RANGES = ("=", "<", "<=", ">", ">=")


class Side:
    """A table of a join, with the column that is compared."""

    def __init__(self, table, place):
        self.table = table
        self.place = place

    def has_tree(self):
        return self.place in places(self.table, "tree")

    def refers_to(self, other):
        return self.table.columns[self.place].to == other.table.name and other.place == 0


def places(table, kind):
    """The columns of a table that have such an index. Its key has a tree."""
    return {place for place, other in table.indexes if other == kind} | ({0} if kind == "tree" else set())


def of_rows(policy, table, tests):
    """The plan that finds the rows of a table that pass tests, of each of which its column and its sign are given."""
    by_tree = any(sign in RANGES and place in places(table, "tree") for place, sign in tests)
    by_hash = any(sign == "=" and place in places(table, "hash") for place, sign in tests)
    if policy == "scan" or not (by_tree or by_hash):
        return "Scan"
    return "Tree" if by_tree and (policy == "tree" or not by_hash) else "Hash"


def of_first_join(policy, outer, inner):
    """The plan of a join of two whole tables."""
    if policy in ("scan", "hash"):
        return {"scan": "Nested", "hash": "HashJoin"}[policy]
    if policy == "tree" and inner.has_tree():
        return "TreeJoin"
    has_trees = outer.has_tree() and inner.has_tree()
    if policy == "merge" and has_trees:
        return "TreeMerge"
    if outer.refers_to(inner) or inner.refers_to(outer):
        return "Precomputed"
    return "TreeMerge" if has_trees else by_numbers(len(outer.table.rows), inner)


def of_next_join(policy, rows, outer, inner):
    """The plan of a join of so many rows so far with one more table."""
    if policy in ("scan", "hash"):
        return {"scan": "Nested", "hash": "HashJoin"}[policy]
    if policy == "tree" and inner.has_tree():
        return "TreeJoin"
    return "Precomputed" if outer.refers_to(inner) else by_numbers(rows, inner)


def by_numbers(rows, inner):
    return "TreeJoin" if inner.has_tree() and 2 * rows <= len(inner.table.rows) else "HashJoin"
