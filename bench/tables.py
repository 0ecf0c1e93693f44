"""Tables of figures in Markdown: a row for each measurement, a column for each number of rows."""


def table(heads, figures, name):
    """The lines of a table of these figures. A figure has `rows`, `ours`, `theirs` and `ratio`, and `name` gives the cells that name it."""
    sizes = sorted({figure.rows for figure in figures})
    cells = {}
    for figure in figures:
        cells.setdefault(name(figure), {})[figure.rows] = f"{figure.ours:,.2f} / {figure.theirs:,.2f} ({figure.ratio:.2f})"
    lines = [[*heads, *(f"{size:,} rows" for size in sizes)], ["---"] * (len(heads) + len(sizes))]
    lines += [[*named, *(found.get(size, "") for size in sizes)] for named, found in cells.items()]
    return [f"| {' | '.join(line)} |" for line in lines]
