"""The page of the library's benchmarks: a table, and behind it sections that other programs write."""

import pathlib

PAGE = pathlib.Path(__file__).resolve().parents[2] / "docs" / "embedding-benchmark.md"
INDEXES, TRANSACTIONS, READERS = "## Three indexes", "## Transactions", "## Many readers"
HEADINGS = (INDEXES, TRANSACTIONS, READERS)


def kept(heading):
    """The section of a heading, as the page has it: nothing where it has none."""
    _, found, behind = PAGE.read_text().partition(f"\n{heading}\n")
    return found + behind.partition("\n## ")[0].rstrip("\n") + "\n" if found else ""


def all_kept():
    """All sections, as the page has them."""
    return "".join(map(kept, HEADINGS))


def write(heading, text):
    """Puts a section into the page, in the place of the one that it has."""
    sections = {each: kept(each) for each in HEADINGS}
    table = PAGE.read_text().partition("\n## ")[0].rstrip("\n") + "\n"
    sections[heading] = f"\n{heading}\n\n{text}"
    PAGE.write_text(table + "".join(sections.values()))
