"""The pages, the manual pages and the heads of files: no sentence is too long, no link is dead, the pages stay within their lines, and
each list of policies has all of them.

What must hold: PAGES are the pages whose lines are counted. There are no exemptions.
"""

import os
import pathlib
import re
import subprocess
import tempfile
import unittest

from support import harness, pages

MOST_WORDS = 40
MOST_LINES = 6_000
ROOT = harness.ROOT
PAGES = [*(ROOT / name for name in ("README.md", "CHANGELOG.md", "CONTRIBUTING.md")), *sorted((ROOT / "docs").glob("*.md"))]
MANUALS = sorted((ROOT / "docs" / "man").iterdir())
# Pages whose lines aren't counted.
OTHERS = [ROOT / name / "README.md" for name in ("docs/papers", "bench", "release", "bindings/python", "bindings/rust")]
FOLDERS = ("bench", "bindings", "crates", "docs", "examples", "include", "release", "scripts", "shell", "tests", ".ci")
ENDINGS = (".rt", ".antt", ".py", ".c", ".h", ".rs", ".in", "")
# How many lists of policies there are in a page.
POLICY_LISTS = {"plans.md": 3, "running.md": 1, "shell.md": 1, "man/mmdb.1": 1, "man/mmdb.3": 1, "man/mmdb-shell.1": 1}
# What the toolchain, cargo, pip and Python leave, and the streams of tests/rows.
BUILT = {"out", "target", "build", "__pycache__", "rows", ".rt"}


def sources():
    """The files that begin with a comment: sources and scripts."""
    found = [path for path in ROOT.iterdir() if path.is_file() and not path.suffix]
    for folder in FOLDERS:
        for place, inner, names in os.walk(ROOT / folder):
            inner[:] = sorted(set(inner) - BUILT)
            found += [pathlib.Path(place, name) for name in sorted(names) if pathlib.Path(name).suffix in ENDINGS]
    return [path for path in found if is_source(path)]


def is_source(path):
    if path.suffix:
        return True
    with path.open("rb") as file:
        return file.read(2) == b"#!" or path.name in ("crates.txt", "installed")


def long_sentences(path):
    """The sentences of a page, a manual page or a head that are too long, each with its file."""
    text = path.read_text()
    if path.suffix == ".md":
        pieces = pages.page_pieces(text)
    elif path in MANUALS:
        pieces = pages.manual_pieces(text)
    else:
        pieces = pages.page_pieces(pages.head(path.name, text))
    return [f"{path.relative_to(ROOT)}, {fault}" for fault in pages.long_sentences(pieces, MOST_WORDS)]


class Pages(unittest.TestCase):
    """The pages as they are."""

    def check_none(self, faults):
        self.assertEqual(faults, [], "\n" + "\n".join(faults))

    def test_no_sentence_of_a_page_is_too_long(self):
        self.check_none([fault for path in [*PAGES, *OTHERS, *MANUALS] for fault in long_sentences(path)])

    def test_no_sentence_at_the_head_of_a_file_is_too_long(self):
        found = sources()
        self.assertGreater(len(found), 500)
        self.check_none([fault for path in found for fault in long_sentences(path)])

    def test_the_pages_stay_within_their_lines(self):
        self.check_none([*pages.too_many_lines((path.read_text() for path in PAGES), MOST_LINES)])

    def test_each_list_of_policies_has_all(self):
        told = re.search(r"--policy .*possible values: (.*)\]", harness.run_whole(b"", ["--help"]).out.decode())[1]
        self.assertEqual(tuple(told.split(", ")), harness.POLICIES)
        for name, count in POLICY_LISTS.items():
            with self.subTest(name):
                self.assertEqual([*pages.policy_lists((ROOT / "docs" / name).read_text())], [set(harness.POLICIES)] * count)

    def test_no_link_is_dead(self):
        self.check_none([f"{path.relative_to(ROOT)}, {fault}" for path in [*PAGES, *OTHERS] for fault in pages.dead_links(path)])

    def test_no_link_of_an_installed_page_is_dead(self):
        with tempfile.TemporaryDirectory(prefix="mmdb-tests-") as room:
            where = {**os.environ, "DESTDIR": ""}
            subprocess.run([ROOT / "install", "--as-released", room], env=where, capture_output=True, check=True)
            installed = sorted(pathlib.Path(room, "share/doc/mmdb").rglob("*.md"))
            self.assertGreater(len(installed), 5)
            self.check_none([f"{path.relative_to(room)}, {fault}" for path in installed for fault in pages.dead_links(path)])


LONG = " ".join(["word"] * (MOST_WORDS + 1))
FULL = " ".join(["word"] * MOST_WORDS)
# Pages with one sentence that is too long.
LONG_PAGES = {
    "a paragraph": f"# Heading\n\nShort. {LONG}.\n",
    "lines of a paragraph": f"{FULL}\nword.\n",
    "a list item": f"- Short.\n- {LONG}\n  and more.\n",
    "a numbered item": f"1. {LONG}.\n",
    "a cell": f"| a | b |\n|---|---|\n| short | {LONG} |\n",
    "a quotation": f"> {LONG}.\n",
    "a heading": f"## {LONG}\n",
    "names in code": f"`a b c` {FULL}.\n",
    "the text of a link": f"[{LONG}](other.md).\n",
    "a number and a point": f"{FULL} 1.5 word.\n",
    "what follows code": f"```sh\nshort\n```\n\n    short\n\n{LONG}\n",
}
# Pages without one.
SHORT_PAGES = {
    "sentences": f"{FULL}. {FULL}! ({FULL}.) {FULL}?\n",
    "a paragraph and another": f"{FULL}\n\n{FULL}\n",
    "a list": f"{FULL}:\n- {FULL}\n- {FULL}\n",
    "cells": f"| {FULL} | {FULL} |\n",
    "code": f"```sh\n{LONG}\n```\n\n    {LONG}\n\n`{LONG}`\n",
}
# Heads of files with such a sentence.
LONG_HEADS = {
    "a.py": f'"""Short.\n\n{LONG}.\n"""\n',
    "script": f"#!/usr/bin/env bash\n# {LONG}.\nset -eu\n",
    "other": f'#!/usr/bin/env python3\n"""{LONG}."""\n',
    "a.rt": f"//! Short.\n//!\n//! - {LONG}\n\nfn main() {{}}\n",
    "b.rt": f"// {LONG}\nfn main() {{}}\n",
    "a.rs": f"//! {LONG}\n",
    "a.rt.in": f"//! {LONG}\n",
    "a.antt": f"-- {FULL}\n-- word.\nuse Other\n",
    "a.c": f"/* Short. {FULL}\n   word. */\n",
    "a.h": f"/* {LONG} */\n",
}
# Lists of the policies `auto`, `hash` and `tree`.
POLICIES_LISTED = {
    "a table": "| Policy | Plan |\n|---|---|\n| auto, hash | Scan; else Tree |\n| tree | as auto |\n",
    "a row": "| `--other NAME` | `scan` |\n| `--policy NAME` | `auto`, `hash` or `tree`; by default `auto` |\n",
    "an option": '.TP\n.BI \\-\\-policy " POLICY"\nOne of\n.BR auto ,\n.B hash\nor\n.BR tree .\n.TP\n.B other\n',
    "an argument": ".I policy\nis\n.BR MMDB_AUTO ,\n.B MMDB_HASH\nor\n.BR MMDB_TREE .\n.I rows\nis\n.B MMDB_MOST\n",
}
MANUALS_IN_TROFF = {
    "a paragraph": f".SH NAME\n{FULL}\n.B word\n.PP\nshort\n",
    "a cell": f".TS\nl l.\nshort\t{LONG}\n.TE\n",
    "an item": f".TP\n.B word\n{FULL}.\n",
}


class WrongPages(unittest.TestCase):
    """What the checks say of wrong pages, and of pages that are right."""

    def test_long_sentences_are_seen(self):
        for what, page in LONG_PAGES.items():
            with self.subTest(what):
                self.assertEqual(len([*pages.long_sentences(pages.page_pieces(page), MOST_WORDS)]), 1)

    def test_others_are_not(self):
        for what, page in SHORT_PAGES.items():
            with self.subTest(what):
                self.assertEqual([*pages.long_sentences(pages.page_pieces(page), MOST_WORDS)], [])

    def test_long_sentences_of_heads_are_seen(self):
        for name, text in LONG_HEADS.items():
            with self.subTest(name):
                pieces = pages.page_pieces(pages.head(name, text))
                self.assertEqual(len([*pages.long_sentences(pieces, MOST_WORDS)]), 1)

    def test_long_sentences_of_manual_pages_are_seen(self):
        for what, page in MANUALS_IN_TROFF.items():
            with self.subTest(what):
                self.assertEqual(len([*pages.long_sentences(pages.manual_pieces(page), MOST_WORDS)]), 1)

    def test_a_policy_that_is_forgotten_is_seen(self):
        for what, page in POLICIES_LISTED.items():
            with self.subTest(what):
                self.assertEqual([*pages.policy_lists(page)], [{"auto", "hash", "tree"}])
                self.assertEqual([*pages.policy_lists(re.sub("(?i)hash", "tree", page))], [{"auto", "tree"}])

    def test_too_many_lines_are_seen(self):
        for most, faults in ((3, 0), (2, 1)):
            self.assertEqual(len([*pages.too_many_lines(["first\nsecond\n", "third\n"], most)]), faults)

    def test_dead_links_are_seen(self):
        page = "# One\n\n## Two `x`, *three*\n\n## One\n\n[a](#one), [b](#one-1), [c\nd](b.md#there), [e](https://example.org/none), `[f](g)`\n"
        wrong = "[a](#two), [b](c.md), [d](b.md#gone), [e\nf](folder/none.svg)\n"
        with tempfile.TemporaryDirectory(prefix="mmdb-tests-") as room:
            first, second = pathlib.Path(room, "a.md"), pathlib.Path(room, "b.md")
            first.write_text(page)
            second.write_text("## There\n")
            self.assertEqual([*pages.dead_links(first)], [])
            first.write_text(page + wrong)
            self.assertEqual([fault.rpartition(" ")[2] for fault in pages.dead_links(first)], ["#two", "c.md", "b.md#gone", "folder/none.svg"])
