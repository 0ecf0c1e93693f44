"""Reads pages, manual pages and the comments at the heads of files: their sentences, links and anchors, and their lists of policies.

What must hold: a sentence ends with its paragraph, its list item or its cell of a table. Code is no sentence, and a piece of code
within one is one word.
"""

import ast
import dataclasses
import re

FENCE = re.compile(r"\s*(```|~~~)")
ITEM = re.compile(r"\s*(?:[-*+]|\d+\.)\s+")
QUOTE = re.compile(r"\s*>\s?")
HEADING = re.compile(r"(#{1,6})\s+(.*)")
CODE = re.compile(r"(`+)(?!`)(.*?[^`])\1(?!`)", re.DOTALL)
LINK = re.compile(r"!?\[([^\]]*)\]\(([^()\s]*)\)")
END = re.compile(r"(?<=[.!?])[)\"'*_]*\s+")
WORD = re.compile(r"\S*\w\S*")
# What begins a paragraph in a manual page, and what is code there.
BREAKS = (".SH", ".SS", ".PP", ".TP", ".IP", ".TQ", ".RS", ".RE", ".LP", ".P", ".HP", ".br", ".EX", ".EE", ".nf", ".fi", ".TS", ".TE")
ESCAPE = re.compile(r"\\(?:\(..|f.|.)")


@dataclasses.dataclass
class Piece:
    """A paragraph, a list item or a cell, with the line on which it begins."""

    line: int
    text: str


def sentences(pieces):
    """The sentences of these pieces, each with the line on which its piece begins."""
    for piece in pieces:
        plain = LINK.sub(r"\1", CODE.sub("code", piece.text))
        for sentence in filter(None, map(str.strip, END.split(plain))):
            yield piece.line, sentence


def words(sentence):
    return len(WORD.findall(sentence))


def long_sentences(pieces, most):
    """What is wrong with these pieces: a line for each sentence of too many words."""
    for line, sentence in sentences(pieces):
        if words(sentence) > most:
            yield f"line {line}: {words(sentence)} words: {sentence[:60]}"


def too_many_lines(pages, most):
    """What is wrong with the length of these pages together."""
    lines = sum(len(page.splitlines()) for page in pages)
    if lines > most:
        yield f"{lines} lines, and {most} are allowed"


def without(mark, line):
    """A line without a mark at its front."""
    found = mark.match(line)
    return line[found.end() :] if found else line


def text_lines(page):
    """The lines of a page that are no code, with their numbers; an empty text in place of each that is."""
    in_fence = in_code = in_item = False
    before = ""
    for number, line in enumerate(page.splitlines(), 1):
        fence = FENCE.match(line)
        if fence or in_fence:
            in_fence ^= bool(fence)
            line = ""
        elif line.startswith("    ") and not in_item and (in_code or not before.strip()):
            in_code = True
            before = line
            line = ""
        else:
            in_code = in_code and not line.strip()
            in_item = bool(ITEM.match(line)) or (in_item and (not line.strip() or line.startswith(" ")))
            before = line
        yield number, line


def page_pieces(page):
    """The pieces of a page in Markdown."""
    piece = None
    for number, line in text_lines(page):
        cells = line.strip().startswith("|")
        if piece and (cells or not line.strip() or HEADING.match(line) or ITEM.match(line)):
            yield piece
            piece = None
        if cells:
            yield from (Piece(number, cell) for cell in CODE.sub("code", line).split("|"))
        elif line.strip():
            text = without(ITEM, without(QUOTE, line))
            piece = Piece(piece.line if piece else number, f"{piece.text} {text}" if piece else HEADING.sub(r"\2", text))
            if HEADING.match(line):
                yield piece
                piece = None
    if piece:
        yield piece


def manual_pieces(page):
    """The pieces of a manual page."""
    text, begun, in_code, in_table = "", 1, False, False
    for number, line in enumerate([*page.splitlines(), ".PP"], 1):
        macro = line.split()[0] if line.startswith(".") and line[1:].strip() else ""
        in_table = (in_table or macro == ".TS") and macro != ".TE"
        if macro in BREAKS or in_table:
            yield Piece(begun, text)
            text, begun = "", number
        in_code = (in_code or macro in (".EX", ".nf")) and macro not in (".EE", ".fi")
        if in_table and not macro:
            yield from (Piece(number, cell) for cell in line.split("\t"))
        elif not in_code and not line.startswith((".\\", "'\\", ".TH")):
            text += " " + ESCAPE.sub("", line.removeprefix(macro)).replace('"', "")


def head(name, text):
    """The comment at the head of a file, as a page; the empty text if there is none."""
    lines = text.splitlines()
    if lines and lines[0].startswith("#!"):
        name, lines = f"{name}.py" if "python" in lines[0] and not name.endswith(".py") else name, lines[1:]
    name = name.removesuffix(".in")
    if name.endswith(".py"):
        return ast.get_docstring(ast.parse(text)) or ""
    if name.endswith((".c", ".h")):
        found = re.match(r"/\*(.*?)\*/", text, re.DOTALL)
        return re.sub(r"^   ", "", found[1], flags=re.MULTILINE) if found else ""
    mark = next((mark for ending, mark in ((".rt", "//!"), (".rs", "//!"), (".antt", "--")) if name.endswith(ending)), "#")
    if mark == "//!" and lines and not lines[0].startswith(mark):
        mark = "//"
    comment = []
    for line in lines:
        if not line.startswith(mark):
            break
        comment.append(line.removeprefix(mark).removeprefix(" "))
    return "\n".join(comment)


def anchors(page):
    """The anchors of a page's headings, as a forge makes them."""
    made = {}
    for _, line in text_lines(page):
        heading = HEADING.match(line)
        if heading:
            slug = re.sub(r"[^\w\- ]", "", LINK.sub(r"\1", heading[2]).lower()).replace(" ", "-")
            made[slug] = made.get(slug, -1) + 1
            yield f"{slug}-{made[slug]}" if made[slug] else slug


def links(page):
    """The targets of a page's links, each with its line."""
    text = "\n".join(line for _, line in text_lines(page))
    plain = CODE.sub(lambda code: re.sub(r"[^\n]", "x", code[0]), text)
    for found in LINK.finditer(plain):
        yield plain.count("\n", 0, found.start()) + 1, found[2]


def dead_links(path):
    """What is wrong with the links of a page: a line for each that leads to no file, or to no heading of a page."""
    for line, target in links(path.read_text()):
        if re.match(r"\w+:", target):
            continue
        name, _, anchor = target.partition("#")
        leads_to = path.parent / name if name else path
        if not leads_to.exists():
            yield f"line {line}: there is no {target}"
        elif anchor and anchor not in set(anchors(leads_to.read_text())):
            yield f"line {line}: there is no heading {target}"


def policy_lists(text):
    """The lists of policies in a page or a manual page, each as the set of its names."""
    for rows in re.findall(r"^\| Policy \|.*\n\|-.*\n((?:\|.*\n)+)", text, re.MULTILINE):
        yield {name for row in rows.splitlines() for name in row.split("|")[1].strip().split(", ")}
    for row in re.findall(r"^\| `--policy NAME` \|(.*)", text, re.MULTILINE):
        yield set(re.findall(r"`(\w+)`", row))
    for words in re.findall(r"^\.BI \\-\\-policy .*\n((?:(?!\.TP).*\n)+)", text, re.MULTILINE):
        yield set(re.findall(r"^\.BR? (\w+)", words, re.MULTILINE))
    for words in re.findall(r"^\.I policy\n((?:(?!\.I ).*\n)+)", text, re.MULTILINE):
        yield {name.lower() for name in re.findall(r"MMDB_(\w+)", words)}
