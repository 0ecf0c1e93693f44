"""What the tests of the bindings share: the programs in the pages, and texts that could break out of a line.

What must hold: a page has the program in one fenced block and what it prints in the next one.
"""

import re

from . import harness

# A crate that uses the binding for Rust.
MANIFEST = f"""[package]
name = "{{name}}"
version = "0.1.0"
edition = "2021"

[dependencies]
mmdb = {{{{ path = "{harness.ROOT / 'bindings' / 'rust'}" }}}}
"""
# What a text is drawn from: what the language or a careless binding would read as more than a character.
MARKS = ["'", "''", '"', "?", ":", ":s", "\\", "\\'", "%", "%s", "\0", "\r", "\t", ",", "(", ")", "#", "--", ";", " ", ""]
WORDS = ["null", "1", "-7", "007", "a", "B", "é", "ß", "€", "\u2028", "\x85", "\ufeff", "\ufffd", "😀", "\U0010ffff"]
BREAKS = ["') ", "); delete t", "' or id <> '"]
# What no line can hold, and a parameter can.
LINE_FEEDS = ["\n", "\r\n", "\n\n", "'\ndelete t\n"]


def text(draw):
    return "".join(draw.choice([*MARKS, *WORDS, *BREAKS]) for _ in range(draw.choice([0, 1, 1, 2, 3, 8])))


def programs(page, language):
    """The programs of a page that tells what they print, each with that."""
    whole = (harness.ROOT / page).read_text()
    return re.findall(rf"```{language}\n(.*?)```\n.*?```\n(.*?)```", whole, re.DOTALL)


def first_program(page, language):
    """The first program of a page, and what the page says that it prints."""
    return programs(page, language)[0]


def crate(folder, name, program, modules=()):
    """Puts a crate with this program and these modules into a folder, and gives its own."""
    made = folder / name
    (made / "src").mkdir(parents=True)
    (made / "Cargo.toml").write_text(MANIFEST.format(name=name))
    (made / "src" / "main.rs").write_text(program)
    for module in modules:
        (made / "src" / module.name).write_text(module.read_text())
    return made
