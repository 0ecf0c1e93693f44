"""Lines that a new user might type. Each is refused, and has its reason.

What must hold: each line of hand.txt has one line of hand.told, in the same order.
"""

from . import harness

#: What is declared and put in before them.
FRONT = b"""table dept (id int, name text)
table emp (id int, name text, dept ref dept null)
insert dept (10, 'toys')
insert dept (20, 'shoes')
insert emp (1, 'Ann', 20)
"""
#: The lines, and of each the refusal with its reason.
LINES = (harness.SUPPORT / "hand.txt").read_text().splitlines()
TOLD = (harness.SUPPORT / "hand.told").read_text().splitlines()
#: All of them as a stream.
STREAM = FRONT + "".join(f"{line}\n" for line in LINES).encode()
