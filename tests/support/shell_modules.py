"""Makes the modules of the shell importable, and the package mmdb that they use.

What must hold: this module is imported before mmdb_shell.
"""

import sys

from . import binding, harness

FOLDER = harness.ROOT / "shell"

sys.path.insert(0, str(FOLDER))
