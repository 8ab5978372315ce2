"""The commands: a module each, with a click command `command` and `main()`.

What takes long to load, or may not be installed, is imported where a command begins its work: so its help is there at
once, and what is missing is told in one line.
"""

import os
import sys

from catchup.errors import how_to_get

try:
    import click  # noqa: F401
except ModuleNotFoundError:
    # Each command needs it to say so much as its help, and what a module isn't installed for is told by it.
    sys.exit(f"{os.path.basename(sys.argv[0])}: the Python module click isn't installed: {how_to_get('click')}")
