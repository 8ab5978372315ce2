"""What may go wrong, as exceptions whose text is one line that says what to do."""

from __future__ import annotations

import errno
import shlex
import sys
from os import PathLike, fspath
from typing import Final

# What the system's loader says of a library that finds no memory, Python of a thread, and of a call that lost its error.
_SHORT: Final = ("failed to map", "cannot allocate memory", "can't start new thread", "without exception set",
                 "without setting an exception")
# Debian's packages of Python modules are named after them, but for these.
_PACKAGES: Final = {"osmium": "python3-pyosmium"}


class CatchupError(Exception):
    """The base of all that this package raises of itself."""


class Failure(CatchupError):
    """Something outside is missing or wrong: a file, a table, a program. `status` is that of a command that ends by it."""

    status: int = 1


class WrongWords(Failure):
    """A command was called with words that are wrong whatever the files hold: its text says what to write."""

    status = 2


class Refused(CatchupError):
    """The program refused a line; `word` is the check that failed, as `node` or `fifo 28799`."""

    def __init__(self, word: str) -> None:
        super().__init__(word)
        self.word = word

    def __str__(self) -> str:
        return f"the program refused the line: {self.word} (docs/FORMATS.md has the checks of each line)"


class Damaged(CatchupError):
    """The packed file isn't one that `catchup build` made: a shortcut of it leads nowhere."""

    def __init__(self, edge: int, dir: str, second: int) -> None:
        super().__init__(edge, dir, second)
        self.edge = edge
        self.dir = dir
        self.second = second

    def __str__(self) -> str:
        return (
            f"the packed file is damaged: edge {self.edge} {self.dir} at second {self.second}"
            " (build it again: catchup build)"
        )


class NoMemory(CatchupError):
    """There was no memory for a day or an edit; nothing has changed."""

    def __str__(self) -> str:
        return "the program had no memory for this line, and nothing has changed: free some and ask again"


class Ended(CatchupError):
    """The program has ended: with which status (negative of a signal, None where unknown), and what it said last."""

    def __init__(self, status: int | None, said: str = "") -> None:
        super().__init__(status, said)
        self.status = status
        self.said = said

    def __str__(self) -> str:
        how = "" if self.status is None else f" with status {self.status}"
        said = f": {self.said}" if self.said else ""
        return f"the program has ended{how}{said}"


class TableError(Failure):
    """A table is at fault. `line` counts as an editor does: the header is line 1; None where no one line is at fault."""

    def __init__(
        self, path: str | PathLike[str], line: int | None, column: str | None, found: str, allowed: str
    ) -> None:
        super().__init__(path, line, column, found, allowed)
        self.path = fspath(path)
        self.line = line
        self.column = column
        self.found = found
        self.allowed = allowed

    def __str__(self) -> str:
        line = "" if self.line is None else f", line {self.line}"
        column = "" if self.column is None else f", column {self.column}"
        return f"{self.path}{line}{column}: found {self.found}, allowed: {self.allowed}"


def is_short(problem: BaseException) -> bool:
    """Whether an error says that there is no memory: for a value, a process, a thread or a library."""
    if isinstance(problem, OSError):
        return problem.errno == errno.ENOMEM
    return isinstance(problem, MemoryError) or isinstance(problem, (ImportError, RuntimeError, SystemError)) and any(
        said in str(problem).lower() for said in _SHORT)


def how_to_get(module: str) -> str:
    """What installs a Python module of others, for the Python that runs: apt-get where that one has Debian's modules, and
    pip where it hasn't, as in an environment made by pipx."""
    name = module.replace("_", "-")
    if any(folder.endswith("/dist-packages") for folder in sys.path):
        return f"'apt-get install {_PACKAGES.get(module, f'python3-{name}')}' does it on Debian and Ubuntu"
    return f"'{shlex.join([sys.executable, '-m', 'pip', 'install', name])}' does it"
