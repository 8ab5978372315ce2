"""Text in and out of the commands that draw."""

from __future__ import annotations

import sys
from pathlib import Path

from catchup.errors import Failure

NO_INPUT = "standard input is closed, or a folder"
"""What is wrong where Python has no standard input: bin/ closes one that is a folder, with which Python can't start."""


def read_lines(path: Path) -> list[str]:
    """The lines of a file, without their line ends. Raises Failure where it can't be read."""
    try:
        return _lines(path.read_bytes())
    except OSError as error:
        raise Failure(f"{path} can't be read: {error.strerror or error}") from None


def read_input(what: str) -> list[str]:
    """The lines of standard input, which is `what`. Raises Failure where it can't be read."""
    try:
        return _lines(sys.stdin.buffer.read())
    except AttributeError:
        raise Failure(f"{what} can't be read: {NO_INPUT}") from None
    except OSError as error:
        raise Failure(f"{what} can't be read: {error.strerror or error}") from None


def write_picture(picture: str) -> None:
    """Writes a whole picture to standard output."""
    if sys.stdout is None:
        raise Failure("the picture can't be written: standard output is closed")
    sys.stdout.write(picture)
    sys.stdout.flush()


def _lines(content: bytes) -> list[str]:
    lines = content.decode("utf-8", "surrogateescape").split("\n")
    if not lines[-1]:
        lines.pop()
    return [line.removesuffix("\r") for line in lines]
