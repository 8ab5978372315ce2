"""The words of commands: numbers within bounds and paths, refused in one line that says what to write."""

from __future__ import annotations

import re
from pathlib import Path

import click


class Number(click.IntRange):
    """A whole number of ASCII digits, from `least` on or from `least` to `most`."""

    name = "number"

    def __init__(self, least: int, most: int | None = None) -> None:
        super().__init__(least, most)
        self._form = f"a whole number from {least} {'on' if most is None else f'to {most}'}"

    def convert(self, value: object, param: click.Parameter | None, ctx: click.Context | None) -> int:
        text = str(value)
        # Python's int would take signs, spaces and underscores too.
        if not (re.fullmatch("[0-9]{1,18}", text, re.ASCII) and self._holds(int(text))):
            self.fail(f"write {self._form}, and not {text!r}", param, ctx)
        return int(text)

    def _holds(self, number: int) -> bool:
        return (self.min is None or number >= self.min) and (self.max is None or number <= self.max)


class FileWord(click.Path):
    """A path. Whether it can be read is told by whoever reads it, since the system's reason is known only then."""

    def __init__(self) -> None:
        super().__init__(readable=False, path_type=Path)

    def convert(self, value: object, param: click.Parameter | None, ctx: click.Context | None) -> Path:
        # Python takes an empty path for the folder that one is in, which nobody means.
        if value == "":
            self.fail("write a path, and not an empty word", param, ctx)
        return Path(super().convert(value, param, ctx))
