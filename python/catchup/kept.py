"""What was made once and may be asked for again, as long as there is room for it."""

from __future__ import annotations

from collections.abc import Callable
from typing import TypeVar

Key = TypeVar("Key")
Value = TypeVar("Value")


class Kept(dict[Key, Value]):
    """The values of some keys, each made when it is first looked up: at least the `most` that were looked up last are
    there, and at most twice as many.

    They are in two halves. When this dictionary is full it becomes the old half, whose values go but for those that are
    looked up meanwhile. So what many ask for stays, and nobody waits until all of it is made again.
    """

    def __init__(self, most: int, make: Callable[[Key], Value]) -> None:
        super().__init__()
        self._most, self._make = most, make
        self._old: dict[Key, Value] = {}

    def __missing__(self, key: Key) -> Value:
        value = self._old[key] if key in self._old else self._make(key)
        if len(self) >= self._most:
            self._old = dict(self)
            self.clear()
        self[key] = value
        return value
