"""What an import counts, and some of the numbers of OpenStreetMap of each thing, to look at."""
from __future__ import annotations

from typing import Iterable

EXAMPLES = 5


class Counts:
    """Counters by name, each with the first few things that were counted."""

    def __init__(self) -> None:
        self._counts: dict[str, float] = {}
        self._examples: dict[str, list[int]] = {}

    def add(self, what: str, of: int | None = None, number: float = 1) -> None:
        """Counts one thing, or so many."""
        self._counts[what] = self._counts.get(what, 0) + number
        if of is not None:
            self._remember(what, (of,))

    def add_all(self, what: str, of: Iterable[int]) -> None:
        """Counts each of these."""
        things = list(of)
        if things:
            self._counts[what] = self._counts.get(what, 0) + len(things)
            self._remember(what, things)

    def _remember(self, what: str, things: Iterable[int]) -> None:
        kept = self._examples.setdefault(what, [])
        kept.extend(list(things)[:EXAMPLES - len(kept)])

    def __getitem__(self, what: str) -> int:
        return int(self._counts.get(what, 0))

    def amount(self, what: str) -> float:
        """What was counted, not as a whole number."""
        return self._counts.get(what, 0)

    def examples(self, what: str) -> tuple[int, ...]:
        """The first few that were counted."""
        return tuple(self._examples.get(what, ()))

    def under(self, start: str) -> dict[str, int]:
        """The counters whose names begin so, by the rest of their names, the largest first."""
        found = {what[len(start):]: int(count) for what, count in self._counts.items()
                 if what.startswith(start) and count}
        return dict(sorted(found.items(), key=lambda item: (-item[1], item[0])))

    def names(self) -> list[str]:
        """All counters that counted something, by name."""
        return sorted(what for what, count in self._counts.items() if count)
