"""The bands of minutes that a map of reach is coloured by."""

from __future__ import annotations

from collections import Counter
from collections.abc import Iterable

MOST_BANDS = 8
# What is later than all bands counts to the last one, where these are at most so great a part of the nodes reached.
_LATE_PART = 20
_STEPS = (1, 2, 3, 5, 10, 15, 20, 30, 45, 60, 90, 120, 180, 240, 360, 480, 720, 1440)
# From dark to light; grey is what isn't reached.
_SHADES = ("#0d0887", "#4c02a1", "#7e03a8", "#aa2395", "#cc4778", "#e66c5c", "#f89540", "#fdc527")
_NOT_REACHED = "#c3c7cd"


class Bands:
    """`count` bands of `step` minutes each, the least for which few nodes are later than all; band 0 is what isn't
    reached, and the first band of minutes is 1. With `is_open` the last one has all that is later too."""

    def __init__(self, seconds: Iterable[int]) -> None:
        """Bands for these seconds from the departure on, one of each node reached."""
        of_minute = Counter(second // 60 for second in seconds)
        reached = sum(of_minute.values())

        def has_few_late(step: int) -> bool:
            late = sum(count for minute, count in of_minute.items() if minute >= MOST_BANDS * step)
            return late * _LATE_PART <= reached

        self.step = next((step for step in _STEPS if has_few_late(step)), _STEPS[-1])
        while not has_few_late(self.step):
            self.step *= 2
        count = max(of_minute, default=0) // self.step + 1
        self.is_open = count > MOST_BANDS
        self.count = min(count, MOST_BANDS)

    def band(self, seconds: int | None) -> int:
        """The band of a node that is reached after so many seconds, or isn't reached."""
        return 0 if seconds is None else min(seconds // (60 * self.step) + 1, self.count)

    def colour(self, band: int) -> str:
        """A band's colour; fewer bands take some that are far apart."""
        if band == 0:
            return _NOT_REACHED
        return _SHADES[int((band - 1) * (MOST_BANDS - 1) / (self.count - 1) + 0.5) if self.count > 1 else 0]

    def words(self, band: int) -> str:
        """Which minutes a band has."""
        if band == 0:
            return "not reached"
        if band == self.count and self.is_open:
            return f"{(band - 1) * self.step} min or more"
        return f"under {self.step} min" if band == 1 else f"{(band - 1) * self.step} to {band * self.step} min"
