"""How slow each street is at a second of the day, against the time when it is free."""

from __future__ import annotations

from typing import TYPE_CHECKING, Any, Final

import numpy as np

from catchup.clock import DAY
from catchup.tables import CLOSED, UNTIL

if TYPE_CHECKING:
    from catchup.service.page.sheet import Bytes, Floats, Sheet, Shorts
    from catchup.tables import Profiles

LIMITS: Final = (1.1, 1.3, 1.6, 2.0, 3.0)
"""Where each class of slowness ends, in times of the free time."""
SLACK: Final = 3
"""Seconds that make no difference: a road of two seconds isn't slow where it takes three."""
LONG_WAIT: Final = 300
"""Seconds for which a road whose drivers wait counts as closed."""
FORWARD: Final = 16
BACKWARD: Final = 32
SHUT: Final = 64


class Traffic:
    """The travel functions of one version's roads. profile: int32[m]."""

    def __init__(self, profile: Shorts, profiles: Profiles) -> None:
        self.profile = profile
        self.profiles = profiles
        first, start = profiles.first, profiles.start.astype(np.int64)
        self._key = np.repeat(np.arange(len(first) - 1, dtype=np.int64), np.diff(first)) * DAY + start
        self._end = np.append(start[1:], DAY)
        self._end[first[1:] - 1] = DAY
        is_closed, is_until = profiles.kind == CLOSED, profiles.kind == UNTIL
        least = np.where(is_until, profiles.value - (self._end - 1), profiles.value).astype(np.float64)
        least[is_closed] = np.inf
        self.free: Floats = np.minimum.reduceat(least, first[:-1])
        """float64[p], the least seconds that each profile takes; infinite where nobody may drive."""

    def at(self, second: int) -> tuple[Floats, Floats]:
        """The seconds that each profile takes at a second, infinite where it is closed; how many of them one waits."""
        of = self.profiles
        piece = np.searchsorted(self._key, np.arange(len(self.free), dtype=np.int64) * DAY + second, side="right") - 1
        is_until = of.kind[piece] == UNTIL
        takes = np.where(is_until, of.value[piece] - second, of.value[piece]).astype(np.float64)
        takes[of.kind[piece] == CLOSED] = np.inf
        return takes, np.where(is_until, self._end[piece] - second, 0).astype(np.float64)

    def streets(self, sheet: Sheet, second: int) -> Bytes:
        """What the page draws of each street, uint8[s]: how slow its slowest road is, 0 to 5, with FORWARD and BACKWARD
        for the directions in which it may be driven at that second, SHUT where there is none."""
        takes, wait = self.at(second)
        is_shut = ~np.isfinite(takes) | (wait >= LONG_WAIT)
        with np.errstate(invalid="ignore"):
            ratio = np.where(is_shut, 0.0, (takes + SLACK) / (self.free + SLACK))
        slow = np.searchsorted(LIMITS, ratio).astype(np.uint8)
        bits = np.where(sheet.is_forward, FORWARD, BACKWARD).astype(np.uint8)
        bits[is_shut[self.profile]] = 0
        found, ways = sheet.by_street(np.maximum, slow[self.profile]), sheet.by_street(np.bitwise_or, bits)
        return np.asarray(found | np.where(ways == 0, np.uint8(SHUT), ways), dtype=np.uint8)

    def pieces(self, profile: int) -> list[dict[str, Any]]:
        """The pieces of a profile's day."""
        of = self.profiles
        span = slice(int(of.first[profile]), int(of.first[profile + 1]))
        names = {int(UNTIL): "until", int(CLOSED): "closed"}
        return [{"from": start, "kind": names.get(kind, "travel"), "value": value} for start, kind, value in zip(
            of.start[span].tolist(), of.kind[span].tolist(), of.value[span].tolist())]

    def waits(self, roads: list[int], seconds: list[int]) -> list[int]:
        """How long one waits on each of some roads that is entered at its second."""
        if not roads:
            return []
        now = np.array(seconds, dtype=np.int64) % DAY
        piece = np.searchsorted(self._key, self.profile[roads].astype(np.int64) * DAY + now, side="right") - 1
        found: list[int] = np.where(self.profiles.kind[piece] == UNTIL, self._end[piece] - now, 0).tolist()
        return found
