"""How long the roads of a network take, at each second and between seconds.

A function of the time of day is known at whole seconds. Between two of them it rises as time does, until it is at its
value of the later one: so who enters a road 0.4 s later leaves it 0.4 s later, or no later at all where he would wait.
Seconds count from a midnight on, and may be of later days.
"""

from __future__ import annotations

from array import array
from bisect import bisect_right
from functools import cached_property
from itertools import accumulate
from pathlib import Path

import numpy as np
from numpy.typing import NDArray

from catchup.clock import DAY
from catchup.tables import CLOSED, PROFILES_FILE, TRAVEL, UNTIL, Profiles, read_profiles

Ints = NDArray[np.int64]
Shorts = NDArray[np.int32]
Bools = NDArray[np.bool_]
Floats = NDArray[np.float64]


class Travel:
    """The travel functions of m roads. profile: int32[m]."""

    def __init__(self, profile: Shorts, profiles: Profiles) -> None:
        self._profile = profile
        self._profiles = profiles
        first, kind = profiles.first, profiles.kind
        single = (np.diff(first) == 1) & (kind[first[:-1]] == TRAVEL)
        constant = np.where(single, profiles.value[first[:-1]], -1)
        self.constant: Ints = constant[profile]
        """int64[m]: the seconds that a road takes all day, -1 where that changes, or nobody may drive it."""
        # The same for what goes road by road.
        self._constant = array("i", self.constant.astype(np.int32).tobytes())
        self._number = array("i", profile.astype(np.int32).tobytes())
        self.is_closed: Bools = (kind[first[:-1]] == CLOSED)[profile]
        self._known: dict[int, tuple[list[int], list[int], list[int]]] = {}

    @classmethod
    def of_folder(cls, folder: Path, profile: Shorts) -> Travel:
        """Of the table of profiles in a folder; Failure, or TableError, where it can't be read."""
        return cls(profile, read_profiles(folder / PROFILES_FILE))

    def prepare(self) -> None:
        """Makes now what is made where it is first asked for."""
        _ = self._keys, self._rests

    def arrive(self, road: int, second: int) -> int:
        """When one leaves a road who enters it at a second. It may not be closed."""
        starts, kinds, values = self._of_road(road)
        now = second % DAY
        at = bisect_right(starts, now) - 1
        return second + values[at] if kinds[at] == TRAVEL else second - now + values[at]

    def arrive_between(self, road: int, time: float) -> float:
        """When one leaves a road who enters it at any time."""
        second = int(time)
        arrive = self.arrive(road, second)
        part = time - second
        return float(arrive) if part == 0.0 else min(arrive + part, float(self.arrive(road, second + 1)))

    def entered(self, roads: list[int], second: int) -> tuple[list[int], int]:
        """When each of some roads is entered that are driven one after the other from a second on, and when the last
        one is left. Lines `v` say the same, so nobody asks this of a program that answers them."""
        constant = self._constant
        takes = [constant[road] for road in roads]
        if min(takes, default=0) >= 0:
            *seconds, second = accumulate(takes, initial=second)
            return seconds, second
        seconds, known, number = [], self._known, self._number
        for road, each in zip(roads, takes):
            seconds.append(second)
            if each < 0:
                # As `arrive`, whose call would take most of the time.
                starts, kinds, values = known.get(number[road]) or self._of_road(road)
                now = second % DAY
                at = bisect_right(starts, now) - 1
                each = values[at] if kinds[at] == TRAVEL else values[at] - now
            second += each
        return seconds, second

    def arrive_all(self, roads: Ints, seconds: Ints) -> Ints:
        """When each of some roads is left that is entered at its second."""
        profile = self._profile[roads].astype(np.int64)
        now = seconds % DAY
        at = np.searchsorted(self._keys, profile * DAY + now, side="right") - 1
        value = self._profiles.value[at]
        return np.where(self._profiles.kind[at] == UNTIL, seconds - now + value, seconds + value)

    def arrive_all_between(self, roads: Ints, times: Floats) -> Floats:
        """As arrive_between, of each road at its time."""
        second = np.floor(times).astype(np.int64)
        part = times - second
        arrive = self.arrive_all(roads, second)
        return np.minimum(arrive + part, np.where(part > 0.0, self.arrive_all(roads, second + 1), arrive))

    def arrive_rising(self, road: int, seconds: Ints) -> Ints:
        """When a road is left that is entered at each of some seconds, which never fall."""
        takes = int(self.constant[road])
        if takes >= 0 or not len(seconds):
            return seconds + takes
        starts, kinds, values = self._of_road(road)
        days = range(int(seconds[0]) // DAY, int(seconds[-1]) // DAY + 1)
        begins = [day * DAY + start for day in days for start in starts]
        bounds = [*np.searchsorted(seconds, begins).tolist(), len(seconds)]
        found = np.empty_like(seconds)
        for at, (low, high) in enumerate(zip(bounds, bounds[1:])):
            day, piece = divmod(at, len(starts))
            if kinds[piece] == TRAVEL:
                np.add(seconds[low:high], values[piece], out=found[low:high])
            else:
                found[low:high] = days[day] * DAY + values[piece]
        return found

    def has_rest(self, begin: int, end: int) -> bool:
        """Whether at some second from `begin` to `end` somebody may enter a road and leave it no later for entering it
        a second later. Where not, who leaves any place a second later arrives at each other one a second later at
        least."""
        if self._rests is None:
            return False
        if end - begin >= DAY - 1:
            return bool(self._rests[DAY])
        low, high = begin % DAY, begin % DAY + end - begin + 1
        found = self._rests[min(high, DAY)] - self._rests[low] + self._rests[max(high - DAY, 0)]
        return bool(found)

    def have_rests(self, begin: Ints, end: Ints) -> Bools:
        """As has_rest, of each of some beginnings and ends that numpy brings to one shape."""
        if self._rests is None:
            return np.zeros(np.broadcast(begin, end).shape, dtype=bool)
        low = begin % DAY
        # Whoever is longer on the way than a day meets all there are.
        high = np.minimum(low + (end - begin) + 1, 2 * DAY)
        before = self._rests[np.minimum(high, DAY)] - self._rests[low]
        found: Bools = before + self._rests[np.maximum(high - DAY, 0)] > 0
        return found

    def _of_road(self, road: int) -> tuple[list[int], list[int], list[int]]:
        """The starts, kinds and values of a road's pieces."""
        profile = self._number[road]
        known = self._known.get(profile)
        if known is None:
            of = self._profiles
            span = slice(int(of.first[profile]), int(of.first[profile + 1]))
            known = self._known[profile] = of.start[span].tolist(), of.kind[span].tolist(), of.value[span].tolist()
        return known

    @cached_property
    def _keys(self) -> Ints:
        """Where each piece begins, in one rising row: its profile's number times the seconds of a day, and its
        start."""
        number = np.repeat(np.arange(len(self._profiles)), np.diff(self._profiles.first))
        return number * DAY + self._profiles.start

    @cached_property
    def _rests(self) -> Ints | None:
        """How many of the seconds before each are such that some road's arrival is that of the next second, int64[DAY +
        1]; None where there are none."""
        of = self._profiles
        is_used = np.zeros(len(of), dtype=bool)
        is_used[self._profile] = True
        used = np.repeat(is_used, np.diff(of.first)) & (of.kind != CLOSED)
        start, is_until = of.start.astype(np.int64), of.kind == UNTIL
        end = np.append(start[1:], DAY)
        end[of.first[1:] - 1] = DAY
        arrive = np.where(is_until, of.value, start + of.value)
        last = np.where(is_until, of.value, end - 1 + of.value)
        # Behind a profile's last piece comes its first one, of the next day.
        after = np.append(arrive[1:], 0)
        after[of.first[1:] - 1] = arrive[of.first[:-1]] + DAY
        changes = np.zeros(DAY + 1, dtype=np.int64)
        rests = used & (last == after)
        for begin, behind in ((start[used & is_until], end[used & is_until] - 1), (end[rests] - 1, end[rests])):
            np.add.at(changes, begin, 1)
            np.add.at(changes, behind, -1)
        found = np.concatenate(([0], np.cumsum(np.cumsum(changes[:DAY]) > 0)))
        return found if found[DAY] else None
