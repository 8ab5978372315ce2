"""The stretches of drives: parts of roads under one name, with the texts of their lines.

Drives share most of their roads, so what is told of a whole road is kept.
"""

from __future__ import annotations

import functools
from array import array
from collections.abc import Iterable, Sequence
from dataclasses import dataclass
from itertools import chain
from typing import Final

from catchup.kept import Kept
from catchup.places.drives import Drive
from catchup.places.lines import Lines, Named, Part
from catchup.service.osrm.lines import FORMS, Place, point
from catchup.service.osrm.texts import text

MOST_KEPT: Final = 65_536               # roads whose stretches are kept, in each form of lines

Its = tuple["Stretch", ...]


@dataclass(slots=True, eq=False)
class Stretch:
    """A part of a road under one name, as it is driven. Nobody changes one: it isn't frozen since that would take much
    of the time of making it.

    low, high: the shares of the road's metres at which it begins and ends. drawn: the bytes of its places, float64 of
    longitude and latitude each. at: its first place as JSON. line, rest: the texts of its places, and of all but the
    first, in the form of lines that was asked for. street: OSRM's members of a step that tell which street it is.
    is_whole: whether all of its road is driven.
    """

    road: int
    name: str
    ref: str
    kind: str
    is_ring: bool
    low: float
    high: float
    metres: float
    drawn: bytes
    at: str
    line: str
    rest: str
    street: str
    is_whole: bool

    @property
    def places(self) -> list[Place]:
        """Its places, two at least."""
        numbers = memoryview(self.drawn).cast("d").tolist()
        return list(zip(numbers[::2], numbers[1::2]))


class Stretches:
    """The stretches of a network's roads. mode: how one moves on all roads but ferries, and side: on which side of the
    road, in OSRM's words. several: the roads that may have more than one, which are few."""

    def __init__(self, lines: Lines, mode: str, side: str) -> None:
        self._lines = lines
        self.several = lines.several
        self._mode, self._side = mode, side
        self._kept: dict[str, Kept[int, Its]] = {
            form: Kept(MOST_KEPT // 2, functools.partial(self._whole, form)) for form in FORMS}

    def of_road(self, road: int, form: str) -> Its:
        """The stretches of a whole road, which are kept."""
        return self._kept[form][road]

    def _whole(self, form: str, road: int) -> Its:
        return self._along((road, 0.0, 1.0), form)

    def of_part(self, part: Part, form: str) -> Its:
        """The stretches of a part of a road."""
        road, begin, end = part
        whole = self.of_road(road, form)
        if begin == 0.0 and end == 1.0:
            return whole
        return self._along(part, form) if len(whole) > 1 else (self.cut(whole[0], begin, end, form),)

    def cut(self, whole: Stretch, low: float, high: float, form: str) -> Stretch:
        """The part of a road's only stretch between two shares of its metres."""
        points = self._lines.points((whole.road, low, high))
        line, rest = FORMS[form].told(points)
        return Stretch(whole.road, whole.name, whole.ref, whole.kind, whole.is_ring, low, high,
                       (high - low) * self._lines.length(whole.road), drawn(points), point(points[0]), line, rest,
                       whole.street, False)

    def _along(self, part: Part, form: str) -> Its:
        return tuple([self._one(part, named, self._lines.points((part[0], *named[2:])), form)
                      for named in self._lines.names_along(part)])

    def still(self, drive: Drive, form: str) -> Stretch:
        """The stretch of a drive between two places that are one."""
        snap = drive.start
        road, share = snap.roads[0]
        return self._one((road, share, share), (snap.name, snap.ref, share, share), [snap.point, drive.end.point], form)

    def _one(self, part: Part, named: Named, points: Sequence[Place], form: str) -> Stretch:
        """A stretch of a part of a road, from its name and its places."""
        road, (name, ref, low, high) = part[0], named
        lines = self._lines
        kind, metres = lines.kind(road), (high - low) * lines.length(road)
        line, rest = FORMS[form].told(points)
        street = street_told(name, ref, "ferry" if kind == "ferry" else self._mode, self._side)
        return Stretch(road, name, ref, kind, lines.is_roundabout(road), low, high, metres, drawn(points),
                       point(points[0]), line, rest, street, part[1] == 0.0 and part[2] == 1.0)


def drawn(points: Iterable[Place]) -> bytes:
    """The bytes of places, longitude and latitude in degrees of each, float64."""
    return array("d", chain.from_iterable(points)).tobytes()


@functools.lru_cache(maxsize=65_536)
def street_told(name: str, ref: str, mode: str, side: str) -> str:
    """The members of a step that tell which street it is."""
    number = f'"ref":{text(ref)},' if ref else ""
    return f'"name":{text(name)},{number}"mode":"{mode}","driving_side":"{side}"'
