"""The nearest points of streets.

Places are points on a ball of the earth's radius, and distances go straight through it: so all is exact anywhere on the
earth, and no map is stretched. Segments of streets are cut into pieces of at most PIECE metres, whose middles stand in
the cells of a grid: whatever is nearer than some distance has the middle of a piece within that and half a piece.
"""

from __future__ import annotations

import math
import struct
from collections.abc import Sequence
from dataclasses import dataclass

import numpy as np
from numpy.typing import NDArray

from catchup.geometry import EARTH
from catchup.places.grid import Grid, Point
from catchup.places.streets import Streets
from catchup.places.values import Place

Shorts = NDArray[np.int32]
Floats = NDArray[np.float64]

PIECE = 80.0
"""Metres of the longest piece of a segment."""

_FIRST_LOOK = 150.0
_FIRST_LOOK_AT_ONE = 60.0
_FARTHER = 2.0
_FARTHEST = 2 * EARTH
_SAME = 1e-6
"""Metres that make no difference."""
_MORE = 2e-6
"""By which share of itself and of 1 a square is taken larger, at least, where its root is by _SAME."""
_FEW = 64
"""Pieces up to which one after the other is faster than all at once."""
_PIECE = struct.Struct("=10d")
"""A piece: where it begins, the step to its end, 1 / its square, how much of its segment lies before it and in it, and
the segment."""
_SUM = np.ones(3)

Near = tuple[float, int, float]
"""A piece that is near: the square of its distance, its segment, and how much of that lies before the nearest point."""


@dataclass(frozen=True, slots=True)
class Found:
    """The nearest point of each of some streets, the nearest first. street: int32[h]; segment: int32[h], its first
    point's place among all points; part: float64[h], how much of the segment lies before the point; metres:
    float64[h]."""

    street: Shorts
    segment: Shorts
    part: Floats
    metres: Floats


def on_ball(places: Floats) -> Floats:
    """Places in degrees, float64[.., 2], as points on the ball, float64[.., 3], in metres from its middle."""
    radians = np.radians(places)
    lon, lat = radians[..., 0], radians[..., 1]
    flat = np.cos(lat)
    points: Floats = EARTH * np.stack((flat * np.cos(lon), flat * np.sin(lon), np.sin(lat)), axis=-1)
    return points


def _one_on_ball(place: Place) -> Point:
    lon, lat = math.radians(place[0]), math.radians(place[1])
    flat = EARTH * math.cos(lat)
    return flat * math.cos(lon), flat * math.sin(lon), EARTH * math.sin(lat)


class Index:
    """Finds the nearest points of streets. _pieces: the pieces, as _PIECE has them, in the order of the grid."""

    def __init__(self, streets: Streets) -> None:
        self._street = streets.segment_street
        points = on_ball(streets.places)
        ends = np.zeros(len(points), dtype=bool)
        ends[streets.first[1:] - 1] = True
        segment = np.flatnonzero(~ends)
        step = points[segment + 1] - points[segment]
        count = np.maximum(np.ceil(np.sqrt(np.einsum("ij,ij->i", step, step)) / PIECE), 1.0).astype(np.int64)
        pieces = np.empty((int(count.sum()), 10))
        pieces[:, 9] = segments = np.repeat(segment, count)
        rank = np.arange(len(pieces)) - np.repeat(np.cumsum(count) - count, count)
        width = np.repeat(1.0 / count, count)
        steps = np.repeat(step / count[:, None], count, axis=0)
        pieces[:, :3] = points[segments] + rank[:, None] * steps
        pieces[:, 3:6] = steps
        pieces[:, 6] = 1.0 / np.maximum(np.einsum("ij,ij->i", steps, steps), _SAME * _SAME)
        pieces[:, 7], pieces[:, 8] = rank * width, width
        self._grid = Grid(pieces[:, :3] + steps / 2)
        self._pieces = memoryview(pieces[self._grid.order].tobytes())

    def nearest(self, place: Place, number: int, limit: float) -> Found:
        """At least `number` of the nearest streets, and all that are as near as these; fewer where there are no more
        within `limit` metres."""
        at = _one_on_ball(place)
        radius = min(_FIRST_LOOK, limit)
        while True:
            square, segment, part = _all_near(at, self._look(at, radius))
            near = (square <= radius * radius).nonzero()[0]
            found = self._found(segment[near], part[near], np.sqrt(square[near]))
            if len(found.street) >= number or radius >= limit or radius >= _FARTHEST:
                return found
            radius = min(_FARTHER * radius, limit)

    def nearest_one(self, place: Place, limit: float) -> list[tuple[int, int, float]]:
        """The nearest street, on it the segment, and how much of that lies before the nearest point; then others that
        are just as near. None where there is none within `limit` metres."""
        at = _one_on_ball(place)
        radius, least = min(_FIRST_LOOK_AT_ONE, limit), math.inf
        while True:
            near = _nearest(at, self._look(at, radius))
            if near:
                least = math.sqrt(near[0][0])
                if least <= radius:
                    return self._each_once(near)
            if radius >= limit or radius >= _FARTHEST:
                return []
            radius = min(_FARTHER * radius, least + _SAME, limit)

    def _look(self, at: Point, radius: float) -> bytes:
        """All pieces that come as near as a radius to a point on the ball, and some others."""
        pieces, size = self._pieces, _PIECE.size
        return b"".join([pieces[begin * size:end * size] for begin, end in self._grid.near(at, radius + PIECE / 2)])

    def _each_once(self, near: Sequence[Near]) -> list[tuple[int, int, float]]:
        """Each street of the nearest pieces, the nearest first; of equally near ones that of the lowest number, and of
        its points the first."""
        if len(near) == 1:
            [(_, segment, part)] = near
            return [(self._street.item(segment), segment, part)]
        ranked = sorted([(round(math.sqrt(square) / _SAME), self._street.item(segment), segment, part)
                         for square, segment, part in near])
        found: dict[int, tuple[int, int, float]] = {}
        for _, street, segment, part in ranked:
            found.setdefault(street, (street, segment, part))
        return list(found.values())

    def _found(self, segment: Shorts, part: Floats, metres: Floats) -> Found:
        """The nearest point of each street; of equally near ones, as at a junction, that of the lowest number first."""
        street = self._street[segment]
        order = np.lexsort(np.stack((part, segment, street, np.round(metres, 6))))
        _, firsts = np.unique(street[order], return_index=True)
        order = order[np.sort(firsts)]
        return Found(street[order], segment[order], part[order], metres[order])


def _all_near(at: Point, pieces: bytes) -> tuple[Floats, Shorts, Floats]:
    """Of each piece the square of how far it is from a point on the ball, its segment, and how much of that lies before
    its nearest point."""
    rows = np.frombuffer(pieces).reshape(-1, 10)
    step = rows[:, 3:6]
    away = np.array(at) - rows[:, :3]
    part = np.minimum(np.maximum((away * step) @ _SUM * rows[:, 6], 0.0), 1.0)
    away -= part[:, None] * step
    return np.square(away) @ _SUM, rows[:, 9].astype(np.int32), rows[:, 7] + part * rows[:, 8]


def _nearest(at: Point, pieces: bytes) -> list[Near]:
    """The nearest of some pieces, and all that are as near, but for what makes no difference; the nearest first."""
    if len(pieces) > _FEW * _PIECE.size:
        return sorted(_nearest_of_many(at, pieces))
    found: list[Near] = []
    x, y, z = at
    least = most = math.inf
    for east, north, up, dx, dy, dz, inverse, before, width, segment in _PIECE.iter_unpack(pieces):
        # As _all_near has it.
        u, v, w = x - east, y - north, z - up
        part = (u * dx + v * dy + w * dz) * inverse
        part = 0.0 if part < 0.0 else 1.0 if part > 1.0 else part
        u, v, w = u - part * dx, v - part * dy, w - part * dz
        square = u * u + v * v + w * w
        if square <= most:
            found.append((square, int(segment), before + part * width))
            if square < least:
                # Somewhat more than counts as just as near.
                least, most = square, square + _MORE * (square + 1.0)
    most = (math.sqrt(least) + _SAME) ** 2
    return sorted([each for each in found if each[0] <= most])


def _nearest_of_many(at: Point, pieces: bytes) -> list[Near]:
    square, segment, part = _all_near(at, pieces)
    near = (square <= (math.sqrt(square.min()) + _SAME) ** 2).nonzero()[0]
    return list(zip(square[near].tolist(), segment[near].tolist(), part[near].tolist()))
