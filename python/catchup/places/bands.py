"""The ground around reached roads, as polygons.

The ground is laid out in squares. Those that a reached road crosses count, and those around them. Their outline goes
through the middles of edges from square to square, so corners are cut. Each reached road lies inside, nothing farther
from one than three squares does, and a longer reach holds a shorter one.
"""

from __future__ import annotations

import math
from collections.abc import Sequence
from typing import Any, Final

import numpy as np
from numpy.typing import NDArray

from catchup import geometry
from catchup.places.lines import DECIMALS, Lines
from catchup.places.reach import Reached

Floats = NDArray[np.float64]
Bools = NDArray[np.bool_]
Corner = tuple[int, int]
Corners = list[Corner]

SQUARE: Final = 50.0
"""Metres of a square's side, where there are no more than MOST_SQUARES along the whole ground."""

MOST_SQUARES: Final = 400
_MARGIN: Final = 3
_AROUND: Final = ((0, 0), (1, 0), (1, 1), (0, 1))


def bands(lines: Lines, reached: Sequence[Reached]) -> list[dict[str, Any]]:
    """The ground around each of some reaches, of which each holds the one before, as GeoJSON's MultiPolygons."""
    points = [_points(lines, each) for each in reached]
    ground = _Ground(np.concatenate(points))
    squares = np.logical_or.accumulate([ground.squares(each) for each in points])
    return [ground.polygon(each) for each in squares]


def _points(lines: Lines, reached: Reached) -> Floats:
    """The points of stretches, float64[k, 2], in degrees; there is a nan between two stretches."""
    gap = np.full((1, 2), np.nan)
    parts = zip(reached.road.tolist(), reached.begin.tolist(), reached.end.tolist())
    return np.concatenate([gap, *(each for part in parts for each in (lines.cut(part), gap))])


class _Ground:
    """Squares over all points, with a margin."""

    def __init__(self, points: Floats) -> None:
        low, high = np.nanmin(points, axis=0), np.nanmax(points, axis=0)
        self._corner = low
        flat = math.cos(math.radians(float(low[1] + high[1]) / 2))
        self._scale = np.array([flat, 1.0]) * math.radians(1.0) * geometry.EARTH
        extent = (high - low) * self._scale
        self._side = max(SQUARE, float(extent.max()) / MOST_SQUARES)
        self._shape = tuple((extent // self._side).astype(int) + 1 + 2 * _MARGIN)

    def squares(self, points: Floats) -> Bools:
        """The squares that lines cross, and those around them."""
        at = (points - self._corner) * self._scale / self._side + _MARGIN
        start, step = at[:-1], np.diff(at, axis=0)
        there = ~np.isnan(step[:, 0])
        start, step = start[there], step[there]
        # Lines are looked at in steps of less than half a square.
        counts = np.ceil(2.5 * np.abs(step).max(axis=1, initial=0.0)).astype(np.int64) + 1
        rank = np.arange(counts.sum()) - np.repeat(np.cumsum(counts) - counts, counts)
        share = rank / np.repeat(np.maximum(counts - 1, 1), counts)
        begins, steps = (np.repeat(of, counts, axis=0) for of in (start, step))
        crossed = np.floor(begins + share[:, None] * steps).astype(np.int64)
        found = np.zeros(self._shape, dtype=bool)
        found[crossed[:, 0], crossed[:, 1]] = True
        return _with_neighbours(_with_neighbours(found, 0), 1)

    def polygon(self, squares: Bools) -> dict[str, Any]:
        """Squares as a MultiPolygon in degrees: each outline with the holes that lie in it."""
        from shapely.geometry import LinearRing, Point, Polygon

        rings = [LinearRing(ring) for ring in _rings(squares)]
        outer = sorted((Polygon(ring) for ring in rings if ring.is_ccw), key=lambda shape: float(shape.area))
        holes: list[list[Any]] = [[] for _ in outer]
        for ring in rings:
            if not ring.is_ccw:
                at = Point(ring.coords[0])
                holes[next(number for number, shape in enumerate(outer) if shape.contains(at))].append(ring)
        return {"type": "MultiPolygon", "coordinates": [
            [self._ring(ring) for ring in (shape.exterior, *inside)] for shape, inside in zip(outer, holes)]}

    def _ring(self, ring: Any) -> list[list[float]]:
        """A ring in degrees, from half squares; whole ones stand for their middles."""
        places = (np.asarray(ring.coords) / 2 + 0.5 - _MARGIN) * self._side / self._scale + self._corner
        found: list[list[float]] = np.round(places, DECIMALS).tolist()
        return found


def _with_neighbours(squares: Bools, axis: int) -> Bools:
    """Squares with their neighbours along one axis; at the ground's edge there are none."""
    return np.asarray(squares | np.roll(squares, 1, axis=axis) | np.roll(squares, -1, axis=axis))


def _rings(squares: Bools) -> list[Corners]:
    """The outlines of squares, in half squares: what counts lies to the left of each, so they go round it, and the
    other way round holes in it."""
    code = np.zeros((squares.shape[0] - 1, squares.shape[1] - 1), dtype=np.int8)
    for bit, (x, y) in enumerate(_AROUND):
        code |= squares[x:x + code.shape[0], y:y + code.shape[1]].astype(np.int8) << bit
    following: dict[Corner, Corner] = {}
    for number, edges in _EDGES.items():
        for x, y in np.argwhere(code == number).tolist():
            for (a, b), (c, d) in edges:
                following[2 * x + a, 2 * y + b] = 2 * x + c, 2 * y + d
    rings: list[Corners] = []
    while following:
        ring = list(following.popitem())
        while ring[-1] != ring[0]:
            ring.append(following.pop(ring[-1]))
        rings.append(_without_straight(ring))
    return rings


def _without_straight(ring: Corners) -> Corners:
    """A closed ring without the corners at which it goes straight on."""
    corners = np.array(ring[:-1])
    step = np.roll(corners, -1, axis=0) - corners
    before = np.roll(step, 1, axis=0)
    turns = step[:, 0] * before[:, 1] != step[:, 1] * before[:, 0]
    return [(x, y) for x, y in corners[turns].tolist()]


def _edges_of(number: int) -> list[tuple[Corner, Corner]]:
    """The pieces of outline between four middles, of which those count whose bits are set, in half squares: from
    halfway to one that doesn't count, to halfway from one that doesn't. Two that are opposite don't touch."""
    bits = [bool(number >> bit & 1) for bit in range(4)]
    halfway = [(x + _AROUND[at - 3][0], y + _AROUND[at - 3][1]) for at, (x, y) in enumerate(_AROUND)]
    leaves = [at for at in range(4) if bits[at] and not bits[at - 3]]
    edges: list[tuple[Corner, Corner]] = []
    for at in leaves:
        # Back to where the middles that count begin which end here.
        first = at
        while bits[first - 1]:
            first -= 1
        edges.append((halfway[at], halfway[first - 1]))
    return edges


_EDGES: Final = {number: _edges_of(number) for number in range(1, 15)}
