"""Which of many points on a ball are near another one: a grid of latitudes and longitudes."""

from __future__ import annotations

import math
from typing import Final

import numpy as np
from numpy.typing import NDArray

from catchup.geometry import EARTH

Shorts = NDArray[np.int32]
Floats = NDArray[np.float64]
Point = tuple[float, float, float]
Span = tuple[int, int]

CELL: Final = 100.0
"""Metres of a cell's side, where that doesn't make too many cells."""

_MOST_CELLS: Final = 8.0
"""Cells for each point, at most."""

_TURNS: Final = (-2 * math.pi, 0.0, 2 * math.pi)
"""A longitude is told by several numbers: one of them may be near a cell's."""

_FAR: Final = 2.0
"""Radians of longitude: what lies within one of a place on the other side of 180 degrees is farther east or west."""

_MORE: Final = 1.0 + 1e-9
"""By how much a distance is taken longer, since numbers are rounded."""


class Grid:
    """Points on the ball of the earth, float64[p, 3] in metres from its middle, by rows of cells.

    Row r has the latitudes from south + r * high on, and its cells, columns of them, the longitudes from
    west + c * wide on, in radians. order: int32[p], the points, those of a cell behind one another; _first:
    int64[rows * columns + 1], where those of each cell begin there.
    """

    def __init__(self, points: Floats) -> None:
        lon, lat = np.arctan2(points[:, 1], points[:, 0]), np.arcsin(np.clip(points[:, 2] / EARTH, -1.0, 1.0))
        self._west, self._south = float(lon.min(initial=math.pi)), float(lat.min(initial=math.pi / 2))
        width = max(float(lon.max(initial=-math.pi)) - self._west, 0.0)
        height = max(float(lat.max(initial=-math.pi / 2)) - self._south, 0.0)
        flat = max(math.cos(self._south + height / 2), 1e-3)
        side = max(CELL / EARTH, math.sqrt(width * flat * height / (_MOST_CELLS * len(points) + 1)),
                   max(width * flat, height) / (_MOST_CELLS * len(points) + 1))
        self._high, self._wide = side, side / flat
        self._rows, self._columns = int(height / self._high) + 1, int(width / self._wide) + 1
        row = np.minimum((lat - self._south) / self._high, self._rows - 1).astype(np.int64)
        column = np.minimum((lon - self._west) / self._wide, self._columns - 1).astype(np.int64)
        cell = row * self._columns + column
        self.order: Shorts = np.argsort(cell, kind="stable").astype(np.int32)
        first = np.zeros(self._rows * self._columns + 1, dtype=np.int64)
        np.cumsum(np.bincount(cell, minlength=self._rows * self._columns), out=first[1:])
        # Most maps lie far from where longitudes begin again.
        self._turns = (0.0,) if -_FAR <= self._west <= self._west + width <= _FAR else _TURNS
        # A few are looked up at a time, for which numpy's arrays are slow.
        self._first = first.data

    def near(self, at: Point, radius: float) -> list[Span]:
        """The points within a radius, in metres straight through the ball, of another one, and some farther ones: spans
        of `order`."""
        x, y, z = at
        lon, lat = math.atan2(y, x), math.asin(min(max(z / EARTH, -1.0), 1.0))
        # The angle that is seen from the ball's middle.
        angle = 2 * math.asin(min(radius / (2 * EARTH) * _MORE, 1.0)) + 1e-12
        low, high = lat - angle, lat + angle
        if low <= -math.pi / 2 or high >= math.pi / 2:
            aside = 2 * math.pi
        else:
            aside = math.asin(min(math.sin(min(angle, math.pi / 2)) / math.cos(lat) * _MORE, 1.0)) + 1e-12
        bottom = max(math.floor((low - self._south) / self._high), 0)
        top = min(math.floor((high - self._south) / self._high), self._rows - 1)
        if aside >= math.pi:
            return self._in_columns(bottom, top, 0, self._columns - 1)
        found: list[Span] = []
        for turn in self._turns if aside < 1.0 else _TURNS:
            left = max(math.floor((lon + turn - aside - self._west) / self._wide), 0)
            right = min(math.floor((lon + turn + aside - self._west) / self._wide), self._columns - 1)
            if left <= right:
                found += self._in_columns(bottom, top, left, right)
        return found

    def _in_columns(self, bottom: int, top: int, left: int, right: int) -> list[Span]:
        """The points in a rectangle of cells: those of a row's cells stand behind one another."""
        first, columns = self._first, self._columns
        return [(first[row + left], first[row + right + 1])
                for row in range(bottom * columns, (top + 1) * columns, columns)]
