"""Places in an order in which neighbours come behind one another."""

from __future__ import annotations

from collections.abc import Sequence

import numpy as np
from numpy.typing import NDArray

from catchup.places.values import Place

Ints = NDArray[np.int64]

LEVELS = 12
"""How often the map is cut into four: places within 1 / 4,096 of its width may change places."""


def along(places: Sequence[Place]) -> Ints:
    """The places' numbers along a curve that fills the map (Hilbert's), int64[p]. Those of one cell come as they are
    given."""
    if not len(places):
        return np.empty(0, dtype=np.int64)
    points = np.array(places, dtype=np.float64)
    low = points.min(axis=0)
    wide = max(float((points.max(axis=0) - low).max()), 1e-9)
    cell = np.minimum((points - low) / wide * 2**LEVELS, 2**LEVELS - 1).astype(np.int64)
    return np.argsort(_distance(cell[:, 0], cell[:, 1]), kind="stable")


def _distance(x: Ints, y: Ints) -> Ints:
    """How far along the curve the cells of a square of 2^LEVELS by 2^LEVELS are."""
    found = np.zeros(len(x), dtype=np.int64)
    for level in reversed(range(LEVELS)):
        right, upper = x >> level & 1, y >> level & 1
        found = 4 * found + (3 * right ^ upper)
        # The lower quarters are turned: the curve comes in and leaves at their sides.
        turned = upper == 0
        flipped = turned & (right == 1)
        x, y = np.where(flipped, ~x, x), np.where(flipped, ~y, y)
        x, y = np.where(turned, y, x), np.where(turned, x, y)
    return found
