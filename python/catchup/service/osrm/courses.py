"""Directions in whole degrees clockwise from north, 0 to 359."""

from __future__ import annotations

import math
from collections.abc import Sequence
from typing import Final

from catchup.service.osrm.lines import Place

LEAST: Final = 1e-7                     # degrees that are no distance
LOOKED_AT: Final = 8                    # places that are looked at for one at some distance


def course(places: Sequence[Place], *, at_end: bool = False) -> int:
    """The direction of a line where it begins, or where it ends; 0 where it has no length. places: longitude and
    latitude in degrees of each."""
    here, *others = places[:-LOOKED_AT - 1:-1] if at_end else places[:LOOKED_AT]
    for there in others:
        if abs(there[0] - here[0]) > LEAST or abs(there[1] - here[1]) > LEAST:
            return direction(there, here) if at_end else direction(here, there)
    return 0


def direction(start: Place, end: Place) -> int:
    """The direction from one place to another near by."""
    east = (end[0] - start[0]) * math.cos(math.radians((start[1] + end[1]) / 2))
    return round(math.degrees(math.atan2(east, end[1] - start[1]))) % 360


def turned(before: int, after: int) -> int:
    """The turn from one direction to another, in degrees: above 0 to the right, at most 180."""
    return (after - before + 179) % 360 - 179
