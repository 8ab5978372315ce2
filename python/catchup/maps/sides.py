"""Turns to the left and to the right, which take seconds of their own where that is asked for."""
from __future__ import annotations

import numpy as np

from catchup.maps.arrays import Floats, Ints, offsets, ranges
from catchup.maps.directed import Directed

SLIGHT, SHARP = 45.0, 150.0
"""A turn is one to a side where directions differ by so many degrees, up to so many."""


def _directions(directed: Directed, steps: Ints) -> Floats:
    """The directions of steps in degrees, counted against the clock."""
    segments = directed.segments
    tail, head = segments.step_tail(steps), segments.step_head(steps)
    lat = np.radians((segments.lat[tail] + segments.lat[head]) / 2)
    east = (segments.lon[head] - segments.lon[tail]) * np.cos(lat)
    found: Floats = np.degrees(np.arctan2(segments.lat[head] - segments.lat[tail], east))
    return found


def _turns(directed: Directed) -> tuple[Ints, Ints]:
    """All pairs of directed streets of which the second leaves the node that the first leads to, but the ways back."""
    alls = directed.all
    order = alls[np.argsort(directed.tail[alls], kind="stable")]
    sizes = np.bincount(directed.tail[alls], minlength=len(directed.segments.osm))
    counts = sizes[directed.head[alls]]
    one = np.repeat(alls, counts)
    other = order[ranges(offsets(sizes)[:-1][directed.head[alls]], counts)]
    back = (directed.original[one >> 1] == directed.original[other >> 1]) & ((one ^ other) & 1 == 1)
    return one[~back], other[~back]


def slow_turns(directed: Directed, left: int, right: int) -> list[tuple[int, int, int]]:
    """Each turn that takes seconds of its own: from one directed street to another, and how many."""
    if not left and not right:
        return []
    one, other = _turns(directed)
    ways_on = np.bincount(one, minlength=2 * len(directed.streets))
    before = _directions(directed, directed.first_step[one ^ 1] ^ 1)
    angle = (_directions(directed, directed.first_step[other]) - before + 180.0) % 360.0 - 180.0
    aside = (np.abs(angle) >= SLIGHT) & (np.abs(angle) <= SHARP) & (ways_on[one] > 1)
    seconds = np.where(angle > 0, left, right)
    taken = np.flatnonzero(aside & (seconds > 0))
    return list(zip(one[taken].tolist(), other[taken].tolist(), seconds[taken].tolist()))
