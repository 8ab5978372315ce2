"""Where roads meet: in which directions streets lead away from each junction, and which may be driven from there.

The nodes of a junction are its copies, between which a drive can't change: they tell which turns are allowed. The
streets that meet at a junction are its arms, by rising direction in whole degrees clockwise from north.
"""

from __future__ import annotations

from array import array
from typing import Final, NamedTuple

import numpy as np
from numpy.typing import NDArray

from catchup.kept import Kept
from catchup.places.places import Ground
from catchup.places.streets import Grouped, Streets
from catchup.service.osrm.lines import Floats, Ints, point

Shorts = NDArray[np.int16]

AHEAD: Final = 15.0                     # metres of a street that tell its direction where it begins and ends
MOST_KEPT: Final = 65_536               # nodes of which it is kept what is there


class Crossing(NamedTuple):
    """What is at a node: its junction's arms, by their directions; of each road that may be driven from it by which arm
    it leaves, in which direction, and its class; and the members `entry`, `bearings` and `location` of its
    intersection, as JSON."""

    arms: list[int]
    roads: list[tuple[int, int, str]]
    text: str


class Junctions:
    """The junctions of a network of m roads.

    head: int32[m], the node where each road ends. leaves, reaches: int16[m], the direction in which it is driven where
    it begins, and where it ends. leaves_by, reaches_by: int16[m], by which arm of the junction one leaves there, and by
    which one comes. They are looked up one by one, for which numpy's arrays are slow.
    """

    def __init__(self, ground: Ground) -> None:
        ends = ground.ends
        leaves, reaches = directions_of(ground.streets)
        # Each end of a road is an arm of a junction: a number that tells the junction and the direction.
        both = np.concatenate((ends.junction[ends.tail].astype(np.int64) * 360 + leaves,
                               ends.junction[ends.head].astype(np.int64) * 360 + (reaches + 180) % 360))
        arms, arm = np.unique(both, return_inverse=True)
        first = np.searchsorted(arms // 360, np.arange(int(ends.junction.max(initial=-1)) + 2))
        rank = (arm - first[both // 360]).astype(np.int16)
        self.head = array("i", ends.head.astype(np.int32).tobytes())
        self.leaves, self.reaches = (array("h", of.tobytes()) for of in (leaves, reaches))
        self.leaves_by, self.reaches_by = (
            array("h", of.tobytes()) for of in (rank[:len(ends.tail)], rank[len(ends.tail):]))
        self._junction, self._first, self._arms = ends.junction, first, (arms % 360).astype(np.int16)
        self._from = Grouped.by(ends.tail, len(ends.junction))
        self._places, self._lines = ground.snapper.node_places, ground.lines
        self._kept: Kept[int, Crossing] = Kept(MOST_KEPT // 2, self._made)

    def at_end(self, road: int) -> Crossing:
        """What is where a road ends."""
        return self._kept[self.head[road]]

    def _made(self, node: int) -> Crossing:
        junction = int(self._junction[node])
        arms: list[int] = self._arms[self._first[junction]:self._first[junction + 1]].tolist()
        roads = [(self.leaves_by[road], self.leaves[road], self._lines.kind(road))
                 for road in self._from[node].tolist()]
        entries = ["false"] * len(arms)
        for arm, _, _ in roads:
            entries[arm] = "true"
        return Crossing(arms, roads, f'"entry":[{",".join(entries)}],"bearings":[{",".join(map(str, arms))}],'
                        f'"location":{point(self._places[node].tolist())}')


def directions_of(streets: Streets) -> tuple[Shorts, Shorts]:
    """In which direction each road is driven where it begins, and where it ends: int16[m], int16[m]."""
    begin, end = streets.first[:-1], streets.first[1:] - 1
    share = np.minimum(AHEAD / np.maximum(streets.metres, AHEAD), 1.0)
    ahead, back = points_at(streets, share), points_at(streets, 1.0 - share)
    starts, stops = bearings(streets.places[begin], ahead), bearings(back, streets.places[end])
    of_road, is_forward = streets.of_road, streets.is_forward
    leaves = np.where(is_forward, starts[of_road], (stops[of_road] + 180) % 360)
    reaches = np.where(is_forward, stops[of_road], (starts[of_road] + 180) % 360)
    return leaves.astype(np.int16), reaches.astype(np.int16)


def points_at(streets: Streets, share: Floats) -> Floats:
    """The point of each street behind a share of its metres, float64[s, 2]."""
    numbers = np.arange(len(streets))
    # Shares rise from 0 to 1 within a street, so with their streets' numbers they rise all the way.
    along = streets.share + 2.0 * np.repeat(numbers, np.diff(streets.first))
    behind = np.clip(np.searchsorted(along, share + 2.0 * numbers), streets.first[:-1] + 1, streets.first[1:] - 1)
    width = streets.share[behind] - streets.share[behind - 1]
    part = (share - streets.share[behind - 1]) / np.where(width > 0.0, width, 1.0)
    before = streets.places[behind - 1]
    return np.asarray(before + (streets.places[behind] - before) * np.clip(part, 0.0, 1.0)[:, None])


def bearings(start: Floats, end: Floats) -> Ints:
    """The directions from places to others near by, in whole degrees clockwise from north, 0 to 359."""
    east = (end[:, 0] - start[:, 0]) * np.cos(np.radians((start[:, 1] + end[:, 1]) / 2))
    return np.asarray(np.rint(np.degrees(np.arctan2(east, end[:, 1] - start[:, 1]))) % 360, dtype=np.int64)
