"""The streets of a map, and its junctions.

A street is a line on the ground: all roads that are driven along it, in both directions and as copies, are its roads.
It is kept once, in the sense of its lowest road. A junction is where streets meet: a node with all its copies.
"""

from __future__ import annotations

from bisect import bisect_left
from dataclasses import dataclass
from functools import cached_property

import numpy as np
from numpy.typing import NDArray

from catchup import geometry
from catchup.mapfile import MapFile
from catchup.places.values import Place

Ints = NDArray[np.int64]
Shorts = NDArray[np.int32]
Bools = NDArray[np.bool_]
Floats = NDArray[np.float64]


@dataclass(eq=False)
class Grouped:
    """Things grouped by a number that each has: group g has things[first[g]:first[g + 1]], rising."""

    first: Ints
    things: Shorts

    @classmethod
    def by(cls, numbers: Shorts, count: int) -> Grouped:
        """The things 0 and on, grouped by their numbers, which are below `count`."""
        things = np.argsort(numbers, kind="stable").astype(np.int32)
        first = np.zeros(count + 1, dtype=np.int64)
        np.cumsum(np.bincount(numbers, minlength=count), out=first[1:])
        return cls(first, things)

    def __getitem__(self, group: int) -> Shorts:
        return self.things[self.first[group]:self.first[group + 1]]

    def listed(self, group: int) -> list[int]:
        """The same as a list, for who looks up one: numpy takes several times as long."""
        first, things = self._numbers
        return things[first[group]:first[group + 1]].tolist()

    @cached_property
    def _numbers(self) -> tuple[memoryview, memoryview]:
        return self.first.data, self.things.data


@dataclass(eq=False)
class Streets:
    """s streets of m roads between n nodes; k points of all streets.

    of_road: int32[m], each road's street; is_forward: bool[m], whether a road goes in the street's sense.
    roads: the roads of each street. lead: int32[s], the lowest road of each.
    first: int64[s + 1], where each street's points begin among all; places: float64[k, 2], longitude and latitude.
    share: float64[k], how much of its street's metres lies before each point; metres: float64[s].
    junction: int32[n], each node's junction.
    """

    of_road: Shorts
    is_forward: Bools
    roads: Grouped
    lead: Shorts
    first: Ints
    places: Floats
    share: Floats
    metres: Floats
    junction: Shorts

    @classmethod
    def of(cls, content: MapFile) -> Streets:
        """The streets of a map."""
        key = _line_keys(content)
        _, lead, of_road = np.unique(key, return_index=True, return_inverse=True)
        # Streets are numbered by their lowest roads, so a map has the same numbers wherever it is opened.
        rank = np.empty(len(lead), dtype=np.int32)
        rank[np.argsort(lead)] = np.arange(len(lead), dtype=np.int32)
        of_road, lead = rank[of_road], np.sort(lead).astype(np.int32)
        first, at = _points_of(content.road_first, lead)
        places = np.column_stack((content.point_lon[at], content.point_lat[at]))
        share, metres = _shares(first, places)
        is_forward = _same_sense(content, lead[of_road])
        junction = _junctions(content, of_road, is_forward)
        return cls(of_road, is_forward, Grouped.by(of_road, len(lead)), lead, first, places, share, metres, junction)

    def __len__(self) -> int:
        return len(self.lead)

    def line(self, road: int) -> Floats:
        """The points of a road in the sense in which it is driven, float64[k, 2]."""
        of_road, first, is_forward = self._numbers
        street = of_road[road]
        points = self.places[first[street]:first[street + 1]]
        return points if is_forward[road] else points[::-1]

    def shares(self, road: int) -> Floats:
        """How much of a road's metres lies before each of its points, from 0 to 1."""
        of_road, first, is_forward = self._numbers
        street = of_road[road]
        found = self.share[first[street]:first[street + 1]]
        return found if is_forward[road] else 1.0 - found[::-1]

    def drawn(self, road: int) -> tuple[list[Place], list[float]]:
        """Both of these as lists."""
        of_road, first, is_forward = self._numbers
        street = of_road[road]
        of = slice(first[street], first[street + 1])
        points, shares = self.places[of].tolist(), self.share[of].tolist()
        if is_forward[road]:
            return points, shares
        return points[::-1], [1.0 - share for share in reversed(shares)]

    def behind(self, road: int, share: float) -> tuple[int, int]:
        """Which of a road's points is the first that lies behind a share of its metres, or there, from 1 on; and how
        many points it has."""
        of_road, first, is_forward = self._numbers
        street, shares = of_road[road], self.share.data
        begin, end = first[street], first[street + 1]
        if is_forward[road]:
            found = bisect_left(shares, share, begin, end) - begin
        else:
            found = bisect_left(range(end - begin), share, key=lambda at: 1.0 - shares[end - 1 - at])
        return min(max(found, 1), end - begin - 1), end - begin

    @cached_property
    def _numbers(self) -> tuple[memoryview, memoryview, memoryview]:
        """of_road, first and is_forward, for who looks up one: numpy takes several times as long."""
        return self.of_road.data, self.first.data, self.is_forward.data

    @cached_property
    def segment_street(self) -> Shorts:
        """The street of each point, int32[k]."""
        return np.repeat(np.arange(len(self), dtype=np.int32), np.diff(self.first))


def _line_keys(content: MapFile) -> NDArray[np.uint64]:
    """A number for each road's line, the same for both senses: the sum of its points' numbers."""
    lon, lat = (np.ascontiguousarray(values + 0.0).view(np.uint64) for values in (content.point_lon, content.point_lat))
    mixed = _mixed(lon) ^ _mixed(lat + np.uint64(0x9E3779B97F4A7C15))
    return np.add.reduceat(_mixed(mixed), content.road_first[:-1]) if len(content) else np.empty(0, dtype=np.uint64)


def _mixed(bits: NDArray[np.uint64]) -> NDArray[np.uint64]:
    """Numbers that look random: the last steps of splitmix64."""
    bits = (bits ^ (bits >> np.uint64(30))) * np.uint64(0xBF58476D1CE4E5B9)
    bits = (bits ^ (bits >> np.uint64(27))) * np.uint64(0x94D049BB133111EB)
    return bits ^ (bits >> np.uint64(31))


def _points_of(first: Ints, lines: Shorts) -> tuple[Ints, Ints]:
    """Where the points of some lines begin when they stand behind one another, and the place of each among all
    points."""
    sizes = first[lines + 1] - first[lines]
    begins = np.concatenate(([0], np.cumsum(sizes)))
    return begins, np.arange(begins[-1]) + np.repeat(first[lines] - begins[:-1], sizes)


def _shares(first: Ints, places: Floats) -> tuple[Floats, Floats]:
    """The share of its street that lies before each point, and each street's metres."""
    steps = geometry.metres(places[:-1, 0], places[:-1, 1], places[1:, 0], places[1:, 1])
    steps[first[1:-1] - 1] = 0.0
    so_far = np.zeros(len(places))
    np.cumsum(steps, out=so_far[1:])
    begin, metres = so_far[first[:-1]], so_far[first[1:] - 1] - so_far[first[:-1]]
    sizes = np.diff(first)
    with np.errstate(invalid="ignore", divide="ignore"):
        share = (so_far - np.repeat(begin, sizes)) / np.repeat(metres, sizes)
    share[~np.isfinite(share)] = 0.0
    share[first[1:] - 1] = 1.0
    share[first[:-1]] = 0.0
    return np.clip(share, 0.0, 1.0), metres


def _same_sense(content: MapFile, lead: Shorts) -> Bools:
    """Whether each road goes as its street's lowest one: a ring, whose ends are one place, by its second point."""
    first = content.road_first
    same = np.ones(len(content), dtype=bool)
    for step in (1, 0):
        one, other = first[:-1] + step, first[lead] + step
        differs = _differ(content, one, other)
        is_ring = ~_differ(content, first[lead], first[lead + 1] - 1)
        same &= ~(differs & (is_ring if step else ~is_ring))
    return same


def _differ(content: MapFile, one: Ints, other: Ints) -> Bools:
    """Which of some points aren't where the others are."""
    differ: Bools = ((content.point_lon[one] != content.point_lon[other])
                     | (content.point_lat[one] != content.point_lat[other]))
    return differ


def _junctions(content: MapFile, of_road: Shorts, is_forward: Bools) -> Shorts:
    """A number for each node: nodes at which one end of a street has roads are one junction. At a barrier that blocks
    two nodes have one place and stay two."""
    nodes, streets = len(content.node_lon), int(of_road.max(initial=-1)) + 1
    behind = 2 * of_road.astype(np.int64)
    ends = np.concatenate((behind + ~is_forward, behind + is_forward))
    tied = np.concatenate((content.road_tail, content.road_head)).astype(np.int64)
    by_end, by_node = Grouped.by(ends.astype(np.int32), 2 * streets), Grouped.by(tied.astype(np.int32), nodes)
    tied_by_end, ends_by_node = tied[by_end.things], ends[by_node.things]
    has_road = np.diff(by_node.first) > 0
    # Each takes the lowest node that any of its ends has, until none has a lower one.
    label = np.arange(nodes)
    while len(ends):
        least = np.minimum.reduceat(label[tied_by_end], by_end.first[:-1])
        lower = label.copy()
        lower[has_road] = np.minimum.reduceat(least[ends_by_node], by_node.first[:-1][has_road])
        lower = lower[lower]
        if np.array_equal(lower, label):
            break
        label = lower
    _, found = np.unique(label, return_inverse=True)
    return np.asarray(found, dtype=np.int32)
