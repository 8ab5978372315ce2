"""Where a place meets the network."""

from __future__ import annotations

import math
from collections.abc import Sequence
from dataclasses import replace
from functools import cached_property

import numpy as np

from catchup import geometry
from catchup.places.ends import Ends
from catchup.places.index import Found, Index
from catchup.places.lines import Lines
from catchup.places.streets import Grouped, Ints, Streets
from catchup.places.values import NoSegment, Place, Snap

OUTSIDE = 5_000.0
"""How many metres outside of the map's box a place may be from a road where no radius is said."""

MOST_LOOKED_AT = 4_096
"""Streets that are looked through for one that goes the right way."""

_AT_END = 0.01
"""Metres from a street's end that make a place one of the junction."""


class Snapper:
    """Finds the roads of places. `drives_left` says on which side of the street one drives."""

    def __init__(self, streets: Streets, ends: Ends, lines: Lines, node_places: geometry.Floats, node_osm: Ints,
                 drives_left: bool) -> None:
        self._streets, self._ends, self._lines = streets, ends, lines
        self._node_places, self._node_osm = node_places, node_osm
        self._drives_left = drives_left
        self._index = Index(streets)
        junctions = int(ends.junction.max(initial=-1)) + 1
        self._leaving = Grouped.by(ends.junction[ends.tail], junctions)
        self._coming = Grouped.by(ends.junction[ends.head], junctions)
        self._nodes = Grouped.by(ends.junction, junctions)
        # At a barrier that blocks there are two junctions in one spot.
        corner = node_places[self._nodes.things[self._nodes.first[:-1]]]
        self._spot = np.unique(corner, axis=0, return_inverse=True)[1].astype(np.int32)
        self._junctions = Grouped.by(self._spot, int(self._spot.max(initial=-1)) + 1)
        # Of one place at a time, for which numpy's arrays are slow.
        self._along, self._forward = streets.share.data, streets.is_forward.data
        self._points, self._metres, self._lead = streets.places.ravel().data, streets.metres.data, streets.lead.data
        (west, south), (east, north) = (edge(streets.places, axis=0).tolist() for edge in (np.min, np.max))
        self.box: tuple[float, float, float, float] = west, south, east, north

    @property
    def node_places(self) -> geometry.Floats:
        """Longitude and latitude of each node, float64[n, 2]."""
        return self._node_places

    def nearest(self, place: Place, number: int, radius: float | None, bearing: tuple[int, int] | None,
                curb: bool) -> list[Snap]:
        """As Places.nearest."""
        check_place(place)
        limit = self._limit(place) if radius is None else float(radius)
        wanted = number
        while True:
            found = self._index.nearest(place, wanted, limit)
            snaps = self._snaps(place, found, number, bearing, curb)
            if len(snaps) >= number or len(found.street) < wanted or wanted >= MOST_LOOKED_AT:
                break
            wanted *= 4
        if not snaps:
            raise NoSegment(0, place)
        return snaps

    def nearest_one(self, place: Place) -> Snap:
        """The nearest point of all streets; NoSegment(0) where there is none."""
        check_place(place)
        found = self._index.nearest_one(place, self._limit(place))
        if not found:
            raise NoSegment(0, place)
        snap, *others = [self._snap(place, *each, None) for each in found]
        # Streets may be drawn over one another.
        roads = {pair for other in others if _is_near(other.point, snap.point) for pair in other.roads}
        return replace(snap, roads=tuple(sorted(roads.union(snap.roads)))) if not roads.issubset(snap.roads) else snap

    def _limit(self, place: Place) -> float:
        """Within how many metres a road has to be where nothing is said of that."""
        return math.inf if self.is_inside(place) else OUTSIDE

    def is_inside(self, place: Place) -> bool:
        """Whether a place is in the box around the map."""
        west, south, east, north = self.box
        return west <= place[0] <= east and south <= place[1] <= north

    def hinted(self, place: Place, street: int, share: float) -> Snap | None:
        """As Places.hinted."""
        if not 0 <= street < len(self._streets) or not 0.0 <= share <= 1.0:
            return None
        first, last = (int(self._streets.first[street + step]) for step in (0, 1))
        shares = self._streets.share[first:last]
        at = min(int(np.searchsorted(shares, share, "right")) - 1, len(shares) - 2)
        width = float(shares[at + 1] - shares[at])
        part = min(max((share - float(shares[at])) / width, 0.0), 1.0) if width > 0.0 else 0.0
        return self._snap(place, street, first + at, part, None)

    def at_nodes(self, nodes: Sequence[int]) -> Snap:
        """The place of some nodes that are one outside, with all their copies."""
        roads = self._through(sorted({int(self._ends.junction[node]) for node in nodes}))
        lon, lat = self._node_places[nodes[0]].tolist()
        if not roads:
            return Snap((lon, lat), (lon, lat), 0.0, -1, 0.0, (), "", "")
        road, share = roads[0]
        street = int(self._streets.of_road[road])
        name, ref = self._lines.name_at(road, share)
        return Snap((lon, lat), (lon, lat), 0.0, street, share if self._streets.is_forward[road] else 1.0 - share,
                    tuple(roads), name, ref)

    def nodes_of(self, osm: int) -> list[int]:
        """The nodes of a number in OpenStreetMap."""
        order = self._by_osm
        numbers = self._node_osm[order]
        first, last = np.searchsorted(numbers, np.array([osm, osm + 1])).tolist()
        found: list[int] = np.sort(order[first:last]).tolist()
        return found

    def copies(self, node: int) -> list[int]:
        """A node and its copies."""
        found: list[int] = self._nodes[int(self._ends.junction[node])].tolist()
        return found

    @cached_property
    def _by_osm(self) -> Ints:
        return np.argsort(self._node_osm, kind="stable")

    def _snaps(self, place: Place, found: Found, number: int, bearing: tuple[int, int] | None,
               curb: bool) -> list[Snap]:
        """Up to `number` of these streets that go the right way."""
        snaps: list[Snap] = []
        for street, segment, part in zip(found.street.tolist(), found.segment.tolist(), found.part.tolist()):
            roads = every = self._streets.roads.listed(street)
            if bearing is not None or curb:
                roads = self._right_way(place, roads, segment, bearing, curb)
            if roads:
                snaps.append(self._snap(place, street, segment, part, roads if len(roads) < len(every) else None))
            if len(snaps) == number:
                break
        return snaps

    def _right_way(self, place: Place, roads: list[int], segment: int, bearing: tuple[int, int] | None,
                   curb: bool) -> list[int]:
        """Those of a street's roads that are driven in some direction, or on the side on which a place is."""
        (x, y), (u, v) = (self._streets.places[segment + step].tolist() for step in (0, 1))
        flat = math.cos(math.radians(y))
        east, north = (u - x) * flat, v - y
        forward = self._streets.is_forward
        if bearing is not None:
            ahead = math.degrees(math.atan2(east, north))
            roads = [road for road in roads
                     if _differ(ahead if forward[road] else ahead + 180.0, bearing[0]) <= bearing[1]]
        if curb and len({bool(forward[road]) for road in roads}) == 2:
            left = east * (place[1] - y) - north * (place[0] - x) * flat
            if left != 0.0:
                roads = [road for road in roads if forward[road] == ((left > 0.0) == self._drives_left)]
        return roads

    def _snap(self, place: Place, street: int, segment: int, part: float, roads: list[int] | None) -> Snap:
        """The point of a street, of which these roads count; where all do, at its end all roads that meet there do."""
        streets, along = self._streets, self._along
        x, y, u, v = self._points[2 * segment:2 * segment + 4]
        point = (x + (u - x) * part, y + (v - y) * part)
        share = along[segment] + (along[segment + 1] - along[segment]) * part
        metres, lead = self._metres[street], self._lead[street]
        if share * metres <= _AT_END or (1.0 - share) * metres <= _AT_END:
            share = 0.0 if share * metres <= _AT_END else 1.0
            x, y = streets.places[streets.first[street + int(share)] - int(share)].tolist()
            point = x, y
        if share in (0.0, 1.0) and roads is None:
            node = self._ends.head[lead] if share else self._ends.tail[lead]
            through = self._through(self._junctions.listed(int(self._spot[self._ends.junction[node]])))
        else:
            forward = self._forward
            of = streets.roads.listed(street) if roads is None else roads
            through = [(road, share if forward[road] else 1.0 - share) for road in of]
        name, ref = self._lines.name_at(lead, share)
        return Snap(place, point, metres_between(place, point), street, share, tuple(through), name, ref)

    def _through(self, junctions: Sequence[int]) -> list[tuple[int, float]]:
        """All roads of some junctions, with 0 where they begin there and 1 where they end there."""
        return sorted((road, share) for junction in junctions
                      for share, of in ((0.0, self._leaving), (1.0, self._coming)) for road in of.listed(junction))


def check_place(place: Place) -> None:
    """ValueError where this is no longitude and latitude."""
    lon, lat = place
    if not (-180.0 <= lon <= 180.0 and -90.0 <= lat <= 90.0):
        raise ValueError(f"{lon!r},{lat!r} is no place: a longitude from -180 to 180 and a latitude from -90 to 90 are")


def metres_between(one: Place, other: Place) -> float:
    """The distance of two places, as geometry.metres has it."""
    y1, y2 = math.radians(one[1]), math.radians(other[1])
    half = (math.sin((y2 - y1) / 2) ** 2
            + math.cos(y1) * math.cos(y2) * math.sin((math.radians(other[0]) - math.radians(one[0])) / 2) ** 2)
    return 2 * geometry.EARTH * math.asin(math.sqrt(min(half, 1.0)))


def _is_near(one: Place, other: Place) -> bool:
    """Whether two points are less than some centimetres away from one another."""
    return abs(one[0] - other[0]) < 1e-7 and abs(one[1] - other[1]) < 1e-7


def _differ(one: float, other: float) -> float:
    """By how many degrees two directions differ."""
    return abs((one - other + 180.0) % 360.0 - 180.0)
