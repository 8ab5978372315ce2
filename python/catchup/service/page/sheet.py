"""The streets of a network as the page draws them.

Places are whole numbers: pixels of the whole world in Web Mercator at zoom 20, of which one is 15 cm at the equator. A
network without a map lies on a plain plane, which is put on the equator, where the projection stretches nothing.
"""

from __future__ import annotations

import json
from dataclasses import dataclass, field
from typing import TYPE_CHECKING, Any, Final

import numpy as np
from numpy.typing import NDArray

if TYPE_CHECKING:
    from catchup.places.places import Ground

Ints = NDArray[np.int64]
Shorts = NDArray[np.int32]
Bytes = NDArray[np.uint8]
Bools = NDArray[np.bool_]
Floats = NDArray[np.float64]

ZOOM: Final = 20
WORLD: Final = 256 << ZOOM
PLANE: Final = 1 << 22
"""How wide a plane is in the world, or how high where that is more."""

RANKS: Final = {
    "motorway": 0, "motorway_link": 1, "trunk": 0, "trunk_link": 1, "primary": 1, "primary_link": 2, "secondary": 2,
    "secondary_link": 3, "tertiary": 3, "tertiary_link": 4, "unclassified": 4, "residential": 4, "road": 4, "ferry": 3,
    "living_street": 5, "service": 6, "track": 6}
"""How soon a class of roads is left out where there are too many: those of the greatest number first."""
PLAIN_RANK: Final = 4


@dataclass(eq=False)
class Sheet:
    """s streets of m roads; k points of all streets.

    first: int64[s + 1], where each street's points begin; x, y: int32[k], in the world.
    rank: uint8[s], as in RANKS. of_road: int32[m], each road's street; is_forward: bool[m], whether a road goes in the
    street's sense. nodes: int32[n, 2], the places of nodes. tail, head: int32[m].
    has_map: whether it is of a map, and no plane.
    """

    first: Ints
    x: Shorts
    y: Shorts
    rank: Bytes
    of_road: Shorts
    is_forward: Bools
    nodes: Shorts
    tail: Shorts
    head: Shorts
    has_map: bool
    lead: Shorts = field(default_factory=lambda: np.empty(0, dtype=np.int32))

    def __post_init__(self) -> None:
        order = np.argsort(self.of_road, kind="stable")
        _, at = np.unique(self.of_road[order], return_index=True)
        self._roads = order.astype(np.int32)
        self._begin = np.append(at, len(order))
        self.lead = self._roads[at]

    def __len__(self) -> int:
        return len(self.first) - 1

    def roads(self, street: int) -> list[int]:
        """The roads of a street, rising."""
        found: list[int] = self._roads[self._begin[street]:self._begin[street + 1]].tolist()
        return found

    def by_street(self, join: Any, values: Bytes) -> Bytes:
        """What the roads of each street have together, uint8[s], from a value of each road; `join` is numpy's, as
        np.maximum."""
        if not len(self):
            return np.empty(0, dtype=np.uint8)
        return np.asarray(join.reduceat(values[self._roads], self._begin[:-1]), dtype=np.uint8)

    def line(self, street: int) -> list[list[int]]:
        """The points of a street."""
        part = slice(int(self.first[street]), int(self.first[street + 1]))
        found: list[list[int]] = np.column_stack((self.x[part], self.y[part])).tolist()
        return found

    @property
    def mean(self) -> float:
        """How long a middling street is."""
        steps = np.hypot(np.diff(self.x.astype(np.float64)), np.diff(self.y.astype(np.float64)))
        steps[self.first[1:-1] - 1] = 0.0
        return round(float(steps.sum()) / max(len(self), 1), 1)

    @property
    def box(self) -> list[int]:
        """West, north, east, south."""
        if not len(self.x):
            return [WORLD // 2] * 4
        return [int(self.x.min()), int(self.y.min()), int(self.x.max()), int(self.y.max())]


def of_ground(ground: Ground) -> Sheet:
    """The sheet of a map's places."""
    streets, ends = ground.streets, ground.ends
    kind, kinds = ground.lines.kinds
    ranks = np.array([RANKS.get(name, PLAIN_RANK) for name in kinds] or [PLAIN_RANK], dtype=np.uint8)
    x, y = world_of(streets.places)
    nodes = np.column_stack(world_of(ground.snapper.node_places)).astype(np.int32)
    return Sheet(streets.first, x, y, ranks[kind[streets.lead]], streets.of_road, streets.is_forward, nodes, ends.tail,
                 ends.head, True)


def world_of(places: Floats) -> tuple[Shorts, Shorts]:
    """Longitudes and latitudes, float64[.., 2], in the world."""
    lon, lat = places[..., 0], np.clip(places[..., 1], -85.05, 85.05)
    sine = np.sin(np.radians(lat))
    x = (lon / 360.0 + 0.5) * WORLD
    y = (0.5 - np.log((1.0 + sine) / (1.0 - sine)) / (4.0 * np.pi)) * WORLD
    return np.round(x).astype(np.int32), np.round(y).astype(np.int32)


def degrees_of(x: int, y: int) -> tuple[float, float]:
    """Longitude and latitude of a place in the world."""
    lat = np.degrees(2.0 * np.arctan(np.exp(np.pi * (1.0 - 2.0 * y / WORLD))) - np.pi / 2.0)
    return round((x / WORLD - 0.5) * 360.0, 6), round(float(lat), 6)


def of_tables(network: bytes) -> Sheet:
    """The sheet of nodes and roads without a map, from the JSON of /network: a street is a pair of nodes."""
    found = json.loads(network)
    places = np.array(found["nodes"], dtype=np.float64).reshape(-1, 2)
    ends = np.array(found["roads"], dtype=np.int64).reshape(-1, 2)
    nodes = on_plane(places)
    low, high = ends.min(axis=1), ends.max(axis=1)
    key, of_road = np.unique(low * max(len(nodes), 1) + high, return_inverse=True)
    pairs = np.column_stack((key // max(len(nodes), 1), key % max(len(nodes), 1)))
    points = nodes[pairs].reshape(-1, 2)
    return Sheet(np.arange(0, 2 * len(key) + 1, 2, dtype=np.int64), points[:, 0].copy(), points[:, 1].copy(),
                 np.full(len(key), PLAIN_RANK, dtype=np.uint8), of_road.astype(np.int32), ends[:, 0] == low, nodes,
                 ends[:, 0].astype(np.int32), ends[:, 1].astype(np.int32), False)


def on_plane(places: Floats) -> Shorts:
    """Places of tables in the world: around its middle, north up."""
    if not len(places):
        return np.empty((0, 2), dtype=np.int32)
    low, high = places.min(axis=0), places.max(axis=0)
    scale = PLANE / max(float((high - low).max()), 1.0)
    found = (places - (low + high) / 2) * scale * np.array([1.0, -1.0]) + WORLD // 2
    return np.asarray(np.round(found), dtype=np.int32)
