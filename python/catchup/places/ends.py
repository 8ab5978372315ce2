"""Where drives begin and end: the nodes at which the roads of a place are left or entered, and when.

A drive begins on a road that leaves the first copy of a node (copy 0), or at such a node, and ends on any road or copy.
"""

from __future__ import annotations

import math
from collections import Counter
from dataclasses import dataclass
from typing import NamedTuple

import numpy as np
from numpy.typing import NDArray

from catchup.places.travel import Travel
from catchup.places.values import Snap

Shorts = NDArray[np.int32]
NO_ROAD = -1


class Beginning(NamedTuple):
    """Who leaves the place drives the rest of `road` behind `share` of it, and is at `node` then. Nothing is driven
    where the share is 1; then there may be no road (NO_ROAD)."""

    node: int
    road: int
    share: float


class Source(NamedTuple):
    """A beginning at some second of departure: one is at `node` at second `second` and `part` of the next one."""

    node: int
    second: int
    part: float
    road: int
    share: float


class Target(NamedTuple):
    """An end: from `node` on `share` of `road` is driven; nothing of it where the share is 0."""

    node: int
    road: int
    share: float


@dataclass(frozen=True, slots=True)
class Ends:
    """The ends of m roads between n nodes. tail, head: int32[m]; copy: int32[n], 0 for a node's first one; junction:
    int32[n], the same for all copies of a node; leaving: int32[n], how many roads leave each node."""

    tail: Shorts
    head: Shorts
    copy: Shorts
    junction: Shorts
    leaving: Shorts

    def may_begin(self, road: int) -> bool:
        """Whether a drive may begin on a road."""
        return not self.copy.item(self.tail.item(road))

    def beginnings(self, snap: Snap, travel: Travel) -> list[Beginning]:
        """All ways to begin a drive at a place, but those that another makes needless at any time."""
        nodes = self._nodes(snap)
        # Whoever begins at a node may drive as who came to it, and more.
        freer = {self.junction.item(node) for node in nodes}
        found = [Beginning(node, NO_ROAD, 1.0) for node in nodes]
        for road, share in snap.roads:
            head = self.head.item(road)
            is_needless = share == 0.0 and self.tail.item(road) in nodes or self.junction.item(head) in freer
            if not is_needless and not travel.is_closed.item(road) and self.may_begin(road):
                found.append(Beginning(head, road, share))
        return found

    def sources(self, snap: Snap, depart: int, travel: Travel) -> list[Source]:
        """The beginnings of drives that leave a place at a second, each at a node of its own."""
        best: dict[int, Source] = {}
        for node, road, share in self.beginnings(snap, travel):
            takes = (1.0 - share) * (travel.arrive(road, depart) - depart) if road != NO_ROAD else 0.0
            second = math.floor(takes)
            found = Source(node, depart + second, takes - second, road, share)
            other = best.get(node)
            if other is None or (found.second, found.part) < (other.second, other.part):
                best[node] = found
        return list(best.values())

    def targets(self, snap: Snap, travel: Travel) -> list[Target]:
        """The ends of drives to a place."""
        found = [Target(self.tail.item(road), road, share) for road, share in snap.roads
                 if not travel.is_closed.item(road)]
        there = {target.node: target for target in found if target.share == 0.0}
        # Who is at one of these needs no road that leads to it.
        return [*there.values(), *(target for target in found if target.share > 0.0 and target.node not in there
                                   and (target.share < 1.0 or self.head.item(target.road) not in there))]

    def _nodes(self, snap: Snap) -> set[int]:
        """The first copies that a place is at: those that all roads which leave them leave at this place."""
        # Most places are in the middle of a road.
        if all(share for _, share in snap.roads):
            return set()
        count = Counter(self.tail.item(road) for road, share in snap.roads if share == 0.0)
        return {node for node, roads in count.items() if roads == self.leaving[node] and not self.copy[node]}
