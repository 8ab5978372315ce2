"""Which part of a map a network is made of: the largest in which one gets from anywhere to anywhere."""
from __future__ import annotations

from dataclasses import dataclass

import numpy as np

from catchup.maps.arrays import Bools, Floats
from catchup.maps.counts import Counts
from catchup.maps.directed import Directed
from catchup.maps.graph import largest_part, reached_from
from catchup.maps.labels import Labels
from catchup.maps.states import Network


MAIN = frozenset(("motorway", "trunk", "primary"))


@dataclass(frozen=True)
class Lost:
    """What isn't joined with the largest part."""
    taken: float
    lost: float
    """Metres of streets, each counted once."""
    junctions: int
    ways: dict[str, int]
    """Ways of which nothing is left, by class, the most first."""
    metres: dict[str, float]
    """Metres lost by class, the most first."""

    @property
    def share(self) -> float:
        """The lost part of all metres, 0 to 1."""
        return self.lost / (self.taken + self.lost) if self.lost else 0.0


def largest(network: Network, counts: Counts, islands: bool = False) -> Bools:
    """The states of the nodes that are reached from the largest part and lead to it, so far as a drive that begins at
    one of these nodes gets to them; with `islands` all states."""
    count = len(network.node)
    part, parts = largest_part(count, network.tail, network.head, np.where(network.open, network.node, -1))
    counts.add("parts", number=parts)
    if islands:
        return np.ones(count, dtype=bool)
    fore = reached_from(count, network.tail, network.head, part)
    rear = reached_from(count, network.head, network.tail, part)
    reached, begins = (np.zeros(int(network.node.max()) + 1, dtype=bool) for _ in range(2))
    reached[network.node[fore]] = True
    begins[network.node[rear & (network.copy == 0)]] = True
    firsts = network.node[network.copy == 0]
    for text, one, other in (("not joined at all", ~reached, ~begins), ("not reached", ~reached, begins),
                             ("without a way out", reached, ~begins)):
        counts.add(f"junctions lost: {text}", number=int((one & other)[firsts].sum()))
    good = (reached & begins)[network.node]
    inside = good[network.tail] & good[network.head]
    return reached_from(count, network.tail[inside], network.head[inside], good & (network.copy == 0))


def lost_of(directed: Directed, labels: Labels, kept: Network, whole: Network) -> Lost:
    """What was lost of a whole network, of which this is kept."""
    count = int((directed.original == np.arange(len(directed.original))).sum())
    used = np.zeros(count, dtype=bool)
    used[directed.original[kept.street >> 1]] = True
    metres: Floats = labels.metres[:count]
    lost_metres = np.bincount(labels.kind[:count][~used], weights=metres[~used], minlength=len(labels.classes))
    streets = directed.streets
    way = directed.segments.way[streets.steps >> 1]
    there = np.zeros(len(directed.raw.way_ids), dtype=bool)
    there[way[used[directed.original[streets.of_step]]]] = True
    gone = np.setdiff1d(way, np.flatnonzero(there))
    kinds = [directed.raw.rules[rule].kind for rule in directed.raw.way_rule[gone].tolist()]
    ways = {kind: kinds.count(kind) for kind in set(kinds)}
    junctions = int((whole.copy == 0).sum()) - int((kept.copy == 0).sum())
    return Lost(float(metres[used].sum()), float(metres[~used].sum()), junctions,
                dict(sorted(ways.items(), key=lambda item: (-item[1], item[0]))),
                {labels.classes[k]: float(lost_metres[k]) for k in np.argsort(-lost_metres, kind="stable")
                 if lost_metres[k] > 0})
