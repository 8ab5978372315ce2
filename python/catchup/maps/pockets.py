"""Roads for destinations alone: who isn't going to or coming from one of them may not drive through."""
from __future__ import annotations

from collections.abc import Iterable

import numpy as np

from catchup.maps.arrays import Bools
from catchup.maps.counts import Counts
from catchup.maps.directed import Directed
from catchup.maps.graph import joined_parts, largest_part



def mark_gates(directed: Directed) -> None:
    """Streets at a gate for destinations alone are for destinations alone: so nobody passes it on a way through."""
    gates = np.array([number for number, barrier in directed.raw.barriers.items() if barrier.ends], dtype=np.int64)
    at = np.isin(directed.segments.osm, gates)
    directed.ends |= at[directed.streets.a] | at[directed.streets.b]


def spread(directed: Directed, counts: Counts) -> Bools:
    """Streets that are joined with all others by roads for destinations alone are such roads too. Returns which they
    are."""
    if not directed.ends.any():
        return np.zeros(len(directed.streets), dtype=bool)
    streets, count = directed.streets, len(directed.segments.osm)
    open_to_all = directed.all[~directed.ends[directed.all >> 1]]
    heart, _ = largest_part(count, directed.tail[open_to_all], directed.head[open_to_all])
    found = ~directed.ends & ~(heart[streets.a] & heart[streets.b])
    ways = directed.first_way[2 * np.flatnonzero(found)]
    counts.add_all("streets behind roads for destinations alone", ways.tolist())
    directed.ends |= found
    return found


def through_streets(directed: Directed, restricted: Iterable[int]) -> Bools:
    """The streets for destinations alone that need no watch: nobody can drive through where there is one entrance
    alone, unless that is by turning round, which matters only where turns are restricted."""
    streets, ends, count = directed.streets, directed.ends, len(directed.segments.osm)
    if not ends.any():
        return np.zeros(len(streets), dtype=bool)
    label = joined_parts(count, streets.a[ends], streets.b[ends])
    inside, outside = np.zeros(count, dtype=bool), np.zeros(count, dtype=bool)
    for nodes in (streets.a, streets.b):
        inside[nodes[ends]] = True
        outside[nodes[~ends]] = True
    entrances = np.bincount(label[inside & outside], minlength=count)
    watched = np.zeros(count, dtype=bool)
    watched[label[np.fromiter(restricted, dtype=np.int64)]] = True
    simple = (entrances <= 1) & ~watched
    found: Bools = ends & simple[label[streets.a]]
    return found
