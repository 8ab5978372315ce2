"""Streets: the stretches between junctions, joined of the ways of a map.

A segment is a stretch of a way between two of its nodes that follow each other. Driven along its way it has the number
2 s, driven against it 2 s + 1; such a number is a step. A street is a chain of steps, over nodes at which there is
nothing to choose. It may be driven both ways.
"""
from __future__ import annotations

from dataclasses import dataclass

import numpy as np

from catchup.geometry import metres
from catchup.maps.arrays import Bools, Floats, Ints, offsets, pairs
from catchup.maps.chains import positions, ring_starts
from catchup.maps.counts import Counts
from catchup.maps.reading import RawMap
from catchup.maps.rules import Rule



@dataclass
class Segments:
    """The segments of all ways, in the order of the ways and of their nodes."""
    way: Ints
    """The place of its way among the ways."""
    a: Ints
    b: Ints
    """The nodes at its ends, along the way."""
    begins: Bools
    finishes: Bools
    """Whether its way begins or ends with it; a way that is cut by the map's edge has several parts."""
    metres: Floats
    osm: Ints
    lon: Floats
    lat: Floats
    """Of each node: its number in OpenStreetMap, and its place. At a barrier that blocks, several nodes have one
    number."""

    @property
    def steps(self) -> int:
        return 2 * len(self.way)

    def step_tail(self, steps: Ints) -> Ints:
        """The nodes that steps leave."""
        return np.where(steps & 1, self.b[steps >> 1], self.a[steps >> 1])

    def step_head(self, steps: Ints) -> Ints:
        """The nodes that steps lead to."""
        return np.where(steps & 1, self.a[steps >> 1], self.b[steps >> 1])


@dataclass
class Streets:
    """Street k has the steps first[k] to first[k + 1], from node a[k] to node b[k]."""
    first: Ints
    steps: Ints
    a: Ints
    b: Ints

    def __len__(self) -> int:
        return len(self.a)

    @property
    def of_step(self) -> Ints:
        """The street of each of `steps`."""
        return np.repeat(np.arange(len(self)), np.diff(self.first))

    def sums(self, values: Floats) -> Floats:
        """The sum of a value of each of `steps`, by street."""
        return np.add.reduceat(values, self.first[:-1]) if len(self) else np.empty(0)


def segments_of(raw: RawMap, counts: Counts) -> Segments:
    """The segments whose nodes are both there."""
    way_of = np.repeat(np.arange(len(raw.way_ids)), np.diff(raw.first))
    again = np.zeros(len(raw.refs), dtype=bool)
    again[1:] = (raw.refs[1:] == raw.refs[:-1]) & (way_of[1:] == way_of[:-1])
    counts.add_all("ways with the same node twice in a row", np.unique(raw.way_ids[way_of[again]]).tolist())
    refs, way_of = raw.refs[~again], way_of[~again]
    node = np.minimum(np.searchsorted(raw.node_ids, refs), len(raw.node_ids) - 1)
    there = raw.node_ids[node] == refs
    counts.add_all("ways cut or left out: their nodes aren't there", np.unique(raw.way_ids[way_of[~there]]).tolist())
    nodes_of = np.bincount(way_of, minlength=len(raw.way_ids))
    counts.add_all("left out: less than two nodes", raw.way_ids[nodes_of < 2].tolist())
    at = np.flatnonzero((way_of[1:] == way_of[:-1]) & there[1:] & there[:-1])
    joined = np.zeros(len(at) + 1, dtype=bool)
    joined[1:-1] = (at[1:] == at[:-1] + 1) & (way_of[at[1:]] == way_of[at[:-1]])
    a, b = node[at], node[at + 1]
    counts.add("nodes of ways", number=len(refs))
    return Segments(way_of[at], a, b, ~joined[:-1], ~joined[1:], metres(raw.lon[a], raw.lat[a], raw.lon[b], raw.lat[b]),
                    raw.node_ids, raw.lon, raw.lat)


def block(segments: Segments, raw: RawMap, counts: Counts) -> None:
    """Gives each segment that ends at a barrier that blocks a node of its own there."""
    numbers = np.array([number for number, barrier in raw.barriers.items() if barrier.blocked], dtype=np.int64)
    blocked = np.isin(segments.osm, numbers)
    uses = np.bincount(np.concatenate((segments.a, segments.b)), minlength=len(segments.osm))
    counts.add_all("barriers at a junction", segments.osm[blocked & (uses > 2)].tolist())
    for side in (segments.a, segments.b):
        here = np.flatnonzero(blocked[side])
        old = side[here]
        side[here] = len(segments.osm) + np.arange(len(here))
        segments.osm = np.concatenate((segments.osm, segments.osm[old]))
        segments.lon = np.concatenate((segments.lon, segments.lon[old]))
        segments.lat = np.concatenate((segments.lat, segments.lat[old]))
        blocked = np.concatenate((blocked, np.zeros(len(here), dtype=bool)))


def side_numbers(rules: list[Rule]) -> tuple[Ints, Ints]:
    """A number for what a rule says of each direction, but for its speed: equal ones may be joined."""
    known: dict[object, int] = {}
    rows = []
    for rule in rules:
        of = []
        for side, too in ((rule.forth, rule.too and rule.too.forth), (rule.back, rule.too and rule.too.back)):
            key = None if side is None else (rule.ends, side.timing, too and too.timing)
            of.append(known.setdefault(key, len(known)))
        rows.append(of)
    table = np.array(rows, dtype=np.int64).reshape(-1, 2)
    return table[:, 0], table[:, 1]


def _likeness(segments: Segments, raw: RawMap) -> Ints:
    """A number for each step: those of one street are alike. A ferry is like itself alone."""
    forth, back = side_numbers(raw.rules)
    rule = raw.way_rule[segments.way]
    ferry = np.array([of.ferry for of in raw.rules], dtype=bool)[rule]
    alone = -1 - segments.way
    return pairs(np.where(ferry, alone, forth[rule]), np.where(ferry, alone, back[rule]))


def _links(segments: Segments, like: Ints, keep: Bools) -> Ints:
    """The step after each, where there is nothing to choose; else -1."""
    count = len(segments.way)
    node = np.concatenate((segments.a, segments.b))
    order = np.argsort(node, kind="stable")
    uses = np.bincount(node, minlength=len(segments.osm))
    starts = offsets(uses)[:-1]
    inner = np.flatnonzero((uses == 2) & ~keep)
    one, two = order[starts[inner]], order[starts[inner] + 1]
    # Who drives segment s to its end b comes by step 2 s; who drives it to a comes by 2 s + 1.
    come, other = (np.where(end < count, 2 * end + 1, 2 * (end - count)) for end in (one, two))
    good = (like[come] == like[other ^ 1]) & (like[other] == like[come ^ 1])
    after = np.full(segments.steps, -1, dtype=np.int64)
    after[come[good]] = other[good] ^ 1
    after[other[good]] = come[good] ^ 1
    return after


def _chained(segments: Segments, like: Ints, keep: Bools) -> Streets:
    """The streets between nodes that are kept or at which there is something to choose. A ring of inner nodes alone is
    begun at one of them, which `keep` then has too."""
    after = _links(segments, like, keep)
    first, rank, rings = positions(after)
    if rings.any():
        keep[segments.a[ring_starts(after, rings) >> 1]] = True
        after = _links(segments, like, keep)
        first, rank, _ = positions(after)
    final = np.flatnonzero(after < 0)
    last = np.empty(segments.steps, dtype=np.int64)
    last[first[final]] = final
    # Each street is there twice, once from each of its ends.
    chosen = np.flatnonzero(first < (last[first] ^ 1))
    order = chosen[np.lexsort((rank[chosen], first[chosen]))]
    begins = np.flatnonzero(rank[order] == 0)
    bounds = np.append(begins, len(order))
    return Streets(bounds, order, segments.step_tail(order[begins]), segments.step_head(order[bounds[1:] - 1]))


def streets_of(segments: Segments, raw: RawMap, keep: Bools, counts: Counts) -> Streets:
    """All streets. A loop is cut in two at its middle, so that what stands at it can be reached."""
    like = _likeness(segments, raw)
    streets = _chained(segments, like, keep)
    loops = np.flatnonzero(streets.a == streets.b)
    if len(loops):
        so_far = np.cumsum(segments.metres[streets.steps >> 1])
        begin, end = streets.first[loops], streets.first[loops + 1] - 1
        half = (so_far[end] + so_far[begin] - segments.metres[streets.steps[begin] >> 1]) / 2
        middle = np.clip(np.searchsorted(so_far, half), begin, end - 1)
        keep[segments.step_head(streets.steps[middle])] = True
        counts.add_all("loops cut in two", segments.osm[streets.a[loops]].tolist())
        streets = _chained(segments, like, keep)
    counts.add("streets", number=len(streets))
    return streets
