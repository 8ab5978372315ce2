"""Turn restrictions, as chains of directed streets of which nobody may drive all, one after the other.

A restriction of a node is a chain of two; one over ways is longer. What is `only_` allowed forbids each other street.
Who came by a street with a restricted turn may not turn back at the next three junctions either, so that nobody gets
past a restriction by a turn behind it; at dead ends everybody may turn.
"""
from __future__ import annotations

from typing import Iterator

import numpy as np

from catchup.maps.arrays import Bools, Ints
from catchup.maps.counts import Counts
from catchup.maps.directed import Directed
from catchup.maps.hours import Spans, merged
from catchup.maps.reading import RawMap, Restriction
from catchup.maps.streets import Segments

Chain = tuple[int, ...]
JUNCTIONS = 3
LONGEST = 60



def kept_nodes(raw: RawMap, segments: Segments) -> Bools:
    """The nodes at which streets end for the sake of restrictions and barriers, though nothing else may be chosen
    there."""
    via = [of.node for of in raw.restrictions if of.node is not None]
    gates = [number for number, barrier in raw.barriers.items() if not barrier.blocked]
    keep = np.isin(segments.osm, np.array(via + gates, dtype=np.int64))
    over = np.array(sorted({way for of in raw.restrictions for way in of.ways}), dtype=np.int64)
    here = np.isin(raw.way_ids[segments.way], over)
    keep[segments.a[here & segments.begins]] = True
    keep[segments.b[here & segments.finishes]] = True
    return keep


def _numbered(osm: Ints, wanted: set[int]) -> dict[int, list[int]]:
    """The nodes of each of these numbers of OpenStreetMap: several at a barrier that blocks."""
    found: dict[int, list[int]] = {}
    for node in np.flatnonzero(np.isin(osm, np.array(sorted(wanted), dtype=np.int64))).tolist():
        found.setdefault(int(osm[node]), []).append(node)
    return found


def _way_ends(directed: Directed, ways: set[int]) -> dict[int, set[int]]:
    """The nodes at the ends of each of these ways."""
    segments, numbers = directed.segments, directed.raw.way_ids[directed.segments.way]
    here = np.isin(numbers, np.array(sorted(ways), dtype=np.int64))
    found: dict[int, set[int]] = {}
    for at, nodes in ((here & segments.begins, segments.a), (here & segments.finishes, segments.b)):
        for way, node in zip(numbers[at].tolist(), nodes[at].tolist()):
            found.setdefault(way, set()).add(node)
    return found


def _minus(spans: Spans, others: Spans) -> Spans:
    """The parts of spans that aren't in others."""
    left = list(spans)
    for begin, end in others:
        left = [part for a, b in left for part in ((a, min(b, begin)), (max(a, end), b)) if part[0] < part[1]]
    return merged(left)


class _Finder:
    """Finds the chains of restrictions among the directed streets."""

    def __init__(self, directed: Directed, restrictions: list[Restriction], counts: Counts) -> None:
        self.of, self.counts = directed, counts
        self.nodes = _numbered(directed.segments.osm, {one.node for one in restrictions if one.node is not None})
        self.way_ends = _way_ends(directed, {way for one in restrictions for way in one.ways})
        self.chains: dict[Chain, Spans] = {}
        self.only: dict[Chain, list[tuple[int, Spans]]] = {}

    def add(self, chain: Chain, spans: Spans) -> None:
        """Forbids a chain at these hours."""
        self.chains[chain] = merged(self.chains.get(chain, ()) + spans)

    def restrict(self, one: Restriction) -> None:
        """Adds the chains of a restriction."""
        found = list(self._over_ways(one) if one.node is None else self._at_node(one))
        if not found:
            return self.counts.add("restrictions: their roads aren't taken, don't meet or go the other way", one.number)
        kind = one.kind.split("_")[0]
        self.counts.add(f"restrictions made: {kind}{'' if one.ways == frozenset() else ' over ways'}", one.number)
        for chain in found:
            if kind == "no":
                self.add(chain, one.spans)
            else:
                for i in range(1, len(chain)):
                    self.only.setdefault(chain[:i], []).append((chain[i], one.spans))

    def _at_node(self, one: Restriction) -> Iterator[Chain]:
        assert one.node is not None
        first_way = self.of.first_way
        for node in self.nodes.get(one.node, ()):
            come = [d for d in self.of.arriving[node] if int(first_way[d ^ 1]) in one.sources]
            go = [d for d in self.of.leaving[node] if int(first_way[d]) in one.targets]
            if len(one.sources) == 1 and len(come) > 1 or len(one.targets) == 1 and len(go) > 1:
                self.counts.add("restrictions with a way that goes on beyond the junction", one.number)
            for d in come:
                for e in go:
                    # Where the way goes on, a forbidden turn from it onto itself is the one back.
                    if not (one.kind == "no_u_turn" and one.sources == one.targets) or self.of.is_back(d, e):
                        yield d, e

    def _over_ways(self, one: Restriction) -> Iterator[Chain]:
        of, first_way = self.of, self.of.first_way
        ends = sorted({node for way in one.ways for node in self.way_ends.get(way, ())})
        work: list[tuple[Chain, frozenset[int]]] = [
            ((d,), frozenset()) for node in ends for d in of.arriving[node] if int(first_way[d ^ 1]) in one.sources]
        while work:
            chain, used = work.pop()
            for d in of.leaving[int(of.head[chain[-1]])]:
                ways = of.ways(d)
                if ways <= one.ways and d not in chain and d ^ 1 not in chain and len(chain) < LONGEST:
                    work.append((chain + (d,), used | ways))
                elif int(first_way[d]) in one.targets and used == one.ways:
                    yield chain + (d,)

    def settle_only(self) -> None:
        """Forbids the streets beside those that alone are allowed."""
        for path, allowed in self.only.items():
            all_hours = merged(span for _, spans in allowed for span in spans)
            for d in self.of.leaving[int(self.of.head[path[-1]])]:
                own = merged(span for to, spans in allowed if to == d for span in spans)
                spans = _minus(all_hours, own)
                if spans:
                    self.add(path + (d,), spans)

    def no_way_round(self) -> None:
        """Forbids turning back at the next junctions behind each restriction, and between junctions up to the one
        behind."""
        for chain, spans in list(self.chains.items()):
            work = [(chain[:i], JUNCTIONS) for i in range(1, len(chain))]
            while work:
                path, left = work.pop()
                for d in self.of.ahead(path[-1]).on:
                    ahead = self.of.ahead(d)
                    junction = ahead.choices > 1
                    if not ahead.choices or junction and not left or self.chains.get(path + (d,)) == spans:
                        continue
                    for back in ahead.back:
                        self.add(path + (d, back), spans)
                    if d not in path and len(path) < LONGEST:
                        work.append((path + (d,), left - junction))


def forbidden(directed: Directed, restrictions: list[Restriction], counts: Counts,
              turn_back: bool = False) -> dict[Chain, Spans]:
    """The chains that nobody may drive to their end, and when. With `turn_back` one may turn behind a restriction."""
    finder = _Finder(directed, restrictions, counts)
    for one in restrictions:
        finder.restrict(one)
    finder.settle_only()
    if not turn_back:
        finder.no_way_round()
    return finder.chains
