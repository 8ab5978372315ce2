"""What streets are called: their class, way, length, places and names."""
from __future__ import annotations

from dataclasses import dataclass

import numpy as np

from catchup.maps.arrays import Floats, Ints, changes, offsets, ranges
from catchup.maps.directed import Directed



@dataclass
class Spans:
    """The named parts of roads: road r has those from first[r] to first[r + 1], in driving order, in metres along
    it."""
    first: Ints
    begin: Floats
    end: Floats
    name: Ints


class Labels:
    """What is known of each directed street but its seconds."""

    def __init__(self, directed: Directed) -> None:
        self.of = directed
        streets, segments = directed.streets, directed.segments
        self._segment = streets.steps >> 1
        self._way = segments.way[self._segment]
        self._street = streets.of_step
        self._metres = segments.metres[self._segment]
        self.metres: Floats = streets.sums(self._metres)
        self.classes: list[str] = sorted({rule.kind for rule in directed.raw.rules if rule.out is None})
        numbers = np.array([self.classes.index(rule.kind) if rule.out is None else 0 for rule in directed.raw.rules])
        self.kind: Ints = self._longest(numbers[directed.raw.way_rule[self._way]])
        rings = np.array([rule.ring for rule in directed.raw.rules])
        self.ring: Ints = self._longest(rings[directed.raw.way_rule[self._way]].astype(np.int64))
        self.way: Ints = directed.raw.way_ids[self._longest(self._way)]

    def _longest(self, values: Ints) -> Ints:
        """Of each street the value that most of its metres have."""
        order = np.lexsort((values, self._street))
        street, value = self._street[order], values[order]
        begins = changes(street, value)
        sums = np.add.reduceat(self._metres[order], begins)
        street, value = street[begins], value[begins]
        best = np.lexsort((sums, street))
        last = np.flatnonzero(np.append(street[best][1:] != street[best][:-1], True))
        found: Ints = value[best[last]]
        return found

    def points(self, directed: Ints) -> tuple[Ints, Ints]:
        """The nodes of each of these directed streets, those at its ends with them: where each one's begin, and all."""
        streets = self.of.streets
        street, back = directed >> 1, (directed & 1).astype(bool)
        sizes = np.diff(streets.first)[street]
        first = offsets(sizes + 1)
        rank = ranges(np.zeros(len(street), dtype=np.int64), sizes)
        start, size, turned = (np.repeat(values, sizes) for values in (streets.first[street], sizes, back))
        inside: Ints = np.where(turned, size - 1 - rank, rank)
        step = streets.steps[start + inside] ^ turned
        nodes = np.empty(first[-1], dtype=np.int64)
        nodes[first[:-1]] = self.of.tail[directed]
        nodes[np.repeat(first[:-1], sizes) + 1 + rank] = self.of.segments.step_head(step)
        return first, nodes

    def spans(self, directed: Ints) -> Spans:
        """The named parts of each of these directed streets; parts without a name have the number 0."""
        name = self.of.raw.way_name[self._way]
        begins = changes(self._street, name)
        so_far = np.concatenate(([0.0], np.cumsum(self._metres)))
        street_of = self._street[begins]
        begin = so_far[begins] - so_far[self.of.streets.first[street_of]]
        end = np.append(so_far[begins[1:]], so_far[-1]) - so_far[self.of.streets.first[street_of]]
        counts = np.bincount(street_of, minlength=len(self.of.streets))
        starts = offsets(counts)[:-1]
        street, back = directed >> 1, (directed & 1).astype(bool)
        sizes = counts[street]
        rank = ranges(np.zeros(len(street), dtype=np.int64), sizes)
        start, size, turned = (np.repeat(values, sizes) for values in (starts[street], sizes, back))
        row = start + np.where(turned, size - 1 - rank, rank)
        whole = np.repeat(self.metres[street], sizes)
        return Spans(offsets(sizes), np.where(turned, whole - end[row], begin[row]),
                     np.where(turned, whole - begin[row], end[row]), name[begins[row]].astype(np.int64))
