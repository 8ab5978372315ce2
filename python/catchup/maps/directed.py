"""Streets by direction: street k driven from its a to its b has the number 2 k, driven back 2 k + 1."""
from __future__ import annotations

from dataclasses import dataclass, field
from functools import cached_property
from typing import NamedTuple

import numpy as np

from catchup.maps.arrays import Bools, Ints, offsets, pairs, ranges
from catchup.maps.graph import Groups
from catchup.maps.reading import RawMap
from catchup.maps.streets import Segments, Streets
from catchup.maps.timing import Timings



class Ahead(NamedTuple):
    """Directed streets at the end of one: those that go on, those that go back on it, and how many different ways on
    there are. A street that stands twice is one way."""
    on: list[int]
    back: list[int]
    choices: int


@dataclass
class Directed:
    """The directed streets of a map. Some streets are there twice: the second time as one for destinations alone."""
    segments: Segments
    raw: RawMap
    streets: Streets
    ends: Bools
    """Of each street, whether it is for destinations alone."""
    original: Ints
    """Of each street, itself or the one that it stands beside."""
    exists: Bools
    """Of each directed street, whether it may be driven at all."""
    timings: Timings
    timing: Ints
    """Of each directed street, the number of its timing among these; 0 where it is the same all day."""
    _ahead: "dict[int, Ahead]" = field(default_factory=dict)

    @cached_property
    def tail(self) -> Ints:
        """The node that each directed street leaves."""
        return pairs(self.streets.a, self.streets.b)

    @cached_property
    def head(self) -> Ints:
        """The node that each directed street leads to."""
        return pairs(self.streets.b, self.streets.a)

    @cached_property
    def all(self) -> Ints:
        """The directed streets that may be driven."""
        return np.flatnonzero(self.exists)

    @cached_property
    def leaving(self) -> Groups:
        """The directed streets that leave each node."""
        return Groups(self.tail[self.all], self.all, len(self.segments.osm))

    @cached_property
    def arriving(self) -> Groups:
        """The directed streets that lead to each node."""
        return Groups(self.head[self.all], self.all, len(self.segments.osm))

    @property
    def meets_open(self) -> Bools:
        """Whether a street that is open to all meets each node."""
        found = np.zeros(len(self.segments.osm), dtype=bool)
        found[self.streets.a[~self.ends]] = found[self.streets.b[~self.ends]] = True
        return found

    @cached_property
    def first_step(self) -> Ints:
        """The first step of each directed street."""
        first, last = self.streets.first[:-1], self.streets.first[1:] - 1
        return pairs(self.streets.steps[first], self.streets.steps[last] ^ 1)

    @cached_property
    def first_way(self) -> Ints:
        """The number in OpenStreetMap of the way that each directed street begins with."""
        found: Ints = self.raw.way_ids[self.segments.way[self.first_step >> 1]]
        return found

    def ways(self, directed: int) -> set[int]:
        """The numbers in OpenStreetMap of all ways of a directed street."""
        street = directed >> 1
        steps = self.streets.steps[self.streets.first[street]:self.streets.first[street + 1]]
        return set(self.raw.way_ids[self.segments.way[steps >> 1]].tolist())

    def is_back(self, one: int, other: int) -> bool:
        """Whether the second is the first one driven back."""
        return (one ^ other) & 1 == 1 and bool(self.original[one >> 1] == self.original[other >> 1])

    def ahead(self, directed: int) -> "Ahead":
        """What is ahead at the end of a directed street."""
        if directed not in self._ahead:
            leaving = self.leaving[int(self.head[directed])]
            back = [other for other in leaving if self.is_back(directed, other)]
            on = [other for other in leaving if other not in back]
            choices = len({(int(self.original[other >> 1]), other & 1) for other in on})
            self._ahead[directed] = Ahead(on, back, choices)
        return self._ahead[directed]


def directed_of(segments: Segments, raw: RawMap, streets: Streets) -> Directed:
    """The directed streets; those that are open to all at some hours and for destinations alone at others stand
    twice."""
    rule = raw.way_rule[segments.way[streets.steps[streets.first[:-1]] >> 1]]
    twice = np.flatnonzero(np.array([of.too is not None for of in raw.rules], dtype=bool)[rule])
    count = len(streets)
    original = np.concatenate((np.arange(count), twice))
    sizes = np.diff(streets.first)[original]
    at = ranges(streets.first[original], sizes)
    doubled = Streets(offsets(sizes), streets.steps[at], streets.a[original], streets.b[original])
    ends = np.array([of.ends for of in raw.rules], dtype=bool)[rule][original]
    ends[count:] = True
    exists = _existing(segments, raw, doubled, count)
    return Directed(segments, raw, doubled, ends, original, exists, Timings(), np.zeros(len(exists), dtype=np.int64))


def _existing(segments: Segments, raw: RawMap, streets: Streets, count: int) -> Bools:
    """Whether each directed street may be driven, by the rule of its first way."""
    step = streets.steps[streets.first[:-1]]
    rule = raw.way_rule[segments.way[step >> 1]]
    table = np.zeros((2, 2, len(raw.rules)), dtype=bool)
    for number, of in enumerate(raw.rules):
        for row, one in enumerate((of, of.too)):
            if one is not None:
                table[row, :, number] = one.forth is not None, one.back is not None
    second = (np.arange(len(streets)) >= count).astype(np.int64)
    return pairs(table[second, step & 1, rule], table[second, 1 - (step & 1), rule])
