"""The roads of the network: directed streets between nodes, and between copies of nodes where a drive's past matters.

A copy of a node stands for what a drive that gets there has behind it: which forbidden chains it has begun, which turns
would take it how long, and whether it has left the roads for destinations alone that it began on (phase 1), or is on
such again and has to end there (phase 2). A drive begins at a node's first one, and may end at any.
"""
from __future__ import annotations

from dataclasses import dataclass

import numpy as np

from catchup.maps.arrays import Bools, Ints
from catchup.maps.directed import Directed
from catchup.maps.hours import Spans, merged
from catchup.maps.turns import Chain

Left = frozenset[tuple[Chain, Spans, int]]
"""What of chains is still to drive, with the hours at which they are forbidden, or with the seconds that their end
takes."""

_NONE: Left = frozenset()


@dataclass
class Network:
    """States and roads between them. A state is a node (by its number among the segments' nodes) and a copy of it."""
    node: Ints
    copy: Ints
    open: Bools
    """Whether one gets on from a state by roads that are open to all."""
    tail: Ints
    head: Ints
    street: Ints
    """The directed street of each road."""
    closed: Ints
    """When a turn onto the road is forbidden: a number into `spans`."""
    delay: Ints
    """The seconds that the turn onto the road takes."""
    spans: list[Spans]

    def kept(self, states: Bools) -> "Network":
        """The network of these states alone."""
        number = np.cumsum(states) - 1
        roads = states[self.tail] & states[self.head]
        return Network(self.node[states], self.copy[states], self.open[states], number[self.tail[roads]],
                       number[self.head[roads]], self.street[roads], self.closed[roads], self.delay[roads], self.spans)


class _Builder:
    """Finds the copies that are reached, one after the other."""

    def __init__(self, directed: Directed, ends: Bools, chains: dict[Chain, Spans],
                 slow: list[tuple[int, int, int]]) -> None:
        self.of, self.ends = directed, ends
        begun: dict[int, list[tuple[Chain, Spans, int]]] = {}
        for chain, spans in chains.items():
            begun.setdefault(chain[0], []).append((chain[1:], spans, 0))
        for one, other, seconds in slow:
            begun.setdefault(one, []).append(((other,), (), seconds))
        self.begun: dict[int, Left] = {d: frozenset(left) for d, left in begun.items()}
        streets, alls = directed.streets, directed.all
        self.touches = np.zeros(len(directed.segments.osm), dtype=bool)
        self.touches[streets.a[ends]] = self.touches[streets.b[ends]] = True
        self.nodes = np.unique(np.concatenate((directed.tail[alls], directed.head[alls])))
        self.base = np.full(len(directed.segments.osm), -1, dtype=np.int64)
        self.base[self.nodes] = np.arange(len(self.nodes))
        self.states: list[tuple[int, int, Left]] = []
        self.number: dict[tuple[int, int, Left], int] = {}
        self.spans: dict[Spans, int] = {(): 0}
        self.roads: list[tuple[int, int, int, int, int]] = []

    def state(self, node: int, phase: int, left: Left) -> int:
        """The number of a state: a node's first one, or a copy."""
        if not left and phase == (0 if self.touches[node] else 1):
            return int(self.base[node])
        key = node, phase, left
        if key not in self.number:
            self.number[key] = len(self.nodes) + len(self.states)
            self.states.append(key)
        return self.number[key]

    def plain(self) -> tuple[Ints, Ints, Ints]:
        """The roads between first ones, and adds those from a first one to a copy."""
        of, alls = self.of, self.of.all
        tail, head, ends = of.tail[alls], of.head[alls], self.ends[alls >> 1]
        special = ~ends & self.touches[head] | np.isin(alls, np.fromiter(self.begun, dtype=np.int64))
        for d, t, h, inside in zip(*(values[special].tolist() for values in (alls, tail, head, ends))):
            to = self.state(h, 0 if inside else 1, self.begun.get(d, _NONE))
            self.roads.append((int(self.base[t]), to, d, 0, 0))
        return self.base[tail[~special]], self.base[head[~special]], alls[~special]

    def from_copies(self) -> None:
        """Adds the roads from copies, and the copies that these lead to."""
        at = 0
        while at < len(self.states):
            node, phase, left = self.states[at]
            for d in self.of.leaving[node]:
                self._drive(len(self.nodes) + at, phase, left, d)
            at += 1

    def _drive(self, state: int, phase: int, left: Left, d: int) -> None:
        inside = bool(self.ends[d >> 1])
        closed = merged(span for rest, spans, _ in left if rest == (d,) for span in spans)
        if phase == 2 and not inside or closed and self.of.timings.never(int(self.of.timing[d]), closed):
            return
        then = frozenset((rest[1:], spans, 0) for rest, spans, _ in left if rest[0] == d and len(rest) > 1)
        delay = max((seconds for rest, _, seconds in left if rest == (d,)), default=0)
        after = (0 if phase == 0 else 2) if inside else 1
        to = self.state(int(self.of.head[d]), after, then | self.begun.get(d, _NONE))
        self.roads.append((state, to, d, self.spans.setdefault(closed, len(self.spans)), delay))


def network_of(directed: Directed, ends: Bools, chains: dict[Chain, Spans],
               slow: list[tuple[int, int, int]]) -> Network:
    """The roads and states of all directed streets; `ends` says which streets nobody may drive through, `slow` which
    turns take how many seconds."""
    build = _Builder(directed, ends, chains, slow)
    tail, head, street = build.plain()
    build.from_copies()
    rows = np.array(build.roads, dtype=np.int64).reshape(-1, 5)
    none = np.zeros(len(tail), dtype=np.int64)
    nodes = np.concatenate((build.nodes, np.array([node for node, _, _ in build.states], dtype=np.int64)))
    copies_between = np.array([phase == 1 for _, phase, _ in build.states], dtype=bool)
    between = np.concatenate((~build.touches[build.nodes], copies_between))
    is_open = between & directed.meets_open[nodes]
    return Network(nodes, _copies(nodes, len(build.nodes)), is_open, np.concatenate((tail, rows[:, 0])),
                   np.concatenate((head, rows[:, 1])), np.concatenate((street, rows[:, 2])),
                   np.concatenate((none, rows[:, 3])), np.concatenate((none, rows[:, 4])), list(build.spans))


def _copies(nodes: Ints, firsts: int) -> Ints:
    """The number of each state among those of its node: 0 for the first one."""
    order = np.argsort(nodes, kind="stable")
    begins = np.append(True, nodes[order][1:] != nodes[order][:-1])
    start = np.maximum.accumulate(np.where(begins, np.arange(len(nodes)), 0))
    copy = np.empty(len(nodes), dtype=np.int64)
    copy[order] = np.arange(len(nodes)) - start
    return copy
