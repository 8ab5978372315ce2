"""Drives over random made maps, beside a plain search over the maps' own nodes that shares no code with the import.

The maps are lattices of 1,000 m with streets of 25 km/h, so each segment takes 144 s and nothing is rounded.
"""
from __future__ import annotations

import cmath
import heapq
import math
import random
from dataclasses import dataclass, field
from pathlib import Path

import pytest
from osm_maps import DAY, OsmMap

H = 3600
SIDE = 5
Step = tuple[int, int, int]
"""A way, the place of a node in it, and 1 or -1: driven from there along the way or against it."""


@dataclass
class Way:
    nodes: list[int]
    both: bool = True
    ends: bool = False
    closed: tuple[int, int] | None = None
    ferry: int | None = None


@dataclass
class Lattice:
    """A random map, as itself and as a map of OpenStreetMap."""
    ways: list[Way] = field(default_factory=list)
    blocked: set[int] = field(default_factory=set)
    bans: list[tuple[str, int, int, int]] = field(default_factory=list)
    """Kind, and from way, node, to way."""

    def osm(self) -> OsmMap:
        made = OsmMap()
        for node in range(SIDE * SIDE):
            made.node(node, node % SIDE * 1000.0, node // SIDE * 1000.0, **({"barrier": "bollard"} if node in self.blocked else {}))
        for number, way in enumerate(self.ways):
            tags = {"route": "ferry", "duration": f"00:{way.ferry}", "interval": "01:00"} if way.ferry else {"highway": "residential"}
            tags |= {} if way.both else {"oneway": "yes"}
            tags |= {"access": "destination"} if way.ends else {}
            if way.closed:
                tags["motor_vehicle__conditional"] = f"no @ ({way.closed[0]:02}:00-{way.closed[1]:02}:00)"
            made.way(way.nodes, number=number, **tags)
        for kind, source, node, target in self.bans:
            made.restrict(source, node, target, kind)
        return made

    def segments(self) -> list[tuple[int, int, Step]]:
        """Each segment that may be driven: from, to and its step."""
        found = []
        for number, way in enumerate(self.ways):
            for i, (a, b) in enumerate(zip(way.nodes, way.nodes[1:])):
                found.append((a, b, (number, i, 1)))
                if way.both:
                    found.append((b, a, (number, i + 1, -1)))
        return found


def lattice(seed: int, bans: bool) -> Lattice:
    """Straight ways of one to four segments on half of the lattice's edges."""
    rnd = random.Random(seed)
    made = Lattice()
    for row in range(SIDE):
        for step, start in ((1, row * SIDE), (SIDE, row)):
            nodes = [start]
            for i in range(1, SIDE):
                nodes.append(start + i * step)
                if rnd.random() < 0.45 or i == SIDE - 1:
                    if rnd.random() < 0.8:
                        made.ways.append(Way(nodes, both=rnd.random() < 0.75, ends=not bans and rnd.random() < 0.2))
                    nodes = nodes[-1:]
    for way in made.ways:
        if not way.ends and rnd.random() < 0.15:
            way.closed = (rnd.randrange(0, 12), rnd.randrange(12, 24)) if rnd.random() < 0.5 else (rnd.randrange(12, 24), rnd.randrange(0, 12))
    if rnd.random() < 0.5:
        made.ways.append(Way([0, SIDE * SIDE - 1], ferry=rnd.randrange(10, 40)))
    if rnd.random() < 0.5:
        made.blocked.add(rnd.randrange(SIDE * SIDE))
    if bans:
        made.bans = _bans(made, rnd)
    return made


def _bans(made: Lattice, rnd: random.Random) -> list[tuple[str, int, int, int]]:
    """Restrictions between ways that begin or end at a node; one kind alone at a node from a way."""
    at: dict[int, list[int]] = {}
    for number, way in enumerate(made.ways):
        for node in {way.nodes[0], way.nodes[-1]}:
            at.setdefault(node, []).append(number)
    found, seen = [], set()
    for node, ways in at.items():
        if len(ways) > 2 and node not in made.blocked and rnd.random() < 0.6:
            source, target = rnd.sample(ways, 2)
            if (node, source) not in seen:
                seen.add((node, source))
                found.append((rnd.choice(["no_left_turn", "only_straight_on"]), source, node, target))
    return found


class Search:
    """Least arrivals over the nodes of a lattice."""

    def __init__(self, of: Lattice, junctions: set[int], left: int = 0) -> None:
        self.of, self.junctions, self.left = of, junctions, left
        self.out: dict[int, list[tuple[int, Step]]] = {}
        for a, b, step in of.segments():
            self.out.setdefault(a, []).append((b, step))
        self.pocket = self._pockets()

    def _pockets(self) -> set[tuple[int, int]]:
        """The segments for destinations alone: way and place of the earlier node."""
        segments = self.of.segments()
        own = {_segment(step) for _, _, step in segments if self.of.ways[step[0]].ends}
        if not own:
            return own
        links: dict[int, set[int]] = {}
        for a, b, step in segments:
            if _segment(step) not in own:
                links.setdefault(self._side(a, step), set()).add(self._far(b, step))
        nodes = set(links) | {b for heads in links.values() for b in heads}
        reach = {node: _reach(node, links) for node in nodes}
        hearts = [{other for other in reach[node] if node in reach[other]} for node in nodes]
        heart: set[int] = max(hearts, key=len, default=set())
        return own | {_segment(step) for a, b, step in segments if not (self._side(a, step) in heart and self._far(b, step) in heart)}

    def _side(self, node: int, step: Step) -> int:
        """A node as a segment has it: at a barrier each has its own."""
        way, i, along = step
        return node if node not in self.of.blocked else -1000 * (1 + way) - 2 * i - (along > 0)

    def _far(self, node: int, step: Step) -> int:
        way, i, along = step
        return self._side(node, (way, i + along, -along))

    def arrival(self, a: int, b: int, second: int) -> int | None:
        """The least arrival, or None."""
        phase = 0 if any(_segment(step) in self.pocket for _, _, step in self.of_node(a)) else 1
        queue: list[tuple[int, int, int, Step | None]] = [(second, a, phase, None)]
        done: set[tuple[int, int, Step | None]] = set()
        while queue:
            now, node, phase, came = heapq.heappop(queue)
            if node == b:
                return now
            if (node, phase, came) in done:
                continue
            done.add((node, phase, came))
            for to, step in self.out.get(node, ()):
                inside = _segment(step) in self.pocket
                if phase == 2 and not inside or not self._may(node, came, step):
                    continue
                then = ((0 if phase == 0 else 2) if inside else 1)
                heapq.heappush(queue, (self._drive(now, node, came, step) + self._turn(node, came, step), to, then, step))
        return None

    def of_node(self, node: int) -> list[tuple[int, int, Step]]:
        return [(a, b, step) for a, b, step in self.of.segments() if node in (a, b)]

    def _may(self, node: int, came: Step | None, step: Step) -> bool:
        """Whether one may turn there."""
        if came is None:
            return True
        back = _segment(came) == _segment(step)
        if back and node not in self.junctions or not back and node in self.of.blocked:
            return False
        ways = {to[0] for _, to in self.out.get(node, ())}
        for kind, source, at, target in self.of.bans:
            if (source, at) == (came[0], node) and target in ways and (step[0] == target) == kind.startswith("no"):
                return False
        return True

    def _turn(self, node: int, came: Step | None, step: Step) -> int:
        """What a turn to the left takes, where there are two ways on."""
        if came is None or not self.left:
            return 0
        on = [to for _, to in self.out.get(node, ()) if _segment(to) != _segment(came)]
        (a, b), (c, d) = ((_place(self.of.ways[way].nodes[i]), _place(self.of.ways[way].nodes[i + along])) for way, i, along in (came, step))
        one, other = complex(b[0] - a[0], b[1] - a[1]), complex(d[0] - c[0], d[1] - c[1])
        angle = math.degrees(cmath.phase(other / one))
        return self.left if len(on) > 1 and 45 <= angle <= 150 else 0

    def _drive(self, now: int, node: int, came: Step | None, step: Step) -> int:
        way = self.of.ways[step[0]]
        if way.ferry:
            return -(-now // H) * H + 60 * way.ferry
        if way.closed and (came is None or node in self.junctions):
            begin, end = (hour * H for hour in way.closed)
            time = now % DAY
            inside = begin <= time < end if begin < end else time >= begin or time < end
            now += (end - time) % DAY if inside else 0
        return now + 144


def _place(node: int) -> tuple[int, int]:
    return node % SIDE, node // SIDE


def _segment(step: Step) -> tuple[int, int]:
    way, i, along = step
    return way, i if along > 0 else i - 1


def _reach(start: int, links: dict[int, set[int]]) -> set[int]:
    found, work = {start}, [start]
    while work:
        for node in links.get(work.pop(), set()) - found:
            found.add(node)
            work.append(node)
    return found


@pytest.mark.parametrize("bans", [False, True], ids=["destinations", "bans"])
@pytest.mark.parametrize("seed", range(25))
def test_drives_are_the_least(seed: int, bans: bool, tmp_path: Path) -> None:
    of, left = lattice(seed, bans), 20 if seed % 2 else 0
    if left:
        for way in of.ways:
            way.closed, way.ferry = None, None
        of.ways = [way for way in of.ways if way.nodes != [0, SIDE * SIDE - 1]]
    net = of.osm().network(tmp_path, turn_back=True, islands=True, left=left)
    search = Search(of, set(net.junctions), left)
    rnd = random.Random(1000 + seed)
    ends = [node for node in net.junctions if node not in of.blocked]
    for _ in range(25):
        a, b, second = rnd.choice(ends), rnd.choice(ends), rnd.randrange(DAY)
        want = search.arrival(a, b, second)
        assert net.takes(a, b, second) == (None if want is None else want - second), (a, b, second, net.drive(a, b, second))
