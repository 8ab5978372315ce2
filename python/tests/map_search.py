"""A plain search over a map's own nodes, by the conventions of docs/MAPS.md, to compare the importer's networks with.

It shares no code with the importer: maps are read as XML by ElementTree, ways are walked node by node, and each drive
is searched from its road on with all that matters about where it came from. Nothing here is quick; it is meant to be
read.
"""

from __future__ import annotations

import heapq
import math
import tomllib
from collections import defaultdict
from collections.abc import Iterator
from dataclasses import dataclass, field
from pathlib import Path
from typing import Any
from xml.etree import ElementTree

import igraph
from map_tags import BARRED, ENDS, OPEN, Rules, Span, at_time, changes, departures, spans_today

DAY = 86400
RADIUS = 6371008.8
DATA = Path(__file__).resolve().parents[1] / "catchup" / "maps"

Tags = dict[str, str]
Piece = tuple[int, int, float]  # from this second of the day: access, and how much longer than usually it takes


@dataclass
class Osm:
    """A map as its file has it: places in degrees, east first."""

    places: dict[int, tuple[float, float]] = field(default_factory=dict)
    node_tags: dict[int, Tags] = field(default_factory=dict)
    ways: dict[int, tuple[list[int], Tags]] = field(default_factory=dict)
    relations: list[tuple[int, list[tuple[str, int, str]], Tags]] = field(default_factory=list)


def read_xml(path: Path) -> Osm:
    """Reads a map in XML. Of a way that is there twice the first counts."""
    osm = Osm()
    for _, item in ElementTree.iterparse(path):
        if item.tag not in ("node", "way", "relation") or item.get("visible") == "false":
            continue
        tags = {tag.attrib["k"]: tag.attrib["v"] for tag in item.iter("tag")}
        number = int(item.attrib["id"])
        if item.tag == "node":
            osm.places[number] = (float(item.attrib["lon"]), float(item.attrib["lat"]))
            if tags:
                osm.node_tags[number] = tags
        elif item.tag == "way":
            osm.ways.setdefault(number, ([int(nd.attrib["ref"]) for nd in item.iter("nd")], tags))
        else:
            members = [(m.attrib["type"], int(m.attrib["ref"]), m.attrib["role"]) for m in item.iter("member")]
            osm.relations.append((number, members, tags))
        item.clear()
    return osm


def metres(one: tuple[float, float], other: tuple[float, float]) -> float:
    """The haversine formula, places in degrees."""
    lon1, lat1, lon2, lat2 = (math.radians(x) for x in (*one, *other))
    half = math.sin((lat2 - lat1) / 2) ** 2 + math.cos(lat1) * math.cos(lat2) * math.sin((lon2 - lon1) / 2) ** 2
    return 2 * RADIUS * math.asin(math.sqrt(half))


@dataclass
class Segment:
    """One way's part between two of its nodes. `sides` has the pieces of a day along it and against it, or None."""

    way: int
    index: int
    ends: tuple[int, int]
    metres: float
    seconds: list[float]
    sides: list[list[Piece] | None]
    ferry: bool


@dataclass
class Road:
    """A directed stretch between two ends: segments, each with 0 (along its way) or 1."""

    parts: list[tuple[int, int]]
    tail: int
    head: int
    seconds: float
    pieces: list[Piece]
    back: int = -1
    boards: list[int] | None = None
    entry: list[Piece] | None = None  # of who comes to a ferry through a gate


@dataclass(frozen=True)
class Chain:
    """Roads that may not be driven one after the other at these `hours`: a list of (from, to) seconds, or None."""

    roads: tuple[frozenset[int], ...]
    hours: tuple[tuple[int, int], ...] | None


@dataclass
class Network:
    """The roads of a map and what forbids them. Vertices: `vertex_osm` has each one's node in OpenStreetMap."""

    vertex_osm: list[int]
    segments: list[Segment]
    roads: list[Road]
    out: dict[int, list[int]]
    into: dict[int, list[int]]
    chains: list[Chain] = field(default_factory=list)
    gates: dict[int, list[Piece]] = field(default_factory=dict)
    starts: dict[int, list[int]] = field(default_factory=dict)
    core: set[int] = field(default_factory=set)

    def vertices(self, osm: int) -> list[int]:
        """All vertices of a node in OpenStreetMap; a blocked one has several."""
        return self.starts.get(osm, [])


class Builder:
    """Makes the network of a map for one vehicle on one day of the week (0 is Monday)."""

    def __init__(self, osm: Osm, vehicle: str = "car", weekday: int = 0) -> None:
        with (DATA / "speeds.toml").open("rb") as speeds, (DATA / "vehicles.toml").open("rb") as vehicles:
            speed_data, vehicle_data = tomllib.load(speeds), tomllib.load(vehicles)
        self.rules = Rules(vehicle, vehicle_data[vehicle], speed_data[vehicle], vehicle_data["words"])
        self.osm, self.weekday = osm, weekday
        self.segments: list[Segment] = []
        self.vertex_osm: list[int] = []
        self.single: dict[int, int] = {}
        self.at: dict[int, list[tuple[int, int]]] = defaultdict(list)  # vertex: segments and which end of each it is
        self.forced: set[int] = set()
        self.way_ends: dict[int, set[int]] = {}  # a way that is cut has those of all its parts
        self.gates: dict[int, list[Piece]] = {}
        self.blocked: set[int] = set()

    def build(self) -> Network:
        """The network, with its restrictions."""
        self._barriers()
        for number, (nodes, tags) in self.osm.ways.items():
            self._way(number, nodes, tags)
        self._force_ends()
        ends = {v for v in self.at if self._is_end(v)}
        self._cut_loops(ends)
        network = self._roads(ends)
        _pockets(network)
        RestrictionReader(self, network).read()
        return network

    def _barriers(self) -> None:
        for node, tags in self.osm.node_tags.items():
            if "barrier" not in tags:
                continue
            pieces = [(s, self.rules.barrier(at_time(tags, s, self.weekday)), 1.0) for s in changes(tags, self.weekday)]
            if all(piece[1] == BARRED for piece in pieces):
                self.blocked.add(node)
            elif any(piece[1] != OPEN for piece in pieces):
                ends = any(piece[1] == ENDS for piece in pieces)
                self.gates[node] = [(second, ENDS if ends and access == OPEN else access, 1.0)
                                    for second, access, _ in pieces]
                self.forced.add(node)

    def _vertex(self, node: int) -> int:
        """The vertex of a node; a blocked one is another for each street that ends there."""
        if node in self.blocked:
            self.vertex_osm.append(node)
            return len(self.vertex_osm) - 1
        if node not in self.single:
            self.vertex_osm.append(node)
            self.single[node] = len(self.vertex_osm) - 1
        return self.single[node]

    def _way(self, number: int, nodes: list[int], tags: Tags) -> None:
        if "highway" not in tags and tags.get("route") != "ferry":
            return
        sides = [self._pieces(tags, direction) for direction in (0, 1)]
        if sides == [None, None]:
            return
        ferry = self.rules.is_ferry(tags)
        nodes = [node for k, node in enumerate(nodes) if k == 0 or node != nodes[k - 1]]
        here = [k for k in range(len(nodes) - 1) if nodes[k] in self.osm.places and nodes[k + 1] in self.osm.places]
        self.way_ends[number] = {nodes[k] for k in here if k - 1 not in here}
        self.way_ends[number] |= {nodes[k + 1] for k in here if k + 1 not in here}
        lengths = {k: metres(self.osm.places[nodes[k]], self.osm.places[nodes[k + 1]]) for k in here}
        duration = self.rules.duration(tags) if ferry else None
        if ferry:
            self.forced |= self.way_ends[number]
        for k in here:
            speeds = [self.rules.speed(tags, direction) for direction in (0, 1)]
            seconds = ([duration * lengths[k] / sum(lengths.values())] * 2 if duration is not None
                       else [lengths[k] * 3.6 / speed for speed in speeds])
            ends = (self._vertex(nodes[k]), self._vertex(nodes[k + 1]))
            for side in (0, 1):
                self.at[ends[side]].append((len(self.segments), side))
            self.segments.append(Segment(number, k, ends, lengths[k], seconds, list(sides), ferry))

    def _pieces(self, tags: Tags, direction: int) -> list[Piece] | None:
        """A day of one direction of a way; None where nobody may enter it at any hour. Of a ferry without its hours."""
        waits = self.rules.is_ferry(tags)
        pieces: list[Piece] = []
        for second in changes(tags, self.weekday):
            then = at_time(tags, second, self.weekday, not waits, self.rules.used)
            access = self.rules.access(then) if self.rules.taken(then) and self.rules.goes(then, direction) else BARRED
            if then.get("opening_hours") == "closed":
                access = BARRED
            ratio = 1.0
            if not waits and access != BARRED:
                ratio = self.rules.speed(tags, direction) / self.rules.speed(then, direction)
            pieces.append((second, access, ratio))
        return _merged(pieces) if any(piece[1] != BARRED for piece in pieces) else None

    def _force_ends(self) -> None:
        """Each via node of a restriction is an end, and so are both ends of its via ways."""
        for _, members, tags in self.osm.relations:
            if not restriction_of(members) or not self.restricted(tags):
                continue
            for kind, ref, role in members:
                if role == "via" and kind == "node":
                    self.forced.add(ref)
                elif role == "via" and kind == "way":
                    self.forced |= self.way_ends.get(ref, set())

    def restricted(self, tags: Tags) -> list[tuple[str, tuple[Span, ...] | None]]:
        """The kinds of restriction that a relation says on this day, each with its hours, or None for all."""
        said = [(kind, None if when is None else tuple(spans_today(when, self.weekday)))
                for kind, when in self.rules.restriction(tags)]
        return [(kind, hours) for kind, hours in said if hours != ()]

    def _is_end(self, vertex: int) -> bool:
        around = self.at[vertex]
        if len(around) != 2 or self.vertex_osm[vertex] in self.forced:
            return True
        (one, side1), (other, side2) = around
        a, b = self.segments[one], self.segments[other]
        # Along both: into the node by the one, and out of it by the other.
        return (a.sides[0 if side1 == 1 else 1] != b.sides[0 if side2 == 0 else 1]
                or a.sides[0 if side1 == 0 else 1] != b.sides[0 if side2 == 1 else 1]
                or a.ferry != b.ferry)

    def _walk(self, segment: int, direction: int, ends: set[int]) -> list[tuple[int, int]]:
        """The segments from here on to the next end."""
        parts = [(segment, direction)]
        while True:
            vertex = self.segments[parts[-1][0]].ends[1 - parts[-1][1]]
            if vertex in ends or len(parts) > len(self.segments):
                return parts
            ahead = next(item for item in self.at[vertex] if item != (parts[-1][0], 1 - parts[-1][1]))
            parts.append((ahead[0], 0 if ahead[1] == 0 else 1))

    def _cut_loops(self, ends: set[int]) -> None:
        for vertex in sorted(ends):
            for segment, side in self.at[vertex]:
                parts = self._walk(segment, 0 if side == 0 else 1, ends)
                if self.segments[parts[-1][0]].ends[1 - parts[-1][1]] != vertex or len(parts) < 2:
                    continue
                if parts[0][0] > parts[-1][0]:
                    continue  # its other direction does it: from the segment on that comes first in the file
                total, behind, cut = sum(self.segments[p].metres for p, _ in parts), 0.0, -1
                for part, direction in parts[:-1]:
                    behind += self.segments[part].metres
                    cut = self.segments[part].ends[1 - direction]
                    if behind >= total / 2:
                        break
                ends.add(cut)

    def _roads(self, ends: set[int]) -> Network:
        roads: list[Road] = []
        seen: dict[tuple[int, int], int] = {}
        for vertex in sorted(ends):
            for segment, side in self.at[vertex]:
                direction = 0 if side == 0 else 1
                if self.segments[segment].sides[direction] is None:
                    continue
                parts = self._walk(segment, direction, ends)
                road = self._road(parts)
                if all(piece[1] == BARRED for piece in road.pieces) or road.boards == []:
                    continue  # nobody may ever enter it
                seen[parts[0]] = len(roads)
                roads.append(road)
        for road in roads:
            last = road.parts[-1]
            road.back = seen.get((last[0], 1 - last[1]), -1)
        out: dict[int, list[int]] = defaultdict(list)
        into: dict[int, list[int]] = defaultdict(list)
        for number, road in enumerate(roads):
            out[road.tail].append(number)
            into[road.head].append(number)
        starts: dict[int, list[int]] = defaultdict(list)
        for vertex in ends:
            starts[self.vertex_osm[vertex]].append(vertex)
        return Network(self.vertex_osm, self.segments, roads, out, into, [], self.gates, starts)

    def _road(self, parts: list[tuple[int, int]]) -> Road:
        first, last = self.segments[parts[0][0]], self.segments[parts[-1][0]]
        tail, head = first.ends[parts[0][1]], last.ends[1 - parts[-1][1]]
        pieces = first.sides[parts[0][1]]
        assert pieces is not None
        seconds = sum(self.segments[s].seconds[d] for s, d in parts)
        boards, entry = None, None
        tags = self.osm.ways[first.way][1]
        if first.ferry and self.vertex_osm[tail] in self.way_ends[first.way]:
            every = self.rules.interval(tags)
            if every is not None:
                boards = departures(tags.get("opening_hours"), every, self.weekday)
                entry = self.gates.get(self.vertex_osm[tail])
            else:
                pieces = _through(pieces, self._hours(tags), True)
        for place, leaves in ((tail, entry is None), (head, False)):
            gate = self.gates.get(self.vertex_osm[place])
            if gate:
                pieces = _through(pieces, gate, leaves)
        if boards is not None:
            boards = [second for second in boards if _piece_at(pieces, second)[1] != BARRED]
        return Road(parts, tail, head, seconds, pieces, boards=boards, entry=entry)

    def _hours(self, tags: Tags) -> list[Piece]:
        """When a ferry without departures lets one board."""
        closed = [(second, at_time(tags, second, self.weekday).get("opening_hours") == "closed")
                  for second in changes(tags, self.weekday)]
        return [(second, BARRED if shut else OPEN, 1.0) for second, shut in closed]


def _merged(pieces: list[Piece]) -> list[Piece]:
    """Without pieces that say what the one before says."""
    kept = pieces[:1]
    for piece in pieces[1:]:
        if piece[1:] != kept[-1][1:]:
            kept.append(piece)
    return kept


def _piece_at(pieces: list[Piece], second: float) -> Piece:
    return [piece for piece in pieces if piece[0] <= second][-1]


def _through(pieces: list[Piece], gate: list[Piece], leaves: bool) -> list[Piece]:
    """A road's day beside that of a gate at one of its ends, which bars only those who leave it."""
    found = []
    for second in sorted({piece[0] for piece in pieces + gate}):
        _, access, ratio = _piece_at(pieces, second)
        there = _piece_at(gate, second)[1]
        if leaves and BARRED in (access, there):
            access = BARRED
        elif there == ENDS and access == OPEN:
            access = ENDS
        found.append((second, access, ratio))
    return _merged(found)


def whole_seconds(network: Network, ratio: float) -> list[int]:
    """The whole seconds of all roads, each so many times as slow as usually: the nearest, but for what that does to a
    way."""
    starts = {road.parts[0]: number for number, road in enumerate(network.roads)}
    by_place = {(s.way, s.index): k for k, s in enumerate(network.segments)}
    follows: dict[int, int] = {}
    for number, road in enumerate(network.roads):
        segment, direction = road.parts[-1]
        last = network.segments[segment]
        ahead = by_place.get((last.way, last.index + (1 if direction == 0 else -1)))
        if ahead is not None and (ahead, direction) in starts:
            follows[number] = starts[(ahead, direction)]
    behind = set(follows.values())
    whole = [-1] * len(network.roads)
    # Roads without a beginning, round a roundabout of two ways, come last: from any of them on.
    for first in sorted(range(len(network.roads)), key=lambda number: number in behind):
        number, exact, done = first, list[float](), list[int]()
        while whole[number] < 0:
            exact.append(network.roads[number].seconds * ratio)
            done.append(_rounded(exact, done))
            whole[number] = done[-1]
            number = follows.get(number, number)
    return whole


def _rounded(exact: list[float], before: list[int]) -> int:
    """The whole seconds of the last road of a way, so that no stretch that ends with it is much too long or too
    short."""
    nearest = math.floor(exact[-1] + 0.5)
    off, seconds = nearest - exact[-1], exact[-1]
    for own, whole in zip(reversed(exact[:-1]), reversed(before)):
        off, seconds = off + whole - own, seconds + own
        if abs(off) > 1.5 + seconds / 20:
            return nearest - (1 if off > 0 else -1)
    return nearest


def _pockets(network: Network) -> None:
    """Finds the largest part that open roads join, both ways; open roads outside it are for destinations alone."""
    roads = network.roads
    is_open = [any(piece[1] == OPEN for piece in road.pieces) for road in roads]
    tails = [road.tail for road, good in zip(roads, is_open) if good]
    heads = [road.head for road, good in zip(roads, is_open) if good]
    count = len(network.vertex_osm)
    parts = igraph.Graph(count, list(zip(tails, heads)), directed=True).connected_components("strong")
    joined = {label: set(members) for label, members in enumerate(parts)}
    network.core = joined[_largest(joined, network.vertex_osm)]
    for road in roads:
        if road.tail not in network.core or road.head not in network.core:
            road.pieces = _merged([(s, ENDS if a == OPEN else a, r) for s, a, r in road.pieces])


def _largest(parts: dict[int, set[int]], vertex_osm: list[int]) -> int:
    """The label of the part with the most vertices; of several such the one with the least node of OpenStreetMap."""
    return min(parts, key=lambda label: (-len(parts[label]), min((vertex_osm[v] for v in parts[label]), default=0)))


def restriction_of(members: list[tuple[str, int, str]]) -> tuple[set[int], list[int], list[int], set[int]] | None:
    """The ways from which, the node or the ways over which, and the ways to which one may not turn; None where one
    lacks."""
    of = {(role, what): [ref for w, ref, r in members if (r, w) == (role, what)]
          for role in ("from", "via", "to") for what in ("way", "node")}
    froms, nodes, ways, tos = of["from", "way"], of["via", "node"], of["via", "way"], of["to", "way"]
    if not froms or not tos or bool(nodes) == bool(ways) or len(nodes) > 1:
        return None
    return set(froms), nodes, ways, set(tos)


class RestrictionReader:
    """Makes forbidden chains of the relations of a map."""

    def __init__(self, builder: Builder, network: Network) -> None:
        self.builder, self.network = builder, network
        self.only: dict[tuple[tuple[int, ...], Any], set[int]] = defaultdict(set)
        self.made = 0

    def read(self) -> None:
        """Adds the chains of all restrictions to the network."""
        for _, members, tags in self.builder.osm.relations:
            for kind, hours in self.builder.restricted(tags):
                self._one(kind, members, hours)
        for (prefix, hours), allowed in self.only.items():
            head = self.network.roads[prefix[-1]].head
            rest = frozenset(self.network.out[head]) - allowed
            if rest:
                self._add([*(frozenset([road]) for road in prefix), rest], hours)

    def _one(self, kind: str, members: list[tuple[str, int, str]], hours: Any) -> None:
        parts = restriction_of(members)
        if parts is None:
            return
        froms, nodes, ways, tos = parts
        roads = self.network.roads
        begins = [n for n, road in enumerate(roads) if self._way(road.parts[-1]) in froms
                  and (ways or self.network.vertex_osm[road.head] == nodes[0])]
        for begin in begins:
            for path, ahead in self._paths([begin], set(ways), tos):
                if kind == "no_u_turn" and not ways and froms == tos:
                    ahead = {road for road in ahead if road == roads[begin].back}
                if ahead:
                    self._forbid(kind, path, ahead, hours)

    def _paths(self, path: list[int], left: set[int], tos: set[int]) -> Iterator[tuple[list[int], set[int]]]:
        """All drives on over the ways that are left, with the roads of `tos` that can be driven behind them."""
        roads = self.network.roads
        ahead = self.network.out[roads[path[-1]].head]
        if not left:
            yield path, {road for road in ahead if self._way(roads[road].parts[0]) in tos}
            return
        for road in ahead:
            way = self._way(roads[road].parts[0])
            if way not in left or road in path or road == roads[path[-1]].back:
                continue
            ended = self.network.vertex_osm[roads[road].head] in self.builder.way_ends[way]
            yield from self._paths([*path, road], left - {way} if ended else left, tos)

    def _forbid(self, kind: str, path: list[int], ahead: set[int], hours: Any) -> None:
        self.made += 1
        if kind.startswith("no_"):
            self._add([*(frozenset([road]) for road in path), frozenset(ahead)], hours)
            return
        for k in range(1, len(path)):
            self.only[tuple(path[:k]), hours].add(path[k])
        self.only[tuple(path), hours] |= ahead

    def _add(self, roads: list[frozenset[int]], hours: Any) -> None:
        self.network.chains.append(Chain(tuple(roads), hours))

    def _way(self, part: tuple[int, int]) -> int:
        return self.network.segments[part[0]].way


State = tuple[int, int, int, frozenset[tuple[int, int]], int]  # vertex, road, phase, chains begun, guard


class Search:
    """Earliest arrivals over a network. `whole` counts the whole seconds of roads, else what they take by
    themselves."""

    def __init__(self, network: Network, whole: bool = True, turn_back: bool = False) -> None:
        self.network, self.whole, self.turn_back = network, whole, turn_back
        self.seconds: dict[float, list[int]] = {}
        self.begun: dict[int, list[tuple[int, int]]] = defaultdict(list)
        for number, chain in enumerate(network.chains):
            for road in chain.roads[0]:
                self.begun[road].append((number, 0))

        self.kept: set[int] | None = None
        self.kept = self._find_kept()
        for node, vertices in network.starts.items():
            network.starts[node] = [vertex for vertex in vertices if vertex in self.kept]

    def _beginning(self, vertex: int) -> State:
        """Where a drive is that begins at a vertex."""
        meets = self.network.out[vertex] + self.network.into[vertex]
        ends = any(piece[1] == ENDS for road in meets for piece in self.network.roads[road].pieces)
        return vertex, -1, 0 if ends else 1, frozenset(), 0

    def _find_kept(self) -> set[int]:
        """The vertices that are reached from the largest part of the map, and lead to it, at whatever time."""
        firsts = [self._beginning(vertex) for vertices in self.network.starts.values() for vertex in vertices]
        number = {state: k for k, state in enumerate(firsts)}
        states, links = list(firsts), []
        for state in states:
            for _, following in self._ahead(0.0, state):
                if following not in number:
                    number[following] = len(states)
                    states.append(following)
                links.append((number[state], number[following]))
        graph = igraph.Graph(len(states), links, directed=True)
        labels = graph.connected_components("strong").membership
        vertices: dict[int, set[int]] = defaultdict(set)
        for state, label in zip(states, labels):
            vertices[label] |= {state[0]} & self.network.core if state[2] == 1 else set()
        largest = labels.index(_largest(vertices, self.network.vertex_osm))
        ahead, behind = (set(graph.subcomponent(largest, mode)) for mode in ("out", "in"))
        return {states[k][0] for k in ahead} & {state[0] for state in firsts if number[state] in behind}

    def near(self, osm: int, second: int, most: int) -> dict[int, tuple[float, int]]:
        """As `reach`, of those nodes alone whose drive has up to so many roads."""
        layer, last = [(float(second), self._beginning(vertex)) for vertex in self.network.vertices(osm)], float(second)
        for _ in range(most):
            layer = [ahead for now, state in layer for ahead in self._ahead(now, state)]
            last = max([last, *(now for now, _ in layer)])
        return {node: found for node, found in self.reach(osm, second, last).items() if found[1] <= most}

    def reach(self, osm: int, second: int, last: float = math.inf) -> dict[int, tuple[float, int]]:
        """The earliest arrival at each node in OpenStreetMap, and how many roads that drive has; none behind `last`."""
        best: dict[int, tuple[float, int]] = {}
        queue: list[tuple[float, int, int, State]] = [
            (second, 0, k, self._beginning(vertex)) for k, vertex in enumerate(self.network.vertices(osm))]
        pushed, settled = len(queue), set()
        while queue:
            now, roads, _, state = heapq.heappop(queue)
            if state in settled:
                continue
            if now > last:
                break
            settled.add(state)
            best.setdefault(self.network.vertex_osm[state[0]], (now, roads))
            for then, following in self._ahead(now, state):
                if following not in settled:
                    pushed += 1
                    heapq.heappush(queue, (then, roads + 1, pushed, following))
        return best

    def _ahead(self, now: float, state: State) -> Iterator[tuple[float, State]]:
        vertex, came, phase, begun, guard = state
        out = self.network.out[vertex]
        back = self.network.roads[came].back if came >= 0 else -1
        ways_on = sum(1 for road in out if road != back)
        for road in out:
            # From the third junction on one may turn at the next one, but not on the way there.
            if road == back and not self.turn_back and ways_on and (guard > 1 or guard == 1 and ways_on == 1):
                continue
            if self.kept is not None and self.network.roads[road].head not in self.kept:
                continue
            waits = [self.network.chains[c].hours for c, k in begun
                     if k + 2 == len(self.network.chains[c].roads) and road in self.network.chains[c].roads[-1]]
            if None in waits:
                continue
            left = guard - (1 if guard and ways_on >= 2 else 0)
            if begun and road != back:
                left = 4
            following = frozenset([*self.begun.get(road, ()), *(
                (c, k + 1) for c, k in begun
                if k + 2 < len(self.network.chains[c].roads) and road in self.network.chains[c].roads[k + 1])])
            for then, behind in self._drive(road, now, phase, [span for hours in waits for span in hours or ()]):
                yield then, (self.network.roads[road].head, road, behind, following, left)

    def _drive(self, number: int, now: float, phase: int, closed: list[tuple[int, int]]) -> Iterator[tuple[float, int]]:
        """The arrivals over a road, and on what roads one is then: open to all (1), or first (0) or last (2) others."""
        pieces = self.network.roads[number].pieces
        kinds = {piece[1] for piece in pieces}
        if OPEN in kinds and phase < 2:
            then = self._arrival(number, now, (OPEN,), closed)
            if then is not None:
                yield then, 1
        if ENDS in kinds:
            then = self._arrival(number, now, (OPEN, ENDS), closed)
            if then is not None:
                yield then, 0 if phase == 0 else 2

    def _arrival(self, number: int, now: float, kinds: tuple[int, ...], closed: list[tuple[int, int]]) -> float | None:
        """The least arrival of all who enter now or later; only where something changes it may pay to be later."""
        road = self.network.roads[number]
        if len(road.pieces) == 1 and not closed and road.boards is None:
            return now + self._takes(number, road.pieces[0][2])
        midnight = math.floor(now / DAY) * DAY
        times = {piece[0] for piece in road.pieces + (road.entry or [])}
        times |= {second for span in closed for second in span}
        found = []
        for enter in [now, *(midnight + day * DAY + second for second in times for day in (0, 1))]:
            second = enter % DAY
            if enter < now or any(a <= second < b for a, b in closed):
                continue
            if road.entry and _piece_at(road.entry, second)[1] == BARRED:
                continue
            if road.boards is not None:
                goes = [d for d in road.boards if _piece_at(road.pieces, d)[1] in kinds]
                if goes:
                    days = (midnight + k * DAY for k in range(4))
                    leaves = min(day + d for day in days for d in goes if day + d >= enter)
                    found.append(leaves + self._takes(number, 1.0))
                continue
            _, access, ratio = _piece_at(road.pieces, second)
            if access in kinds:
                found.append(enter + self._takes(number, ratio))
        return min(found, default=None)

    def _takes(self, number: int, ratio: float) -> float:
        """The seconds of a road, so many times as slow as usually."""
        if not self.whole:
            return self.network.roads[number].seconds * ratio
        if ratio not in self.seconds:
            self.seconds[ratio] = whole_seconds(self.network, ratio)
        return self.seconds[ratio][number]
