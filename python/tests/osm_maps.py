"""Small maps of OpenStreetMap for tests, written as XML, and the networks that are made of them."""
from __future__ import annotations

import heapq
import math
from dataclasses import dataclass, field
from pathlib import Path
from typing import Any
from xml.sax.saxutils import quoteattr

from catchup.geometry import EARTH
from catchup.maps.importing import Made, Options, import_osm

DAY = 86400
SOUTH, WEST = 47.0, 9.0
DEGREE = math.radians(1.0) * EARTH


@dataclass
class OsmMap:
    """A map in the making. Places are metres east and north of a corner; numbers count from 1 where none is said."""
    nodes: dict[int, tuple[float, float, dict[str, str]]] = field(default_factory=dict)
    ways: list[tuple[int, list[int], dict[str, str], str]] = field(default_factory=list)
    relations: list[tuple[int, list[tuple[str, str, int]], dict[str, str]]] = field(default_factory=list)

    def node(self, number: int, x: float, y: float, **tags: Any) -> int:
        """A node; `__` in a tag's key is a colon."""
        self.nodes[number] = x, y, _tags(tags)
        return number

    def row(self, count: int, step: float = 1000.0, first: int = 1, x: float = 0.0) -> list[int]:
        """So many nodes in a row to the north."""
        return [self.node(first + i, x, i * step) for i in range(count)]

    def way(self, nodes: list[int], number: Any = None, attributes: Any = 'version="1"', **tags: Any) -> int:
        """A way; its number is the next one where none is said."""
        chosen: int = len(self.ways) + 1 if number is None else number
        self.ways.append((chosen, nodes, _tags(tags), attributes))
        return chosen

    def restrict(self, source: int | list[int], via: int | list[int], target: int | list[int], kind: Any = None,
                 **tags: Any) -> int:
        """A turn restriction from a way over a node, or over a list of ways, to a way."""
        members = [("way", "from", way) for way in _list(source)]
        members += [("way", "via", way) for way in via] if isinstance(via, list) else [("node", "via", via)]
        members += [("way", "to", way) for way in _list(target)]
        said = {"type": "restriction"} | ({"restriction": kind} if kind else {}) | _tags(tags)
        number = 1000 + len(self.relations)
        self.relations.append((number, members, said))
        return number

    def text(self) -> str:
        """The map as XML."""
        lines = ['<?xml version="1.0" encoding="UTF-8"?>', '<osm version="0.6">']
        for number, (x, y, tags) in self.nodes.items():
            lat = SOUTH + y / DEGREE
            lon = WEST + x / DEGREE / math.cos(math.radians(lat))
            lines.append(f'<node id="{number}" version="1" lat="{lat:.9f}" lon="{lon:.9f}">{_xml(tags)}</node>')
        for number, nodes, tags, attributes in self.ways:
            refs = "".join(f'<nd ref="{node}"/>' for node in nodes)
            lines.append(f'<way id="{number}" {attributes}>{refs}{_xml(tags)}</way>')
        for number, members, tags in self.relations:
            parts = "".join(f'<member type="{kind}" ref="{ref}" role="{role}"/>' for kind, role, ref in members)
            lines.append(f'<relation id="{number}" version="1">{parts}{_xml(tags)}</relation>')
        return "\n".join([*lines, "</osm>\n"])

    def write(self, path: Path) -> Path:
        """Writes the map, and says where."""
        path.write_text(self.text(), encoding="utf-8")
        return path

    def network(self, folder: Path, **options: Any) -> "Net":
        """The network that is made of the map."""
        return Net(import_osm(self.write(folder / "map.osm"), Options(**options), lambda text: None))


def _tags(tags: dict[str, str]) -> dict[str, str]:
    return {key.rstrip("_").replace("__", ":"): value for key, value in tags.items()}


def _list(one: int | list[int]) -> list[int]:
    return one if isinstance(one, list) else [one]


def _xml(tags: dict[str, str]) -> str:
    return "".join(f"<tag k={quoteattr(key)} v={quoteattr(value)}/>" for key, value in tags.items())


class Net:
    """A network, asked by a plain search over its tables."""

    def __init__(self, made: Made) -> None:
        self.made = made
        self.osm: list[int] = made.map.node_osm.tolist()
        self.copy: list[int] = made.map.node_copy.tolist()
        roads = made.network.roads
        self.tail, self.head, self.profile = roads.tail.tolist(), roads.head.tolist(), roads.profile.tolist()
        self.out: dict[int, list[int]] = {}
        for road, tail in enumerate(self.tail):
            self.out.setdefault(tail, []).append(road)

    @property
    def roads(self) -> list[tuple[int, int]]:
        """The roads between nodes of OpenStreetMap, sorted."""
        return sorted((self.osm[t], self.osm[h]) for t, h in zip(self.tail, self.head))

    @property
    def junctions(self) -> list[int]:
        """The nodes of OpenStreetMap that are nodes of the network, sorted, without copies."""
        return sorted(osm for osm, copy in zip(self.osm, self.copy) if copy == 0)

    def count(self, what: str) -> int:
        """What the import counted."""
        return self.made.counts[what]

    def pieces(self, a: int, b: int) -> list[tuple[int, str, int]]:
        """The pieces of the one road from a to b, both first ones."""
        found = [road for road, (t, h) in enumerate(zip(self.tail, self.head))
                 if (self.osm[t], self.osm[h]) == (a, b) and self.copy[t] == 0]
        assert len(found) == 1, found
        return [(piece.start, piece.kind, piece.value) for piece in self.made.network.profiles.pieces(self.profile[found[0]])]

    def seconds(self, a: int, b: int) -> int:
        """What the one road from a to b takes all day."""
        [(start, kind, value)] = self.pieces(a, b)
        assert (start, kind) == (0, "travel")
        return value

    def drive(self, a: int, b: int, second: int = 0) -> tuple[int, list[int]] | None:
        """How long it takes from a to b, waits with it, and the nodes of OpenStreetMap on the way; None where none leads."""
        starts = [node for node, osm in enumerate(self.osm) if osm == a and self.copy[node] == 0]
        queue = [(second, node, [a]) for node in starts]
        done: set[int] = set()
        while queue:
            now, node, path = heapq.heappop(queue)
            if self.osm[node] == b:
                return now - second, path
            if node in done:
                continue
            done.add(node)
            for road in self.out.get(node, ()):
                then = self._arrive(self.profile[road], now)
                if then is not None:
                    heapq.heappush(queue, (then, self.head[road], path + [self.osm[self.head[road]]]))
        return None

    def may(self, *path: int) -> bool:
        """Whether a drive may go over these nodes of OpenStreetMap, all that are nodes of the network."""
        states = {node for node, osm in enumerate(self.osm) if osm == path[0] and self.copy[node] == 0}
        for osm in path[1:]:
            states = {self.head[road] for node in states for road in self.out.get(node, ()) if self.osm[self.head[road]] == osm}
        return bool(states)

    def takes(self, a: int, b: int, second: int = 0) -> int | None:
        """How long it takes from a to b, or None."""
        found = self.drive(a, b, second)
        return None if found is None else found[0]

    def _arrive(self, profile: int, second: int) -> int | None:
        day, now = divmod(second, DAY)
        piece = [piece for piece in self.made.network.profiles.pieces(profile) if piece.start <= now][-1]
        if piece.kind == "closed":
            return None
        return second + piece.value if piece.kind == "travel" else day * DAY + piece.value
