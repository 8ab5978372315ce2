"""What the tests of drawings share: small networks as tables, and what a picture shows."""

from __future__ import annotations

import re
from collections.abc import Iterator, Sequence
from pathlib import Path
from xml.etree import ElementTree
from xml.etree.ElementTree import Element

from catchup.draw.replies import read_answers
from catchup.draw.route import draw_routes
from catchup.draw.tables import Nodes, Roads

SVG = "{http://www.w3.org/2000/svg}"

# Nodes 1 and 4 have no roads to others; there are a loop, parallel roads and a road back. Road 6 is closed.
PLACES = [(0, 0), (90, 90), (50, 10), (100, 0), (20, 80)]
ROADS = [(0, 2, 0), (2, 0, 0), (0, 2, 1), (2, 3, 0), (4, 4, 0), (0, 3, 1), (3, 0, 2)]
NODES_TEXT = "node,x,y\n" + "".join(f"{node},{x},{y}\n" for node, (x, y) in enumerate(PLACES))
ROADS_TEXT = "arc,tail,head,profile\n" + "".join(f"{road},{a},{b},{p}\n" for road, (a, b, p) in enumerate(ROADS))
PROFILES_TEXT = "profile,from,kind,value\n0,0,travel,60\n1,0,travel,100\n2,0,closed,0\n"

FIVE = ["arrive=160 arcs=0 3", "unreachable", "arrive=172850 arcs=5", "refused: node", "arrive=7 arcs="]


def write_small(folder: Path) -> Path:
    """The small network as nodes, roads and profiles in a folder."""
    for name, text in [("nodes", NODES_TEXT), ("roads", ROADS_TEXT), ("profiles", PROFILES_TEXT)]:
        (folder / name).write_text(text)
    return folder


def small() -> tuple[Nodes, Roads]:
    """The small network."""
    places = Nodes([x for x, _ in PLACES], [y for _, y in PLACES])
    closed = frozenset(road for road, (_, _, profile) in enumerate(ROADS) if profile == 2)
    return places, Roads([a for a, _, _ in ROADS], [b for _, b, _ in ROADS], closed)


def grid(side: int) -> tuple[Nodes, Roads]:
    """A square grid with roads both ways; a node's are first those to the east and back, then those to the north."""
    count = side * side
    places = Nodes([100 * (node % side) for node in range(count)], [100 * (node // side) for node in range(count)])
    roads = Roads([], [], frozenset())
    for node in range(count):
        for other in [node + 1] * ((node + 1) % side > 0) + [node + side] * (node + side < count):
            roads.tail.extend((node, other))
            roads.head.extend((other, node))
    return places, roads


def write_tables(folder: Path, nodes: Nodes, roads: Roads) -> None:
    """A network as nodes and roads in a folder."""
    rows = [f"{node},{x},{y}\n" for node, (x, y) in enumerate(zip(nodes.x, nodes.y))]
    (folder / "nodes").write_text("node,x,y\n" + "".join(rows))
    rows = [f"{road},{a},{b},0\n" for road, (a, b) in enumerate(zip(roads.tail, roads.head))]
    (folder / "roads").write_text("arc,tail,head,profile\n" + "".join(rows))


class Drawn:
    """A picture, which must be well-formed and valid as far as tests can tell."""

    def __init__(self, text: str) -> None:
        self.text = text
        self.root = ElementTree.fromstring(text)
        assert self.root.tag == f"{SVG}svg"
        self.title = self.root.findtext(f"{SVG}title") or ""
        self.description = self.root.findtext(f"{SVG}desc") or ""

    def words(self, within: str | None = None) -> list[str]:
        """All words, each once though it has a rim; with a group's id those in it alone."""
        root = self.group(within) if within else self.root
        return [text.text or "" for text in root.iter(f"{SVG}text") if text.get("fill") != "none"]

    def group(self, name: str) -> Element:
        """The element with this id."""
        found = self.find(name)
        assert found is not None, f"the picture has no {name}"
        return found

    def find(self, name: str) -> Element | None:
        return next((each for each in self.root.iter() if each.get("id") == name), None)

    def of_class(self, name: str) -> list[Element]:
        """The elements of a class, without the rims of words."""
        return [each for each in self.root.iter() if each.get("class") == name and each.get("fill") != "none"]

    def boxes(self) -> Iterator[tuple[str, float, float, float, float]]:
        """Names, times and numbers on the map: what they are, their middle, half their width and half their height."""
        for name in ("name", "time"):
            for each in self.of_class(name):
                words = each.text or ""
                yield words, float(each.get("x", 0)), float(each.get("y", 0)) - 4, 3.5 * len(words), 8
        for disk in self.group("numbers").iter(f"{SVG}circle"):
            yield "number", float(disk.get("cx", 0)), float(disk.get("cy", 0)), 10, 10

    def covered(self) -> list[tuple[str, str]]:
        """The pairs of these that cover each other."""
        boxes = list(self.boxes())
        return [
            (a, b)
            for i, (a, ax, ay, aw, ah) in enumerate(boxes)
            for b, bx, by, bw, bh in boxes[:i]
            if abs(ax - bx) < aw + bw and abs(ay - by) < ah + bh
        ]


def steps(path: str | None) -> list[tuple[float, float]]:
    """The places that a path of absolute steps M and L, or of a relative line, goes through."""
    places: list[tuple[float, float]] = []
    for command, numbers in re.findall(r"([MLlh])([-\d. \n]*)", path or ""):
        values = [float(number) for number in numbers.split()]
        for x, y in zip(values[::2], values[1::2]):
            places.append((places[-1][0] + x, places[-1][1] + y) if command == "l" else (x, y))
    return places


def draw(replies: Sequence[str], script: Sequence[str] | None = None, network: tuple[Nodes, Roads] | None = None) -> Drawn:
    """The picture of replies over the small network, or another."""
    nodes, roads = network or small()
    return Drawn(draw_routes(nodes, roads, read_answers(replies, roads, script), has_profiles=True))
