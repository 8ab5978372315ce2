"""What large maps take: seconds and room, with order and packed file, that grow no faster than the map."""
from __future__ import annotations

import random
import subprocess
import sys
from dataclasses import dataclass, field
from pathlib import Path
from typing import Any

import pytest
from conftest import TOP
from made_maps import plain

STREETS = 21
"""Corners of a town along each side; towns are 5 km apart."""

MEASURED = """
import resource, subprocess, sys
done = subprocess.run(sys.argv[1:], capture_output=True, text=True)
used = resource.getrusage(resource.RUSAGE_CHILDREN)
print(done.stdout.split(" junctions")[0].split()[-1].replace(",", ""), used.ru_utime + used.ru_stime, used.ru_maxrss)
sys.exit(done.stderr or done.returncode)
"""


@dataclass
class Country:
    """Nodes and ways of many towns: places in metres, and tags."""

    draw: random.Random
    places: list[tuple[float, float]] = field(default_factory=list)
    ways: list[tuple[list[int], dict[str, str]]] = field(default_factory=list)

    def node(self, x: float, y: float) -> int:
        """A new node's number."""
        self.places.append((x, y))
        return len(self.places)

    def way(self, a: int, b: int, between: int, tags: dict[str, str]) -> None:
        """A way with so many nodes between its ends."""
        (x1, y1), (x2, y2) = self.places[a - 1], self.places[b - 1]
        parts = [(k + 1) / (between + 1) for k in range(between)]
        nodes = [self.node(x1 + (x2 - x1) * part + self.draw.uniform(-9, 9), y1 + (y2 - y1) * part) for part in parts]
        self.ways.append(([a, *nodes, b], tags))

    def town(self, x: float, y: float) -> dict[tuple[int, int], int]:
        """A town's corners. One of eight streets between them is missing."""
        sides = range(STREETS)
        corner = {(i, j): self.node(x + 150 * i + self.draw.uniform(-40, 40), y + 150 * j + self.draw.uniform(-40, 40))
                  for i in sides for j in sides}
        for (i, j), one in corner.items():
            for other in (corner.get((i + 1, j)), corner.get((i, j + 1))):
                if other and self.draw.random() > 0.125:
                    self.way(one, other, self.draw.randrange(3), {**plain(self.draw), "name": f"Street {i} of {x:.0f}"})
        return corner


def country(size: int) -> Country:
    """size * size towns, of which neighbours are joined by two main roads."""
    made = Country(random.Random(size))
    towns = {(i, j): made.town(5000.0 * i, 5000.0 * j) for i in range(size) for j in range(size)}
    for (i, j), town in towns.items():
        for east, other in ((True, towns.get((i + 1, j))), (False, towns.get((i, j + 1)))):
            for k in (3, 17) if other else ():
                a, b = ((STREETS - 1, k), (0, k)) if east else ((k, STREETS - 1), (k, 0))
                made.way(town[a], (other or town)[b], 8, {"highway": "primary", "ref": f"B {i}"})
    return made


def write(made: Country, path: Path) -> None:
    """Writes a country as a map."""
    osmium: Any = pytest.importorskip("osmium", reason="python3-pyosmium isn't installed")
    item, out = osmium.osm.mutable, osmium.SimpleWriter(str(path))
    for number, (x, y) in enumerate(made.places, 1):
        out.add_node(item.Node(id=number, version=1, location=(9 + x / 76_000, 47 + y / 111_000)))
    for number, (nodes, tags) in enumerate(made.ways, 1):
        out.add_way(item.Way(id=number, version=1, nodes=nodes, tags=tags))
    out.close()


@dataclass
class Cost:
    """What an import took."""

    junctions: int
    seconds: float
    """Of a processor."""
    megabytes: float


def cost(size: int, folder: Path) -> Cost:
    """What it takes to import a country of size * size towns."""
    folder.mkdir()
    write(country(size), folder / "map.osm.pbf")
    words = [TOP / "bin" / "catchup-import", "osm", folder / "map.osm.pbf", folder / "made", "--build"]
    run = subprocess.run([sys.executable, "-c", MEASURED, *words], capture_output=True, text=True, check=False)
    assert run.returncode == 0, run
    junctions, seconds, kilobytes = run.stdout.split()
    return Cost(int(junctions), float(seconds), int(kilobytes) / 1024)


@pytest.mark.long
def test_two_hundred_thousand_junctions(program: Path, tmp_path: Path) -> None:
    half, large = cost(16, tmp_path / "half"), cost(23, tmp_path / "large")
    assert 100_000 < half.junctions < 110_000 and 200_000 < large.junctions < 225_000
    assert large.seconds < 90 and large.megabytes < 1024, large
    # What does not depend on the map's size is in both, so a map twice as large takes less than twice as much room.
    grown = large.junctions / half.junctions
    assert large.megabytes < grown * half.megabytes and large.seconds < 1.25 * grown * half.seconds, (half, large)
    print(half, large)
