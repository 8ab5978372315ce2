"""The importer's networks beside a search of another kind over the map itself: real maps, and maps made here.

A drive is compared from one node to all others: the search says when each is reached, and so does the program over the
imported tables. Roads take whole seconds there, so an arrival is up to half a second away for each road of the drive.
"""

from __future__ import annotations

import math
import os
import random
import sqlite3
import struct
import subprocess
from collections import defaultdict
from collections.abc import Sequence
from contextlib import closing
from dataclasses import dataclass
from pathlib import Path

import pytest
from conftest import TOP
from made_maps import THEMES, Made
from map_search import DAY, Builder, Network, Search, metres, read_xml

from catchup.program import Child

# What they share takes long to make.
ON_A_REAL_MAP = pytest.mark.xdist_group("real map and its search")
LIECHTENSTEIN = "liechtenstein-2013-08-03.osm.pbf"
DAYS = ["mo", "tu", "we", "th", "fr", "sa", "su"]


@dataclass
class Both:
    """An imported folder, and the search over the same map."""

    folder: Path
    network: Network
    search: Search
    rows: dict[int, list[tuple[int, int]]]  # node of OpenStreetMap: node and copy of the tables

    def junctions(self) -> list[int]:
        """Nodes in OpenStreetMap at which drives begin."""
        return sorted(osm for osm, rows in self.rows.items() if any(copy == 0 for _, copy in rows))


def run_import(source: Path, folder: Path, *words: str) -> subprocess.CompletedProcess[str]:
    """Runs catchup-import as a process."""
    command = [str(TOP / "bin" / "catchup-import"), "osm", str(source), str(folder), *words]
    return subprocess.run(command, capture_output=True, text=True, check=False)


def load(source: Path, xml: Path, folder: Path, weekday: str = "mo", vehicle: str = "car") -> Both:
    """Imports a map, and reads it for the search."""
    run = run_import(source, folder, "--build", "--weekday", weekday, "--vehicle", vehicle)
    assert run.returncode == 0, run.stderr
    rows: dict[int, list[tuple[int, int]]] = defaultdict(list)
    with closing(sqlite3.connect(folder / "map.gpkg")) as base:
        for node, osm, copy in base.execute("SELECT node, osm_node, copy FROM nodes"):
            rows[osm].append((node, copy))
    network = Builder(read_xml(xml), vehicle, DAYS.index(weekday)).build()
    return Both(folder, network, Search(network, whole=False), rows)


def said(both: Both, child: Child, osm: int, second: int) -> dict[int, float]:
    """The program's least arrival at each node in OpenStreetMap, from all rows of one at which drives begin."""
    best: dict[int, float] = {}
    starts = [node for node, copy in both.rows[osm] if copy == 0]
    for reply in child.ask_all([f"r,{node},{second}" for node in starts]):
        word, *arrivals = reply.split()
        assert word == "reach", reply
        for target, rows in both.rows.items():
            for node, _ in rows:
                if arrivals[node] != "-":
                    best[target] = min(best.get(target, math.inf), float(arrivals[node]))
    return best


def differing(both: Both, drives: Sequence[tuple[int, int]], within: float = 0.5, most: int | None = None) -> tuple[int, list[str]]:
    """How many drives from these nodes at these seconds were compared, and those that differ by more seconds a road; where
    `most` is said, drives of up to so many roads alone."""
    compared, wrong = 0, []
    with Child(["ask", both.folder / "map.cu"]) as child:
        for osm, second in drives:
            theirs = said(both, child, osm, second)
            ours = both.search.reach(osm, second) if most is None else both.search.near(osm, second, most)
            for target in both.rows if most is None else ours.keys() & both.rows.keys():
                compared += 1
                here, (own, roads) = theirs.get(target), ours.get(target, (math.inf, 0))
                if here is None or own == math.inf:
                    if here is not None or own < math.inf:
                        wrong.append(f"{osm} to {target} at {second}: {here}, and {own} by the search")
                elif abs(here - own) > within * roads + 1e-6:
                    wrong.append(f"{osm} to {target} at {second}: {here}, and {own:.2f} by the search ({roads} roads)")
    return compared, wrong


def random_drives(both: Both, count: int, seed: int, seconds: Sequence[int]) -> list[tuple[int, int]]:
    """Random junctions, each with one of the seconds in turn."""
    draw = random.Random(seed)
    junctions = both.junctions()
    return [(draw.choice(junctions), seconds[k % len(seconds)]) for k in range(count)]


@pytest.fixture(scope="module")
def real(program: Path, tmp_path_factory: pytest.TempPathFactory) -> Both:
    """Liechtenstein, imported, and read from XML."""
    pytest.importorskip("osmium", reason="python3-pyosmium isn't installed")
    source = Path(os.environ.get("CATCHUP_MAPS", TOP.parent / "shared" / "maps")) / LIECHTENSTEIN
    if not source.exists():
        pytest.skip(f"{source} isn't there: set CATCHUP_MAPS to a folder that has it")
    folder = tmp_path_factory.mktemp("real")
    to_xml(source, folder / "map.osm")
    return load(source, folder / "map.osm", folder / "li")


def to_xml(source: Path, xml: Path) -> None:
    """Writes a map as XML."""
    script = ("import osmium, sys\n"
              "class Copy(osmium.SimpleHandler):\n"
              "    def node(self, item): out.add_node(item)\n"
              "    def way(self, item): out.add_way(item)\n"
              "    def relation(self, item): out.add_relation(item)\n"
              "out = osmium.SimpleWriter(sys.argv[2])\n"
              "Copy().apply_file(sys.argv[1])\n"
              "out.close()\n")
    subprocess.run(["/usr/bin/python3", "-c", script, str(source), str(xml)], check=True)


@ON_A_REAL_MAP
def test_the_junctions_of_a_real_map_are_those_of_the_search(real: Both) -> None:
    assert set(real.rows) == {osm for osm, vertices in real.network.starts.items() if vertices}


@ON_A_REAL_MAP
def test_drives_over_a_real_map(real: Both) -> None:
    compared, wrong = differing(real, random_drives(real, 6, 5, [0, 30000, 86399]))
    assert compared > 12_000
    assert wrong == []


@pytest.mark.long
@ON_A_REAL_MAP
def test_a_thousand_drives_and_more_over_a_real_map(real: Both) -> None:
    compared, wrong = differing(real, random_drives(real, 60, 6, [0, 30000, 86399]))
    assert compared > 100_000
    assert wrong == []


@ON_A_REAL_MAP
def test_drives_of_one_road_and_of_two(real: Both) -> None:
    drives = random.Random(7).sample([(osm, 30000) for osm in real.junctions()], 100)
    compared, wrong = differing(real, drives, most=2)
    assert compared > 500
    assert wrong == []


@pytest.mark.long
@ON_A_REAL_MAP
def test_all_drives_of_one_road_and_of_two(real: Both) -> None:
    compared, wrong = differing(real, [(osm, 30000) for osm in real.junctions()], most=2)
    assert compared > 12_000
    assert wrong == []


@pytest.mark.long
@ON_A_REAL_MAP
def test_each_restriction_of_a_real_map_from_each_approach(real: Both) -> None:
    assert real.network.chains
    tails = [real.network.roads[road].tail for chain in real.network.chains for roads in chain.roads for road in roads]
    before = {real.network.roads[road].tail for tail in tails for road in real.network.into[tail]}
    drives = [(real.network.vertex_osm[vertex], 0) for vertex in sorted({*tails, *before})]
    compared, wrong = differing(real, [drive for drive in drives if drive[0] in real.rows])
    assert compared > 2_000
    assert wrong == []


@ON_A_REAL_MAP
def test_metres_and_seconds_of_roads(real: Both) -> None:
    by_line: dict[tuple[int, ...], list[float]] = defaultdict(list)
    for road in real.network.roads:
        nodes = [real.network.vertex_osm[road.tail]]
        nodes += [real.network.vertex_osm[real.network.segments[s].ends[1 - d]] for s, d in road.parts]
        by_line[tuple(nodes)].append(sum(real.network.segments[s].metres for s, _ in road.parts))
    with closing(sqlite3.connect(real.folder / "map.gpkg")) as base:
        rows = base.execute("SELECT metres, osm_nodes FROM roads JOIN road_nodes USING (road)").fetchall()
    for length, nodes in random.Random(3).sample(rows, 200):
        line = struct.unpack(f"<{len(nodes) // 8}q", nodes)
        assert any(abs(own - length) < 0.01 for own in by_line[line]), (line, length, by_line[line])


def test_the_haversine_formula_on_a_quarter_of_the_ball() -> None:
    assert metres((0.0, 0.0), (90.0, 0.0)) == pytest.approx(math.pi / 2 * 6371008.8)


@ON_A_REAL_MAP
def test_ogrinfo_reads_both_layers(real: Both) -> None:
    for layer, kind in (("nodes", "Point"), ("roads", "Line String")):
        run = subprocess.run(["ogrinfo", "-so", str(real.folder / "map.gpkg"), layer], capture_output=True, text=True, check=False)
        assert run.returncode == 0 and run.stderr == "", run.stderr
        assert f"Geometry: {kind}" in run.stdout
        assert "WGS 84" in run.stdout


def compare_made(made: Made, folder: Path, weekday: str, sources: int, seconds: Sequence[int], seed: int = 0) -> int:
    """Compares drives over a map made here; how many there were."""
    folder.mkdir(exist_ok=True)
    made.write(folder / "map.osm")
    both = load(folder / "map.osm", folder / "map.osm", folder / "made", weekday)
    both.search.whole = True  # a second may be a missed ferry, so these are compared with the same whole seconds
    compared, wrong = differing(both, random_drives(both, sources, seed, seconds), within=0)
    assert wrong == [], f"{made.name}, {weekday}: {len(wrong)} of {compared}"
    return compared


@pytest.mark.parametrize("theme", THEMES)
def test_drives_over_made_maps(program: Path, tmp_path: Path, theme: str) -> None:
    compare_made(THEMES[theme](1), tmp_path, "mo", 30, [0, 25000, 43200, 64000, 80000, DAY - 1])


@pytest.mark.long
@pytest.mark.parametrize("seed", range(2, 8))
@pytest.mark.parametrize("theme", THEMES)
def test_many_drives_over_made_maps(program: Path, tmp_path: Path, theme: str, seed: int) -> None:
    compared = compare_made(THEMES[theme](seed), tmp_path, DAYS[seed % 7], 60, list(range(0, DAY, 4800)), seed)
    assert compared > 1_000


DAMAGED = {
    "cut": "<osm version='0.6'><node id='1' lat='47'",
    "of another kind": "name,place",
    "empty": "",
    "without a road": "<osm version='0.6'><node id='1' version='1' lat='47' lon='9'/></osm>",
    "a history": "<osm version='0.6'><node id='1' version='1' lat='47' lon='9'/><node id='2' version='1' lat='47' lon='9.01'/>" + "".join(
        f"<way id='1' version='{k}'><nd ref='1'/><nd ref='2'/><tag k='highway' v='primary'/></way>" for k in (1, 2)) + "</osm>",
}


@pytest.mark.parametrize("kind", DAMAGED)
def test_damaged_files_are_one_line_and_leave_nothing(tmp_path: Path, kind: str) -> None:
    (tmp_path / "map.osm").write_text(DAMAGED[kind])
    run = run_import(tmp_path / "map.osm", tmp_path / "out")
    assert run.returncode == 1
    assert run.stdout == "" and run.stderr.count("\n") == 1 and "map.osm" in run.stderr
    assert [path.name for path in tmp_path.iterdir()] == ["map.osm"]
