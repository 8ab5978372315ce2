"""Metres of shortest routes over a real map beside those of pgRouting, whose network osm2pgrouting makes of the same map.

osm2pgrouting knows no access, barriers, restrictions and tracks, so both take the map of plain streets alone. Ours drives
a tenth of a metre a second there: so what the program says in seconds are tenths of a metre, half a one off for each road.
"""

from __future__ import annotations

import os
import random
import shutil
import subprocess
from collections.abc import Iterator
from pathlib import Path
from xml.etree import ElementTree

import pytest
from conftest import TOP
from scripts import let_through
from test_maps_checked import LIECHTENSTEIN, run_import, to_xml

from catchup.mapfile import MapFile
from catchup.program import Child

CLASSES = ["motorway", "trunk", "primary", "secondary", "tertiary"]
CLASSES += [f"{kind}_link" for kind in CLASSES] + ["residential", "living_street", "service", "unclassified", "road"]
SPEEDS = "[car]\nmost = 0.36\n[car.classes]\n" + "".join(f"{kind} = 0.36\n" for kind in CLASSES)
LENGTHS = """SELECT gid AS id, source, target, CASE WHEN cost < 0 THEN -1 ELSE m END AS cost,
  CASE WHEN reverse_cost < 0 THEN -1 ELSE m END AS reverse_cost
  FROM (SELECT *, ST_Length(the_geom::geography, false) AS m FROM ways) AS ways"""
pytestmark = pytest.mark.long


def run(*words: str | Path) -> str:
    """Runs a command, and says what it prints."""
    done = subprocess.run([str(word) for word in words], capture_output=True, text=True, check=False)
    assert done.returncode == 0, (words, done.stdout[-500:], done.stderr[-500:])
    return done.stdout


def as_server(*words: str | Path) -> str:
    """Runs a command of the server's, which root may not run."""
    return run(*(("setpriv", "--reuid=postgres", "--regid=postgres", "--clear-groups") if os.getuid() == 0 else ()), *words)


@pytest.fixture(scope="module")
def server(tmp_path_factory: pytest.TempPathFactory) -> Iterator[Path]:
    """A server of PostgreSQL with pgRouting, that is reached by a socket in this folder alone."""
    controls = sorted(Path("/usr/share/postgresql").glob("*/extension/pgrouting.control"))
    if not controls or not shutil.which("osm2pgrouting"):
        pytest.skip("pgRouting or osm2pgrouting isn't installed (postgresql-15-pgrouting, osm2pgrouting)")
    programs = Path("/usr/lib/postgresql", controls[-1].parents[1].name, "bin")
    folder = tmp_path_factory.mktemp("pg")
    let_through(folder)
    if os.getuid() == 0:
        shutil.chown(folder, "postgres")
    as_server(programs / "initdb", "-D", folder / "data", "-U", "postgres", "-A", "trust", "--no-sync")
    control = (programs / "pg_ctl", "-D", folder / "data", "-w", "-l", folder / "log")
    as_server(*control, "-o", f"-c listen_addresses='' -c unix_socket_directories='{folder}' -c fsync=off", "start")
    yield folder
    as_server(*control, "-m", "immediate", "stop")


def ask(server: Path, text: str) -> list[list[str]]:
    """The rows that a query gives."""
    out = run("psql", "-X", "-q", "-A", "-t", "-v", "ON_ERROR_STOP=1", "-h", server, "-U", "postgres", "-c", text)
    return [line.split("|") for line in out.splitlines()]


def write_plain(source: Path, to: Path) -> None:
    """Writes the map of the plain streets of a map in XML: no other ways, no tags of nodes, no relations."""
    tree = ElementTree.parse(source)
    kept = []
    for item in tree.getroot():
        tags = {tag.attrib["k"]: tag.attrib["v"] for tag in item.iter("tag")}
        known = set(tags) & {"access", "vehicle", "motor_vehicle", "motorcar", "abandoned", "disused", "impassable"}
        plain = item.tag == "way" and tags.get("highway") in CLASSES and tags.get("area") != "yes" and not known
        if item.tag == "node" or plain:
            kept.append(item)
        for tag in item.findall("tag"):
            if item.tag == "node" or tag.attrib["k"] not in ("highway", "oneway", "junction", "name"):
                item.remove(tag)
    tree.getroot()[:] = kept
    tree.write(to, encoding="utf-8", xml_declaration=True)


@pytest.fixture(scope="module")
def plain(program: Path, tmp_path_factory: pytest.TempPathFactory) -> Path:
    """A folder with the plain streets of a real map, as plain.osm, and their network by metres in `made`."""
    pytest.importorskip("osmium", reason="python3-pyosmium isn't installed")
    source = Path(os.environ.get("CATCHUP_MAPS", TOP.parent / "shared" / "maps")) / LIECHTENSTEIN
    if not source.exists():
        pytest.skip(f"{source} isn't there: set CATCHUP_MAPS to a folder that has it")
    folder = tmp_path_factory.mktemp("plain")
    to_xml(source, folder / "map.osm")
    write_plain(folder / "map.osm", folder / "plain.osm")
    (folder / "speeds.toml").write_text(SPEEDS)
    made = run_import(folder / "plain.osm", folder / "made", "--build", "--islands", "--speeds", str(folder / "speeds.toml"))
    assert made.returncode == 0, made.stderr
    return folder


def test_metres_of_two_hundred_routes(server: Path, plain: Path) -> None:
    ask(server, "CREATE EXTENSION postgis; CREATE EXTENSION pgrouting")
    run("osm2pgrouting", "-f", plain / "plain.osm", "-c", "/usr/share/osm2pgrouting/mapconfig_for_cars.xml", "-h", server,
        "-U", "postgres", "-d", "postgres", "--clean")
    vertex = {int(osm): int(number) for number, osm in ask(server, "SELECT id, osm_id FROM ways_vertices_pgr")}
    found = MapFile.open(plain / "made" / "map.gpkg")
    known = [(node, vertex[osm]) for node, osm in enumerate(found.node_osm.tolist()) if osm in vertex]
    assert len(known) > 2_000
    pairs = [random.Random(seed).sample(known, 2) for seed in range(200)]
    rows = ", ".join(f"({one}, {other})" for (_, one), (_, other) in pairs)
    costs = ask(server, f"SELECT * FROM pgr_dijkstraCost($${LENGTHS}$$, $$SELECT * FROM (VALUES {rows}) AS c (source, target)$$)")
    metres = {(int(one), int(other)): float(cost) for one, other, cost in costs}
    assert 100 < len(metres) < 200, "some of the islands have no way between them"
    with Child(["ask", plain / "made" / "map.cu"]) as child:
        replies = child.ask_all([f"q,{one},{other},0" for (one, _), (other, _) in pairs])
    for ((one, a), (other, b)), reply in zip(pairs, replies):
        theirs = metres.get((a, b))
        assert (reply == "unreachable") == (theirs is None), (one, other, reply, theirs)
        if theirs is not None:
            arrive, roads = reply.removeprefix("arrive=").split(" arcs=")
            driven = [int(road) for road in roads.split()]
            assert abs(int(arrive) / 10 - theirs) <= 0.05 * len(driven) + 0.2, (one, other, reply, theirs)
            assert found.road_metres[driven].sum() == pytest.approx(theirs, abs=0.2)
