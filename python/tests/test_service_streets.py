"""Edits of roads by outside names: ways of OpenStreetMap, streets by name and number."""

from __future__ import annotations

import json
import os
import shutil
import sqlite3
import subprocess
from pathlib import Path
from typing import Any

import pytest
from conftest import TOP
from hypothesis import given, settings
from hypothesis import strategies as st
from osm_maps import OsmMap
from serving import HTTP, SECONDS, Service, ask_program

from catchup.service.errors import Refusal
from catchup.service.roadedits import Edit, Profiles, edits_of_entry, entry_of, lines_of
from catchup.service.streets import Streets

REAL = "liechtenstein-2013-08-03.osm.pbf"
SLOW = [{"from": 0, "kind": "travel", "value": 3000}]

# ---- names ----

ROWS = [(0, 7), (1, 7), (2, 9), (3, -5), (4, 9_007_199_254_740_993)]
NAMES = [(0, "Königsstraße", "B 1"), (0, "Nebenweg", None), (1, "KÖNIGSSTRASSE", None), (2, "17", None),
         (3, None, "b 1"), (4, "", None)]


@pytest.mark.parametrize(("text", "roads"), [
    ("osm:7", [0, 1]), ("osm:9", [2]), ("osm:-5", [3]), ("osm:9007199254740993", [4]), ("osm:9007199254740992", []),
    ("osm:007", [0, 1]),
    ("osm:8", []), ("osm:", []), ("osm:+7", []), ("osm: 7", []), ("osm:7 ", []), ("OSM:7", []), ("osm:\u0667", []),
    ("osm:" + "9" * 40, []),
    ("osm:7;osm:9", []), ("way/7", []),
    ("königsstrasse", [0, 1]), ("Königsstraße", [0, 1]), ("nebenweg", [0]), ("B 1", [0, 3]), ("b 1", [0, 3]),
    ("B1", []), ("B 1 ", []),
    ("17", [2]), ("road:17", [17]), ("18", [18]), ("road:018", [18]), ("road:-1", []), ("road:1_0", []),
    ("road:\u0661", []), ("-1", []),
    ("", []), ("road:", []), ("1.0", []), ("null", []), ("road:" + "9" * 19, [])])
def test_what_a_road_is_called(text: str, roads: list[int]) -> None:
    assert Streets(ROWS, NAMES).find(text) == roads


@given(st.text(max_size=8))
def test_any_text_names_roads_or_none(text: str) -> None:
    assert Streets().find(text) == ([int(text)] if text.isascii() and text.isdigit() else [])


# ---- what becomes of several roads together ----


def profiles_of(path: Path) -> Profiles:
    with open(path, "rb") as opened:
        return Profiles(opened.fileno())


KINDS = st.one_of(st.just("closed"), st.integers(0, 5), st.integers(100, 105).map(lambda travel: f"0,travel,{travel}"))


@settings(max_examples=150)
@given(st.lists(st.tuples(st.sets(st.integers(0, 2), min_size=1), KINDS), max_size=8))
def test_roads_of_a_name_have_what_was_said_of_them_last(rush_file: Path,
                                                         edits: list[tuple[set[int], str | int]]) -> None:
    made = [Edit(tuple(sorted(roads)), kind if isinstance(kind, int) else None,
                 kind if isinstance(kind, str) and kind != "closed" else None, kind == "closed") for roads,
                 kind in edits]
    assert edits_of_entry(entry_of(made)) == made
    try:
        lines, of = lines_of(made, profiles_of(rush_file))
    except Refusal as refusal:
        assert (refusal.status, refusal.error) == (409, "no spare profile")
        return
    assert len(lines) == len(of) and of == sorted(of)
    has, pieces = list(profiles_of(rush_file).of_road), {3: "closed"}
    for line in lines:
        kind, first, rest = line.split(",", 2)
        if kind == "s":
            pieces[int(first)] = rest
        else:
            has[int(first)] = int(rest)
    said = {road: kind for roads, kind in edits for road in roads}
    given_profile = {int(kind) for kind in said.values() if isinstance(kind, int)}
    for road, kind in said.items():
        if isinstance(kind, int):
            assert has[road] == kind
        else:
            assert pieces[has[road]] == kind
            # No road has it that wasn't given it by its number, or by the same words.
            others = {other for other, profile in enumerate(has) if profile == has[road]} - {road}
            assert has[road] in given_profile or all(said.get(other) == kind for other in others)


@pytest.mark.parametrize("entry", [b"", b"{", b"[1]", b"[[1,2,3]]", b'[[["x"],null,null,true]]', b"null", b"\xff"])
def test_an_entry_that_is_none(entry: bytes) -> None:
    assert edits_of_entry(entry) == []


# ---- over a map ----


@pytest.fixture(scope="module")
def imported(program: Path, tmp_path_factory: pytest.TempPathFactory) -> Path:
    """The tables of a map: a street of two ways over nodes 1 to 3, a way beside it from 1 over 4 to 3, and three
    dead ends."""
    pytest.importorskip("osmium", reason="python3-pyosmium isn't installed")
    folder = tmp_path_factory.mktemp("map")
    made = OsmMap()
    made.row(3)
    made.node(4, 1000, 1000)
    for number, place in ((5, 1000), (6, 0), (7, 2000)):
        made.node(number, -500, place)
    made.way([1, 2], 71, highway="residential", name="Königsstraße", ref="17")
    made.way([2, 3], 72, highway="residential", name="Königsstraße")
    made.way([1, 4, 3], 73, highway="residential", name="Umweg")
    for number in (1, 2, 3):
        made.way([number, {1: 6, 2: 5, 3: 7}[number]], 73 + number, highway="residential")
    subprocess.run([TOP / "bin" / "catchup-import", "osm", "--build", "--spare", "2", made.write(folder / "map.osm"),
                    folder / "made"],
                   check=True, capture_output=True, timeout=SECONDS)
    return folder / "made"


@pytest.fixture
def street(imported: Path, tmp_path: Path) -> Path:
    """A packed file of the map, of a test's own."""
    folder = tmp_path / "served"
    folder.mkdir()
    return Path(shutil.copy(imported / "map.cu", folder / "map.cu"))


def roads_of(folder: Path, where: str) -> list[int]:
    with sqlite3.connect(folder / "map.gpkg") as base:
        return [road for (road,) in base.execute(f"SELECT road FROM roads WHERE {where} ORDER BY road")]


def node_of(folder: Path, osm: int) -> int:
    with sqlite3.connect(folder / "map.gpkg") as base:
        [(node,)] = base.execute("SELECT node FROM nodes WHERE osm_node = ? AND copy = 0", (osm,))
        return int(node)


def post(service: Service, *edits: object) -> tuple[int, Any]:
    return service.ask("/edits", "POST", json.dumps({"edits": edits}).encode(), content_type="application/json")


def test_a_street_is_closed_and_slowed_by_its_names(street: Path, imported: Path) -> None:
    first, last = node_of(imported, 1), node_of(imported, 3)
    main, side = roads_of(imported, "name = 'Königsstraße'"), roads_of(imported, "osm_way = 73")
    assert len(main) == 4 and len(side) == 2
    with Service(street, "--tables", imported) as service:
        def drive() -> list[int]:
            [reply] = ask_program(street, f"q,{first},{last},28800")
            told = service.get(f"/route?from={first}&to={last}&depart=28800")
            assert told["roads"] == [int(road) for road in reply.partition("arcs=")[2].split()]
            return list(told["roads"])

        assert set(drive()) <= set(main)
        status, told = post(service, {"road": "osm:71", "closed": True})
        assert (status, told["lines"]) == (200, 2) and set(drive()) <= set(side)
        # Both roads of one way have their profile alone; those of the other get a spare one together.
        status, told = post(service, {"road": "umweg", "pieces": SLOW}, {"road": "17", "pieces": SLOW})
        assert (status, told["lines"]) == (200, 1 + 1 + 2)
        slow = service.get(f"/route?from={first}&to={last}&depart=28800")["travel"]
        status, told = post(service, {"road": "UMWEG", "pieces": [{"from": 0, "kind": "travel", "value": 1}]})
        assert (status, told["lines"]) == (200, 1)
        assert service.get(f"/route?from={first}&to={last}&depart=28800")["travel"] == 1 < slow
        status, told = post(service, {"road": f"road:{main[0]}", "closed": True}, {"road": main[1], "closed": True})
        assert (status, told["lines"]) == (200, 2)
        assert "edits" in json.loads(street.with_name("map.cu.journal").read_text().splitlines()[0])


REFUSED: list[tuple[list[object], int, str]] = [
    ([{"road": "osm:99", "closed": True}], 400, "edit 1: no road has this name"),
    ([{"road": "osm:71", "closed": True}, {"road": "Königs", "closed": True}], 400, "edit 2: no road has this name"),
    ([{"road": "", "closed": True}], 400, "edit 1: no road has this name"),
    ([{"road": "osm:\u0667\u0661", "closed": True}], 400, "edit 1: no road has this name"),
    ([{"road": "Königsstraße\0", "closed": True}], 400, "edit 1: no road has this name"),
    ([{"road": ["osm:71"], "closed": True}], 400, "edit 1: road must be a whole number from 0 on"),
    ([{"road": {"osm": 71}, "closed": True}], 400, "edit 1: road must be a whole number from 0 on"),
    ([{"road": None, "closed": True}], 400, "edit 1: road must be a whole number from 0 on"),
    ([{"road": "osm:71", "closed": 1}], 400, "edit 1 isn't one"),
    ([{"name": "Königsstraße", "closed": True}], 400, "edit 1 isn't one"),
    ([{"road": "osm:71", "pieces": SLOW}, {"road": "osm:73", "profile": 9999}], 400, "refused"),
    ([{"road": "road:9999", "closed": True}], 400, "refused")]


@pytest.mark.parametrize(("edits", "status", "error"), REFUSED)
def test_names_that_are_refused_change_nothing(shared: Service, edits: list[object], status: int, error: str) -> None:
    before = shared.get("/health")["version"]
    found, told = post(shared, *edits)
    assert (found, told["error"]) == (status, error)
    assert shared.get("/health")["version"] == before == told["version"]
    if error == "refused":
        assert {(each["line"], each["word"])
                for each in told["refused"]} == {(len(edits), "profile" if len(edits) > 1 else "arc")}


@pytest.fixture(scope="module")
def shared(imported: Path, tmp_path_factory: pytest.TempPathFactory) -> Any:
    path = Path(shutil.copy(imported / "map.cu", tmp_path_factory.mktemp("shared") / "map.cu"))
    with Service(path, "--tables", imported) as service:
        yield service


def test_without_a_spare_profile_nothing_is_done(street: Path, imported: Path) -> None:
    before = street.read_bytes()
    with Service(street, "--tables", imported) as service:
        main = roads_of(imported, "name = 'Königsstraße'")
        status, told = post(service, {"road": "umweg", "pieces": SLOW},
                            *({"road": road, "pieces": SLOW} for road in main[:3]))
        assert (status, told["error"]) == (409, "no spare profile") and told["hint"]
        assert post(service, {"road": "königsstraße", "pieces": SLOW})[1]["lines"] == 1
    assert street.read_bytes() != before


def test_names_of_thousands_of_roads_are_bounded(shared: Service, imported: Path) -> None:
    status, told = post(shared, *[{"road": "umweg", "closed": True}] * 1500)
    assert status == 200 and told["lines"] == 3000
    streets = Streets([(road, 1) for road in range(60_000)])
    from catchup.service.roadedits import edits_of

    body = json.dumps({"edits": [{"road": "osm:1", "closed": True}] * 2}).encode()
    with pytest.raises(Refusal, match="at most 100000"):
        edits_of(body, streets.find)


def test_without_tables_a_road_has_its_number_alone(street: Path) -> None:
    with Service(street) as service:
        assert post(service, {"road": "osm:71", "closed": True})[0] == 400
        assert post(service, {"road": "road:0", "closed": True})[0] == 200


def test_a_map_of_another_network_starts_nothing(imported: Path, town: Path, tmp_path: Path) -> None:
    folder = tmp_path / "tables"
    shutil.copytree(TOP / "examples" / "town", folder, ignore=shutil.ignore_patterns("out"))
    for name, content, said in (("map", (imported / "map.gpkg").read_bytes(), "isn't the map of"),
                                ("text", b"x" * 5000, "can't be read")):
        (folder / "map.gpkg").write_bytes(content)
        found = subprocess.run([HTTP, town, "--tables", folder], capture_output=True, text=True, timeout=SECONDS,
                               check=False)
        assert (found.returncode, found.stdout) == (1, ""), name
        assert said in found.stderr and found.stderr.count("\n") == 1, found.stderr


def test_a_way_of_a_real_map_is_closed(program: Path, tmp_path: Path) -> None:
    pytest.importorskip("osmium", reason="python3-pyosmium isn't installed")
    source = Path(os.environ.get("CATCHUP_MAPS", TOP.parent / "shared" / "maps")) / REAL
    if not source.exists():
        pytest.skip(f"{source} isn't there: set CATCHUP_MAPS to a folder that has it")
    subprocess.run([TOP / "bin" / "catchup-import", "osm", "--build", source, tmp_path / "li"], check=True,
                   capture_output=True, timeout=SECONDS)
    with sqlite3.connect(tmp_path / "li" / "map.gpkg") as base:
        street = base.execute("SELECT DISTINCT road FROM names WHERE name = 'Landstrasse'").fetchall()
        way, tail, head = base.execute(
            "SELECT osm_way, tail, head FROM roads WHERE name = 'Landstrasse' ORDER BY metres DESC").fetchone()
    of_way = roads_of(tmp_path / "li", f"osm_way = {way}")
    with Service(tmp_path / "li" / "map.cu", "--tables", tmp_path / "li") as service:
        address = f"/route?from={tail}&to={head}&depart=08:00"
        assert set(service.get(address)["roads"]) & set(of_way)
        status, told = post(service, {"road": f"osm:{way}", "closed": True})
        assert (status, told["lines"]) == (200, len(of_way))
        assert not set(service.get(address).get("roads", [])) & set(of_way)
        status, told = post(service, {"road": "landstrasse", "pieces": SLOW})
        assert (status, told["lines"]) == (200, 1 + len(street))
