"""Names of nodes and roads: of a map, of a CSV of ids, and of none."""

from __future__ import annotations

import sqlite3
from pathlib import Path

import pytest

from catchup.errors import Failure
from catchup.names import Names


@pytest.fixture
def of_map(tmp_path: Path) -> Path:
    path = tmp_path / "map.gpkg"
    with sqlite3.connect(path) as base:
        base.execute("CREATE TABLE nodes (node INTEGER PRIMARY KEY, osm_node INTEGER)")
        base.executemany("INSERT INTO nodes VALUES (?, ?)", [(0, 900), (1, 17), (2, 900)])
        base.execute("CREATE TABLE roads (road INTEGER PRIMARY KEY, osm_way INTEGER, name TEXT, ref TEXT)")
        rows = [(0, 5, "High Street", "B 1"), (1, 5, "High Street", None), (2, 6, None, "B 1"), (3, 7, None, None)]
        base.executemany("INSERT INTO roads VALUES (?, ?, ?, ?)", rows)
    base.close()
    return path


def test_a_map(of_map: Path) -> None:
    names = Names.open(of_map)
    assert [names.node_name(node) for node in range(4)] == ["osm:900", "osm:17", "osm:900", "node:3"]
    assert [names.road_name(road) for road in range(5)] == ["High Street (B 1)", "High Street", "B 1", "road:3", "road:4"]
    cases = [("osm:900", [0, 2]), ("osm:17", [1]), ("17", [17]), ("node:17", [17]), ("osm:1", []), ("", []), ("node:x", [])]
    assert [(text, names.find_node(text)) for text, _ in cases] == cases
    roads = [("high street", [0, 1]), ("B 1", [0, 2]), ("osm:5", [0, 1]), ("road:3", [3]), ("3", [3]), ("Low Street", [])]
    assert [(text, names.find_road(text)) for text, _ in roads] == roads


def test_a_csv_of_ids(tmp_path: Path) -> None:
    path = tmp_path / "ids.csv"
    path.write_text('node,id\n0,depot\n1,"Main St, north"\n\n2,17\n', encoding="utf-8-sig")
    names = Names.open(path)
    assert [names.node_name(node) for node in range(4)] == ["depot", "Main St, north", "17", "node:3"]
    cases = [("depot", [0]), ("Main St, north", [1]), ("17", [2]), ("node:17", [17]), ("18", [18]), ("Depot", [])]
    assert [(text, names.find_node(text)) for text, _ in cases] == cases
    assert names.road_name(1) == "road:1" and names.find_road("road:1") == [1]


def test_no_names() -> None:
    names = Names.open(None)
    assert (names.node_name(5), names.road_name(5), names.find_node("5"), names.find_road("5")) == ("node:5", "road:5", [5], [5])
    assert [names.find_node(text) for text in ("-1", "+1", "\u0661", "1" * 10, "road:1", " 1")] == [[]] * 6


BAD = [
    ("ids.csv", None, "ids.csv can't be read: No such file or directory"),
    ("ids.csv", b"", "ids.csv, line 1: found nothing, allowed: the header node,id"),
    ("ids.csv", b"id,node\n", "ids.csv, line 1: found id,node, allowed: the header node,id"),
    ("ids.csv", b"node,id\n0,a\nb,1\n", "ids.csv, line 3: found b,1, allowed: the number of a node, and its id"),
    ("ids.csv", b"node,id\n0,a,b\n", "ids.csv, line 2: found 0,a,b"),
    ("ids.csv", b"node,id\n0,\xff\n", "ids.csv can't be read"),
    ("map.gpkg", None, "map.gpkg can't be read: there is no such file"),
    ("map.gpkg", b"nothing of the kind", "map.gpkg is no map of catchup"),
    ("map.gpkg", b"", "map.gpkg is no map of catchup"),
]


@pytest.mark.parametrize("name, text, said", BAD)
def test_refusals(tmp_path: Path, monkeypatch: pytest.MonkeyPatch, name: str, text: bytes | None, said: str) -> None:
    monkeypatch.chdir(tmp_path)
    if text is not None:
        Path(name).write_bytes(text)
    with pytest.raises(Failure) as error:
        Names.open(name)
    assert str(error.value).startswith(said) and "\n" not in str(error.value)


def test_a_folder_is_no_map(tmp_path: Path) -> None:
    (tmp_path / "map.gpkg").mkdir()
    with pytest.raises(Failure, match="map.gpkg can't be read: this is a folder"):
        Names.open(tmp_path / "map.gpkg")
