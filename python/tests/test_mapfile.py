"""map.gpkg, written and read."""
from __future__ import annotations

import sqlite3
import time
from pathlib import Path

import numpy as np
import pytest
from waiting import least_seconds

from catchup.errors import Failure
from catchup.mapfile import MapFile, RoadNames, Span, write_map


def small_map() -> tuple[MapFile, RoadNames, np.ndarray]:  # type: ignore[type-arg]
    """Three nodes, one of them a copy, and two roads, of which one has two names."""
    first = np.array([0, 3, 5])
    made = MapFile(
        np.array([9.0, 9.1, 9.1]), np.array([47.0, 47.1, 47.1]), np.array([11, -12, -12]), np.array([0, 0, 1], dtype=np.int32),
        np.array([0, 1], dtype=np.int32), np.array([2, 0], dtype=np.int32), np.array([5, 6], dtype=np.int32), np.array([123.456, 1000.0]),
        np.array([9, 70], dtype=np.int32), np.array([101, 102]), np.array([11, -12]), np.array([-12, 11]), np.array([1, 0], dtype=np.int32),
        first, np.array([9.0, 9.05, 9.1, 9.1, 9.0]), np.array([47.0, 47.05, 47.1, 47.1, 47.0]), ["primary", "service"],
        {"vehicle": "car"},
        road_ring=np.array([True, False]))
    names = RoadNames(np.array([0, 2, 2]), np.array([0.0, 50.0]), np.array([50.0, 123.456]), np.array([1, 0], dtype=np.int32),
                      [("Straße \"X\"", "B 1"), ("", "B 2")])
    return made, names, np.array([11, 7, -12, -12, 11])


def test_it_comes_back(tmp_path: Path) -> None:
    made, names, point_osm = small_map()
    write_map(tmp_path / "map.gpkg", made, names, point_osm)
    assert [path.name for path in tmp_path.iterdir()] == ["map.gpkg"]
    found = MapFile.open(tmp_path / "map.gpkg")
    for name in ("node_lon", "node_lat", "node_osm", "node_copy", "road_tail", "road_head", "road_profile", "road_seconds", "road_osm_way",
                 "road_osm_from", "road_osm_to", "road_class", "road_first", "point_lon", "point_lat", "road_ring"):
        want, have = getattr(made, name), getattr(found, name)
        assert have.dtype == want.dtype and have.tolist() == want.tolist(), name
    assert found.road_metres.tolist() == [123.46, 1000.0] and found.classes == ["primary", "service"] and len(found) == 2
    assert found.point_osm.tolist() == point_osm.tolist() and found.properties == {"vehicle": "car"}
    assert found.road_names(0) == [Span(0.0, 50.0, "", "B 2"), Span(50.0, 123.46, "Straße \"X\"", "B 1")] and found.road_names(1) == []
    assert [values.tolist() for values in found.line(1)] == [[9.1, 9.0], [47.1, 47.0]]
    with sqlite3.connect(tmp_path / "map.gpkg") as base:
        assert base.execute("SELECT name, ref, class FROM roads ORDER BY road").fetchall() == [("Straße \"X\"", "B 1", "service"), (None, None, "primary")]
        assert base.execute("PRAGMA application_id").fetchone() == (0x47504B47,) and base.execute("PRAGMA integrity_check").fetchone() == ("ok",)


def test_a_map_that_does_not_tell_roundabouts(tmp_path: Path) -> None:
    write_map(tmp_path / "map.gpkg", *small_map())
    with sqlite3.connect(tmp_path / "map.gpkg") as base:
        base.execute("ALTER TABLE roads DROP COLUMN roundabout")
    found = MapFile.open(tmp_path / "map.gpkg")
    assert found.road_ring.tolist() == [False, False] and found.road_profile.tolist() == [5, 6]


def test_a_map_without_roads(tmp_path: Path) -> None:
    none, small = np.empty(0, dtype=np.int64), np.empty(0, dtype=np.int32)
    made = MapFile(np.empty(0), np.empty(0), none, small, small, small, small, np.empty(0), small, none, none, none, small, np.array([0]),
                   np.empty(0), np.empty(0), [])
    write_map(tmp_path / "map.gpkg", made, RoadNames.none(0), none)
    found = MapFile.open(tmp_path / "map.gpkg")
    assert len(found) == 0 and len(found.node_lon) == 0 and found.names.texts == []


@pytest.mark.parametrize("content, says", [
    (None, "there is no such file"), (b"", "isn't a map.gpkg that catchup-import made"), (b"hello" * 100, "isn't a map.gpkg that catchup-import made")])
def test_files_that_are_none(tmp_path: Path, content: bytes | None, says: str) -> None:
    path = tmp_path / "map.gpkg"
    if content is not None:
        path.write_bytes(content)
    with pytest.raises(Failure, match=says):
        MapFile.open(path)


def test_a_folder_and_a_file_that_cannot_be_looked_for(tmp_path: Path) -> None:
    with pytest.raises(Failure, match="this is a folder: name the map.gpkg in it"):
        MapFile.open(tmp_path)
    (tmp_path / "map.gpkg").symlink_to("map.gpkg")
    with pytest.raises(Failure, match="map.gpkg can't be read: Too many levels of symbolic links"):
        MapFile.open(tmp_path / "map.gpkg")
    with pytest.raises(Failure, match="this is no regular file"):
        MapFile.open("/dev/null")


@pytest.mark.parametrize("change, says", [
    ("DELETE FROM nodes WHERE node = 1", "aren't numbered from 0 on"), ("DELETE FROM roads WHERE road = 0", "aren't numbered from 0 on"),
    ("UPDATE roads SET head = 3 WHERE road = 0", "nodes that aren't there"), ("UPDATE roads SET tail = -1 WHERE road = 0", "nodes that aren't there"),
    ("UPDATE roads SET geom = x'00'", "isn't a GeoPackage's geometry"), ("UPDATE roads SET geom = NULL", "make it again"),
    ("UPDATE roads SET geom = (SELECT geom FROM nodes)", "no line"), ("UPDATE nodes SET geom = (SELECT geom FROM roads)", "no point"),
    ("UPDATE roads SET tail = 0.5 WHERE road = 0", "make it again"),
    ("UPDATE roads SET seconds = NULL", "make it again"), ("UPDATE roads SET metres = 'far'", "make it again"),
    ("DROP TABLE roads", "isn't a map.gpkg"), ("ALTER TABLE roads DROP COLUMN profile", "isn't a map.gpkg")])
def test_maps_that_are_damaged(tmp_path: Path, change: str, says: str) -> None:
    path = tmp_path / "map.gpkg"
    write_map(path, *small_map())
    with sqlite3.connect(path) as base:
        base.execute(change)
    base.close()
    with pytest.raises(Failure, match=says):
        MapFile.open(path)


def test_numbers_of_nodes_that_are_damaged(tmp_path: Path) -> None:
    path = tmp_path / "map.gpkg"
    write_map(path, *small_map())
    with sqlite3.connect(path) as base:
        base.execute("DELETE FROM road_nodes WHERE road = 1")
    base.close()
    with pytest.raises(Failure, match="3 nodes of 5 points"):
        MapFile.open(path).point_osm


@pytest.mark.parametrize("value", ["NULL", "'x'", "5", "x'00'"])
def test_what_somebody_wrote_for_numbers_of_nodes(tmp_path: Path, value: str) -> None:
    path = tmp_path / "map.gpkg"
    write_map(path, *small_map())
    with sqlite3.connect(path) as base:
        base.execute(f"UPDATE road_nodes SET osm_nodes = {value} WHERE road = 1")
    base.close()
    with pytest.raises(Failure, match="this map is damaged: .*; make it again by catchup-import"):
        MapFile.open(path).point_osm


@pytest.mark.parametrize("change", ["road = 'x'", '"from" = \'x\'', '"to" = x\'00\'', "road = 1e30"])
def test_what_somebody_wrote_for_names(tmp_path: Path, change: str) -> None:
    path = tmp_path / "map.gpkg"
    write_map(path, *small_map())
    with sqlite3.connect(path) as base:
        base.execute(f"UPDATE names SET {change}")
    base.close()
    with pytest.raises(Failure, match="this map is damaged: .*; make it again by catchup-import"):
        MapFile.open(path).names


def test_it_is_only_read(tmp_path: Path) -> None:
    """A map that nobody may write is read all the same, and reading leaves nothing beside it."""
    path = tmp_path / "map.gpkg"
    write_map(path, *small_map())
    path.chmod(0o444)
    MapFile.open(path).road_names(0)
    assert [entry.name for entry in tmp_path.iterdir()] == ["map.gpkg"]


def test_an_old_map_stays_where_a_new_one_cant_be_written(tmp_path: Path) -> None:
    path = tmp_path / "map.gpkg"
    write_map(path, *small_map())
    before = path.read_bytes()
    made, names, point_osm = small_map()
    made.properties = {"vehicle": None}  # type: ignore[dict-item]
    with pytest.raises(Failure, match="can't be written"):
        write_map(path, made, names, point_osm)
    assert path.read_bytes() == before and [entry.name for entry in tmp_path.iterdir()] == ["map.gpkg"]


def test_a_large_map(tmp_path: Path) -> None:
    """50,000 roads of 8 points in some two seconds of one processor, where other work may take half of its cache and
    time."""
    nodes, roads, points = 20_000, 50_000, 8
    rnd = np.random.default_rng(1)
    tail, head = (rnd.integers(0, nodes, roads).astype(np.int32) for _ in range(2))
    small = np.zeros(roads, dtype=np.int32)
    made = MapFile(rnd.random(nodes), rnd.random(nodes), np.arange(nodes), np.zeros(nodes, dtype=np.int32), tail, head, small, rnd.random(roads),
                   small, np.arange(roads), tail.astype(np.int64), head.astype(np.int64), small, np.arange(roads + 1) * points,
                   rnd.random(roads * points), rnd.random(roads * points), ["primary"])
    write_map(tmp_path / "map.gpkg", made, RoadNames.none(roads), np.arange(roads * points))

    def take() -> float:
        begin = time.process_time()
        found = MapFile.open(tmp_path / "map.gpkg")
        took = time.process_time() - begin
        assert (found.point_lat == made.point_lat).all() and (found.road_head == head).all()
        return took

    assert least_seconds(take, 2) < 2
