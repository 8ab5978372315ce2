"""map.gpkg: what the nodes and roads of a network are outside: their places, numbers in OpenStreetMap, and names.

It is a GeoPackage, which is a database of SQLite, so QGIS and ogrinfo open it. Two layers, `nodes` and `roads`, hold
what has a place. The table `names` has the named parts of each road, in metres along it, `road_nodes` the numbers in
OpenStreetMap of all nodes of each road, 8 bytes each, and `properties` how the map was made.
"""
from __future__ import annotations

import os
import sqlite3
import stat
from collections.abc import Iterator
from contextlib import closing
from dataclasses import dataclass, field
from functools import cached_property
from pathlib import Path
from typing import Any, NamedTuple

import numpy as np
from numpy.typing import NDArray

from catchup import geometry
from catchup.errors import Failure
from catchup.tables import writing

Ints = NDArray[np.int64]
Shorts = NDArray[np.int32]
Floats = NDArray[np.float64]
Bools = NDArray[np.bool_]

_APPLICATION = 0x47504B47
_VERSION = 10300
_CHUNK = 16384
_NEAR = 0.02
"""Metres that are within the rounding of what the file tells."""
_ODD = (geometry.NotGeometry, TypeError, ValueError, OverflowError, IndexError)
"""What comes of values that an import doesn't write, as where somebody has edited them."""
_WGS84 = ('GEOGCS["WGS 84",DATUM["WGS_1984",SPHEROID["WGS 84",6378137,298.257223563,AUTHORITY["EPSG","7030"]],'
          'AUTHORITY["EPSG","6326"]],PRIMEM["Greenwich",0],UNIT["degree",0.0174532925199433],AUTHORITY["EPSG","4326"]]')

_SCHEMA = """
CREATE TABLE gpkg_spatial_ref_sys (srs_name TEXT NOT NULL, srs_id INTEGER NOT NULL PRIMARY KEY, organization TEXT NOT NULL,
  organization_coordsys_id INTEGER NOT NULL, definition TEXT NOT NULL, description TEXT);
CREATE TABLE gpkg_contents (table_name TEXT NOT NULL PRIMARY KEY, data_type TEXT NOT NULL, identifier TEXT UNIQUE,
  description TEXT DEFAULT '', last_change DATETIME NOT NULL DEFAULT '1970-01-01T00:00:00.000Z',
  min_x DOUBLE, min_y DOUBLE, max_x DOUBLE, max_y DOUBLE, srs_id INTEGER,
  CONSTRAINT fk_gc_r_srs_id FOREIGN KEY (srs_id) REFERENCES gpkg_spatial_ref_sys(srs_id));
CREATE TABLE gpkg_geometry_columns (table_name TEXT NOT NULL, column_name TEXT NOT NULL, geometry_type_name TEXT NOT NULL,
  srs_id INTEGER NOT NULL, z TINYINT NOT NULL, m TINYINT NOT NULL,
  CONSTRAINT pk_geom_cols PRIMARY KEY (table_name, column_name), CONSTRAINT uk_gc_table_name UNIQUE (table_name),
  CONSTRAINT fk_gc_tn FOREIGN KEY (table_name) REFERENCES gpkg_contents(table_name),
  CONSTRAINT fk_gc_srs FOREIGN KEY (srs_id) REFERENCES gpkg_spatial_ref_sys(srs_id));
CREATE TABLE nodes (node INTEGER PRIMARY KEY NOT NULL, osm_node INTEGER, copy INTEGER, geom POINT);
CREATE TABLE roads (road INTEGER PRIMARY KEY NOT NULL, tail INTEGER, head INTEGER, osm_way INTEGER, osm_from INTEGER,
  osm_to INTEGER, name TEXT, ref TEXT, class TEXT, metres DOUBLE, seconds INTEGER, profile INTEGER,
  roundabout BOOLEAN, geom LINESTRING);
CREATE TABLE names (id INTEGER PRIMARY KEY NOT NULL, road INTEGER, "from" DOUBLE, "to" DOUBLE, name TEXT, ref TEXT);
CREATE TABLE road_nodes (road INTEGER PRIMARY KEY NOT NULL, osm_nodes BLOB);
CREATE TABLE properties (id INTEGER PRIMARY KEY NOT NULL, key TEXT NOT NULL UNIQUE, value TEXT NOT NULL);
"""


class Span(NamedTuple):
    """A named part of a road, in metres along it."""
    from_metres: float
    to_metres: float
    name: str
    ref: str


@dataclass(eq=False)
class MapFile:
    """The content of a map.gpkg in arrays. n nodes, m roads, k points of all roads' lines, in driving order.

    node_lon, node_lat: float64[n], degrees; node_osm: int64[n]; node_copy: int32[n], 0 where a drive may begin.
    road_tail, road_head, road_profile, road_seconds: int32[m]; road_metres: float64[m];
    road_osm_way, road_osm_from, road_osm_to: int64[m]; road_class: int32[m], a number into `classes`.
    Road r has the points road_first[r] to road_first[r + 1] of point_lon and point_lat, degrees.
    """
    node_lon: Floats
    node_lat: Floats
    node_osm: Ints
    node_copy: Shorts
    road_tail: Shorts
    road_head: Shorts
    road_profile: Shorts
    road_metres: Floats
    road_seconds: Shorts
    road_osm_way: Ints
    road_osm_from: Ints
    road_osm_to: Ints
    road_class: Shorts
    road_first: Ints
    point_lon: Floats
    point_lat: Floats
    classes: list[str]
    properties: dict[str, str] = field(default_factory=dict)
    path: Path | None = None
    road_ring: Bools = field(default_factory=lambda: np.empty(0, dtype=bool))
    """bool[m], whether a road is part of a roundabout; empty where the map doesn't tell."""

    @classmethod
    def open(cls, path: str | Path) -> "MapFile":
        """Reads a map.gpkg; Failure where it is none."""
        path = Path(path)
        try:
            with closing(_connect(path)) as base:
                return _read(base, path)
        except sqlite3.Error as fault:
            raise Failure(f"{path}: this isn't a map.gpkg that catchup-import made: {fault}") from fault
        except _ODD as fault:
            raise _damaged(path, fault) from fault

    def __len__(self) -> int:
        """How many roads there are."""
        return len(self.road_tail)

    def line(self, road: int) -> tuple[Floats, Floats]:
        """The longitudes and latitudes of a road, in driving order."""
        part = slice(int(self.road_first[road]), int(self.road_first[road + 1]))
        return self.point_lon[part], self.point_lat[part]

    def road_names(self, road: int) -> list[Span]:
        """The named parts of a road, in driving order; parts without a name aren't among them."""
        return self.names.of(road)

    @cached_property
    def names(self) -> "RoadNames":
        """The names of all roads, read when they are first asked for."""
        if self.path is None:
            return RoadNames.none(len(self))
        try:
            with closing(_connect(self.path)) as base:
                return RoadNames.read(base, len(self))
        except sqlite3.Error as fault:
            raise Failure(f"{self.path}: its names can't be read: {fault}") from fault
        except _ODD as fault:
            raise _damaged(self.path, fault) from fault

    @cached_property
    def point_osm(self) -> Ints:
        """The numbers in OpenStreetMap of all points, int64[k], read when they are first asked for."""
        if self.path is None:
            return np.full(len(self.point_lon), -1, dtype=np.int64)
        try:
            with closing(_connect(self.path)) as base:
                rows = base.execute("SELECT osm_nodes FROM road_nodes ORDER BY road").fetchall()
            found = np.frombuffer(b"".join(row[0] for row in rows), dtype="<i8").astype(np.int64)
        except sqlite3.Error as fault:
            raise Failure(f"{self.path}: its nodes can't be read: {fault}") from fault
        except _ODD as fault:
            raise _damaged(self.path, fault) from fault
        if len(found) != len(self.point_lon):
            raise Failure(f"{self.path}: this map is damaged: {len(found)} nodes of {len(self.point_lon)} points")
        return found


@dataclass(eq=False)
class RoadNames:
    """The named parts of all roads: road r has those from first[r] to first[r + 1]; `text` is a number into `texts`."""
    first: Ints
    begin: Floats
    end: Floats
    text: Shorts
    texts: list[tuple[str, str]]
    """A name and a reference number, either of which may be empty."""

    @classmethod
    def none(cls, roads: int) -> "RoadNames":
        """No road has a name."""
        return cls(np.zeros(roads + 1, dtype=np.int64), np.empty(0), np.empty(0), np.empty(0, dtype=np.int32), [])

    @classmethod
    def read(cls, base: sqlite3.Connection, roads: int) -> "RoadNames":
        """All names of a map."""
        rows = base.execute('SELECT road, "from", "to", name, ref FROM names ORDER BY road, id').fetchall()
        known: dict[tuple[str, str], int] = {}
        text = [known.setdefault((row[3] or "", row[4] or ""), len(known)) for row in rows]
        first = np.searchsorted(np.array([row[0] for row in rows], dtype=np.int64), np.arange(roads + 1))
        begin, end = (np.array([row[column] for row in rows], dtype=np.float64) for column in (1, 2))
        return cls(first, begin, end, np.array(text, dtype=np.int32), list(known))

    def only(self, road: int, metres: float) -> tuple[str, str] | None:
        """The name and the reference number of a road of some metres that has one all along, or none at all, which is
        empty; None where it changes."""
        first, begin, end, text = self._numbers
        row = first[road]
        count = first[road + 1] - row
        if count == 0:
            return "", ""
        if count > 1 or begin[row] > _NEAR or end[row] < metres - _NEAR:
            return None
        return self.texts[text[row]]

    def several(self, metres: Floats) -> Ints:
        """The roads, of so many metres each, for which `only` is None: int64[s]."""
        count = np.diff(self.first)
        one = np.flatnonzero(count == 1)
        row = self.first[one]
        is_part = (self.begin[row] > _NEAR) | (self.end[row] < metres[one] - _NEAR)
        return np.union1d(np.flatnonzero(count > 1), one[is_part])

    def of(self, road: int) -> list[Span]:
        """The named parts of a road, in driving order."""
        rows = range(int(self.first[road]), int(self.first[road + 1]))
        return [Span(float(self.begin[row]), float(self.end[row]), *self.texts[self.text[row]]) for row in rows]

    @cached_property
    def _numbers(self) -> tuple[memoryview, memoryview, memoryview, memoryview]:
        """first, begin, end and text, for who looks up one: numpy takes several times as long."""
        return self.first.data, self.begin.data, self.end.data, self.text.data

    def longest(self) -> Ints:
        """The text of the longest named part of each road, -1 where it has none."""
        road = np.repeat(np.arange(len(self.first) - 1), np.diff(self.first))
        order = np.lexsort((-np.arange(len(road)), self.end - self.begin, road))
        found = np.full(len(self.first) - 1, -1, dtype=np.int64)
        found[road[order]] = self.text[order]
        return found


def _damaged(path: Path, fault: Exception) -> Failure:
    return Failure(f"{path}: this map is damaged: {fault}; make it again by catchup-import")


def _connect(path: Path) -> sqlite3.Connection:
    """A connection that only reads; Failure where there is no file."""
    try:
        mode = path.stat().st_mode
    except FileNotFoundError:
        raise Failure(f"{path}: there is no such file; catchup-import makes it of a map") from None
    except OSError as fault:
        raise Failure(f"{path} can't be read: {fault.strerror}") from fault
    if stat.S_ISDIR(mode):
        raise Failure(f"{path}: this is a folder: name the map.gpkg in it")
    if not stat.S_ISREG(mode):
        raise Failure(f"{path}: this is no regular file, as a map has to be")
    return sqlite3.connect(f"{path.absolute().as_uri()}?mode=ro&immutable=1", uri=True)


def _read(base: sqlite3.Connection, path: Path) -> MapFile:
    (node, osm, copy), _, lon, lat, _ = _table(base, "SELECT node, osm_node, copy, geom, '' FROM nodes ORDER BY node")
    # Maps of before don't tell which roads are of roundabouts.
    ring = "roundabout" if any(row[1] == "roundabout" for row in base.execute("PRAGMA table_info(roads)")) else "0"
    numbers, first, point_lon, point_lat, words = _table(
        base,
        f"SELECT road, tail, head, osm_way, seconds, profile, {ring}, metres, geom, class FROM roads ORDER BY road")
    road, tail, head, way, seconds, profile, rings, metres = numbers
    for column, what in ((node, "nodes"), (road, "roads")):
        if len(column) and (column[0] != 0 or column[-1] != len(column) - 1):
            raise ValueError(f"the {what} aren't numbered from 0 on")
    if len(lon) != len(node) or np.any(np.diff(first) < 2):
        raise ValueError("a node that is no point, or a road that is no line")
    if len(tail) and not 0 <= min(tail.min(), head.min()) <= max(tail.max(), head.max()) < len(node):
        raise ValueError("a road between nodes that aren't there")
    classes = sorted(set(words))
    known = {name: number for number, name in enumerate(classes)}
    kinds = np.fromiter(map(known.__getitem__, words), dtype=np.int32, count=len(words))
    properties = dict(base.execute("SELECT key, value FROM properties"))
    osm, way = osm.astype(np.int64), way.astype(np.int64)
    return MapFile(lon, lat, osm, _small(copy), _small(tail), _small(head), _small(profile), metres.astype(np.float64),
                   _small(seconds), way, osm[tail], osm[head], kinds, first, point_lon, point_lat, classes, properties,
                   path, rings.astype(bool))


def _small(values: NDArray[Any]) -> Shorts:
    return values.astype(np.int32)


def _table(base: sqlite3.Connection, query: str) -> tuple[list[NDArray[Any]], Ints, Floats, Floats, list[str]]:
    """The rows of a query in arrays: its columns of numbers, of which the last two columns are none: a geometry, and a
    word."""
    cursor = base.execute(query)
    count = len(cursor.description) - 2
    columns: list[list[NDArray[Any]]] = [[np.empty(0, dtype=np.int64)] for _ in range(count)]
    lines: list[tuple[Ints, Floats, Floats]] = []
    words: list[str] = []
    while rows := cursor.fetchmany(_CHUNK):
        found = list(zip(*rows))
        for column, values in zip(columns, found):
            column.append(np.array(values))
        lines.append(geometry.read_blobs(found[-2]))
        words.extend(word or "" for word in found[-1])
    numbers = [np.concatenate(column) for column in columns]
    if any(column.dtype.kind not in "if" for column in numbers):
        raise ValueError("a number is missing")
    sizes: list[Ints] = [np.zeros(1, dtype=np.int64), *(np.diff(first) for first, _, _ in lines)]
    first = np.cumsum(np.concatenate(sizes))
    lon, lat = (np.concatenate([np.empty(0), *(line[i] for line in lines)]) for i in (1, 2))
    return numbers, first, lon, lat, words


def write_map(path: str | Path, of: MapFile, names: RoadNames, point_osm: Ints) -> None:
    """Writes a map.gpkg: beside, and then in its place. Failure where it can't be written."""
    target = Path(os.path.realpath(path))
    with writing(target) as file:
        beside = Path(file.name)
        try:
            with closing(sqlite3.connect(beside, isolation_level=None)) as base:
                _write(base, of, names, point_osm)
        except sqlite3.Error as fault:
            raise Failure(f"{path} can't be written: {fault}") from fault


def _write(base: sqlite3.Connection, of: MapFile, names: RoadNames, point_osm: Ints) -> None:
    base.executescript(f"PRAGMA page_size = 4096; PRAGMA journal_mode = OFF; PRAGMA synchronous = OFF; "
                       f"PRAGMA application_id = {_APPLICATION}; PRAGMA user_version = {_VERSION}; BEGIN; {_SCHEMA}")
    _describe(base, of)
    base.executemany("INSERT INTO nodes VALUES (?, ?, ?, ?)", zip(
        range(len(of.node_osm)), of.node_osm.tolist(), of.node_copy.tolist(), geometry.point_blobs(of.node_lon, of.node_lat)))
    base.executemany("INSERT INTO roads VALUES (?, ?, ?, ?, ?, ?, ?, ?, ?, ?, ?, ?, ?, ?)", _road_rows(of, names))
    road = np.repeat(np.arange(len(of)), np.diff(names.first))
    base.executemany('INSERT INTO names (road, "from", "to", name, ref) VALUES (?, ?, ?, ?, ?)', (
        (row, begin, end, *_said(names.texts[text])) for row, begin, end, text in
        zip(road.tolist(), np.round(names.begin, 2).tolist(), np.round(names.end, 2).tolist(), names.text.tolist())))
    numbers, bounds = point_osm.astype("<i8").tobytes(), of.road_first.tolist()
    base.executemany("INSERT INTO road_nodes VALUES (?, ?)", (
        (row, numbers[8 * a:8 * b]) for row, (a, b) in enumerate(zip(bounds, bounds[1:]))))
    base.executemany("INSERT INTO properties (key, value) VALUES (?, ?)", of.properties.items())
    base.execute("CREATE INDEX names_of_roads ON names (road)")
    base.execute("COMMIT")


def _said(text: tuple[str, str]) -> tuple[str | None, str | None]:
    """A name and a reference number; nothing where one is empty."""
    return text[0] or None, text[1] or None


def _road_rows(of: MapFile, names: RoadNames) -> Iterator[tuple[Any, ...]]:
    """The rows of the layer `roads`; a road's name is that of its longest named part."""
    ends: tuple[NDArray[Any], ...] = (of.road_tail, of.road_head, of.road_osm_way, of.road_osm_from, of.road_osm_to)
    columns = [values.tolist() for values in ends]
    texts = [_said(text) for text in names.texts] + [(None, None)]
    longest: list[int] = names.longest().tolist()
    lines = geometry.line_blobs(of.road_first, of.point_lon, of.point_lat)
    rings = (of.road_ring if len(of.road_ring) else np.zeros(len(of), dtype=bool)).astype(int).tolist()
    rest = zip(of.road_class.tolist(), np.round(of.road_metres, 2).tolist(), of.road_seconds.tolist(),
               of.road_profile.tolist(), rings, lines)
    for road, (first, text, (kind, *values)) in enumerate(zip(zip(*columns), longest, rest)):
        yield (road, *first, *texts[text], of.classes[kind], *values)


def _describe(base: sqlite3.Connection, of: MapFile) -> None:
    """The tables that say what the others are."""
    base.executemany("INSERT INTO gpkg_spatial_ref_sys VALUES (?, ?, ?, ?, ?, ?)", [
        ("Undefined cartesian SRS", -1, "NONE", -1, "undefined", "undefined cartesian coordinate reference system"),
        ("Undefined geographic SRS", 0, "NONE", 0, "undefined", "undefined geographic coordinate reference system"),
        ("WGS 84 geodetic", geometry.WGS84, "EPSG", geometry.WGS84, _WGS84, "longitude and latitude in degrees")])
    places = [float(value) for values in (of.point_lon, of.point_lat) for value in ((values.min(), values.max()) if len(values) else (0, 0))]
    for layer, kind in (("nodes", "POINT"), ("roads", "LINESTRING")):
        base.execute("INSERT INTO gpkg_contents (table_name, data_type, identifier, min_x, min_y, max_x, max_y, srs_id) "
                     "VALUES (?, 'features', ?, ?, ?, ?, ?, ?)",
                     (layer, layer, places[0], places[2], places[1], places[3], geometry.WGS84))
        base.execute("INSERT INTO gpkg_geometry_columns VALUES (?, 'geom', ?, ?, 0, 0)", (layer, kind, geometry.WGS84))
    for table in ("names", "road_nodes", "properties"):
        base.execute("INSERT INTO gpkg_contents (table_name, data_type, identifier) VALUES (?, 'attributes', ?)", (table, table))
