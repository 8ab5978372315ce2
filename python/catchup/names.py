"""What nodes and roads are called outside: by a map (map.gpkg), by a CSV of ids, or by their numbers alone."""

from __future__ import annotations

import csv
import sqlite3
from collections import defaultdict
from collections.abc import Iterable
from contextlib import closing
from pathlib import Path

from catchup.errors import Failure, TableError

_MOST_DIGITS = 9


class Names:
    """Names of nodes and roads, both ways. Where there are no names a node is `node:17` and a road `road:17`.

    A place may be several nodes (copies of one junction, for turns that are forbidden), and a street several roads.
    """

    def __init__(self) -> None:
        self._of_node: dict[int, str] = {}
        self._of_road: dict[int, str] = {}
        self._nodes: defaultdict[str, list[int]] = defaultdict(list)
        self._roads: defaultdict[str, list[int]] = defaultdict(list)

    @classmethod
    def open(cls, path: str | Path | None) -> Names:
        """The names of a map, of a CSV of ids, or of none. Raises Failure, and TableError for a CSV."""
        if path is None:
            return cls()
        return cls.of_map(path) if Path(path).suffix == ".gpkg" else cls.of_ids(path)

    @classmethod
    def of_ids(cls, path: str | Path) -> Names:
        """The ids of a CSV with the header node,id, as catchup-tables writes it."""
        try:
            with open(path, encoding="utf-8-sig", newline="") as file:
                rows = [(line, row) for line, row in enumerate(csv.reader(file), 1) if row]
        except (OSError, UnicodeDecodeError) as error:
            raise Failure(f"{path} can't be read: {getattr(error, 'strerror', None) or error}") from None
        if not rows or rows[0][1] != ["node", "id"]:
            raise TableError(path, 1, None, ",".join(rows[0][1])[:40] if rows else "nothing", "the header node,id")
        names = cls()
        for line, row in rows[1:]:
            if len(row) != 2 or _number(row[0]) is None:
                raise TableError(path, line, None, ",".join(row)[:40], "the number of a node, and its id")
            names._add_node(int(row[0]), row[1], [row[1]])
        return names

    @classmethod
    def of_map(cls, path: str | Path) -> Names:
        """The names of map.gpkg: a node is called osm:NUMBER, a road by its name and its ref."""
        if not Path(path).is_file():
            why = "this is a folder" if Path(path).is_dir() else "there is no such file"
            raise Failure(f"{path} can't be read: {why}")
        names = cls()
        try:
            with closing(sqlite3.connect(f"{Path(path).absolute().as_uri()}?mode=ro", uri=True)) as base:
                for node, osm in base.execute("SELECT node, osm_node FROM nodes ORDER BY node"):
                    names._add_node(node, f"osm:{osm}", [f"osm:{osm}"])
                for road, way, name, ref in base.execute("SELECT road, osm_way, name, ref FROM roads ORDER BY road"):
                    called = " ".join(part for part in (name, f"({ref})" if name and ref else ref) if part)
                    names._add_road(road, called or f"road:{road}", [f"osm:{way}", name, ref])
        except sqlite3.Error as error:
            raise Failure(f"{path} is no map of catchup ({error}): make it by 'catchup-import osm'") from None
        return names

    def node_name(self, node: int) -> str:
        """What a node is called outside."""
        return self._of_node.get(node, f"node:{node}")

    def road_name(self, road: int) -> str:
        """What a road is called outside."""
        return self._of_road.get(road, f"road:{road}")

    def find_node(self, text: str) -> list[int]:
        """The nodes of a name: an id, `osm:1234`, `node:17`, or a plain number where no id is that text. Rising; empty
        where there is none."""
        return self._nodes.get(text) or _numbered(text, "node:")

    def find_road(self, text: str) -> list[int]:
        """The roads of a name: a street's name or ref (capitals don't matter), `osm:WAY`, `road:17`, or a plain number.
        Rising; empty where there is none."""
        return self._roads.get(text.casefold()) or _numbered(text, "road:")

    def _add_node(self, node: int, name: str, keys: Iterable[str]) -> None:
        self._of_node[node] = name
        for key in keys:
            self._nodes[key].append(node)

    def _add_road(self, road: int, name: str, keys: Iterable[str | None]) -> None:
        self._of_road[road] = name
        for key in {key.casefold() for key in keys if key}:
            self._roads[key].append(road)


def _numbered(text: str, prefix: str) -> list[int]:
    number = _number(text.removeprefix(prefix))
    return [] if number is None else [number]


def _number(text: str) -> int | None:
    return int(text) if text.isascii() and text.isdigit() and len(text) <= _MOST_DIGITS else None
