"""What the roads of a served file are called outside: ways of OpenStreetMap, and streets by name or number.

They stand in map.gpkg, as an import writes it, beside the tables. All workers share what is read of it as a service
starts.
"""

from __future__ import annotations

import re
import sqlite3
from array import array
from bisect import bisect_left, bisect_right
from collections.abc import Iterable, Iterator
from contextlib import closing
from itertools import chain
from pathlib import Path
from typing import Final

from catchup.errors import Failure
from catchup.service.options import Options
from catchup.service.tables import ends_of

FILE: Final = "map.gpkg"
WAY: Final = re.compile(r"osm:(-?[0-9]{1,18})")
ROAD: Final = re.compile(r"(?:road:)?([0-9]{1,18})")


class Streets:
    """Roads by their outside names. Rows are a road, its way, and a name and a number that may be missing."""

    def __init__(self, rows: Iterable[tuple[int, int]] = (),
                 names: Iterable[tuple[int, str | None, str | None]] = ()) -> None:
        ordered = sorted((way, road) for road, way in rows)
        self.ways = array("q", (way for way, _ in ordered))
        self.roads = array("I", (road for _, road in ordered))
        self.named: dict[str, array[int]] = {}
        for road, *texts in names:
            for text in filter(None, texts):
                found = self.named.setdefault(text.casefold(), array("I"))
                if not found or found[-1] != road:
                    found.append(road)

    def find(self, text: str) -> list[int]:
        """The roads of a name, rising: those of the way `osm:1234`, else those of a street by its name or number,
        whose capitals don't matter, else the road `road:17` or `17`. None where nothing is called so."""
        if (way := WAY.fullmatch(text)) is not None:
            return sorted(self.roads[bisect_left(self.ways, int(way[1])):bisect_right(self.ways, int(way[1]))])
        if text.casefold() in self.named:
            return sorted(set(self.named[text.casefold()]))
        road = ROAD.fullmatch(text)
        return [] if road is None else [int(road[1])]


def read_streets(path: Path, folder: Path) -> Streets:
    """The names in a folder of tables, which have to be of a packed file; none where it has no map. Failure where
    the map is damaged or another one."""
    map_path = folder / FILE
    if not map_path.is_file():
        return Streets()
    try:
        with closing(sqlite3.connect(f"{map_path.absolute().as_uri()}?mode=ro&immutable=1", uri=True)) as base:
            ends = array("q", chain.from_iterable(base.execute("SELECT tail, head FROM roads ORDER BY road")))
            if (ends[0::2], ends[1::2]) != ends_of(path)[1:]:
                raise Failure(f"{map_path} isn't the map of {path}: import and build anew")
            return Streets(base.execute("SELECT road, osm_way FROM roads WHERE osm_way IS NOT NULL"), names_of(base))
    except (sqlite3.Error, TypeError, OverflowError) as problem:
        raise Failure(f"{map_path} can't be read: {problem}") from None


def names_of(base: sqlite3.Connection) -> Iterator[tuple[int, str | None, str | None]]:
    """Each road's names and numbers: those of its longest part, and those of all parts."""
    return base.execute("SELECT road, name, ref FROM roads UNION ALL SELECT road, name, ref FROM names")


def streets_of(options: Options) -> dict[Path, Streets]:
    """The names of each file that has tables."""
    return {file.path: read_streets(file.path, file.tables) for file in options.files if file.tables is not None}
