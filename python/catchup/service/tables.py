"""The tables of a served file, for the page that draws them: they have to be of the file's network."""

from __future__ import annotations

import csv
import importlib
import io
import os
import re
from array import array
from pathlib import Path
from typing import TYPE_CHECKING

from catchup.errors import Failure
from catchup.service import packed
from catchup.service.answers import as_json
from catchup.service.options import Options
from catchup.service.words import number_of

if TYPE_CHECKING:
    from catchup.places import Places

MAP = "map.gpkg"
ANSWERING = ("shapely.geometry", *(
    f"catchup.service.{name}" for name in ("days", "matrix", "reach", "route", "osrm.answers")))
NODES = ["node", "x", "y"]
ROADS = ["arc", "tail", "head", "profile"]


def read_table(path: Path, header: list[str]) -> array[int]:
    """The numbers of a table's rows, one row behind another."""
    data = path.read_bytes()
    first, _, rows = data.partition(b"\n")
    plain = rb"(?:[0-9]{1,15}(?:,[0-9]{1,15}){%d}\n)+" % (len(header) - 1)
    if first == ",".join(header).encode() and re.fullmatch(plain, rows):
        return array("q", map(int, rows[:-1].replace(b"\n", b",").split(b",")))
    # Written in another way, as by a spreadsheet.
    [said, *others] = (row for row in csv.reader(io.StringIO(data.decode("utf-8-sig"), newline="")) if row)
    if said != header or any(len(row) != len(header) for row in others):
        raise ValueError(path)
    return array("q", [number_of(word) for row in others for word in row])


def draw_network(path: Path, folder: Path) -> bytes:
    """Places and roads of the tables in a folder, as JSON."""
    try:
        places, roads = read_table(folder / "nodes.csv", NODES), read_table(folder / "roads.csv", ROADS)
        nodes, tails, heads = ends_of(path)
        if len(places) != len(NODES) * nodes or (roads[1::4], roads[2::4]) != (tails, heads):
            raise ValueError(folder)
    except OSError as problem:
        raise Failure(f"{problem.filename or folder} can't be read: {problem.strerror}") from None
    except (ValueError, csv.Error, packed.NotPacked):
        raise Failure(f"nodes.csv and roads.csv of {folder} aren't tables of {path}") from None
    return as_json({"nodes": list(zip(places[1::3], places[2::3])), "roads": list(zip(tails, heads))})


def ends_of(path: Path) -> tuple[int, array[int], array[int]]:
    """How many nodes a packed file has, and the tails and the heads of its roads."""
    descriptor = os.open(path, os.O_RDONLY)
    try:
        header = packed.read_header(descriptor)
        numbers = packed.read_roads(descriptor, header)
    finally:
        os.close(descriptor)
    return header.nodes, array("q", numbers[0::3]), array("q", numbers[1::3])


def draw_networks(options: Options) -> dict[Path, bytes]:
    """What the page draws of each file that has tables."""
    return {file.path: draw_network(file.path, file.tables) for file in options.files if file.tables is not None}


def open_places(options: Options) -> dict[Path, Places]:
    """The places of each file among whose tables there is a map; Failure where that is another network's."""
    found = {file.path: file.tables for file in options.files
             if file.tables is not None and (file.tables / MAP).exists()}
    if not found:
        return {}
    # Only maps need numpy. What answers over them is loaded here once for all workers.
    for name in ANSWERING:
        importlib.import_module(name)
    from catchup.service.osrm.guide import guide_of
    from catchup.service.placed import checked_places, read_places

    # Files of one folder, as of several weekdays, have one map.
    places = {folder: read_places(folder) for folder in dict.fromkeys(found.values())}
    for each in places.values():
        # It is made here once for all workers.
        guide_of(each.ground)
    return {path: checked_places(places[folder], path, folder) for path, folder in found.items()}
