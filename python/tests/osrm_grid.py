"""A made town for tests of OSRM's paths: streets on a grid, one of them one-way, and an island."""

from __future__ import annotations

import math
from pathlib import Path
from typing import Protocol

from osm_maps import DEGREE, SOUTH, WEST, OsmMap

from catchup.maps.importing import Options, import_osm
from catchup.maps.writing import making, write_all


def grid_map() -> OsmMap:
    """Five streets to the north and five to the east, 200 m apart, named, the third to the north with a number and
    one-way. The node of column x and row y is 10 x + y + 1. An island of nodes 900 and 901 lies 5 km to the east."""
    made = OsmMap()
    for x in range(5):
        for y in range(5):
            made.node(10 * x + y + 1, 200.0 * x, 200.0 * y)
    for k in range(5):
        tags = {"ref": "K 2", "oneway": "yes"} if k == 2 else {}
        made.way([10 * k + y + 1 for y in range(5)], highway="residential", name=f"North {k}", **tags)
        made.way([10 * x + k + 1 for x in range(5)], highway="residential", name=f"East {k}")
    made.node(900, 5000.0, 0.0), made.node(901, 5000.0, 300.0)
    made.way([900, 901], highway="residential", name="Island")
    return made


def place_of(x: float, y: float) -> str:
    """A place in metres east and north of a made map's corner, as OSRM has it."""
    lat = SOUTH + y / DEGREE
    return f"{WEST + x / DEGREE / math.cos(math.radians(lat)):.7f},{lat:.7f}"


class Written(Protocol):
    """A made map."""

    def write(self, path: Path) -> object:
        """Writes it as XML."""


def import_map(made: Written, folder: Path, **options: object) -> Path:
    """The folder of a made map's tables, with its packed file."""
    target, path = folder / "made", folder / "made.osm"
    made.write(path)
    network = import_osm(path, Options(islands=True, **options), lambda _: None)  # type: ignore[arg-type]
    with making(target, False) as beside:
        write_all(network, beside, True, lambda _: None)
    return target
