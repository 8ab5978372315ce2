"""What answers need to know of a map beside its places: what is told at its junctions, the texts of its roads, its
hints, and the numbers of its nodes in OpenStreetMap."""

from __future__ import annotations

import sqlite3
import struct
import threading
from collections.abc import Mapping, Sequence
from contextlib import closing
from dataclasses import dataclass
from pathlib import Path
from typing import Final

from catchup.errors import Failure
from catchup.places.places import MAP_FILE, Ground
from catchup.service.osrm.hints import Hints
from catchup.service.osrm.lines import FORMS
from catchup.service.osrm.rows import Rows
from catchup.service.osrm.stretches import Stretches
from catchup.service.osrm.turns import Turns

_KEPT: Final = "osrm_guide"
MOST_KEPT: Final = 65_536               # roads whose numbers are kept
BESIDE: Final = 64                      # roads that are read together: those of near numbers are near one another
MODES: Final = {"bicycle": "cycling", "foot": "walking"}


@dataclass(frozen=True, slots=True)
class Guide:
    """What is made of a map once. rows: for each form of lines, and for answers with steps and without."""

    ground: Ground
    rows: Mapping[tuple[str, bool], Rows]
    hints: Hints
    nodes: NodeNumbers


class NodeNumbers:
    """The numbers in OpenStreetMap of the nodes of each road. They are read as they are asked for: they are many, and
    few are."""

    def __init__(self, path: Path) -> None:
        self._path = path
        self._base: sqlite3.Connection | None = None
        self._turn = threading.Lock()
        self._kept: dict[int, bytes] = {}

    def of(self, road: int, count: int) -> Sequence[int]:
        """The numbers of a road's nodes, in the sense of the drive; 0 for each where the map has others by now."""
        blob = self._kept.get(road)
        if blob is None:
            blob = self._keep(road)
        return struct.unpack(f"<{count}q", blob) if len(blob) == 8 * count else [0] * count

    def _keep(self, road: int) -> bytes:
        """What the map has of a road, which is kept with that of others beside it; where that is too much, all others
        go."""
        if len(self._kept) >= MOST_KEPT:
            self._kept.clear()
        try:
            with self._turn:
                self._kept.update(self._read(road - road % BESIDE))
                return self._kept.setdefault(road, b"")
        except sqlite3.Error:
            return b""

    def _read(self, first: int) -> dict[int, bytes]:
        """What the map has of some roads beside one another."""
        if self._base is None:
            self._base = sqlite3.connect(f"{self._path.absolute().as_uri()}?mode=ro", uri=True, check_same_thread=False)
        return dict(self._base.execute(
            "SELECT road, osm_nodes FROM road_nodes WHERE road BETWEEN ? AND ?", (first, first + BESIDE - 1)))


def guide_of(ground: Ground) -> Guide:
    """The guide to a network, which all its versions have alike. It is kept with the ground, and goes with it."""
    known = vars(ground)
    if _KEPT not in known:
        known[_KEPT] = made(ground)
    found: Guide = known[_KEPT]
    return found


def made(ground: Ground) -> Guide:
    """A new guide to a network."""
    path = ground.folder / MAP_FILE
    try:
        with closing(sqlite3.connect(f"{path.absolute().as_uri()}?mode=ro", uri=True)) as base:
            said = dict(base.execute("SELECT key, value FROM properties"))
    except sqlite3.Error as fault:
        raise Failure(f"{path} can't be read: {fault}") from fault
    side = "left" if said.get("driving_side") == "left" else "right"
    stretches = Stretches(ground.lines, MODES.get(said.get("vehicle", ""), "driving"), side)
    turns = Turns(ground)
    rows = {(form, steps): Rows(stretches, turns if steps else None, form) for form in FORMS for steps in (True, False)}
    return Guide(ground, rows, Hints(ground.streets), NodeNumbers(path))
