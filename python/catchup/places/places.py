"""The places of one network."""

from __future__ import annotations

from collections.abc import Iterable, Sequence
from dataclasses import dataclass
from functools import cached_property, lru_cache
from pathlib import Path

import numpy as np

from catchup.mapfile import MapFile
from catchup.places.drives import Drive, Driver
from catchup.places.ends import Ends
from catchup.places.latest import latest
from catchup.places.legs import leg_of
from catchup.places.lines import Lines
from catchup.places.matrix import table
from catchup.places.snapping import Snapper
from catchup.places.streets import Streets
from catchup.places.travel import Floats, Shorts, Travel
from catchup.places.values import Ask, Leg, NoSegment, Place, Snap

MAP_FILE = "map.gpkg"
_SNAPS_KEPT = 4_096


@dataclass(eq=False)
class Ground:
    """What is the same for all versions of a network: its streets and how they are found. profile: int32[m], the
    profiles of its roads as they were imported."""

    folder: Path
    streets: Streets
    ends: Ends
    lines: Lines
    snapper: Snapper
    profile: Shorts

    @classmethod
    def open(cls, folder: Path) -> Ground:
        """Reads a folder's map.gpkg; Failure where there is none, or a bad one."""
        content = MapFile.open(folder / MAP_FILE)
        streets = Streets.of(content)
        leaving = np.bincount(content.road_tail, minlength=len(content.node_lon)).astype(np.int32)
        ends = Ends(content.road_tail, content.road_head, content.node_copy, streets.junction, leaving)
        lines = Lines(streets, content.names, content.road_metres, content.road_class, content.classes,
                      content.road_ring)
        places = np.column_stack((content.node_lon, content.node_lat))
        snapper = Snapper(streets, ends, lines, places, content.node_osm,
                          content.properties.get("driving_side") == "left")
        return cls(folder, streets, ends, lines, snapper, content.road_profile)

    @cached_property
    def travel(self) -> Travel:
        """The travel functions of the folder's tables."""
        return Travel.of_folder(self.folder, self.profile)


class Places:
    """The places of one network: opened from the tables of an import, asks a child of the service or a Planner.

    `over` has the same places with the travel functions of another version: those of the file that is asked must be the
    ones that are used here.
    """

    def __init__(self, ground: Ground, travel: Travel | None = None, line: str = "q") -> None:
        self.ground = ground
        self._travel = travel
        self._line = line
        self.nearest_one = lru_cache(_SNAPS_KEPT)(ground.snapper.nearest_one)

    @classmethod
    def open(cls, folder: Path) -> Places:
        """The places of the folder that catchup-import made. Raises Failure where there is no map.gpkg, or a bad
        one."""
        return cls(Ground.open(Path(folder)))

    def over(self, travel: Travel, line: str = "q") -> Places:
        """The same places with other travel functions; `line` is `v` where the program says when each road is
        entered."""
        return Places(self.ground, travel, line)

    @cached_property
    def driver(self) -> Driver:
        """What finds drives."""
        return Driver(self.ground.ends, self._travel or self.ground.travel, self._line)

    @property
    def lines(self) -> Lines:
        """What drives look like."""
        return self.ground.lines

    def nearest(self, place: Place, number: int = 1, *, radius: float | None = None,
                bearing: tuple[int, int] | None = None,
                curb: bool = False) -> list[Snap]:
        """The nearest points of up to `number` streets, the nearest first.

        radius: metres within which they are; where none is said any distance will do in the map's box, and OUTSIDE
        metres out of it. bearing: a direction in degrees clockwise from north and by how much another may differ from
        it: only roads that are driven so count. curb: only the roads on whose side (the right one) the place lies, on
        streets that are driven both ways. Raises NoSegment where there is none, ValueError where this is no place on
        earth.
        """
        if number == 1 and radius is None and bearing is None and not curb:
            return [self.nearest_one(place)]
        return self.ground.snapper.nearest(place, number, radius, bearing, curb)

    def nearest_each(self, places: Iterable[Place]) -> list[Snap]:
        """The nearest point of each of some places, as the stops of a round. Raises NoSegment, and ValueError where one is
        no place on earth: both say which one it is, counted from 0."""
        found: list[Snap] = []
        for index, place in enumerate(places):
            try:
                found.append(self.nearest_one(place))
            except NoSegment:
                raise NoSegment(index, place) from None
            except ValueError as problem:
                raise ValueError(f"place {index}: {problem}") from None
        return found

    def hinted(self, place: Place, street: int, share: float) -> Snap | None:
        """The point that a hint names, as a Snap of `place`; None where there is no such street or share."""
        return self.ground.snapper.hinted(place, street, share)

    def at_node(self, node: int) -> Snap | None:
        """A node as a place: one begins at its copy 0, and arrives at any; None where there is no such node."""
        if not 0 <= node < len(self.ground.ends.copy):
            return None
        return self.ground.snapper.at_nodes(self.ground.snapper.copies(node))

    def at_osm(self, number: int) -> Snap | None:
        """A node by its number in OpenStreetMap, as a place; None where the network has none of this number."""
        nodes = self.ground.snapper.nodes_of(number)
        return self.ground.snapper.at_nodes(nodes) if nodes else None

    @property
    def box(self) -> tuple[float, float, float, float]:
        """The box around the map: west, south, east, north, in degrees."""
        return self.ground.snapper.box

    def is_on_map(self, place: Place) -> bool:
        """Whether a place is in the box around the map."""
        return self.ground.snapper.is_inside(place)

    async def drives(self, snaps: Sequence[Snap], depart: int, ask: Ask) -> list[Drive]:
        """As `legs`, in the short form that answers are made of."""
        found: list[Drive] = []
        for leg, (start, end) in enumerate(zip(snaps, snaps[1:])):
            found.append(await self.driver.drive(start, end, found[-1].arrive if found else depart, ask, leg))
        return found

    async def legs(self, snaps: Sequence[Snap], depart: int, ask: Ask) -> list[Leg]:
        """The best drives from each place to the next, each from when the one before arrives; `depart` is a second of
        the day. Raises NoRoute(index of the leg)."""
        return [leg_of(self.lines, drive) for drive in await self.drives(snaps, depart, ask)]

    async def table(self, sources: Sequence[Snap], targets: Sequence[Snap], depart: int, ask: Ask) -> Floats:
        """The seconds of travel from each source to each target, float64[S, T], nan where no way leads."""
        return await table(self.driver, sources, targets, depart, ask)

    async def latest_drive(self, start: Snap, end: Snap, by: int, ask: Ask) -> Drive:
        """As `latest`, in the short form that answers are made of."""
        return await latest(self.driver, start, end, by, ask)

    async def latest(self, start: Snap, end: Snap, by: int, ask: Ask) -> Leg:
        """The drive of the latest departure of the day that arrives by `by`, a second counted from the midnight before
        leaving. Raises NoRoute(0), and TooLate(0) where even the first departure arrives later."""
        return leg_of(self.lines, await self.latest_drive(start, end, by, ask))
