"""What each of OSRM's services answers: the members of its object, as JSON."""

from __future__ import annotations

import asyncio
import math
from collections.abc import Sequence
from typing import Final

import numpy as np
from numpy.typing import NDArray

from catchup.beside import beside
from catchup.clock import DAY
from catchup.geometry import metres
from catchup.places import NoRoute, NoSegment, Place, Snap, TooLate
from catchup.places.drives import Drive, roads_of
from catchup.places.latest import latest_over
from catchup.places.matrix import ENTRIES
from catchup.places.values import told as place_told
from catchup.service.osrm.address import Asked, AskedNearest, AskedRoute, AskedTable
from catchup.service.osrm.annotations import nodes_beside
from catchup.service.osrm.faults import Fault
from catchup.service.osrm.guide import Guide
from catchup.service.osrm.lines import Floats
from catchup.service.osrm.shapes import grid, route, waypoint, waypoints
from catchup.service.osrm.texts import timed
from catchup.service.placed import Placed

MOST_DISTANCES: Final = 10_000          # entries of a table of distances
STEPS: Final = 8                        # that it takes to look for a place
AT_ONCE: Final = 16                     # drives of a table of distances that are asked for at once


def nearest(asked: AskedNearest, placed: Placed, guide: Guide) -> Sequence[str]:
    """The nearest streets of a place, as members of an object in parts of a text."""
    found = snapped(asked, placed, guide) if asked.number == 1 else near(asked, 0, placed, asked.number)
    told = [waypoint(snap, guide, with_hint=asked.generate_hints, more=nodes_at(snap, guide)) for snap in found]
    return '"waypoints":[', ",".join(told), "]"


def nodes_at(snap: Snap, guide: Guide) -> str:
    """The member with the numbers in OpenStreetMap of the nodes on both sides of a point."""
    before, behind = nodes_beside(*snap.roads[0], guide)
    return f'"nodes":[{before},{behind}],'


# ---- places ----


def snapped(asked: Asked, placed: Placed, guide: Guide) -> list[Snap]:
    """Where each place meets the network: as its hint says, or the nearest point."""
    return [hinted(asked, at, placed, guide) or near(asked, at, placed)[0] for at in range(len(asked.places))]


def hinted(asked: Asked, at: int, placed: Placed, guide: Guide) -> Snap | None:
    """Where the hint of a place says that it is. What narrows the search makes hints void."""
    hint = asked.hints[at] if asked.hints is not None else None
    bearing = asked.bearings[at] if asked.bearings is not None else None
    if hint is None or bearing is not None or (asked.approaches is not None and asked.approaches[at]):
        return None
    found = guide.hints.read(hint, asked.places[at], placed.places)
    radius = asked.radiuses[at] if asked.radiuses is not None else None
    return found if found is not None and (radius is None or found.metres <= radius) else None


def near(asked: Asked, at: int, placed: Placed, number: int = 1) -> list[Snap]:
    """The nearest points of a place. Raises Fault."""
    radius = asked.radiuses[at] if asked.radiuses is not None else None
    bearing = asked.bearings[at] if asked.bearings is not None else None
    is_curb = bool(asked.approaches is not None and asked.approaches[at])
    try:
        return placed.places.nearest(asked.places[at], number, radius=radius, bearing=bearing, curb=is_curb)
    except NoSegment:
        place = asked.places[at]
        far = f" within {radius:.10g} m" if radius is not None else " near enough"
        said = f"there is no road{far} for place {at} ({place_told(place)}){advice(place, placed)}"
        raise Fault("NoSegment", said) from None


def advice(place: Place, placed: Placed) -> str:
    """What to do where no road is near a place."""
    lon, lat = place
    if placed.places.is_on_map(place):
        return ": radiuses says how many metres away one may be, bearings in which direction it may lead"
    if placed.places.is_on_map((lat, lon)):
        return f": longitude comes first, so write {lat:.10g},{lon:.10g}"
    return ": it lies outside of the map"


# ---- routes ----


async def drive(asked: AskedRoute, placed: Placed, guide: Guide, now: int) -> Sequence[str]:
    """A route over places, in the same way. now: the second of the day that is meant where none is said."""
    snaps = await beside(STEPS * len(asked.places), snapped, asked, placed, guide)
    driven = await drives(asked, snaps, placed, now)
    told = ['"routes":[', *await beside(roads_of(driven), route, driven, guide, asked), "]"]
    if not asked.skip_waypoints:
        kept = snaps if asked.waypoints is None else [snaps[at] for at in sorted(set(asked.waypoints))]
        told.append(f',"waypoints":{waypoints(kept, guide, asked)}')
    return told


async def drives(asked: AskedRoute, snaps: Sequence[Snap], placed: Placed, now: int) -> list[Drive]:
    """The drives from each place to the next. Raises Fault."""
    places = placed.places
    try:
        if asked.arrive is not None:
            return await latest_over(places.driver, snaps, asked.arrive, placed.slow)
        return await places.drives(snaps, now if asked.depart is None else asked.depart, placed.quick)
    except TooLate as problem:
        raise Fault("NoRoute",
                    f"whoever leaves place {problem.index} at midnight comes too late already: arrive later, or "
                    f"leave on the day before by arrive={(asked.arrive or 0) + DAY}") from None
    except NoRoute as problem:
        at = problem.index
        raise Fault("NoRoute", f"no way leads from place {at} to place {at + 1} at this time of day") from None


# ---- tables ----


async def table(asked: AskedTable, placed: Placed, guide: Guide, now: int) -> Sequence[str]:
    """A table between places, in the same way."""
    snaps = await beside(STEPS * len(asked.places), snapped, asked, placed, guide)
    sources = snaps if asked.sources is None else [snaps[at] for at in asked.sources]
    targets = snaps if asked.destinations is None else [snaps[at] for at in asked.destinations]
    depart = now if asked.depart is None else asked.depart
    if "distance" in asked.annotations and len(sources) * len(targets) > MOST_DISTANCES:
        raise Fault("TooBig", f"a table of distances has at most {MOST_DISTANCES} entries: ask for it in parts, or for "
                    "durations alone")
    found: dict[str, Floats] = {}
    if "duration" in asked.annotations:
        found["durations"] = await placed.places.table(sources, targets, depart, placed.slow)
    if "distance" in asked.annotations:
        found["distances"] = await distances(sources, targets, depart, placed)
    guessed = None
    if asked.fallback_speed is not None:
        guessed = fill(found, await beside(len(sources) * len(targets) // ENTRIES, crow_flies, sources, targets, asked),
                       asked.fallback_speed)
    if "durations" in found:
        found["durations"] *= asked.scale_factor
    told = [timed("depart", depart)]
    for name, entries in found.items():
        told.append(f'"{name}":{await grid(entries)}')
    if guessed is not None:
        told.append(f'"fallback_speed_cells":{np.argwhere(guessed).tolist()}'.replace(" ", ""))
    if not asked.skip_waypoints:
        for name, each in (("sources", sources), ("destinations", targets)):
            told.append(f'"{name}":{await beside(len(each), waypoints, each, guide, asked)}')
    return [",".join(told)]


async def distances(sources: Sequence[Snap], targets: Sequence[Snap], depart: int, placed: Placed) -> Floats:
    """The metres of the best drives, float64[S, T], nan where no way leads: a drive for each entry."""
    pairs = [(source, target) for source in sources for target in targets]
    found: list[float] = []
    for begin in range(0, len(pairs), AT_ONCE):
        found += await asyncio.gather(*(distance(pair, depart, placed) for pair in pairs[begin:begin + AT_ONCE]))
    return np.array(found).reshape(len(sources), len(targets))


async def distance(pair: tuple[Snap, Snap], depart: int, placed: Placed) -> float:
    """The metres of the best drive between two places, nan where no way leads."""
    try:
        [found] = await placed.places.drives(pair, depart, placed.slow)
    except NoRoute:
        return math.nan
    far = placed.places.lines.metres
    return sum((end - begin) * float(far[road]) for road, begin, end in found.parts)


def crow_flies(sources: Sequence[Snap], targets: Sequence[Snap], asked: AskedTable) -> Floats:
    """The metres between places as the crow flies, float64[S, T]."""
    begin, end = (np.array([snap.place if asked.fallback_coordinate == "input" else snap.point for snap in snaps])
                  for snaps in (sources, targets))
    return metres(begin[:, None, 0], begin[:, None, 1], end[None, :, 0], end[None, :, 1])


def fill(found: dict[str, Floats], straight: Floats, speed: float) -> NDArray[np.bool_]:
    """Puts guesses where no way leads, `straight` metres at some metres a second, and answers which entries these
    are."""
    guessed = np.isnan(next(iter(found.values())))
    for name, entries in found.items():
        entries[guessed] = (straight / speed if name == "durations" else straight)[guessed]
    return guessed
