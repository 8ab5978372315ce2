"""Where the places of an address meet the network."""

from __future__ import annotations

from collections.abc import Sequence
from typing import TYPE_CHECKING, Any, Final

from catchup.beside import beside
from catchup.places.values import NoSegment, Place, Snap
from catchup.places.values import told as words_of
from catchup.service.errors import Refusal
from catchup.service.words import FORMS, Kind, Stop

if TYPE_CHECKING:
    from catchup.places import Places

STEPS: Final = 8                        # that it takes to look for a place
NEEDS_MAP: Final = "other places need a map: start the service with --tables DIR, the folder of an import"


def as_nodes(asked: dict[str, Any], kinds: dict[str, Kind]) -> dict[str, Any]:
    """What is asked of a network without a map, whose places are nodes by their numbers."""
    for name in ("geometry", "format", "within", "bands"):
        if name in asked:
            raise Refusal(400, f"{name} needs a map",
                          hint="start the service with --tables DIR, the folder of an import")
    return {name: nodes_of(name, value, kinds[name]) if name in kinds else value for name, value in asked.items()}


def nodes_of(name: str, value: Stop | list[Stop], kind: Kind) -> int | list[int]:
    nodes = [stop.node for stop in (value if isinstance(value, list) else [value])]
    if None in nodes:
        raise Refusal(400, f"{name} must be {FORMS[kind]}", hint=NEEDS_MAP)
    found = [node for node in nodes if node is not None]
    return found if isinstance(value, list) else found[0]


def told(value: Stop | list[Stop]) -> object:
    """What an answer says of places."""
    return [stop.told() for stop in value] if isinstance(value, list) else value.told()


def snap_of(places: Places, stop: Stop, name: str) -> Snap:
    """Where a place of an address meets the network; a Refusal where it doesn't."""
    if stop.place is not None:
        return nearest(places, stop.place, name)
    if stop.osm is not None:
        found = places.at_osm(stop.osm)
        hint = "junctions and ends of streets are nodes, and bends aren't: ask by lon,lat"
        error = f"{name}: osm:{stop.osm} is no node of the network"
    else:
        found, hint, error = places.at_node(stop.node or 0), None, "refused: node"
    if found is None:
        raise Refusal(400, error, hint=hint)
    return found


async def snaps_of(places: Places, stops: Sequence[Stop], name: str) -> list[Snap]:
    """The same of some places, which are looked for beside the loop where they are many. A Refusal says which one it is,
    counted from 0: in words and by `name` and `index`."""
    def one(index: int) -> Snap:
        try:
            return snap_of(places, stops[index], name if len(stops) == 1 else f"place {index} of {name}")
        except Refusal as problem:
            problem.more.update(name=name, index=index)
            raise

    def every() -> list[Snap]:
        return [one(index) for index in range(len(stops))]

    return await beside(STEPS * len(stops), every)


def nearest(places: Places, place: Place, name: str) -> Snap:
    """The nearest road of a longitude and a latitude."""
    lon, lat = place
    said = words_of(place)
    swapped = f"lon and lat may be swapped: {lat:g},{lon:g} is on the map" if places.is_on_map((lat, lon)) else None
    try:
        return places.nearest(place)[0]
    except ValueError:
        hint = swapped or "lon is -180 to 180, lat -90 to 90"
        raise Refusal(400, f"{name} is no place on the earth: {said}", hint=hint) from None
    except NoSegment:
        west, south, east, north = places.box
        raise Refusal(400, f"{name} is far from any road: {said}", hint=swapped or (
            f"the map is {west:g},{south:g} to {east:g},{north:g}, as lon,lat")) from None
