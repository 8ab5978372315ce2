"""Routes as the page draws them: the line, and of each road its name, metres, when it is entered and what it takes."""

from __future__ import annotations

import json
from itertools import accumulate
from typing import TYPE_CHECKING, Any

import numpy as np

from catchup.service.page.sheet import Floats, world_of
from catchup.service.route import Trip, by_arrival, by_departure
from catchup.service.stops import snap_of
from catchup.service.words import DAY

if TYPE_CHECKING:
    from catchup.places.drives import Drive
    from catchup.service.page.network import Drawn
    from catchup.service.page.traffic import Traffic
    from catchup.service.placed import Placed


async def find(found: Placed, asked: dict[str, Any]) -> Trip:
    """The route that is asked for; NoRoute where none leads there, or none in time."""
    stops = [asked["from"], *asked.get("via", ()), asked["to"]]
    names = ["from", *["via"] * (len(stops) - 2), "to"]
    snaps = [snap_of(found.places, stop, name) for stop, name in zip(stops, names)]
    by = asked.get("by")
    with found.version.held():
        drives = await (by_departure(found, snaps, asked["depart"]) if by is None else by_arrival(found, snaps, by))
    return Trip(stops, snaps, drives, {}, "arrive" if by is None else "depart")


def trip_told(trip: Trip, drawn: Drawn, traffic: Traffic) -> dict[str, Any]:
    """A route over places."""
    first, last = trip.drives[0], trip.drives[-1]
    places = [{**placed(snap.point), "name": snap.name or snap.ref} for snap in trip.snaps]
    legs = [leg_told(drive, drawn, traffic) for drive in trip.drives]
    return {"answer": trip.word, "depart": first.depart, "arrive": last.arrive,
            "travel": last.arrive - first.depart, "places": places, "legs": legs}


def placed(point: tuple[float, float]) -> dict[str, Any]:
    """A longitude and a latitude, in the world."""
    x, y = world_of(np.array(point))
    return {"x": int(x), "y": int(y)}


def leg_told(drive: Drive, drawn: Drawn, traffic: Traffic) -> dict[str, Any]:
    """A leg of a route over places; where each of its roads begins in its line, which has x and y of each point."""
    assert drawn.places is not None
    lines = drawn.places.lines
    cuts = [lines.cut(part) for part in drive.parts] or [np.array([drive.start.point, drive.end.point])]
    x, y = world_of(np.concatenate([cuts[0][:1], *[each[1:] for each in cuts]]))
    share = np.array([stop - begin for _, begin, stop in drive.parts])
    names = [" ".join(each for each in lines.name(road)[:1]) or lines.name(road)[1] for road in drive.roads]
    return {**taken(drive.roads, drive.seconds, share, drive.depart, drive.arrive, traffic), "names": names,
            "metres": np.round(lines.metres[drive.roads] * share, 1).tolist() if drive.roads else [],
            "points": list(accumulate((len(each) - 1 for each in cuts[:len(drive.roads)]), initial=0)),
            "line": np.column_stack((x, y)).ravel().tolist()}


def taken(roads: list[int], seconds: list[int], share: Floats, depart: int, arrive: int,
          traffic: Traffic) -> dict[str, Any]:
    """When each road of a leg is entered, its free seconds, and how long one waits on it."""
    free = np.round(traffic.free[traffic.profile[roads]] * share, 1).tolist() if roads else []
    return {"depart": depart, "arrive": arrive, "roads": roads, "seconds": seconds, "free": free,
            "waits": traffic.waits(roads, seconds)}


def plain_told(body: bytes, drawn: Drawn, traffic: Traffic) -> dict[str, Any]:
    """A route over nodes, from the answer of /route or /latest."""
    found: dict[str, Any] = json.loads(body)
    if "legs" not in found:
        return found
    sheet = drawn.sheet
    stops = [found["legs"][0]["from"], *[leg["to"] for leg in found["legs"]]]
    found["places"] = [{"x": x, "y": y, "name": f"Node {node}"}
                       for node, (x, y) in zip(stops, sheet.nodes[stops].tolist())]
    legs = []
    for leg in found["legs"]:
        roads, depart = leg["roads"], leg["depart"]
        seconds = leg.get("seconds") or seconds_of(roads, depart, traffic)
        nodes = [leg["from"], *sheet.head[roads].tolist()] if roads else [leg["from"], leg["to"]]
        legs.append({**taken(roads, seconds, np.ones(len(roads)), depart, leg["arrive"], traffic),
                     "names": [f"Road {road}" for road in roads], "metres": [], "points": list(range(len(nodes))),
                     "line": sheet.nodes[nodes].ravel().tolist()})
    return {**found, "roads": None, "legs": legs}


def seconds_of(roads: list[int], depart: int, traffic: Traffic) -> list[int]:
    """When each of some roads is entered, where the program doesn't say."""
    seconds = []
    for road in roads:
        seconds.append(depart)
        takes, _ = traffic.at(depart % DAY)
        depart += int(takes[traffic.profile[road]])
    return seconds
