"""Routes between places: their names, times and lines, and how they are downloaded."""

from __future__ import annotations

from collections.abc import Sequence
from dataclasses import dataclass
from typing import Any

import numpy as np
from starlette.responses import Response

from catchup.beside import beside
from catchup.clock import MOST_SECONDS
from catchup.geometry import encode_polyline
from catchup.places.drives import Drive, roads_of
from catchup.places.latest import latest_over
from catchup.places.lines import Lines
from catchup.places.values import NoRoute, Snap, TooLate
from catchup.service.answers import answer, as_json, time_of_day, timed
from catchup.service.download import FORMATS, downloaded
from catchup.service.errors import Refusal
from catchup.service.placed import Placed, placed
from catchup.service.stops import snap_of, snaps_of, told
from catchup.service.versions import Version
from catchup.service.words import DAY, Stop


@dataclass(frozen=True, slots=True)
class Trip:
    """A route that was found: its places as they were asked for, where these meet the network, and its drives."""

    stops: list[Stop]
    snaps: list[Snap]
    drives: list[Drive]
    asked: dict[str, Any]
    word: str


async def route(version: Version, asked: dict[str, Any], accept: str = "") -> Response:
    """The answer to /route over places: `asked` has `from`, `to`, perhaps `via`, `geometry` and `format`, and `depart`
    or `by`; `accept` is the header."""
    geometry, form = geometry_of(asked, accept)
    with version.held():
        found = placed(version)
        stops = [asked["from"], *asked.get("via", ()), asked["to"]]
        snaps = [snap_of(found.places, asked["from"], "from"),
                 *await snaps_of(found.places, asked.get("via", ()), "via"), snap_of(found.places, asked["to"], "to")]
        said = {name: told(asked[name]) for name in ("from", "to", "via") if name in asked}
        word = "depart" if "by" in asked else "arrive"
        more = {"by": asked["by"]} if "by" in asked else {}
        try:
            drives = await (by_arrival(found, snaps, asked["by"]) if more
                            else by_departure(found, snaps, asked["depart"]))
        except NoRoute as problem:
            return unreached(version, problem, form, {**said, **(more or timed("depart", asked["depart"]))})
    trip, lines, roads = Trip(stops, snaps, drives, {**said, **more}, word), found.places.lines, roads_of(drives)
    if form is not None:
        return await beside(roads, downloaded, form, lines, snaps, drives, version.name)
    body = await beside(roads, trip_told, trip, lines, geometry, version)
    return Response(body, 200, {"Catchup-Version": version.name}, media_type="application/json")


def unreached(version: Version, problem: NoRoute, form: str | None, said: dict[str, Any]) -> Response:
    """What is answered where there is no route; a download is refused."""
    word = "too late" if isinstance(problem, TooLate) else "unreachable"
    if form is not None:
        raise Refusal(404, word)
    return answer({"answer": word, **said}, version.name)


def geometry_of(asked: dict[str, Any], accept: str) -> tuple[str, str | None]:
    """In which form lines are answered, and the format of a download where one is asked for. Where nothing is said
    lines are there for coordinates and names of OpenStreetMap, and aren't for nodes."""
    stops = [asked["from"], *asked.get("via", ()), asked["to"]]
    geometry = asked.pop("geometry", "none" if all(stop.node is not None for stop in stops) else "geojson")
    form = asked.pop("format", None)
    if geometry == "gpx":
        geometry, form = "none", form or "gpx"
    if form is None:
        form = next((name for name, kind in FORMATS.items() if kind in accept), None)
    return geometry, None if form == "json" else form


async def by_departure(found: Placed, snaps: Sequence[Snap], depart: int) -> list[Drive]:
    """The drives that leave at a second of the first day."""
    if depart >= DAY:
        raise Refusal(400, "refused: second", hint="a second of the day is below 86400")
    return await found.places.drives(snaps, depart, found.quick)


async def by_arrival(found: Placed, snaps: Sequence[Snap], by: int) -> list[Drive]:
    """The drives that leave as late as is in time."""
    if by > MOST_SECONDS:
        raise Refusal(400, "refused: second", hint=f"a second is at most {MOST_SECONDS}")
    return await latest_over(found.places.driver, snaps, by, found.slow)


def trip_told(trip: Trip, lines: Lines, geometry: str, version: Version) -> bytes:
    """The answer's JSON."""
    first, last = trip.drives[0], trip.drives[-1]
    legs = [leg_told(drive, start, end, lines, geometry)
            for drive, start, end in zip(trip.drives, trip.stops, trip.stops[1:])]
    return (b'{"answer":"%b",%b,"depart":%d,"depart_time":"%b","arrive":%d,"arrive_time":"%b","days_later":%d,'
            b'"travel":%d,"roads":[%b],"legs":[%b],"places":[%b],"version":"%b"}') % (
        trip.word.encode(), as_json(trip.asked)[1:-1], first.depart, time_of_day(first.depart).encode(), last.arrive,
        time_of_day(last.arrive).encode(), last.arrive // DAY, last.arrive - first.depart,
        b",".join([listed(drive.roads) for drive in trip.drives if drive.roads]), b",".join(legs),
        b",".join([snap_told(snap) for snap in trip.snaps]), version.name_bytes)


def leg_told(drive: Drive, start: Stop, end: Stop, lines: Lines, geometry: str) -> bytes:
    """A leg's object in JSON."""
    told = lines.told(drive.roads, drive.begin, drive.stop) if drive.roads else lines.told_still(drive.start.point)
    line = b""
    if geometry == "geojson":
        line = b',"geometry":{"type":"LineString","coordinates":[%b]}' % told.line
    elif geometry == "polyline6":
        line = b',"geometry":%b' % as_json(encoded(drive, lines))
    return (b'{"from":%b,"to":%b,"depart":%d,"arrive":%d,"travel":%d,"roads":[%b],"seconds":[%b],"names":[%b],'
            b'"metres":[%b]%b}') % (
        as_json(start.told()), as_json(end.told()), drive.depart, drive.arrive, drive.arrive - drive.depart,
        listed(drive.roads), listed(drive.seconds), told.names, told.metres, line)


def encoded(drive: Drive, lines: Lines) -> str:
    """A drive's line as an encoded polyline; of a place that isn't left it is there twice."""
    if drive.roads:
        return lines.line_encoded(drive.roads, drive.begin, drive.stop)
    return encode_polyline(*np.array([drive.start.point, drive.end.point]).T)


def listed(numbers: list[int]) -> bytes:
    """Numbers as members of a JSON list."""
    return str(numbers)[1:-1].replace(" ", "").encode()


def snap_told(snap: Snap) -> bytes:
    """Where a place meets the network, in JSON."""
    return b'{"place":[%.6f,%.6f],"point":[%.6f,%.6f],"metres":%.1f,"name":%b}' % (
        *snap.place, *snap.point, snap.metres, as_json(snap.name or snap.ref))
