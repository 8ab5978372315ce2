"""What is asked of a network: routes, days, reaches, tables, latest and best departures."""

from __future__ import annotations

import asyncio
import re
from collections.abc import Callable
from dataclasses import dataclass
from typing import Any, Final

from fastapi import APIRouter, Request
from starlette.responses import Response

from catchup.service import openapi
from catchup.service.answers import answer, as_json, checked, listed, time_of_day, timed
from catchup.service.errors import Refusal
from catchup.service.limits import LARGE_TABLE, LARGE_TABLES, MOST_ENTRIES
from catchup.service.stops import as_nodes, told
from catchup.service.versions import Network, Version
from catchup.service.words import (
    DAY, Kind, bands_of, exclusive, format_of, geometry_of, second_of, stop_of, stops_of, take, via_of, within_of)

router = APIRouter()
ENDS: Final[dict[str, Kind]] = {"from": stop_of, "to": stop_of}
VIA: Final[dict[str, Kind]] = {**ENDS, "via": via_of}
LISTS: Final[dict[str, Kind]] = {"from": stops_of, "to": stops_of}
SHAPES: Final[dict[str, Kind]] = {"geometry": geometry_of, "format": format_of}
# The longest drive takes so many days of a limit's roads that nobody asks for it; behind that `l` says `too late`.
MOST_DAYS_BACK: Final = 8


@dataclass(frozen=True, slots=True)
class Leg:
    """A drive from one node to another, in seconds from the first leg's midnight; `roads` and `seconds` are JSON
    lists."""

    start: int
    end: int
    depart: int
    arrive: int
    roads: bytes
    seconds: bytes | None

    def told(self) -> bytes:
        """The leg's object in JSON."""
        seconds = b"" if self.seconds is None else b',"seconds":[%b]' % self.seconds
        return b'{"from":%d,"to":%d,"depart":%d,"arrive":%d,"travel":%d,"roads":[%b]%b}' % (
            self.start, self.end, self.depart, self.arrive, self.arrive - self.depart, self.roads, seconds)


def leg_of(reply: bytes, start: int, end: int, depart: int, day: int = 0) -> Leg:
    """The leg of a reply `arrive=A arcs=..` or `arrive=A drive=..`, which counts from a midnight `day` seconds
    later."""
    head, _, drive = reply.partition(b" ")
    arrive = int(head[7:]) + day
    if drive.startswith(b"arcs="):
        return Leg(start, end, depart, arrive, drive[5:].replace(b" ", b","), None)
    parts = drive[6:].replace(b" ", b",").split(b",") if len(drive) > 6 else []
    seconds = parts[1::2]
    if day:
        seconds = [b"%d" % (int(each) + day) for each in seconds]
    return Leg(start, end, depart, arrive, b",".join(parts[::2]), b",".join(seconds))


def drive_told(asked: dict[str, Any], legs: list[Leg], version: Version, word: str = "arrive") -> bytes:
    """The answer of a drive over legs, with what was asked."""
    first, last = legs[0], legs[-1]
    roads = b",".join(leg.roads for leg in legs if leg.roads)
    told = {"answer": word, **asked, **timed("depart", first.depart), **timed("arrive", last.arrive),
            "days_later": last.arrive // DAY, "travel": last.arrive - first.depart}
    return b'%b,"roads":[%b],"legs":[%b],"version":"%b"}' % (
        as_json(told)[:-1], roads, b",".join(leg.told() for leg in legs), version.name_bytes)


@dataclass(frozen=True, slots=True)
class PlainRoute:
    """What a plain address of a route asks: few steps, since most requests are this one."""

    start: int
    end: int
    depart: int

    @classmethod
    def of(cls, found: re.Match[bytes]) -> PlainRoute:
        """The route of an address that PLAIN_ROUTE knows."""
        start, end, second, hours, minutes, seconds = found.groups()
        depart = int(second) if second is not None else int(hours) * 3600 + int(minutes) * 60 + int(seconds or 0)
        return cls(int(start), int(end), depart)

    def line(self, version: Version) -> bytes:
        """What the program is asked."""
        return (b"v,%d,%d,%d" if version.has_seconds else b"q,%d,%d,%d") % (self.start, self.end, self.depart)

    def answer(self, version: Version, reply: bytes) -> bytes:
        """The answer of a reply; a Refusal where it is none."""
        start, end, depart, time = self.start, self.end, self.depart, time_of_day(self.depart).encode()
        if not reply.startswith(b"arrive="):
            if checked(reply) == b"unreachable":
                return b'{"answer":"unreachable","from":%d,"to":%d,"depart":%d,"depart_time":"%b","version":"%b"}' % (
                    start, end, depart, time, version.name_bytes)
        leg = leg_of(reply, start, end, depart)
        return (b'{"answer":"arrive","from":%d,"to":%d,"depart":%d,"depart_time":"%b","arrive":%d,"arrive_time":"%b",'
                b'"days_later":%d,"travel":%d,"roads":[%b],"legs":[%b],"version":"%b"}' % (
                    start, end, depart, time, leg.arrive, time_of_day(leg.arrive).encode(), leg.arrive // DAY,
                    leg.arrive - depart, leg.roads, leg.told(), version.name_bytes))


def network_of(request: Request, asked: dict[str, Any]) -> Network:
    """The network that a request is of."""
    found: Network = request.app.state.worker.network(asked.pop("profile", None))
    return found


def accepted(request: Request) -> str:
    """The header that says which format is wanted."""
    found: str = request.headers.get("accept", "")
    return found


def ready(body: bytes, version: Version) -> Response:
    """An answer whose body is there."""
    return Response(body, 200, {"Catchup-Version": version.name}, media_type="application/json")


async def drive(version: Version, start: int, end: int, depart: int, day: int = 0) -> Leg | None:
    """The best drive that leaves at a second, `day` being the midnight before; none where no walk leads."""
    kind = b"v" if version.has_seconds else b"q"
    reply = checked(await version.quick.ask(b"%b,%d,%d,%d" % (kind, start, end, depart - day)))
    return None if reply == b"unreachable" else leg_of(reply, start, end, depart, day)


async def drives(version: Version, stops: list[int], depart: int) -> list[Leg] | None:
    """The drives from stop to stop, each from the arrival of the one before; none where no walk leads."""
    legs: list[Leg] = []
    for start, end in zip(stops, stops[1:]):
        # Of the first leg the program judges whether the second is one of the day.
        leg = await drive(version, start, end, depart, depart // DAY * DAY if legs else 0)
        if leg is None:
            return None
        legs.append(leg)
        depart = leg.arrive
    return legs


@router.get("/route", **openapi.ROUTE)
async def route(request: Request) -> Response:
    """The best drive that leaves at a second, or the last one that is there in time."""
    return await route_asked(request.app.state.worker.network, request.scope["query_string"], accepted(request))


async def route_asked(network: Callable[[str | None], Network], query: bytes, accept: str) -> Response:
    """The answer to /route, of one of some networks."""
    asked = take(query, ENDS, {"via": via_of, "depart": second_of, "arrive": second_of, **SHAPES})
    version = network(asked.pop("profile", None)).current
    if exclusive(asked, ("depart", "arrive")) == "arrive":
        asked["by"] = asked.pop("arrive")
    if version.ground is not None or "by" in asked:
        return await latest_or_placed(version, asked, accept)
    asked = as_nodes(asked, VIA)
    depart = asked.pop("depart")
    with version.held():
        legs = await drives(version, [asked["from"], *asked.get("via", ()), asked["to"]], depart)
    if legs is None:
        return answer({"answer": "unreachable", **asked, **timed("depart", depart)}, version.name)
    return ready(drive_told(asked, legs, version), version)


@router.get("/latest", **openapi.LATEST)
async def latest(request: Request) -> Response:
    """The last departure that is in time."""
    asked = take(request.scope["query_string"], {**ENDS, "by": second_of}, SHAPES)
    return await latest_or_placed(network_of(request, asked).current, asked, accepted(request))


async def latest_or_placed(version: Version, asked: dict[str, Any], accept: str) -> Response:
    """A drive over places, or the last one that is in time over nodes."""
    if version.ground is None:
        return await latest_drive(version, as_nodes(asked, VIA))
    # Only maps need numpy.
    from catchup.service import route as over_places

    return await over_places.route(version, asked, accept)


async def latest_drive(version: Version, asked: dict[str, Any]) -> Response:
    """The last drive over some stops that is there by a second: leg by leg from its end, when to leave at the
    latest."""
    stops = [asked["from"], *asked.get("via", ()), asked["to"]]
    by = asked["by"]
    with version.held():
        for at in range(len(stops) - 2, -1, -1):
            word, by = await latest_departure(version, stops[at], stops[at + 1], by, is_first=at == 0)
            if word:
                return answer({"answer": word, **asked}, version.name)
        legs = await drives(version, stops, by)
    if legs is None:
        raise Refusal(500, "a drive that is in time isn't there at its departure")
    return ready(drive_told(asked, legs, version, "depart"), version)


async def latest_departure(version: Version, start: int, end: int, by: int, *, is_first: bool) -> tuple[str, int]:
    """The last second at which one can leave to be there by a second, behind an empty word; or a word in its place. The
    first leg leaves on the first day; those behind it may leave days later."""
    reply = b"too late"
    days = [0] if is_first else range(by // DAY, max(by // DAY - MOST_DAYS_BACK, -1), -1)
    for day in days:
        reply = checked(await version.slow.ask(b"l,%d,%d,%d" % (start, end, by - day * DAY)))
        if reply != b"too late":
            break
    if not reply.startswith(b"depart="):
        return reply.decode("ascii"), 0
    return "", int(reply[7:reply.index(b" ")]) + day * DAY


@router.get("/day", **openapi.DAY)
async def day(request: Request) -> Response:
    """The least arrival at each second of the day, as pieces."""
    asked = take(request.scope["query_string"], ENDS)
    version = network_of(request, asked).current
    if version.ground is not None:
        from catchup.service import days as over_places

        return await over_places.day(version, asked)
    asked = as_nodes(asked, ENDS)
    reply = checked(await version.slow.ask(b"d,%d,%d" % (asked["from"], asked["to"])))
    if reply == b"unreachable":
        return answer({"answer": "unreachable", **asked}, version.name)
    return answer({"answer": "day", **asked}, version.name, raw=("pieces", pieces_told(reply)))


Piece = tuple[int, str, int]
KINDS: Final = (b"travel", b"until", b"closed")
PIECE: Final = re.compile(rb" ([0-9]+),([a-z]+),([0-9]+)")


def pieces_told(reply: bytes) -> bytes:
    """The pieces of a day's reply as a JSON list."""
    pieces = reply.removeprefix(b"day ")
    for kind in KINDS:
        pieces = pieces.replace(b",%b," % kind, b',"kind":"%b","value":' % kind)
    return b'[{"from":%b}]' % pieces.replace(b" ", b'},{"from":')


async def pieces_of(version: Version, start: int, end: int) -> list[Piece] | None:
    """The pieces of a day, each with its second, kind and value; none where no walk leads."""
    reply = checked(await version.slow.ask(b"d,%d,%d" % (start, end)))
    if reply == b"unreachable":
        return None
    return [(int(second), kind.decode(), int(value)) for second, kind, value in PIECE.findall(reply)]


@router.get("/best", **openapi.BEST)
async def best(request: Request) -> Response:
    """The shortest drive that leaves in a window, and others that are worth a look."""
    asked = take(request.scope["query_string"], {**ENDS, "after": second_of, "before": second_of})
    version = network_of(request, asked).current
    after, before = asked["after"], asked["before"]
    if before >= DAY:
        raise Refusal(400, "refused: second", hint="a second of the day is below 86400")
    if after > before:
        raise Refusal(400, "after is behind before", hint="a window over midnight is asked for in two parts")
    if version.ground is not None:
        from catchup.service import days as over_places

        pieces = await over_places.pieces_between(version, asked["from"], asked["to"])
        asked.update({name: told(asked[name]) for name in ENDS})
    else:
        asked = as_nodes(asked, ENDS)
        pieces = await pieces_of(version, asked["from"], asked["to"])
    if pieces is None:
        return answer({"answer": "unreachable", **asked}, version.name)
    choices = choices_of(pieces, after, before)
    shortest = min(choices, key=lambda choice: (choice[1] - choice[0], -choice[0]))
    return answer({"answer": "best", **asked, "best": choice_told(shortest), "choices": [
        choice_told(choice) for choice in choices]}, version.name)


def choices_of(pieces: list[Piece], after: int, before: int) -> list[tuple[int, int]]:
    """Departures in a window with their arrivals, by rising departure: the last second of each piece, where no later
    one arrives as early. The shortest drive is among them, and of equal ones the last."""
    found: list[tuple[int, int]] = []
    ends = [second for second, _, _ in pieces[1:]] + [DAY]
    for (second, kind, value), end in zip(pieces, ends):
        depart = min(end - 1, before)
        if depart < max(second, after):
            continue
        arrive = value if kind == "until" else depart + value
        while found and found[-1][1] >= arrive:
            found.pop()
        found.append((depart, arrive))
    return found


def choice_told(choice: tuple[int, int]) -> dict[str, object]:
    depart, arrive = choice
    return {**timed("depart", depart), **timed("arrive", arrive), "days_later": arrive // DAY,
            "travel": arrive - depart}


@router.get("/reach", **openapi.REACH)
async def reach(request: Request) -> Response:
    """How soon each node is reached."""
    asked = take(request.scope["query_string"], {"from": stop_of, "depart": second_of},
                 {"within": within_of, "bands": bands_of})
    version = network_of(request, asked).current
    if version.ground is not None:
        from catchup.service import reach as over_places

        return await over_places.reach(version, asked)
    asked = as_nodes(asked, {"from": stop_of})
    reply = checked(await version.slow.ask(b"r,%d,%d" % (asked["from"], asked["depart"])))
    told = {"answer": "reach", "from": asked["from"], **timed("depart", asked["depart"])}
    return answer(told, version.name, raw=("arrive", listed(reply)))


class Tables:
    """Large tables take turns, since each is held in memory until it is whole."""

    def __init__(self) -> None:
        self.turns = asyncio.Semaphore(LARGE_TABLES)


@router.get("/table", **openapi.TABLE)
async def table(request: Request) -> Response:
    """How soon each target is reached from each source."""
    asked = take(request.scope["query_string"], {**LISTS, "depart": second_of})
    network = network_of(request, asked)
    entries = len(asked["from"]) * len(asked["to"])
    if entries > MOST_ENTRIES:
        raise Refusal(400, "refused: limit", hint=f"a table has at most {MOST_ENTRIES} entries")
    if entries <= LARGE_TABLE:
        return await make_table(network.current, asked, request)
    async with request.app.state.worker.tables.turns:
        return await make_table(network.current, asked, request)


async def make_table(version: Version, asked: dict[str, Any], request: Request) -> Response:
    """A table by a line for each source, so that others are answered between them; all of one version."""
    if version.ground is not None:
        from catchup.service import matrix as over_places

        return await over_places.table(version, asked)
    asked = as_nodes(asked, LISTS)
    places = repr(asked["to"])[1:-1].replace(" ", "").encode()
    rows: list[bytes] = []
    with version.held():
        for source in asked["from"]:
            reply = checked(await version.slow.ask(b"t,%d,1,%d,%b" % (asked["depart"], source, places)))
            rows.append(listed(reply))
            if len(rows) % 64 == 0 and await request.is_disconnected():
                raise Refusal(400, "the client is gone")
    told = {"answer": "table", "from": asked["from"], "to": asked["to"], **timed("depart", asked["depart"])}
    return answer(told, version.name, raw=("arrive", b"[" + b",".join(rows) + b"]"))
