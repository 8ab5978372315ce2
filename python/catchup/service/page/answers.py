"""What the page's paths answer of a network."""

from __future__ import annotations

import asyncio
from typing import Any, Final

from fastapi import Request
from starlette.responses import Response

from catchup.places.values import NoRoute, TooLate
from catchup.service.answers import answer, as_json
from catchup.service.errors import Refusal
from catchup.service.page.drives import find, plain_told, trip_told
from catchup.service.page.network import Drawn, drawn_of
from catchup.service.page.reach import grounds, plain_times, street_bands
from catchup.service.page.search import Hit, word_of
from catchup.service.page.sheet import WORLD, ZOOM, degrees_of
from catchup.service.page.traffic import Traffic
from catchup.service.placed import placed
from catchup.service.reads import ENDS, route_asked
from catchup.service.stops import as_nodes, snap_of
from catchup.service.versions import Network, Version
from catchup.service.words import DAY, bands_of, exclusive, number_of, second_of, stop_of, take, via_of, within_of
from catchup.service.worker import Worker, worker_of

BYTES: Final = "application/octet-stream"
JSON: Final = "application/json"
LONGEST_SEARCH: Final = 200
KEPT: Final = {"Cache-Control": "private, max-age=86400, immutable"}
FRESH: Final = {"Cache-Control": "no-store"}


def text_of(word: str) -> str:
    """A text that somebody types."""
    return word[:LONGEST_SEARCH]


def world_number(word: str) -> int:
    """A coordinate in the world."""
    number = number_of(word)
    if number >= WORLD:
        raise ValueError(word)
    return number


HERE: Final[dict[str, Any]] = {"x": world_number, "y": world_number}
TIMES: Final[dict[str, Any]] = {"via": via_of, "depart": second_of, "arrive": second_of}
REACH: Final[dict[str, Any]] = {"from": stop_of, "depart": second_of, "within": within_of, "bands": bands_of}


async def asked_of(request: Request, needed: dict[str, Any], optional: dict[str, Any] | None = None) -> tuple[
        dict[str, Any], Worker, Network, Drawn]:
    """What a request asks, of which worker and network, and what that is drawn from."""
    asked = take(request.scope["query_string"], needed, optional)
    worker = worker_of(request)
    network = worker.network(asked.pop("profile", None))
    return asked, worker, network, await drawn_of(worker, network)


async def map_told(worker: Worker, network: Network) -> dict[str, Any]:
    """What the page has to know of a network before it draws any of it."""
    drawn = await drawn_of(worker, network)
    sheet = drawn.sheet
    return {"name": drawn.name, "is_plane": not sheet.has_map, "box": sheet.box, "zoom": ZOOM, "mean": sheet.mean,
            "streets": len(sheet), "roads": len(sheet.of_road), "nodes": len(sheet.nodes),
            "levels": [level.zoom for level in drawn.levels]}


async def roads(request: Request) -> Response:
    """The roads of a tile. Browsers keep it under the name of the map that it is asked of, so it is of that or none."""
    asked, _, network, drawn = await asked_of(request, {"of": text_of})
    if asked["of"] != drawn.name:
        raise Refusal(409, "the map is another one now", hint="load the page again")
    try:
        zoom, column, row = (number_of(request.path_params[name]) for name in ("zoom", "column", "row"))
    except ValueError:
        raise Refusal(404, "there is nothing of this path") from None
    body = drawn.level(zoom).tile(column, row) if max(column, row) < 1 << zoom else drawn.level(zoom).tile(0, 0)
    return Response(body, media_type=BYTES, headers={**KEPT, "Catchup-Version": network.current.name})


async def traffic(request: Request) -> Response:
    """How slow each street is at a second of the day: a byte for each."""
    asked, _, network, drawn = await asked_of(request, {"at": second_of})
    version = network.current
    found = (await drawn.traffic(version)).streets(drawn.sheet, asked["at"] % DAY)
    return Response(found.tobytes(), media_type=BYTES, headers={"Catchup-Version": version.name, **FRESH})


async def street(request: Request) -> Response:
    """A street: its name, its line, and the roads of both directions with their days."""
    asked, _, network, drawn = await asked_of(request, {}, {"street": number_of, "road": number_of})
    sheet, number = drawn.sheet, asked.get("street")
    if "road" in asked and asked["road"] < len(sheet.of_road):
        number = int(sheet.of_road[asked["road"]])
    if number is None or number >= len(sheet):
        raise Refusal(404, "there is no such street")
    version = network.current
    of = await drawn.traffic(version)
    ways = [way_told(of, roads, is_forward) for is_forward in (True, False) if (roads := [
        road for road in sheet.roads(number) if bool(sheet.is_forward[road]) == is_forward])]
    told: dict[str, Any] = {
        "street": number, "name": drawn.search.name_of(number), "line": sheet.line(number), "ways": ways}
    if drawn.places is not None:
        lead = int(sheet.lead[number])
        told |= {"class": drawn.places.lines.kind(lead), "metres": round(float(drawn.places.lines.metres[lead]), 1)}
    return answer(told, version.name)


def way_told(of: Traffic, roads: list[int], is_forward: bool) -> dict[str, Any]:
    """The roads of one direction: their day, and the profile and the day of each, by which an edit is undone."""
    profiles = [int(of.profile[road]) for road in roads]
    free = float(of.free[profiles[0]])
    before = [{"road": road, "profile": profile, "pieces": of.pieces(profile)}
              for road, profile in zip(roads, profiles)]
    return {"roads": roads, "is_forward": is_forward, "pieces": of.pieces(profiles[0]),
            "free": free if free < DAY else None, "before": before}


async def profile(request: Request) -> Response:
    """The day of a profile."""
    asked, _, network, drawn = await asked_of(request, {"number": number_of})
    version = network.current
    of = await drawn.traffic(version)
    if asked["number"] >= len(of.free):
        raise Refusal(404, "there is no such profile")
    return answer({"pieces": of.pieces(asked["number"])}, version.name)


async def search(request: Request) -> Response:
    """The places that are meant by what somebody types."""
    asked, _, network, drawn = await asked_of(request, {"q": text_of}, HERE)
    west, north, east, south = drawn.sheet.box
    near = asked.get("x", (west + east) // 2), asked.get("y", (north + south) // 2)
    hits = await asyncio.to_thread(drawn.search.find, asked["q"], near)
    return answer({"places": [hit.told() for hit in hits]}, network.current.name)


async def near(request: Request) -> Response:
    """The place of a click: on the nearest road of a map, else the nearest node."""
    asked, _, network, drawn = await asked_of(request, HERE)
    x, y = asked["x"], asked["y"]
    if drawn.places is None:
        nodes = drawn.sheet.nodes.astype("f8")
        if not len(nodes):
            raise Refusal(404, "the network has no nodes")
        hit = drawn.search.at_node(int(((nodes[:, 0] - x) ** 2 + (nodes[:, 1] - y) ** 2).argmin()))
    else:
        stop = stop_of(",".join(f"{value:.6f}" for value in degrees_of(x, y)))
        snap = snap_of(drawn.places, stop, "this place")
        hit = Hit(word_of(x, y), snap.name or snap.ref or "Unnamed road", "", x, y)
    return answer(hit.told(), network.current.name)


async def route(request: Request) -> Response:
    """As /route, as the page draws it."""
    asked, worker, network, drawn = await asked_of(request, ENDS, TIMES)
    version = network.current
    of = await drawn.traffic(version)
    if drawn.places is None:
        plain = await route_asked(worker.network, request.scope["query_string"], "")
        return answer(plain_told(bytes(plain.body), drawn, of), version.name)
    if exclusive(asked, ("depart", "arrive")) == "arrive":
        asked["by"] = asked.pop("arrive")
    try:
        told = trip_told(await find(placed(version), asked), drawn, of)
    except NoRoute as problem:
        told = {"answer": "too late" if isinstance(problem, TooLate) else "unreachable"}
    return answer(told, version.name)


async def times_of(version: Version, drawn: Drawn, asked: dict[str, Any]) -> Any:
    """When each node is reached."""
    if drawn.places is None:
        return await plain_times(version, as_nodes({"from": asked["from"]}, {"from": stop_of})["from"], asked["depart"])
    from catchup.places.reach import node_times

    found = placed(version)
    snap = snap_of(found.places, asked["from"], "from")
    with version.held():
        return await node_times(found.places.driver, snap, asked["depart"], found.slow)


async def reach(request: Request) -> Response:
    """The band of each street: a byte for each."""
    asked, _, network, drawn = await asked_of(request, REACH)
    version, depart = network.current, asked["depart"] % DAY
    of = await drawn.traffic(version)
    times = await times_of(version, drawn, {**asked, "depart": depart})
    found = street_bands(drawn, of, times, depart, asked["within"], max(asked["bands"], 1))
    if drawn.places is not None:
        # Where one begins one is at once.
        found[snap_of(drawn.places, asked["from"], "from").street] = 0
    return Response(found.tobytes(), media_type=BYTES, headers={"Catchup-Version": version.name, **FRESH})


async def ground(request: Request) -> Response:
    """The ground of each band, of a map alone."""
    asked, _, network, drawn = await asked_of(request, REACH)
    version = network.current
    if drawn.places is None:
        return answer({"bands": []}, version.name)
    found = placed(version)
    snap = snap_of(found.places, asked["from"], "from")
    bands = await grounds(found, snap, asked["depart"] % DAY, asked["within"], max(asked["bands"], 1))
    return Response(as_json({"bands": bands, "version": version.name}), media_type=JSON,
                    headers={"Catchup-Version": version.name})


ANSWERS: Final = {"roads": roads, "traffic": traffic, "street": street, "search": search, "near": near, "route": route,
                  "reach": reach, "ground": ground, "profile": profile}
