"""What is reached from a place: each node, or within some seconds roads and the ground around them."""

from __future__ import annotations

import asyncio
from collections.abc import Iterator
from typing import Any, Final

import numpy as np
from starlette.responses import Response

from catchup.beside import beside
from catchup.places.bands import bands
from catchup.places.lines import Lines
from catchup.places.matrix import ENTRIES, Floats
from catchup.places.reach import Reached, node_times, reached
from catchup.service.answers import answer, as_json, timed
from catchup.service.errors import Refusal
from catchup.service.placed import Placed, placed
from catchup.service.stops import snap_of, told
from catchup.service.versions import Version
from catchup.service.words import DAY

BANDS: Final = 3
AT_ONCE: Final = 256                    # roads that are written before others get their turn


async def reach(version: Version, asked: dict[str, Any]) -> Response:
    """The answer to /reach over places."""
    found, depart = placed(version), asked["depart"]
    if depart >= DAY:
        raise Refusal(400, "refused: second", hint="a second of the day is below 86400")
    snap = snap_of(found.places, asked["from"], "from")
    said = {"answer": "reach", "from": told(asked["from"]), **timed("depart", depart)}
    if "within" in asked:
        return await reach_within(found, said, asked)
    with version.held():
        times = await node_times(found.places.driver, snap, depart, found.slow)
    return answer(said, version.name, raw=("arrive", await beside(len(times) // ENTRIES, listed, times)))


def listed(times: Floats) -> bytes:
    """Times as JSON, to the nearest second."""
    arrive = np.where(np.isfinite(times), np.floor(times + 0.5), -1).astype(np.int64)
    return as_json(arrive.tolist()).replace(b"-1", b"null")


async def reach_within(found: Placed, said: dict[str, Any], asked: dict[str, Any]) -> Response:
    """A FeatureCollection: the ground that is reached within each part of the time, the longest first, and the
    roads."""
    depart, within, version = asked["depart"], asked["within"], found.version
    count = asked.get("bands", BANDS)
    snap = snap_of(found.places, asked["from"], "from")
    with version.held():
        of = await reached(found.places.driver, found.places.ground.streets, snap, depart, depart + within, found.slow)
    limits = [within * part // count for part in range(1, count + 1)]
    features: list[bytes] = []
    if len(of.road) and count:
        parts = [of.within(depart + limit) for limit in limits]
        shapes = await asyncio.to_thread(bands, found.places.lines, parts)
        features += [as_json({"type": "Feature", "properties": {"kind": "band", "within": limit}, "geometry": shape})
                     for limit, shape in reversed(list(zip(limits, shapes)))]
    for told_roads in roads_told(found.places.lines, of, depart):
        features.append(told_roads)
        await asyncio.sleep(0)
    body = b'{"type":"FeatureCollection",%b,"version":"%b","features":[%b]}' % (
        as_json({**said, "within": within})[1:-1], version.name_bytes, b",".join(features))
    return Response(body, 200, {"Catchup-Version": version.name}, media_type="application/geo+json")


def roads_told(lines: Lines, of: Reached, depart: int) -> Iterator[bytes]:
    """The reached roads as features, some at a time."""
    roads, begins, ends = of.road.tolist(), of.begin.tolist(), of.end.tolist()
    entered, left = (np.round(times - depart, 1).tolist() for times in (of.entered, of.left))
    rows = list(zip(roads, begins, ends, entered, left))
    for at in range(0, len(rows), AT_ONCE):
        yield b",".join([
            b'{"type":"Feature","properties":{"kind":"road","road":%d,"name":%b,"from":%.1f,"to":%.1f},'
            b'"geometry":{"type":"LineString","coordinates":[%b]}}' % (
                road, told.names, came, went, told.line)
            for road, begin, end, came, went in rows[at:at + AT_ONCE] if (told := lines.told([road], begin, end))])
