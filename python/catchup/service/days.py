"""The whole day between two places, and the best departures of a window."""

from __future__ import annotations

from typing import Any

from starlette.responses import Response

from catchup.places import days
from catchup.places.values import NoRoute, Snap
from catchup.service.answers import answer
from catchup.service.placed import Placed, placed
from catchup.service.stops import snap_of, told
from catchup.service.versions import Version
from catchup.service.words import Stop

Piece = tuple[int, str, int]


async def day(version: Version, asked: dict[str, Any]) -> Response:
    """The answer to /day over places: the pieces, and a best way for each second of the day."""
    found = placed(version)
    start, end, said = ends_of(found, asked)
    try:
        with version.held():
            arrivals = await days.arrivals(found.places.driver, start, end, found.slow)
            choices = await days.choices(found.places.driver, start, end, arrivals, found.quick)
    except NoRoute:
        return answer({"answer": "unreachable", **said}, version.name)
    pieces = [{"from": piece.start, "kind": piece.kind, "value": piece.value} for piece in days.pieces_of(arrivals)]
    routes = [{"from": choice.second, "roads": choice.drive.roads} for choice in choices]
    return answer({"answer": "day", **said, "pieces": pieces, "routes": routes}, version.name)


async def pieces_between(version: Version, start: Stop, end: Stop) -> list[Piece] | None:
    """The pieces of a day, each with its second, kind and value; none where no way leads."""
    found = placed(version)
    one, other, _ = ends_of(found, {"from": start, "to": end})
    try:
        with version.held():
            arrivals = await days.arrivals(found.places.driver, one, other, found.slow)
    except NoRoute:
        return None
    return [(piece.start, piece.kind, piece.value) for piece in days.pieces_of(arrivals)]


def ends_of(found: Placed, asked: dict[str, Any]) -> tuple[Snap, Snap, dict[str, object]]:
    """Where the ends of a drive meet the network, and what an answer says of them."""
    start, end = (snap_of(found.places, asked[name], name) for name in ("from", "to"))
    return start, end, {name: told(asked[name]) for name in ("from", "to")}
