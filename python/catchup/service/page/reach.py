"""What is reached, as the page draws it: a band for each street, and the ground of each band."""

from __future__ import annotations

import asyncio
from typing import TYPE_CHECKING, Any, Final

import numpy as np

from catchup.service.answers import checked
from catchup.service.page.sheet import world_of

if TYPE_CHECKING:
    from catchup.service.page.network import Drawn
    from catchup.service.page.sheet import Bytes, Floats
    from catchup.service.page.traffic import Traffic
    from catchup.service.placed import Placed
    from catchup.places.values import Snap
    from catchup.service.versions import Version

UNREACHED: Final = 255
MOST_ROADS: Final = 30_000
"""Reached roads around which a ground is drawn: of more the roads alone are shown."""


async def plain_times(version: Version, node: int, depart: int) -> Floats:
    """When each node is reached of a network without a map, float64[n]; infinite where no way leads."""
    reply = checked(await version.slow.ask(b"r,%d,%d" % (node, depart)))
    found = np.fromstring(reply[5:].replace(b"-", b"-1").decode("ascii"), dtype=np.int64, sep=" ")
    return np.where(found < 0, np.inf, found.astype(np.float64))


def street_bands(drawn: Drawn, traffic: Traffic, times: Floats, depart: int, within: int, count: int) -> Bytes:
    """The band of each street, uint8[s]: that in which its middle is reached, UNREACHED where it isn't in time."""
    sheet = drawn.sheet
    takes, _ = traffic.at(depart)
    entered = times[sheet.tail] - depart
    with np.errstate(invalid="ignore"):
        middle = entered + takes[traffic.profile] / 2
        band = np.where(middle < within, np.floor(middle * count / within), UNREACHED)
    return sheet.by_street(np.minimum, band.astype(np.uint8))


async def grounds(found: Placed, snap: Snap, depart: int, within: int, count: int) -> list[dict[str, Any]]:
    """The ground of each band, the longest first: its seconds, and its polygons, of rings of x and y in the world."""
    from catchup.places.bands import bands
    from catchup.places.reach import reached

    places, version = found.places, found.version
    with version.held():
        of = await reached(places.driver, places.ground.streets, snap, depart, depart + within, found.slow)
    if not 0 < len(of.road) <= MOST_ROADS:
        return []
    limits = [within * part // count for part in range(1, count + 1)]
    shapes = await asyncio.to_thread(bands, places.lines, [of.within(depart + limit) for limit in limits])
    return [{"within": limit, "polygons": [[ring_told(ring) for ring in polygon] for polygon in shape["coordinates"]]}
            for limit, shape in reversed(list(zip(limits, shapes)))]


def ring_told(ring: list[list[float]]) -> list[int]:
    """A ring's x and y in the world."""
    found: list[int] = np.column_stack(world_of(np.array(ring))).ravel().tolist()
    return found
