"""What the page needs of a served network: its sheet, levels, names and traffic, made once they are asked for."""

from __future__ import annotations

import asyncio
import hashlib
from functools import cached_property
from typing import TYPE_CHECKING, Any
from weakref import WeakKeyDictionary

import numpy as np

from catchup.service.errors import Refusal
from catchup.service.page.levels import Level, levels_of
from catchup.service.page.search import Search
from catchup.service.page.sheet import Sheet, of_ground, of_tables
from catchup.service.page.traffic import Traffic
from catchup.service.placed import profiles_of, roads_of

if TYPE_CHECKING:
    from catchup.places import Places
    from catchup.service.versions import Network, Version
    from catchup.service.worker import Worker


class Drawn:
    """A network as the page draws it."""

    def __init__(self, sheet: Sheet, places: Places | None) -> None:
        self.sheet = sheet
        self.places = places
        self.levels: list[Level] = levels_of(sheet)
        self.search = Search(sheet, places)
        self._traffic: WeakKeyDictionary[Any, Traffic] = WeakKeyDictionary()

    @cached_property
    def name(self) -> str:
        """A word that differs from that of another network, so that a browser keeps its tiles."""
        found = hashlib.blake2b(digest_size=6)
        for values in (self.sheet.x, self.sheet.y, self.sheet.first, self.sheet.rank):
            found.update(np.ascontiguousarray(values).tobytes())
        return found.hexdigest()

    def level(self, zoom: int) -> Level:
        """The level of a zoom; a Refusal where there is none."""
        for level in self.levels:
            if level.zoom == zoom:
                return level
        raise Refusal(404, "there is no level of this zoom")

    async def traffic(self, version: Version) -> Traffic:
        """The travel functions of a version."""
        found = self._traffic.get(version)
        if found is None:
            found = self._traffic[version] = await asyncio.to_thread(traffic_of, version)
        return found


def traffic_of(version: Version) -> Traffic:
    """Reads the travel functions of a version from its file."""
    return Traffic(roads_of(version.descriptor)[:, 2].astype(np.int32), profiles_of(version.descriptor))


_made: WeakKeyDictionary[Network, asyncio.Task[Drawn]] = WeakKeyDictionary()


async def drawn_of(worker: Worker, network: Network) -> Drawn:
    """What the page needs of a network, made once; a Refusal where nobody knows its places."""
    if network.ground is None and network not in worker.drawn:
        raise Refusal(404, "the service knows no places",
                      hint="start it with --tables DIR, the folder of its tables or of an import")
    if network not in _made:
        _made[network] = worker.keep(asyncio.to_thread(draw, network.ground, worker.drawn.get(network)))
    return await asyncio.shield(_made[network])


def draw(places: Places | None, tables: bytes | None) -> Drawn:
    """Draws a network of a map's places, or of its tables."""
    if places is not None:
        return Drawn(of_ground(places.ground), places)
    assert tables is not None
    return Drawn(of_tables(tables), None)
