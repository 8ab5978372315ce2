"""Networks of maps for the tests of places: imported, built, and asked by a process of the program."""

from __future__ import annotations

import asyncio
import os
import random
from collections.abc import Awaitable, Callable, Sequence
from dataclasses import dataclass
from functools import cached_property
from pathlib import Path
from typing import TypeVar

import pytest
from conftest import TOP
from made_maps import THEMES
from commands import run
from place_search import Search

from catchup.places import Ask, Places, Snap
from catchup.program import AsyncChild

LIECHTENSTEIN = "liechtenstein-2013-08-03.osm.pbf"
DAY = 86_400
Found = TypeVar("Found")


@dataclass
class Town:
    """The folder of an import, with its packed file map.cu."""

    folder: Path

    @cached_property
    def places(self) -> Places:
        return Places.open(self.folder)

    @cached_property
    def search(self) -> Search:
        return Search(self.folder)

    def ask(self, asking: Callable[[Ask], Awaitable[Found]]) -> Found:
        """What a function answers that asks a process of the program over the packed file."""

        async def asked() -> Found:
            child = await AsyncChild.start(["ask", self.folder / "map.cu"])

            async def ask(lines: Sequence[str]) -> list[str]:
                return [reply.decode() for reply in await child.ask_all([line.encode() for line in lines])]

            try:
                return await asking(ask)
            finally:
                await child.close()

        return asyncio.run(asked())

    def anywhere(self, draw: random.Random) -> tuple[float, float]:
        """A place in the box around the map."""
        west, south, east, north = self.places.box
        return draw.uniform(west, east), draw.uniform(south, north)

    def somewhere(self, draw: random.Random) -> Snap:
        """Some place: anywhere, at a junction, at a bend, or a node by its number."""
        kind = draw.randrange(10)
        if kind < 2:
            found = self.places.at_node(draw.randrange(len(self.places.ground.ends.copy)))
            assert found is not None
            return found
        if kind < 4:
            points = self.places.ground.streets.places
            lon, lat = points[draw.randrange(len(points))].tolist()
            return self.places.nearest((lon, lat))[0]
        return self.places.nearest(self.anywhere(draw))[0]


def made_town(theme: str, seed: int, room: Path, *words: str) -> Town:
    """A town that is made here; `words` are options of the import."""
    source = room / "made.osm"
    THEMES[theme](seed).write(source)
    return import_map(source, room / "made", *words)


def import_map(source: Path, folder: Path, *words: str) -> Town:
    """Imports a map, and builds it."""
    ran = run("catchup-import", "osm", source, folder, "--build", *words)
    assert ran.status == 0, ran
    return Town(folder)


def real_map() -> Path:
    """The map of Liechtenstein; skips where it isn't there."""
    found = Path(os.environ.get("CATCHUP_MAPS", TOP.parent / "shared" / "maps")) / LIECHTENSTEIN
    if not found.is_file():
        pytest.skip(f"{found} isn't there: set CATCHUP_MAPS to a folder that has it")
    return found
