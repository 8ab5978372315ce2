"""Made maps that answer OSRM's addresses, without a service: the places of the map, and a process of the program."""

from __future__ import annotations

import asyncio
import contextlib
import json
from collections.abc import Iterator, Sequence
from pathlib import Path
from types import SimpleNamespace
from typing import Any

from osrm_grid import Written, import_map, place_of

from catchup.places import Places
from catchup.program import Child
from catchup.service.osrm.paths import Osrm
from catchup.service.placed import Placed

VERSION = "0123456789ab"
Step = dict[str, Any]


class Town:
    """A network that is made of a map, with a program that answers of it."""

    def __init__(self, made: Written, folder: Path, **options: Any) -> None:
        self.made: Any = made
        target = import_map(made, folder, **options)
        self.places = Places.open(target)
        self.child = Child(["ask", target / "map.cu"])
        self.osrm = Osrm(lambda profile: self.placed() if profile == "car" else None, lambda: 28_800, lambda: VERSION)

    def __enter__(self) -> Town:
        self.child.__enter__()
        return self

    def __exit__(self, *problem: Any) -> None:
        self.child.__exit__(*problem)

    def placed(self) -> Placed:
        """What a service hands to OSRM's paths."""
        async def ask(lines: Sequence[str]) -> Sequence[str]:
            return [self.child.ask(line) for line in lines]

        version: Any = SimpleNamespace(name=VERSION, held=contextlib.nullcontext)
        return Placed(version, self.places, ask, ask)

    def ask(self, address: str) -> tuple[int, Any]:
        """The status and the JSON of an answer."""
        path, _, query = address.partition("?")
        found = asyncio.run(self.osrm.answer(path.encode("ascii"), query.encode("ascii")))
        assert found.version == VERSION
        return found.status, json.loads(found.body)

    def get(self, service: str, places: Sequence[int | tuple[float, float]], **options: str) -> Any:
        """The JSON of an answer, which is one, over nodes of the map or places in metres."""
        query = "&".join(f"{name}={value}" for name, value in options.items())
        status, told = self.ask(f"/{service}/v1/car/{';'.join(map(self.place, places))}?{query}")
        assert (status, told["code"], told["data_version"]) == (200, "Ok", VERSION), told
        return told

    def place(self, of: int | tuple[float, float]) -> str:
        """A node of the map, or a place in metres east and north of its corner, as OSRM has it."""
        return place_of(*(self.made.nodes[of][:2] if isinstance(of, int) else of))

    def steps(self, *places: int | tuple[float, float], **options: str) -> list[Step]:
        """The steps of a route."""
        [route] = self.get("route", places, steps="true", geometries="geojson", **options)["routes"]
        return [step for leg in route["legs"] for step in leg["steps"]]

    def told(self, *places: int | tuple[float, float], **options: str) -> list[str]:
        """What a driver is told: each step's maneuver and street."""
        return [said(step) for step in self.steps(*places, **options)]


def said(step: Step) -> str:
    """A step in short: `turn left into Street`, with the exit of a roundabout."""
    maneuver = step["maneuver"]
    words = [maneuver["type"], maneuver.get("modifier", ""), f"exit {maneuver['exit']}" if "exit" in maneuver else "",
             f"({step['rotary_name']})" if "rotary_name" in step else "",
             f"into {step['name'] or step.get('ref', '-')}" if maneuver["type"] != "arrive" else ""]
    return " ".join(word for word in words if word)


@contextlib.contextmanager
def town(made: Written, folder: Path, **options: Any) -> Iterator[Town]:
    """A made map that is asked."""
    with Town(made, folder, **options) as found:
        yield found
