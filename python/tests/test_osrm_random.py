"""Routes over random towns with one-way streets, hours, turn restrictions, ferries and gates: what must hold of each
answer."""

from __future__ import annotations

import asyncio
import random
from itertools import pairwise
from pathlib import Path
from typing import Any

import pytest
from made_maps import THEMES
from osrm_town import Town, town

from catchup.geometry import metres

pytestmark = pytest.mark.usefixtures("program")
ROUTES = 40
SIDES = {"uturn", "sharp right", "right", "slight right", "straight", "slight left", "left", "sharp left"}
KINDS = {"turn", "new name", "continue", "end of road", "fork", "roundabout", "exit roundabout"}


def length(places: list[list[float]]) -> float:
    """The metres of a line."""
    return sum(float(metres(*one, *other)) for one, other in pairwise(places))


def check_crossing(crossing: dict[str, Any], line: list[list[float]]) -> None:
    """An intersection has its streets in order, may be driven through, and lies on the step's line."""
    bearings, entry = crossing["bearings"], crossing["entry"]
    assert bearings == sorted(set(bearings)) and len(entry) == len(bearings)
    assert all(0 <= bearing < 360 for bearing in bearings)
    assert "out" not in crossing or entry[crossing["out"]]
    assert "in" not in crossing or 0 <= crossing["in"] < len(bearings)
    assert min(abs(x - crossing["location"][0]) + abs(y - crossing["location"][1]) for x, y in line) < 2e-6


def check_step(step: dict[str, Any]) -> None:
    """A step's maneuver is at its line's beginning, and at the first of its intersections."""
    maneuver, line, crossings = step["maneuver"], step["geometry"]["coordinates"], step["intersections"]
    first = crossings[0]
    assert maneuver["location"] == line[0] and first["location"] == pytest.approx(line[0], abs=2e-6)
    assert maneuver.get("modifier", "straight") in SIDES and step["mode"] in ("driving", "ferry")
    if "out" in first:
        assert maneuver["bearing_after"] == first["bearings"][first["out"]]
    if "in" in first:
        assert (maneuver["bearing_before"] + 180) % 360 == first["bearings"][first["in"]]
    assert step["distance"] == pytest.approx(length(line), abs=0.1 * len(line) + 0.1) and step["duration"] >= 0
    for crossing in crossings:
        check_crossing(crossing, line)


def check_leg(leg: dict[str, Any]) -> None:
    """A leg departs, arrives, and is as long as its steps and segments are."""
    steps = leg["steps"]
    assert [steps[0]["maneuver"]["type"], steps[-1]["maneuver"]["type"]] == ["depart", "arrive"]
    assert {step["maneuver"]["type"] for step in steps[1:-1]} <= KINDS
    for step in steps:
        check_step(step)
    for before, after in pairwise(steps):
        assert before["geometry"]["coordinates"][-1] == after["geometry"]["coordinates"][0]
        if before["mode"] == after["mode"] == "driving" and after["maneuver"]["type"] == "new name":
            assert (before["name"], before.get("ref")) != (after["name"], after.get("ref"))
    for name in ("distance", "duration"):
        total = sum(step[name] for step in steps)
        assert total == pytest.approx(leg[name], abs=0.06 * len(steps)) and total == pytest.approx(
            sum(leg["annotation"][name]), abs=0.01 * len(leg["annotation"][name]) + 0.1)


def address_of(places: list[str], depart: int) -> str:
    """The address of a route of which all is told."""
    return (f"/route/v1/car/{';'.join(places)}?depart={depart}&steps=true&annotations=true&geometries=geojson"
            "&overview=full")


def check_route(town: Town, places: list[str], depart: int) -> bool:
    """Whether there is a route; that it is as it must be, and as the drives are that it is made of."""
    status, told = town.ask(address_of(places, depart))
    if status != 200:
        assert (status, told["code"]) == (400, "NoRoute")
        return False
    [route] = told["routes"]
    line = route["geometry"]["coordinates"]
    parts = [step["geometry"]["coordinates"] for leg in route["legs"] for step in leg["steps"]]
    joined = [place for part in parts for place in part]
    assert [place for place, after in pairwise([*joined, None]) if place != after] == [
        place for place, after in pairwise([*line, None]) if place != after]
    for leg in route["legs"]:
        check_leg(leg)
    snaps = [town.places.nearest((float(lon), float(lat)))[0] for lon, lat in (place.split(",") for place in places)]
    legs = asyncio.run(town.places.legs(snaps, depart, town.placed().quick))
    for leg, found in zip(route["legs"], legs):
        assert (leg["depart"], leg["arrive"]) == (found.depart, found.arrive)
        assert leg["distance"] == pytest.approx(sum(piece.metres for piece in found.pieces), abs=0.1)
    return True


def somewhere(town: Town, draw: random.Random) -> str:
    """A place on a map, or at the very end of one of its roads."""
    west, south, east, north = town.places.box
    lon, lat = draw.uniform(west, east), draw.uniform(south, north)
    if draw.random() < 0.3:
        lon, lat = town.places.lines.place(draw.randrange(len(town.places.lines.metres)), 1 - 1e-5)
    return f"{lon:.6f},{lat:.6f}"


@pytest.mark.parametrize("seed", [1, 2])
@pytest.mark.parametrize("theme", THEMES)
def test_routes_of_random_towns(tmp_path: Path, theme: str, seed: int) -> None:
    draw = random.Random(f"{theme} {seed}")
    with town(THEMES[theme](seed), tmp_path) as found:
        asked = [([somewhere(found, draw) for _ in range(draw.choice((2, 2, 3)))], draw.randrange(86_400))
                 for _ in range(ROUTES)]
        driven = sum(check_route(found, *each) for each in asked)
        told = [found.ask(address_of(*each)) for each in asked]
        # What is told doesn't depend on what was asked before.
        vars(found.places.ground).pop("osrm_guide")
        for at in draw.sample(range(len(asked)), len(asked)):
            assert found.ask(address_of(*asked[at])) == told[at]
    assert driven > ROUTES / 4
