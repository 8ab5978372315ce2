"""What a driver is told on made maps: turns, forks, ends of roads, roundabouts, ramps and ferries."""

from __future__ import annotations

import math
from pathlib import Path
from typing import Any

import pytest
from osm_maps import OsmMap
from osrm_town import town

pytestmark = pytest.mark.usefixtures("program")


def cross(made: OsmMap, **arms: dict[str, Any]) -> OsmMap:
    """Streets from node 1 to nodes at 500 m: `at90` leads east to node 90."""
    made.node(1, 0, 0)
    for name, tags in arms.items():
        degrees = int(name.removeprefix("at"))
        made.node(1000 + degrees, 500 * math.sin(math.radians(degrees)), 500 * math.cos(math.radians(degrees)))
        made.way([1, 1000 + degrees], **{"highway": "residential", **tags})
    return made


def on(made: OsmMap, folder: Path, *nodes: int, **options: str) -> list[str]:
    with town(made, folder) as found:
        return found.told(*nodes, **options)


@pytest.mark.parametrize(("degrees", "said"), [
    (10, "new name straight"), (30, "turn slight right"), (90, "end of road right"), (135, "turn sharp right"),
    (225, "turn sharp left"), (270, "end of road left"), (330, "turn slight left")])
def test_turns_by_their_angle(tmp_path: Path, degrees: int, said: str) -> None:
    other = "at60" if degrees > 180 else "at300"
    made = cross(OsmMap(), **{"at180": {"name": "A"}, f"at{degrees}": {"name": "B"}, other: {"name": "C"}})
    assert on(made, tmp_path, 1180, 1000 + degrees) == ["depart into A", f"{said} into B", "arrive"]


def test_a_crossing(tmp_path: Path) -> None:
    made = cross(OsmMap(), at0={"name": "Main"}, at90={"name": "East"}, at180={"name": "Main"}, at270={"name": "West"})
    with town(made, tmp_path) as found:
        assert found.told(1180, 1000) == ["depart into Main", "arrive"]
        assert found.told(1180, 1090) == ["depart into Main", "turn right into East", "arrive"]
        assert found.told(1090, 1270) == ["depart into East", "new name straight into West", "arrive"]
        [depart, turn, arrive] = found.steps(1180, 1090)
    assert depart["maneuver"] == {"type": "depart", "location": depart["maneuver"]["location"], "bearing_before": 0,
                                  "bearing_after": 0}
    assert [turn["maneuver"][name] for name in ("bearing_before", "bearing_after")] == [0, 90]
    [crossing] = turn["intersections"]
    assert crossing["bearings"] == [0, 90, 180, 270] and crossing["entry"] == [True] * 4
    assert (crossing["in"], crossing["out"]) == (2, 1) and crossing["location"] == turn["maneuver"]["location"]
    assert arrive["intersections"] == [{"in": 0, "entry": [True], "bearings": [270],
                                        "location": arrive["maneuver"]["location"]}]
    assert depart["intersections"][0] == {"out": 0, "entry": [True], "bearings": [0],
                                          "location": depart["maneuver"]["location"]}


def test_one_way_streets_and_forbidden_turns_are_no_entries(tmp_path: Path) -> None:
    """From the south one may drive on and turn round: to the right a street leads here alone, to the left is
    forbidden."""
    made = cross(OsmMap(), at0={"name": "Main"}, at90={"name": "In", "oneway": "-1"}, at180={"name": "Main"},
                 at270={"name": "Out", "oneway": "yes"})
    made.restrict(3, 1, 4, "no_left_turn")
    made.way([1270, 1090], highway="residential", name="Back")
    with town(made, tmp_path) as found:
        [crossing] = found.steps(1180, 1000)[0]["intersections"][1:]
        assert (crossing["in"], crossing["out"], crossing["entry"]) == (2, 0, [True, False, True, False])
        assert found.told(1180, 1270)[1] == "continue uturn into Main"
        [_, crossing] = [step["intersections"][0] for step in found.steps(1000, 1270)[:2]]
        assert (crossing["in"], crossing["out"], crossing["entry"]) == (0, 3, [True, False, True, True])


def test_ends_of_roads(tmp_path: Path) -> None:
    made = cross(OsmMap(), at90={"name": "Cross"}, at180={"name": "Side"}, at270={"name": "Cross"})
    with town(made, tmp_path) as found:
        assert found.told(1180, 1090)[1] == "end of road right into Cross"
        assert found.told(1180, 1270)[1] == "end of road left into Cross"
        assert found.told(1090, 1180)[1] == "turn left into Side"
        assert found.told(1090, 1270) == ["depart into Cross", "arrive"]


def test_forks(tmp_path: Path) -> None:
    made = cross(OsmMap(), at180={"name": "A"}, at335={"name": "B"}, at25={"name": "C"})
    with town(made, tmp_path) as found:
        assert found.told(1180, 1335)[1] == "fork slight left into B"
        assert found.told(1180, 1025)[1] == "fork slight right into C"
        assert found.told(1335, 1180)[1].startswith("new name") and found.told(1335, 1180)[1].endswith("into A")


def test_a_small_road_is_no_fork(tmp_path: Path) -> None:
    made = cross(OsmMap(), at180={"highway": "primary", "name": "A"}, at350={"highway": "primary", "name": "A"},
                 at20={"highway": "service", "name": "Yard"})
    with town(made, tmp_path) as found:
        assert found.told(1180, 1350) == ["depart into A", "arrive"]
        assert found.told(1180, 1020)[1] == "turn slight right into Yard"


def test_a_street_that_bends_is_told_where_another_goes_on(tmp_path: Path) -> None:
    made = cross(OsmMap(), at180={"name": "A"}, at90={"name": "A"}, at0={"name": "B"})
    with town(made, tmp_path) as found:
        assert found.told(1180, 1090)[1] == "continue right into A"
        assert found.told(1180, 1000)[1] == "new name straight into B"


def test_a_bend_without_another_road_is_not_told(tmp_path: Path) -> None:
    made = cross(OsmMap(), at180={"name": "A"}, at90={"name": "A"})
    made.node(2, 900, 0)
    made.way([1090, 2], highway="residential", name="A")
    assert on(made, tmp_path, 1180, 2) == ["depart into A", "arrive"]


def test_names_that_change_in_the_middle_of_a_road(tmp_path: Path) -> None:
    made = OsmMap()
    row = made.row(4, step=200.0)
    made.way(row[:2], highway="residential", name="A")
    made.way(row[1:3], highway="residential", name="B", ref="L 5")
    made.way(row[2:], highway="residential")
    with town(made, tmp_path) as found:
        assert found.told(1, 4) == ["depart into A", "new name straight into B", "arrive"]
        [first, second, last] = found.steps(1, 4)
        assert found.told(4, 1) == ["depart into -", "new name straight into B", "new name straight into A", "arrive"]
    assert [step["distance"] for step in (first, second, last)] == [200.0, 400.0, 0.0]
    assert second["ref"] == "L 5" and "ref" not in first
    assert second["intersections"] == [{"in": 1, "out": 0, "entry": [True, False], "bearings": [0, 180],
                                        "location": second["maneuver"]["location"]}]
    assert second["duration"] == pytest.approx(2 * first["duration"], abs=0.2)


def test_a_street_without_a_name_for_a_while(tmp_path: Path) -> None:
    made = OsmMap()
    row = made.row(4, step=200.0)
    for at, name in enumerate(("A", "", "A")):
        made.way(row[at:at + 2], highway="residential", **({"name": name} if name else {}))
    assert on(made, tmp_path, 1, 4) == ["depart into A", "arrive"]


def ring(name: str = "", radius: float = 40.0) -> OsmMap:
    """A roundabout, driven against the clock, with arms at 0 (North), 90 (East), 180 (South) and 270 degrees (West)."""
    made = OsmMap()
    for number, (x, y) in enumerate([(0, 1), (-1, 0), (0, -1), (1, 0)], 1):
        made.node(number, radius * x, radius * y)
        made.node(10 + number, 600 * x, 600 * y)
        made.node(20 + number, radius * 0.7 * (x - y), radius * 0.7 * (y + x))
    made.way([1, 21, 2, 22, 3, 23, 4, 24, 1], highway="tertiary", junction="roundabout",
             **({"name": name} if name else {}))
    for number, street in enumerate(("North", "West", "South", "East"), 1):
        made.way([number, 10 + number], highway="tertiary", name=street)
    return made


@pytest.mark.parametrize(("end", "number", "street"), [(14, 1, "East"), (11, 2, "North"), (12, 3, "West")])
def test_roundabouts_have_exits(tmp_path: Path, end: int, number: int, street: str) -> None:
    with town(ring(), tmp_path) as found:
        assert found.told(13, end) == ["depart into South", f"roundabout right exit {number} into {street}",
                                       f"exit roundabout right exit {number} into {street}", "arrive"]
        [_, inside, left, _] = found.steps(13, end)
    assert len(inside["intersections"]) == number and len(left["intersections"]) == 1
    assert inside["geometry"]["coordinates"][-1] == left["geometry"]["coordinates"][0]


def test_a_roundabout_with_a_name_is_a_rotary(tmp_path: Path) -> None:
    with town(ring("Star"), tmp_path) as found:
        assert found.told(13, 11) == ["depart into South", "rotary right exit 2 (Star) into North",
                                      "exit rotary right exit 2 into North", "arrive"]
        assert found.told(13, (-40.0, 0.0)) == ["depart into South", "roundabout right into Star", "arrive"]
        assert found.told((-40.0, 1.0), 11) == ["depart into Star", "exit roundabout right exit 4 into North", "arrive"]


def test_ramps(tmp_path: Path) -> None:
    """A road to a motorway, a part of it, and a road from it."""
    made = OsmMap()
    row = made.row(6, step=500.0)
    made.way(row, highway="motorway", name="A 1", ref="A 1")
    for number, x, y in ((20, 600, 200), (21, 600, 2300), (22, 900, 200), (23, 900, 2300)):
        made.node(number, x, y)
    made.way([20, 2], highway="motorway_link", oneway="yes")
    made.way([5, 21], highway="motorway_link", oneway="yes")
    made.way([22, 20], highway="primary", name="In"), made.way([21, 23], highway="primary", name="Out")
    made.way([20, 21], highway="service")
    assert on(made, tmp_path, 22, 23) == [
        "depart into In", "on ramp slight right into -", "merge right into A 1", "off ramp right into -",
        "new name slight right into Out", "arrive"]


def test_ferries(tmp_path: Path) -> None:
    made = OsmMap()
    row = made.row(4, step=1000.0)
    made.way(row[:2], highway="residential", name="Quay")
    made.way(row[1:3], route="ferry", name="Boat", duration="00:10")
    made.way(row[2:], highway="residential", name="Beach")
    with town(made, tmp_path) as found:
        assert found.told(1, 4) == ["depart into Quay", "new name straight into Boat", "new name straight into Beach",
                                    "arrive"]
        assert [step["mode"] for step in found.steps(1, 4)] == ["driving", "ferry", "driving", "driving"]


def test_walkers_walk(tmp_path: Path) -> None:
    made = OsmMap()
    made.way(made.row(3, step=300.0), highway="residential", name="A")
    with town(made, tmp_path, vehicle="foot") as found:
        assert {step["mode"] for step in found.steps(1, 3)} == {"walking"}


@pytest.mark.parametrize(("x", "modifier"), [(60.0, "right"), (-60.0, "left"), (2.0, None), (-400.0, None)])
def test_the_side_on_which_a_place_lies(tmp_path: Path, x: float, modifier: str | None) -> None:
    made = OsmMap()
    made.way(made.row(2, step=1000.0), highway="residential", name="A")
    with town(made, tmp_path) as found:
        [depart, arrive] = found.steps((x, 200.0), (x, 800.0))
    assert depart["maneuver"].get("modifier") == arrive["maneuver"].get("modifier") == modifier


def test_turning_round_at_a_place_of_the_route(tmp_path: Path) -> None:
    made = OsmMap()
    made.way(made.row(2, step=1000.0), highway="residential", name="A")
    with town(made, tmp_path) as found:
        places = ((0.0, 200.0), (0.0, 700.0), (0.0, 300.0))
        assert found.told(*places) == ["depart into A", "arrive", "depart into A", "arrive"]
        assert found.told(*places, waypoints="0;2") == ["depart into A", "continue uturn into A", "arrive"]
        straight = (places[0], places[1], (0.0, 900.0))
        assert found.told(*straight, waypoints="0;2") == ["depart into A", "arrive"]
        assert found.told(places[0], places[0], places[1], waypoints="0;2") == ["depart into A", "arrive"]
        assert found.told(places[0], places[0]) == ["depart into A", "arrive"]
