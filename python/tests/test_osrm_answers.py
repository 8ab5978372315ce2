"""What OSRM's services answer, on made maps whose times and metres are known."""

from __future__ import annotations

import json
import math
from collections.abc import Iterator
from pathlib import Path
from typing import Any

import polyline
import pytest
from osm_maps import OsmMap
from osrm_grid import grid_map, place_of
from osrm_town import Town, town

from catchup.geometry import metres

pytestmark = pytest.mark.usefixtures("program")
SPEED = 25 / 3.6                        # metres a second on a residential road


@pytest.fixture(scope="module")
def grid(program: Path, tmp_path_factory: pytest.TempPathFactory) -> Iterator[Town]:
    with town(grid_map(), tmp_path_factory.mktemp("grid")) as found:
        yield found


def length(coordinates: list[list[float]]) -> float:
    """The metres of a line."""
    return sum(float(metres(*one, *other)) for one, other in zip(coordinates, coordinates[1:]))


# ---- routes ----


def test_a_route_has_its_metres_and_seconds(grid: Town) -> None:
    [route] = grid.get("route", [1, 45], geometries="geojson", overview="full")["routes"]
    assert route["distance"] == pytest.approx(1600.0, abs=1.0)
    assert route["duration"] == pytest.approx(1600 / SPEED, abs=8.0)
    assert length(route["geometry"]["coordinates"]) == pytest.approx(route["distance"], abs=1.0)
    assert (route["depart"], route["arrive"]) == (28_800, 28_800 + route["duration"])
    assert route["depart_time"] == "08:00:00"
    assert route["weight"] == route["duration"] and route["weight_name"] == "duration"
    [leg] = route["legs"]
    assert leg["steps"] == [] and leg["summary"] == "" and leg["distance"] == route["distance"]


def test_legs_go_on_from_one_another(grid: Town) -> None:
    told = grid.get("route", [1, 23, 45, 5], depart="23:59:00", geometries="geojson", overview="full")
    [route] = told["routes"]
    assert len(route["legs"]) == 3 and len(told["waypoints"]) == 4
    for before, after in zip(route["legs"], route["legs"][1:]):
        assert before["arrive"] == after["depart"]
    assert route["arrive"] > 86_400 and route["arrive_time"].startswith("00:0")
    for name in ("duration", "distance"):
        assert route[name] == pytest.approx(sum(leg[name] for leg in route["legs"]), abs=0.2)


@pytest.mark.parametrize("form", ["polyline", "polyline6", "geojson"])
def test_the_steps_make_up_the_line(grid: Town, form: str) -> None:
    def places(geometry: Any) -> list[tuple[float, float]]:
        if form == "geojson":
            return [tuple(place) for place in geometry["coordinates"]]
        return [(lon, lat) for lat, lon in polyline.decode(geometry, 6 if form == "polyline6" else 5)]

    [route] = grid.get("route", [(13.0, 90.0), 34, (750.0, 410.0)], geometries=form, overview="full",
                       steps="true")["routes"]
    joined: list[tuple[float, float]] = []
    for leg in route["legs"]:
        for step in leg["steps"]:
            its = places(step["geometry"])
            assert not joined or its[0] == pytest.approx(joined[-1], abs=1e-9)
            assert step["maneuver"]["location"] == pytest.approx(its[0], abs=1e-5)
            joined += its if not joined else its[1:]
        assert leg["distance"] == pytest.approx(sum(step["distance"] for step in leg["steps"]),
                                                abs=0.1 * len(leg["steps"]))
        assert leg["duration"] == pytest.approx(sum(step["duration"] for step in leg["steps"]),
                                                abs=0.1 * len(leg["steps"]))
        assert places(leg["steps"][-1]["geometry"]) == [joined[-1]] * (2 if form == "geojson" else 1)
    joined = [place for at, place in enumerate(joined) if not at or place != joined[at - 1]]
    whole = places(route["geometry"])
    once = [place for at, place in enumerate(whole) if not at or place != whole[at - 1]]
    assert once == pytest.approx(joined, abs=1e-9)


def test_summaries_name_the_longest_streets(grid: Town) -> None:
    [route] = grid.get("route", [1, 43], steps="true")["routes"]
    assert set(route["legs"][0]["summary"].split(", ")) <= {f"{way} {k}" for way in ("North", "East") for k in range(5)}
    assert 1 <= len(route["legs"][0]["summary"].split(", ")) <= 2
    [step, *_] = grid.steps(21, 25)
    assert (step["name"], step["ref"]) == ("North 2", "K 2")


def test_overviews(grid: Town) -> None:
    assert "geometry" not in grid.get("route", [1, 45], overview="false")["routes"][0]
    [simple] = grid.get("route", [1, 5], geometries="geojson")["routes"]
    assert len(simple["geometry"]["coordinates"]) == 2
    [full] = grid.get("route", [1, 5], geometries="geojson", overview="full")["routes"]
    assert len(full["geometry"]["coordinates"]) == 5


def test_waypoints(grid: Town) -> None:
    told = grid.get("route", [(5.0, 90.0), 45], generate_hints="false")
    [first, last] = told["waypoints"]
    assert set(first) == {"distance", "name", "location"} and first["name"] == "North 0"
    assert first["distance"] == pytest.approx(5.0, abs=0.01) and last["distance"] == pytest.approx(0.0, abs=0.01)
    assert "waypoints" not in grid.get("route", [1, 45], skip_waypoints="true")
    told = grid.get("route", [1, 23, 45], waypoints="0;2")
    assert len(told["waypoints"]) == 2 and len(told["routes"][0]["legs"]) == 1
    assert told["routes"][0]["distance"] == pytest.approx(1600.0, abs=1.0)


def test_a_turn_is_told_where_it_is_whatever_was_asked_before(grid: Town) -> None:
    for north in (150.0, 200.0, 150.0):
        _, step, _ = grid.steps((0.0, 20.0), (0.0, north), (0.0, 20.0), waypoints="0;2")
        assert step["maneuver"]["modifier"] == "uturn"
        place = [float(each) for each in place_of(0.0, north).split(",")]
        assert step["maneuver"]["location"] == pytest.approx(place, abs=2e-6)


def test_a_time_to_arrive(grid: Town) -> None:
    [route] = grid.get("route", [1, 23, 45], arrive="09:00")["routes"]
    assert route["arrive"] <= 32_400 and route["arrive_time"] <= "09:00:00"
    [later] = grid.get("route", [1, 23, 45], depart=str(route["depart"] + 1))["routes"]
    assert later["arrive"] > 32_400
    [next_day] = grid.get("route", [1, 45], arrive=str(86_400 + 60))["routes"]
    assert next_day["depart"] < 86_400 < next_day["arrive"]
    # It counts from the midnight before leaving: whoever may be there the next day leaves before midnight all the same.
    [later] = grid.get("route", [1, 45], arrive="90000")["routes"]
    assert later["depart"] == 86_399 and later["arrive"] < 90_000
    status, told = grid.ask(f"/route/v1/car/{grid.place(1)};{grid.place(45)}?arrive=00:01")
    assert (status, told["code"]) == (400, "NoRoute") and "arrive=" in told["message"]


def test_no_way_leads_to_an_island(grid: Town) -> None:
    for options in ("", "?arrive=09:00", "?depart=09:00&steps=true"):
        status, told = grid.ask(f"/route/v1/car/{grid.place(1)};{grid.place(45)};{grid.place(900)}{options}")
        assert (status, told["code"]) == (400, "NoRoute") and "place 1 to place 2" in told["message"]


# ---- annotations ----


def test_annotations(grid: Town) -> None:
    [route] = grid.get("route", [(0.0, 90.0), (400.0, 750.0)], annotations="true", geometries="geojson",
                       overview="full")["routes"]
    [leg] = route["legs"]
    found, count = leg["annotation"], len(route["geometry"]["coordinates"]) - 1
    assert {name: len(found[name]) for name in found if name != "metadata"} == {
        "distance": count, "duration": count, "weight": count, "speed": count, "datasources": count, "nodes": count + 1}
    assert sum(found["distance"]) == pytest.approx(leg["distance"], abs=0.01 * count)
    assert sum(found["duration"]) == pytest.approx(leg["duration"], abs=0.01 * count)
    assert found["weight"] == found["duration"] and found["metadata"] == {"datasource_names": ["map"]}
    for metre, second, speed in zip(found["distance"], found["duration"], found["speed"]):
        assert speed == pytest.approx(metre / second, abs=0.1)
    assert found["nodes"][0] in (1, 2) and set(found["nodes"]) <= set(grid.made.nodes)
    [two] = grid.get("route", [1, 45], annotations="speed,nodes")["routes"]
    assert set(two["legs"][0]["annotation"]) == {"speed", "nodes"}


def test_annotated_nodes_are_those_of_the_map(grid: Town) -> None:
    [route] = grid.get("route", [1, 5], annotations="nodes")["routes"]
    assert route["legs"][0]["annotation"]["nodes"] == [1, 2, 3, 4, 5]


# ---- nearest ----


def test_nearest_streets(grid: Town) -> None:
    told = grid.get("nearest", [(20.0, 90.0)], number="3")
    assert len(told["waypoints"]) == 3 and told["waypoints"][0]["name"] == "North 0"
    first = told["waypoints"][0]
    assert first["nodes"] in ([1, 2], [2, 1]) and first["distance"] == pytest.approx(20.0, abs=0.01)
    assert [each["distance"] for each in told["waypoints"]] == sorted(each["distance"] for each in told["waypoints"])
    assert "hint" not in grid.get("nearest", [(20.0, 90.0)], generate_hints="false")["waypoints"][0]


def test_what_narrows_the_search(grid: Town) -> None:
    def name(**options: str) -> str:
        found: str = grid.get("nearest", [(20.0, 90.0)], **options)["waypoints"][0]["name"]
        return found

    assert name() == name(bearings="0,20") == name(bearings="180,10") == "North 0"
    assert name(bearings="90,20").startswith("East")
    assert name(radiuses="21") == name(radiuses="unlimited") == name(radiuses="") == "North 0"
    place = grid.place((20.0, 90.0))
    status, told = grid.ask(f"/nearest/v1/car/{place}?radiuses=19")
    assert (status, told["code"]) == (400, "NoSegment") and "radiuses" in told["message"]
    assert grid.ask(f"/nearest/v1/car/{place}?bearings=45,10")[1]["code"] == "NoSegment"


def test_the_side_of_the_street(grid: Town) -> None:
    """A place on the left of a street is come to from the other direction, where one wants to stop beside it."""
    def distance(**options: str) -> float:
        [route] = grid.get("route", [1, (-10.0, 300.0)], **options)["routes"]
        return float(route["distance"])

    assert distance() == distance(approaches=";unrestricted") == pytest.approx(300.0, abs=1.0)
    assert distance(approaches=";curb") > 300.0
    assert distance(bearings=";0,90") == pytest.approx(300.0, abs=1.0) and distance(bearings=";180,90") > 300.0


@pytest.mark.parametrize(("place", "says"), [
    ("47.0,9.0", "longitude comes first, so write 9,47"), ("10,48", "outside of the map"),
    ("0,0", "outside of the map")])
def test_places_far_from_the_map(grid: Town, place: str, says: str) -> None:
    for address in (f"/nearest/v1/car/{place}", f"/route/v1/car/{place};{grid.place(1)}",
                    f"/table/v1/car/{grid.place(1)};{place}"):
        status, told = grid.ask(address)
        assert (status, told["code"]) == (400, "NoSegment") and says in told["message"]
    assert grid.ask(f"/nearest/v1/car/{place}?radiuses=unlimited")[1]["code"] == "Ok"


# ---- hints ----


def test_hints_find_the_same_place(grid: Town) -> None:
    places = [(20.0, 90.0), (410.0, 555.0)]
    first = grid.get("route", places)
    hints = [each["hint"] for each in first["waypoints"]]
    assert all(len(hint) == 32 and set(hint) <= set("ABCDEFGHIJKLMNOPQRSTUVWXYZabcdefghijklmnopqrstuvwxyz0123456789-_")
               for hint in hints)
    assert grid.get("route", places, hints=";".join(hints)) == first


def test_a_hint_is_taken(grid: Town, monkeypatch: pytest.MonkeyPatch) -> None:
    place = (20.0, 90.0)
    [found] = grid.get("table", [place, 1])["sources"][:1]
    monkeypatch.setattr(type(grid.places), "nearest", lambda *_, **__: pytest.fail("it was searched for"))
    [again] = grid.get("nearest", [place], hints=found["hint"])["waypoints"]
    assert {**again, "nodes": None} == {**found, "nodes": None}


@pytest.mark.parametrize("change", [
    lambda hint: "", lambda hint: hint[:-1], lambda hint: hint + "AAAA", lambda hint: "A" * 32, lambda hint: "~" * 32,
    lambda hint: hint[:-1] + ("A" if hint[-1] != "A" else "B"), lambda hint: "B" + hint[1:], lambda hint: "%C3%A4" * 32,
    lambda hint: hint[::-1], lambda hint: "=" * 32, lambda hint: "_" * 32])
def test_a_bad_hint_is_passed_over(grid: Town, change: Any) -> None:
    place = (20.0, 90.0)
    found = grid.get("nearest", [place])["waypoints"][0]
    assert grid.get("nearest", [place], hints=change(found["hint"]))["waypoints"][0] == found


def test_the_hint_of_another_place_or_map_is_passed_over(grid: Town, tmp_path: Path) -> None:
    found = grid.get("nearest", [(20.0, 90.0)])["waypoints"][0]
    [other] = grid.get("nearest", [(600.0, 90.0)], hints=found["hint"])["waypoints"]
    assert other["name"] == "North 3"
    made = OsmMap()
    made.way(made.row(3, step=100.0), highway="residential", name="Elsewhere")
    with town(made, tmp_path) as elsewhere:
        assert elsewhere.get("nearest", [(20.0, 90.0)], hints=found["hint"])["waypoints"][0]["name"] == "Elsewhere"


def test_a_hint_does_not_widen_a_search(grid: Town) -> None:
    place = (20.0, 90.0)
    hint = grid.get("nearest", [place])["waypoints"][0]["hint"]
    status, told = grid.ask(f"/nearest/v1/car/{grid.place(place)}?hints={hint}&radiuses=10")
    assert (status, told["code"]) == (400, "NoSegment")
    assert grid.get("nearest", [place], hints=hint, bearings="90,20")["waypoints"][0]["name"].startswith("East")


# ---- tables ----


def test_a_table_has_the_durations_of_routes(grid: Town) -> None:
    places = [1, (300.0, 410.0), 45, (800.0, 5.0)]
    told = grid.get("table", places)
    assert [len(row) for row in told["durations"]] == [4] * 4 and "distances" not in told
    for i, start in enumerate(places):
        for j, end in enumerate(places):
            route = grid.get("route", [start, end], depart="08:00")["routes"][0]
            assert told["durations"][i][j] == pytest.approx(route["duration"], abs=1.0), (i, j)
    assert len(told["sources"]) == len(told["destinations"]) == 4 and told["depart_time"] == "08:00:00"


def test_parts_of_a_table(grid: Town) -> None:
    places = [1, 23, 45]
    whole = grid.get("table", places, annotations="duration,distance")
    part = grid.get("table", places, sources="2;0", destinations="1", annotations="distance,duration")
    for name in ("durations", "distances"):
        assert part[name] == [[whole[name][2][1]], [whole[name][0][1]]]
    assert [len(part["sources"]), len(part["destinations"])] == [2, 1]
    assert "durations" not in grid.get("table", places, annotations="distance")
    assert whole["distances"][0][2] == pytest.approx(1600.0, abs=1.0)
    assert "sources" not in grid.get("table", places, skip_waypoints="true")


def test_where_no_way_leads(grid: Town) -> None:
    places = [1, 900]
    assert grid.get("table", places)["durations"] == [[0.0, None], [None, 0.0]]
    told = grid.get("table", places, fallback_speed="10", annotations="duration,distance")
    straight = length([[float(x) for x in grid.place(of).split(",")] for of in places])
    assert told["durations"][0][1] == pytest.approx(straight / 10, abs=0.1)
    assert told["distances"][1][0] == pytest.approx(straight, abs=0.1)
    assert told["fallback_speed_cells"] == [[0, 1], [1, 0]] and told["durations"][0][0] == 0.0
    assert grid.get("table", [1, 45], fallback_speed="10")["fallback_speed_cells"] == []


def test_the_crow_flies_between_what_is_asked_or_found(grid: Town) -> None:
    places = [(-50.0, 0.0), 900]
    asked, found = (grid.get("table", places, fallback_speed="1", fallback_coordinate=word)["durations"][0][1]
                    for word in ("input", "snapped"))
    assert asked == pytest.approx(5050.0, abs=5.0) and found == pytest.approx(5000.0, abs=5.0)


def test_durations_are_scaled(grid: Town) -> None:
    plain, scaled = (grid.get("table", [1, 45, 900], fallback_speed="10", scale_factor=factor)["durations"]
                     for factor in ("1", "2.5"))
    for one, other in zip(plain, scaled):
        assert other == pytest.approx([2.5 * value for value in one], abs=0.3)


def test_tables_of_distances_have_limits(grid: Town) -> None:
    line = polyline.encode([(47.0, 9.0)] * 101)
    status, told = grid.ask(f"/table/v1/car/polyline({line})?annotations=distance")
    assert (status, told["code"]) == (400, "TooBig") and "10000" in told["message"]


# ---- errors ----


def test_a_profile_that_is_not_served(grid: Town) -> None:
    status, told = grid.ask(f"/route/v1/boat/{grid.place(1)};{grid.place(45)}")
    assert (status, told["code"]) == (400, "NotImplemented") and "--tables" in told["message"]


def test_errors_have_a_code_a_message_and_a_version(grid: Town) -> None:
    status, told = grid.ask("/route/v1/car/1,2")
    assert status == 400 and set(told) == {"code", "message", "data_version"}


def test_the_answer_is_json_whatever_streets_are_called(tmp_path: Path) -> None:
    made = OsmMap()
    row = made.row(3, step=100.0)
    made.way(row[:2], highway="residential", name='"Straße" \\ <b>\u2028é')
    made.way(row[1:], highway="residential", name="\u4e2d\u6587 {}")
    with town(made, tmp_path) as found:
        names = [step["name"] for step in found.steps(1, 3)]
        assert names == ['"Straße" \\ <b>\u2028é', "\u4e2d\u6587 {}", "\u4e2d\u6587 {}"]
        assert json.dumps(found.get("nearest", [1]))


def test_a_place_at_the_end_of_the_world(tmp_path: Path) -> None:
    made = OsmMap()
    made.way(made.row(3, step=100.0), highway="residential")
    with town(made, tmp_path) as found:
        for place in ("180,90", "-180,-90", "180,-90"):
            told = found.ask(f"/nearest/v1/car/{place}?radiuses=unlimited")[1]
            assert told["waypoints"][0]["distance"] < 2.1e7 and math.isfinite(told["waypoints"][0]["distance"])
