"""Where places meet the network: the nearest streets, their directions and sides, junctions, hints, and what is no
place."""

from __future__ import annotations

import math
import random
import re
from collections.abc import Iterator
from pathlib import Path

import numpy as np
import pytest
from osm_maps import SOUTH, WEST, OsmMap
from placed import Town, import_map, made_town

pytest.importorskip("hypothesis")
from hypothesis import given, settings
from hypothesis import strategies as st

from catchup.errors import Failure
from catchup.geometry import EARTH
from catchup.places import NoSegment, Places, Snap
from catchup.places.snapping import OUTSIDE

DEGREE = math.radians(1.0) * EARTH


def at(x: float, y: float) -> tuple[float, float]:
    """The place so many metres east and north of the map's corner."""
    lat = SOUTH + y / DEGREE
    return WEST + x / DEGREE / math.cos(math.radians(lat)), lat


@pytest.fixture(scope="module")
def village(program: Path, tmp_path_factory: pytest.TempPathFactory) -> Places:
    """A square of 1,000 m: High Street in the south, that turns into Low Street halfway, a one-way street northwards in
    the east, a bollard in the middle of the northern street, in the west a road for residents that leads out, and a
    lane."""
    made = OsmMap()
    for number, (x, y) in enumerate([(0, 0), (500, 0), (1000, 0), (1000, 1000), (0, 1000), (-500, 1000)], 1):
        made.node(number, x, y)
    made.node(7, 500, 1000, barrier="bollard")
    made.way([1, made.node(8, -300, 0)], highway="residential", name="Lane")
    made.way([1, 2], highway="residential", name="High Street")
    made.way([2, 3], highway="residential", name="Low Street", ref="L 1")
    made.way([3, 4], highway="residential", oneway="yes")
    made.way([4, 7, 5], highway="residential", name="North Street")
    made.way([5, 1], highway="residential", name="West Street")
    made.way([5, 6], highway="service", access="private")
    made.way([4, 2], highway="residential", name="Slant")
    room = tmp_path_factory.mktemp("village")
    return import_map(made.write(room / "village.osm"), room / "village").places


@pytest.fixture(scope="module", params=["edges", "turns"])
def made(request: pytest.FixtureRequest, program: Path, tmp_path_factory: pytest.TempPathFactory) -> Iterator[Town]:
    yield made_town(request.param, 3, tmp_path_factory.mktemp(request.param))


def ends_of(places: Places, snap: Snap) -> set[tuple[tuple[float, float], tuple[float, float], float]]:
    """The roads of a place by where they lead from and to, with their shares."""
    lines = {road: places.lines.cut((road, 0.0, 1.0)) for road, _ in snap.roads}
    return {(tuple(np.round(lines[road][0], 5)), tuple(np.round(lines[road][-1], 5)), round(share, 3))
            for road, share in snap.roads}


def test_a_place_is_part_way_along_a_street_in_both_directions(village: Places) -> None:
    [snap] = village.nearest(at(250, 30))
    assert snap.place == at(250, 30) and np.allclose(snap.point, at(250, 0), atol=2e-7)
    assert snap.metres == pytest.approx(30, abs=0.1)
    assert (snap.name, snap.ref) == ("High Street", "")
    west, east = (tuple(np.round(at(x, 0), 5)) for x in (0, 500))
    assert ends_of(village, snap) == {(west, east, 0.5), (east, west, 0.5)}


def test_names_change_along_a_road(village: Places) -> None:
    found = [(snap.name, snap.ref) for x in (100, 900) for snap in village.nearest(at(x, -20))]
    assert found == [("High Street", ""), ("Low Street", "L 1")]


def test_a_one_way_street_is_driven_one_way(village: Places) -> None:
    [snap] = village.nearest(at(1010, 400))
    south, north = (tuple(np.round(at(1000, y), 5)) for y in (0, 1000))
    assert ends_of(village, snap) == {(south, north, 0.4)} and snap.name == ""


def test_at_a_junction_all_roads_count(village: Places) -> None:
    [snap] = village.nearest(at(500, 0))
    shares = sorted(share for _, share in snap.roads)
    # High Street, Low Street and Slant, both ways each.
    assert shares == [0.0, 0.0, 0.0, 1.0, 1.0, 1.0] and snap.metres == pytest.approx(0, abs=0.02)


def test_both_sides_of_a_barrier_count(village: Places) -> None:
    [snap] = village.nearest(at(500, 1003))
    assert {end for *both, _ in ends_of(village, snap) for end in both} == {
        tuple(np.round(at(x, 1000), 5)) for x in (0, 500, 1000)}


def test_several_streets_the_nearest_first(village: Places) -> None:
    snaps = village.nearest(at(250, 100), 4)
    assert [round(snap.metres) for snap in snaps] == sorted(round(snap.metres) for snap in snaps)
    assert len({snap.street for snap in snaps}) == 4 and snaps[0] == village.nearest(at(250, 100))[0]
    assert [snap.name for snap in snaps][:2] == ["High Street", "West Street"]
    assert len(village.nearest(at(250, 100), 100)) == len(village.ground.streets)


def test_only_within_a_radius(village: Places) -> None:
    assert [snap.name for snap in village.nearest(at(250, 100), 9, radius=110)] == ["High Street"]
    with pytest.raises(NoSegment) as found:
        village.nearest(at(250, 100), radius=90)
    assert found.value.index == 0 and found.value.place == at(250, 100)


def test_which_of_several_places_is_far_from_any_road(village: Places) -> None:
    near, far = at(250, 10), (20.5, 47.1)
    assert village.nearest_each(iter([near, near])) == [village.nearest(near)[0]] * 2 and village.nearest_each([]) == []
    with pytest.raises(NoSegment, match=re.escape("no road is near enough to place 1 (20.5,47.1)")) as found:
        village.nearest_each([near, far, far])
    assert (found.value.index, found.value.place) == (1, far)
    with pytest.raises(ValueError, match="^place 2: 181.0,0.0 is no place"):
        village.nearest_each([near, near, (181.0, 0.0)])


@pytest.mark.parametrize(("bearing", "ways"), [((90, 30), {"east"}), ((270, 10), {"west"}),
                                               ((0, 180), {"east", "west"}), ((450, 4), {"east"})])
def test_only_roads_in_a_direction(village: Places, bearing: tuple[int, int], ways: set[str]) -> None:
    [snap] = village.nearest(at(250, 10), bearing=bearing)
    assert snap.name == "High Street"
    assert {"east" if one < other else "west" for one, other, _ in ends_of(village, snap)} == ways


def test_no_road_goes_this_way(village: Places) -> None:
    # The nearest that goes this way is another street.
    assert village.nearest(at(250, 10), bearing=(0, 20))[0].name == "West Street"
    for radius in (100, None):
        with pytest.raises(NoSegment):
            village.nearest(at(250, 10), bearing=(45, 0), radius=radius)


def test_the_side_of_the_street(village: Places) -> None:
    for y, eastward in ((-5, True), (5, False)):
        [snap] = village.nearest(at(250, y), curb=True)
        [(one, other, _)] = ends_of(village, snap)
        assert bool(one < other) is eastward
    # One-way streets have one direction, on whatever side one is.
    for x in (995, 1005):
        assert len(village.nearest(at(x, 500), curb=True)[0].roads) == 1


def test_a_hint_finds_the_point_again(village: Places) -> None:
    for place in (at(250, 30), at(1010, 400), at(500, 0), at(700, 450)):
        [snap] = village.nearest(place)
        found = village.hinted(place, snap.street, snap.share)
        assert found is not None and found.roads == snap.roads and found.point == pytest.approx(snap.point, abs=1e-9)
    assert village.hinted(at(0, 0), len(village.ground.streets), 0.5) is None
    assert village.hinted(at(0, 0), -1, 0.5) is None
    assert village.hinted(at(0, 0), 0, 1.5) is None
    assert village.hinted(at(0, 0), 0, math.nan) is None


def test_nodes_and_their_copies(made: Town) -> None:
    places, ends = made.places, made.places.ground.ends
    for node in range(len(ends.copy)):
        snap = places.at_node(node)
        assert snap is not None
        junction = ends.junction[node]
        wanted = [(road, 0.0) for road in np.flatnonzero(ends.junction[ends.tail] == junction).tolist()]
        wanted += [(road, 1.0) for road in np.flatnonzero(ends.junction[ends.head] == junction).tolist()]
        assert list(snap.roads) == sorted(wanted)
        sources = ends.sources(snap, 0, places.driver.travel)
        assert [(source.node, source.second, source.part) for source in sources if not ends.copy[source.node]] == [
            (of, 0, 0.0) for of in np.flatnonzero((ends.junction == junction) & (ends.copy == 0)).tolist()]
    assert places.at_node(len(ends.copy)) is None and places.at_node(-1) is None and places.at_osm(-5) is None


def test_numbers_of_openstreetmap(made: Town) -> None:
    osm = made.places.ground.snapper._node_osm
    for number in np.unique(osm).tolist():
        snap, nodes = made.places.at_osm(number), np.flatnonzero(osm == number).tolist()
        assert snap is not None
        there = [made.places.at_node(node) for node in nodes]
        assert set(snap.roads) == {pair for each in there if each is not None for pair in each.roads}


@settings(max_examples=150)
@given(st.floats(-0.3, 1.3), st.floats(-0.3, 1.3))
def test_nothing_is_nearer(made: Town, x: float, y: float) -> None:
    west, south, east, north = made.places.box
    place = west + x * (east - west), south + y * (north - south)
    metres, roads = made.search.near(*place)
    [snap] = made.places.nearest(place, radius=1e6)
    assert snap.metres == pytest.approx(metres, rel=1e-5, abs=1e-3)
    assert [road for road, _ in snap.roads] == [road for road, _ in roads]
    assert [share for _, share in snap.roads] == pytest.approx([share for _, share in roads], abs=1e-4)


def test_far_from_the_map(village: Places) -> None:
    west, south, east, north = village.box
    near = (west - 0.5 * OUTSIDE / DEGREE, (south + north) / 2)
    assert village.nearest(near)[0].metres < OUTSIDE
    for place in ((0.0, 0.0), (west, south - 1.5 * OUTSIDE / DEGREE), (SOUTH, WEST), (179.9, -89.9)):
        with pytest.raises(NoSegment):
            village.nearest(place)
    assert village.nearest((0.0, 0.0), radius=1e8)[0].metres > 1e6
    assert village.is_on_map(at(500, 500)) and not village.is_on_map((SOUTH, WEST))


@pytest.mark.parametrize("place", [(math.nan, 47.0), (9.0, math.nan), (math.inf, 47.0), (181.0, 47.0), (9.0, -90.5)])
def test_what_is_no_place(village: Places, place: tuple[float, float]) -> None:
    with pytest.raises(ValueError, match="is no place"):
        village.nearest(place)


def test_a_folder_without_a_map(tmp_path: Path) -> None:
    with pytest.raises(Failure, match="map.gpkg"):
        Places.open(tmp_path)


def test_streets_hold_their_roads(made: Town) -> None:
    streets, draw = made.places.ground.streets, random.Random(1)
    lines = {}
    for road in range(len(streets.of_road)):
        line = streets.line(road)
        lines.setdefault(min(line.tobytes(), line[::-1].tobytes()), set()).add(road)
        assert len(streets.shares(road)) == len(line) and np.all(np.diff(streets.shares(road)) >= 0)
    assert sorted(map(sorted, lines.values())) == sorted(sorted(streets.roads[street].tolist())
                                                         for street in range(len(streets)))
    assert [min(streets.roads[street]) for street in range(len(streets))] == streets.lead.tolist()
    assert draw
