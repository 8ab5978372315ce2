"""Networks of small made maps that hold what maps of many countries do, and the ones at hand lack.

A residential street is driven with 25 km/h, so 1,000 m take 144 s.
"""
from __future__ import annotations

import math
from pathlib import Path
from typing import Any

import pytest
from osm_maps import OsmMap

H = 3600


@pytest.fixture
def town() -> OsmMap:
    """Nodes 1 to 5, 1,000 m apart, along one street to the north."""
    made = OsmMap()
    made.row(5)
    return made


def street(of: OsmMap, nodes: list[int], **tags: Any) -> int:
    return of.way(nodes, highway="residential", **tags)


def test_a_way_of_two_thousand_nodes(tmp_path: Path) -> None:
    """As many as a way may have: 1,999 parts of 10 m."""
    made = OsmMap()
    street(made, made.row(2000, step=10.0))
    net = made.network(tmp_path)
    assert net.roads == [(1, 2000), (2000, 1)] and net.seconds(1, 2000) == round(19_990 * 3.6 / 25)
    assert len(net.made.point_osm) == 4000


@pytest.mark.parametrize("clockwise", [False, True], ids=["driving on the right", "driving on the left"])
def test_a_large_roundabout_of_several_ways(tmp_path: Path, clockwise: bool) -> None:
    """A ring of 2,000 m in eight ways with eight arms: to the arm behind one's own, all but an eighth of it."""
    made = OsmMap()
    for k in range(8):
        angle = 2 * math.pi * k / 8 * (-1 if clockwise else 1)
        made.node(1 + k, 318.3 * math.cos(angle), 318.3 * math.sin(angle))
        made.node(11 + k, 500 * math.cos(angle), 500 * math.sin(angle))
        street(made, [1 + k, 11 + k])
    for k in range(8):
        made.way([1 + k, 1 + (k + 1) % 8], highway="primary", junction="roundabout", maxspeed="50")
    net = made.network(tmp_path)
    part = 2 * 318.3 * math.sin(math.pi / 8) * 3.6 / 40
    assert net.takes(1, 2) == round(part) and net.takes(2, 1) == pytest.approx(7 * part, abs=2)
    assert net.takes(12, 11) == pytest.approx(7 * part + 2 * 181.7 * 3.6 / 25, abs=3)


def test_turns_to_a_side_where_one_drives_on_the_left(tmp_path: Path) -> None:
    """The long turn is the one to the right there: that it takes longer is the user's to say."""
    made = OsmMap()
    for number, (x, y) in {5: (0, 0), 1: (0, 1000), 2: (0, -1000), 3: (1000, 0), 4: (-1000, 0)}.items():
        made.node(number, x, y)
    for number in range(1, 5):
        street(made, [number, 5])
    net = made.network(tmp_path, right=15)
    assert (net.takes(2, 3), net.takes(2, 4), net.takes(2, 1)) == (288 + 15, 288, 288)


def test_nodes_in_the_same_place(town: OsmMap, tmp_path: Path) -> None:
    """Two nodes one over the other, and a road between them that takes no time."""
    town.node(6, 0, 1000), town.node(7, 1000, 1000), town.node(8, -1000, 1000)
    street(town, [1, 2, 6, 3])
    street(town, [2, 7])
    street(town, [6, 8])
    net = town.network(tmp_path)
    assert net.seconds(2, 6) == 0 and net.takes(7, 8) == 288 and net.takes(1, 3) == 288


def test_nodes_that_nothing_leads_to_or_from_at_the_edge(town: OsmMap, tmp_path: Path) -> None:
    """A dual carriageway that leaves the map: its ways end at the edge, and are lost."""
    town.node(6, 50, 2000), town.node(7, 50, 3000)
    street(town, [1, 2, 3])
    town.way([3, 4, 99], highway="motorway")
    town.way([98, 7, 6], highway="motorway")
    town.way([6, 3], highway="motorway_link", oneway="yes")
    net = town.network(tmp_path)
    assert net.junctions == [1, 3] and net.count("ways cut or left out: their nodes aren't there") == 2
    assert (net.count("junctions lost: without a way out"), net.count("junctions lost: not reached")) == (1, 1)
    assert "MOTORWAY 2, MOTORWAY_LINK 1" in net.made.lines[3]
    # The report says which ways they are.
    assert "ways cut or left out: their nodes aren't there: 2 (2, 3)" in net.made.report


def test_the_largest_part_is_that_of_open_roads(town: OsmMap, tmp_path: Path) -> None:
    """An island of a harbour has more junctions than the town, and most of its streets are private."""
    street(town, [1, 2, 3])
    for number in (2, 3):
        town.node(20 + number, 500, number * 1000.0 - 1000)
        street(town, [number, 20 + number])
    quay = town.row(6, first=31, x=5000.0)
    street(town, quay, access="private")
    for node in quay:
        town.node(10 + node, 5500, (node - 31) * 1000.0)
        street(town, [node, 10 + node], access="private")
    street(town, [quay[0], 41])
    net = town.network(tmp_path)
    assert net.junctions == [1, 2, 22, 23]


def test_a_bridge_that_is_a_ferry_or_a_road_by_its_tags(town: OsmMap, tmp_path: Path) -> None:
    """What is a road and a ferry both is a ferry."""
    street(town, [1, 2])
    town.way([2, 3], highway="primary", route="ferry", duration="00:05")
    net = town.network(tmp_path)
    assert net.seconds(2, 3) == 300


@pytest.mark.parametrize("barrier, tags, closed", [
    ("bollard", dict(motor_vehicle__conditional="yes @ (06:00-10:00)"), True),
    ("lift_gate", dict(access__conditional="no @ (10:00-06:00)"), True),
    ("gate", dict(locked="yes", access__conditional="yes @ (06:00-10:00)"), True),
    ("rising_bollard", dict(access="yes", opening_hours="Mo-Fr 06:00-10:00; PH off"), True),
    ("gate", dict(opening_hours="sunrise-sunset"), False),
    ("swing_gate", dict(access__conditional="no @ (snow)"), False)])
def test_barriers_at_some_hours(town: OsmMap, tmp_path: Path, barrier: str, tags: dict[str, str],
                                closed: bool) -> None:
    """Open from 6 to 10 o'clock on a Monday: who comes at noon waits until the next day's 6 o'clock."""
    town.node(2, 0, 1000, barrier=barrier, **tags)
    street(town, [1, 2, 3])
    net = town.network(tmp_path)
    assert net.takes(1, 3, 8 * H) == 288 and net.takes(1, 3, 12 * H) == (18 * H + 144 if closed else 288)
    assert net.count(f"gates at some hours: {barrier}") == closed
    unknown = net.count("opening hours not understood, taken as all day") + net.count("conditions not used: access")
    assert unknown == (not closed)


def test_a_gate_that_is_never_open_and_private_blocks_alone(town: OsmMap, tmp_path: Path) -> None:
    """Its streets are dead ends, and open to all."""
    town.node(2, 0, 1000, barrier="gate", access="private", opening_hours="off")
    town.node(6, 1000, 0), town.node(7, -1000, 0)
    street(town, [1, 2, 3])
    street(town, [6, 1, 7])
    net = town.network(tmp_path)
    assert net.takes(6, 2) == net.takes(2, 7) == 288 and max(net.copy) == 0 and net.count("barriers: gate") == 1


@pytest.mark.parametrize("tags, blocked", [
    (dict(), False), (dict(railway="level_crossing"), True), (dict(highway="stop"), False),
    (dict(railway="level_crossing", crossing="traffic_signals"), False), (dict(railway="crossing"), False),
    (dict(highway="crossing", crossing="traffic_signals"), False), (dict(highway="crossing"), True)])
def test_seconds_at_crossings(town: OsmMap, tmp_path: Path, tags: dict[str, str], blocked: bool) -> None:
    town.node(2, 0, 1000, **tags)
    street(town, [1, 2, 3])
    assert town.network(tmp_path, crossings=30.0).takes(1, 3) == 288 + 30 * blocked


def test_leaving_a_via_way_half_way_is_no_way_round(town: OsmMap, tmp_path: Path) -> None:
    """From 1 over 2 3 4 nobody turns to 5, nor does who leaves the middle at 3 and turns round at a next junction."""
    for number, (x, y) in {6: (500, 2000), 7: (1000, 2000), 8: (500, 2500), 9: (1000, 3000)}.items():
        town.node(number, x, y)
    one, via, to = street(town, [1, 2]), street(town, [2, 3, 4]), street(town, [4, 5])
    street(town, [3, 6])
    street(town, [6, 7])
    street(town, [6, 8])
    street(town, [4, 9])
    town.restrict(one, [via], to, "no_straight_on")
    net = town.network(tmp_path)
    assert net.may(1, 2, 3, 4, 9) and net.may(2, 3, 4, 5) and not net.may(1, 2, 3, 4, 5)
    assert not net.may(1, 2, 3, 6, 3, 4, 5) and net.may(1, 2, 3, 6, 7, 6, 3, 4, 5)


def test_a_restriction_over_several_ways(town: OsmMap, tmp_path: Path) -> None:
    """From 1 over 2 3 and 3 4 to 5, in whatever order the ways are named; other drives over them are fine."""
    ways = [street(town, [a, a + 1]) for a in range(1, 5)]
    town.node(6, 500, 3000), town.node(7, 500, 1000)
    street(town, [4, 6])
    street(town, [2, 7])
    town.restrict(ways[0], [ways[2], ways[1]], ways[3], "no_straight_on")
    net = town.network(tmp_path)
    assert not net.may(1, 2, 3, 4, 5) and net.may(1, 2, 3, 4, 6) and net.may(7, 2, 3, 4, 5)
    assert net.count("restrictions made: no over ways") == 1


def test_a_road_of_many_names(town: OsmMap, tmp_path: Path) -> None:
    """Of 15 ways in several scripts; a road's own name is that of its longest part."""
    made = OsmMap()
    nodes = made.row(16, step=100.0)
    names = ["Улица Ленина", "شارع الحمراء", "大通り", "ถนนสุขุมวิท", "Ulica „Polna”", "O'Connell Street", 'Route "A"',
             "Ñuñoa;b"]
    for k, (a, b) in enumerate(zip(nodes, nodes[1:])):
        street(made, [a, b], name=f"{names[k % 8]} {k // 8}")
    net = made.network(tmp_path)
    assert len(net.made.names.texts) == 15 and net.roads == [(1, 16), (16, 1)]
    spans = [(span.name, round(span.from_metres), round(span.to_metres)) for span in net.made.names.of(0)]
    along = [(f"{names[k % 8]} {k // 8}", 100 * k, 100 * k + 100) for k in range(15)]
    assert spans in (along, [(name, 1500 - b, 1500 - a) for name, a, b in reversed(along)])
    assert any(line.startswith("names     2 roads with more than one name") for line in net.made.lines)


def test_what_is_marked_as_deleted_in_an_editor_is_taken(town: OsmMap, tmp_path: Path) -> None:
    street(town, [1, 2])
    town.way([2, 3], attributes="action='delete'", highway="residential")
    assert town.network(tmp_path).junctions == [1, 3]


def test_islands_with_a_ferry_and_without(town: OsmMap, tmp_path: Path) -> None:
    """A day's first ferry from the island leaves at 5:30, its last at 1:00."""
    street(town, [1, 2])
    town.way([2, 3], route="ferry", duration="PT20M", interval="00:45", opening_hours="Mo-Su,PH 05:30-25:15")
    street(town, [3, 4])
    town.node(7, 3000, 0), town.node(8, 3000, 1000)
    street(town, [7, 8])
    net = town.network(tmp_path)
    assert net.junctions == [1, 2, 3, 4] and net.takes(4, 1, 3 * H) == 2 * H + 1800 + 1200 + 144
    assert net.takes(3, 2, H) == 1200 and net.takes(3, 2, H + 1) == 4 * H + 1799 + 1200
