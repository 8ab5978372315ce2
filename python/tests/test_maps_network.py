"""Networks of small made maps: each case that real maps hold, with its roads and seconds worked out by hand.

A residential street is driven with 25 km/h, so 1,000 m take 144 s; 500 m take 72 s.
"""
from __future__ import annotations

from pathlib import Path
from typing import Any

import pytest
from osm_maps import OsmMap

from catchup import tables
from catchup.errors import Failure

DAY = 86400
H = 3600


@pytest.fixture
def town() -> OsmMap:
    """Nodes 1 to 5, 1,000 m apart, along one street to the north."""
    made = OsmMap()
    made.row(5)
    return made


def street(of: OsmMap, nodes: list[int], **tags: Any) -> int:
    return of.way(nodes, highway="residential", **tags)


def test_a_street_is_one_road_each_way(town: OsmMap, tmp_path: Path) -> None:
    street(town, [1, 2, 3, 4, 5])
    net = town.network(tmp_path)
    assert net.roads == [(1, 5), (5, 1)] and net.seconds(1, 5) == net.seconds(5, 1) == 576
    first = net.made.map.road_first.tolist()
    assert first == [0, 5, 10] and net.made.point_osm.tolist() in ([1, 2, 3, 4, 5, 5, 4, 3, 2, 1], [5, 4, 3, 2, 1, 1, 2, 3, 4, 5])


def test_streets_of_several_ways_are_joined(town: OsmMap, tmp_path: Path) -> None:
    """Whichever way each of them is drawn; speeds may differ: 1,000 m with 25, 1,000 m with 24, and 2,000 m with 65 km/h."""
    street(town, [1, 2])
    street(town, [3, 2], maxspeed="30")
    town.way([3, 4, 5], highway="primary")
    net = town.network(tmp_path)
    assert net.roads == [(1, 5), (5, 1)] and net.seconds(1, 5) == round(144 + 150 + 110.77) == 405


def test_a_street_that_meets_another_is_two_roads(town: OsmMap, tmp_path: Path) -> None:
    street(town, [1, 2, 3, 4, 5])
    town.node(6, 1000, 2000)
    street(town, [3, 6])
    net = town.network(tmp_path)
    assert net.roads == [(1, 3), (3, 1), (3, 5), (3, 6), (5, 3), (6, 3)]
    assert net.takes(1, 6) == 288 + 144


def test_one_way_streets(town: OsmMap, tmp_path: Path) -> None:
    """Of a street that is one-way half the way, each half is a road, and a ring that is driven round is needed to get back."""
    street(town, [1, 2], oneway="yes")
    street(town, [2, 3])
    street(town, [3, 4, 5, 1], oneway="yes")
    street(town, [1, 6])
    town.node(6, 1000, 0)
    net = town.network(tmp_path)
    assert net.roads == [(1, 2), (1, 6), (2, 3), (3, 1), (3, 2), (6, 1)]
    assert (net.takes(1, 2), net.takes(2, 1)) == (144, 144 + 2 * 144 + 4 * 144)
    assert sorted(net.made.map.road_osm_way.tolist()) == [1, 2, 2, 3, 4, 4]


def test_a_loop_is_cut_at_its_middle(town: OsmMap, tmp_path: Path) -> None:
    """A ring of 4 nodes, 400 m round, at the end of a street: from its beginning to its middle it's 200 m either way round."""
    street(town, [1, 2])
    town.node(12, 100, 1000), town.node(13, 100, 1100), town.node(14, 0, 1100)
    street(town, [2, 12, 13, 14, 2])
    net = town.network(tmp_path)
    assert net.junctions == [1, 2, 13] and net.count("loops cut in two") == 1
    assert net.roads == [(1, 2), (2, 1), (2, 13), (2, 13), (13, 2), (13, 2)]
    assert [round(metres) for metres in net.made.map.road_metres if metres < 500] == [200] * 4 and net.takes(2, 13) == 29


def test_a_way_there_and_back(town: OsmMap, tmp_path: Path) -> None:
    street(town, [1, 2, 3, 2])
    street(town, [3, 4])
    assert town.network(tmp_path).takes(1, 4) == 3 * 144


def test_a_ring_that_nothing_else_meets(town: OsmMap, tmp_path: Path) -> None:
    town.node(6, 1000, 0)
    street(town, [1, 2])
    street(town, [2, 6])
    street(town, [6, 1])
    net = town.network(tmp_path)
    assert len(net.junctions) == 2 and len(net.roads) == 4


def test_a_way_that_crosses_itself(town: OsmMap, tmp_path: Path) -> None:
    town.node(6, 1000, 2000), town.node(7, 500, 1500)
    street(town, [1, 2, 3, 6, 7, 2])
    net = town.network(tmp_path)
    assert net.junctions == [1, 2, 6] and net.takes(1, 6) == 144 + 204 and net.count("loops cut in two") == 1


def test_a_roundabout(tmp_path: Path) -> None:
    """Four arms; round it in one direction alone: to the arm just behind one, three quarters of the ring."""
    made = OsmMap()
    for number, (x, y) in enumerate([(0, -100), (100, 0), (0, 100), (-100, 0)], 1):
        made.node(number, x, y), made.node(10 + number, 5 * x, 5 * y)
    made.way([1, 2, 3, 4, 1], highway="tertiary", junction="roundabout")
    for number in range(1, 5):
        street(made, [number, 10 + number])
    net = made.network(tmp_path)
    quarter, arm = 141.42 * 3.6 / 40, 400 * 3.6 / 25
    assert net.takes(11, 12) == pytest.approx(2 * arm + quarter, abs=1.5)
    assert net.takes(12, 11) == pytest.approx(2 * arm + 3 * quarter, abs=2.5)
    of_ring = net.made.map.road_ring
    assert of_ring.sum() == 4 and len(of_ring) == 12


def test_seconds_are_shared_out_along_a_way(tmp_path: Path) -> None:
    """Ten parts of 10 m with 25 km/h take 1.44 s each. Rounded one by one they were 10 s, and so they are 13."""
    made = OsmMap()
    street(made, made.row(11, step=10.0))
    for node in range(2, 11):
        made.node(100 + node, 500, (node - 1) * 10.0)
        street(made, [node, 100 + node])
    net = made.network(tmp_path)
    parts = [net.seconds(node, node + 1) for node in range(1, 11)]
    assert parts == [1, 1, 1, 1, 2, 1, 2, 1, 1, 2] and net.takes(1, 11) == sum(parts) == 13
    assert [net.seconds(node + 1, node) for node in reversed(range(1, 11))] == parts


@pytest.mark.parametrize("barrier, tags, passed", [
    ("bollard", {}, False), ("block", {}, False), ("cycle_barrier", {}, False), ("gate", {}, True), ("lift_gate", {}, True),
    ("swing_gate", {}, True), ("bump_gate", {}, True), ("cattle_grid", {}, True), ("toll_booth", {}, True),
    ("gate", dict(access="no"), False), ("gate", dict(locked="yes"), False), ("gate", dict(locked="yes", access="yes"), True),
    ("gate", dict(motor_vehicle="no"), False), ("bollard", dict(access="yes"), True), ("bollard", dict(motor_vehicle="no", bicycle="yes"), False),
    ("gate", dict(opening_hours="off"), False), ("gate", dict(access="agricultural;forestry"), False)])
def test_barriers(town: OsmMap, tmp_path: Path, barrier: str, tags: dict[str, str], passed: bool) -> None:
    """A barrier half-way on the short of two ways; the long one is 3,000 m."""
    street(town, [1, 2, 3, 4])
    town.node(2, 0, 1000, barrier=barrier, **tags)
    town.node(6, 500, 0), town.node(7, 500, 2000), town.node(8, 0, -1000)
    street(town, [1, 6, 7, 3])
    street(town, [8, 1])
    net = town.network(tmp_path)
    assert net.takes(1, 3) == (288 if passed else 432)
    if not passed:
        # The streets up to it are there, and it has a node on each side.
        assert net.junctions.count(2) == 2 and net.takes(1, 2) == 144 and net.count(f"barriers: {barrier}") == 1


def test_a_barrier_at_a_junction_blocks_all_ways_there(town: OsmMap, tmp_path: Path) -> None:
    town.node(6, 1000, 1000), town.node(7, 1000, -1000), town.node(8, 0, -1000), town.node(9, 2000, 1000)
    town.node(2, 0, 1000, barrier="bollard")
    street(town, [8, 1, 2, 3])
    street(town, [2, 6, 9])
    street(town, [6, 7, 1])
    net = town.network(tmp_path)
    assert net.count("barriers at a junction") == 1 and net.takes(1, 6) == 204 + 288 and 3 not in net.junctions
    assert town.network(tmp_path, vehicle="bicycle").takes(1, 6) == 2 * 200


def test_roads_for_destinations_alone(town: OsmMap, tmp_path: Path) -> None:
    """1 to 3 over 2 is for destinations alone, and 2,000 m; round about it is 3,000 m."""
    town.node(6, 500, 0), town.node(7, 500, 2000), town.node(8, 300, 1000), town.node(5, 0, -1000)
    street(town, [1, 2, 3], access="destination")
    street(town, [2, 8], access="private")
    street(town, [1, 6, 7, 3])
    street(town, [4, 3])
    street(town, [1, 5])
    net = town.network(tmp_path)
    # Begun on it or ending on it one may drive it, but not through it.
    assert (net.takes(1, 2), net.takes(2, 3), net.takes(1, 8), net.takes(8, 4)) == (144, 144, 144 + 43, 43 + 144 + 144)
    assert net.takes(5, 4) == 144 + 432 + 144 and net.takes(5, 2) == 288 and net.takes(2, 4) == 288
    assert town.network(tmp_path, through=True).takes(5, 4) == 144 + 288 + 144
    without = town.network(tmp_path, private=False)
    assert 8 not in without.junctions and without.takes(5, 3) == 144 + 288 and without.takes(5, 4) == 5 * 144


def test_a_street_that_is_shut_all_day_joins_nothing(town: OsmMap, tmp_path: Path) -> None:
    """4 to 5 hangs on a private road, and on a street that opens at weekends: on a Monday it is behind the private one alone."""
    town.node(6, 1000, 1000), town.node(7, 0, -1000)
    street(town, [7, 1])
    street(town, [1, 2, 3])
    street(town, [1, 6, 3])
    street(town, [3, 4], access="private")
    street(town, [4, 5])
    street(town, [5, 1], opening_hours="Sa,Su 05:30-23:15")
    net = town.network(tmp_path)
    assert net.takes(1, 5) == 4 * 144 and net.count("left out: closed all day") == 1


@pytest.mark.parametrize("way, gate", [
    (dict(opening_hours="06:00-12:00"), dict(opening_hours="12:00-18:00")),
    (dict(access__conditional="no @ (08:00-20:00)"), dict(motor_vehicle__conditional="no @ (20:00-08:00)"))])
def test_a_street_and_its_gate_that_are_never_open_at_once_join_nothing(town: OsmMap, tmp_path: Path, way: dict[str, str],
                                                                        gate: dict[str, str]) -> None:
    """From 3 on one gets to 4 and 5, and nobody gets past the gate at 3 to there."""
    town.node(3, 0, 2000, barrier="gate", **gate)
    street(town, [1, 2, 3])
    street(town, [3, 4], **way)
    street(town, [4, 5])
    assert town.network(tmp_path).junctions == [1, 3]


def test_a_turn_that_is_never_allowed_while_the_street_is_open(town: OsmMap, tmp_path: Path) -> None:
    """Nobody turns from 1 2 to 6 before noon, and the street there closes at noon: so there is no road for that turn."""
    town.node(6, 1000, 1000)
    one, _, other = street(town, [1, 2]), street(town, [2, 3]), street(town, [2, 6], opening_hours="00:00-12:00")
    town.restrict(one, 2, other, restriction__conditional="no_right_turn @ (00:00-12:00)")
    net = town.network(tmp_path)
    assert not net.may(1, 2, 6) and net.takes(2, 6) == 144 and net.takes(3, 6) == 288


@pytest.mark.parametrize("gate, way", [(dict(barrier="gate", opening_hours="06:00-20:00"), {}), ({}, dict(opening_hours="06:00-20:00"))])
def test_a_street_that_is_for_destinations_alone_whenever_its_open(town: OsmMap, tmp_path: Path, gate: dict[str, str],
                                                                   way: dict[str, str]) -> None:
    town.node(2, 0, 1000, **gate)
    street(town, [1, 2])
    street(town, [2, 3, 4], motor_vehicle__conditional="destination @ (06:00-20:00)", **way)
    net = town.network(tmp_path)
    assert net.takes(2, 4, 12 * H) == 288 and net.takes(2, 4) == 6 * H + 288 and net.takes(4, 2, 12 * H) == 288


def test_a_ferry_behind_a_gate_and_one_that_isnt_for_it_at_some_hours(town: OsmMap, tmp_path: Path) -> None:
    """Who is past the gate at 2 before it closes gets the ferry behind it; who wants to board one at night waits for 6 o'clock."""
    town.node(2, 0, 1000, barrier="gate", opening_hours="06:00-20:10")
    street(town, [1, 2])
    town.way([2, 3], route="ferry", duration="00:10", interval="00:30")
    street(town, [3, 4])
    town.way([4, 5], route="ferry", duration="00:10", interval="00:30", motor_vehicle__conditional="no @ (22:00-06:00)")
    net = town.network(tmp_path)
    assert net.takes(2, 3, 20 * H + 599) == 1201 + 600 and net.takes(2, 3, 20 * H + 600) == 10 * H - 600 + 600
    assert net.takes(4, 5, 21 * H + 1800) == 600 and net.takes(4, 5, 21 * H + 1801) == 8 * H + 1799 + 600


def test_a_ferry_that_goes_on_other_days_joins_nothing(town: OsmMap, tmp_path: Path) -> None:
    """On a Monday 1 to 3 is lost, 2 km of 5: the ferry is one of them."""
    town.node(6, 1000, 3000)
    street(town, [1, 2])
    town.way([2, 3], route="ferry", duration="00:10", interval="01:00", opening_hours="Sa,Su 08:00-20:00")
    street(town, [3, 4, 5])
    street(town, [4, 6])
    assert town.network(tmp_path, weekday="sa").junctions == [1, 2, 3, 4, 5, 6]
    net = town.network(tmp_path)
    assert net.junctions == [3, 4, 5, 6] and net.made.lines[3].startswith("lost      2 km (40.0 %) in 2 junctions")


def test_open_streets_behind_private_ones_belong_to_them(town: OsmMap, tmp_path: Path) -> None:
    """2 to 4 is open, but can be reached over private roads alone: nobody drives through."""
    street(town, [1, 2], access="private")
    street(town, [2, 3, 4])
    street(town, [3, 10])
    street(town, [4, 5], access="private")
    town.node(6, 2000, 0), town.node(7, 2000, 4000), town.node(8, 0, -1000), town.node(9, 0, 5000), town.node(10, 300, 2000)
    street(town, [1, 6, 7, 5])
    street(town, [8, 1])
    street(town, [5, 9])
    net = town.network(tmp_path)
    assert net.takes(8, 9) == 144 + 8 * 144 + 144 and net.takes(8, 4) == 4 * 144 and net.takes(3, 9) == 3 * 144
    assert net.takes(10, 9) == 43 + 3 * 144 and net.count("streets behind roads for destinations alone") == 3
    assert "2.3 km of open roads are joined with the others by roads for destinations alone" in net.made.lines[-1]


def test_a_pocket_with_one_entrance_needs_no_copies(town: OsmMap, tmp_path: Path) -> None:
    street(town, [1, 2, 3])
    street(town, [2, 6], access="private")
    town.node(6, 300, 1000)
    net = town.network(tmp_path)
    assert max(net.copy) == 0 and net.takes(1, 6) == 144 + 43 and net.takes(6, 3) == 43 + 144


@pytest.mark.parametrize("access", ["private", "customers", "delivery"])
def test_a_gate_for_destinations_alone(town: OsmMap, tmp_path: Path, access: str) -> None:
    town.node(2, 0, 1000, barrier="gate", access=access)
    town.node(6, 500, 0), town.node(7, 500, 2000), town.node(8, 0, -1000)
    street(town, [1, 2, 3, 4])
    street(town, [1, 6, 7, 3])
    street(town, [8, 1])
    net = town.network(tmp_path)
    assert net.takes(8, 4) == 144 + 432 + 144 and net.takes(8, 2) == 288 and net.takes(2, 4) == 288
    assert net.count("gates for destinations alone: gate") == 1


def test_a_gate_that_is_closed_at_night(town: OsmMap, tmp_path: Path) -> None:
    town.node(2, 0, 1000, barrier="gate", opening_hours="06:00-22:00")
    street(town, [1, 2, 3])
    net = town.network(tmp_path)
    assert net.roads == [(1, 2), (2, 1), (2, 3), (3, 2)] and net.takes(1, 3, 12 * H) == 288
    # One comes to it at 144 s past midnight, and waits there.
    assert net.takes(1, 2) == 144 and net.takes(1, 3) == 6 * H + 144 and net.takes(1, 3, 22 * H) == 8 * H + 144
    town.node(2, 0, 1000, barrier="gate", access__conditional="no @ (22:00-06:00)")
    assert town.network(tmp_path).takes(1, 3) == 6 * H + 144


def test_a_street_that_is_closed_at_night(town: OsmMap, tmp_path: Path) -> None:
    """One waits at its beginning; who is on it when it closes drives to its end."""
    street(town, [1, 2])
    street(town, [2, 3, 4], motor_vehicle__conditional="no @ (22:00-06:00)")
    street(town, [4, 5])
    net = town.network(tmp_path)
    assert net.pieces(2, 4) == [(0, "until", 6 * H + 288), (6 * H, "travel", 288), (22 * H, "until", DAY + 6 * H + 288)]
    assert net.takes(1, 5, 22 * H - 145) == 4 * 144 and net.takes(1, 5, 22 * H - 144) == 144 + 8 * H + 288 + 144
    assert net.seconds(1, 2) == 144


def test_a_street_for_destinations_alone_at_some_hours(town: OsmMap, tmp_path: Path) -> None:
    """Through it by day; in the morning round about, which is 3,000 m, or to its own houses."""
    town.node(6, 500, 0), town.node(7, 500, 2000), town.node(8, 0, -1000), town.node(9, 300, 1000)
    street(town, [1, 2, 3], motor_vehicle__conditional="destination @ (07:00-09:00)")
    street(town, [2, 9], access="private")
    street(town, [1, 6, 7, 3])
    street(town, [8, 1])
    street(town, [3, 4])
    net = town.network(tmp_path)
    assert net.takes(8, 4, 12 * H) == 4 * 144 and net.takes(8, 4, 8 * H) == 144 + 432 + 144
    assert net.takes(8, 2, 8 * H) == 288 and net.takes(2, 4, 8 * H) == 288 and net.takes(9, 4, 8 * H) == 43 + 288
    # Shortly before the hours end it pays to wait for that: 100 s at the beginning of the street.
    assert net.takes(8, 4, 9 * H - 144 - 100) == 144 + 100 + 288 + 144


def test_limits_at_some_hours(town: OsmMap, tmp_path: Path) -> None:
    """3,600 m with 80 km/h are 162 s, with 40 km/h 324 s."""
    town.node(6, 0, 3600)
    town.way([1, 6], highway="primary", maxspeed="100", maxspeed__conditional="50 @ (22:00-06:00)")
    net = town.network(tmp_path)
    assert net.pieces(1, 6) == [(0, "travel", 324), (6 * H - 161, "until", 6 * H + 162), (6 * H, "travel", 162), (22 * H, "travel", 324)]


def test_one_way_at_some_hours(town: OsmMap, tmp_path: Path) -> None:
    street(town, [1, 2], oneway__conditional="yes @ (07:00-09:00)")
    net = town.network(tmp_path)
    assert net.seconds(1, 2) == 144 and net.takes(2, 1, 8 * H) == H + 144 and net.takes(2, 1, 9 * H) == 144


def test_hours_of_the_day_of_the_week(town: OsmMap, tmp_path: Path) -> None:
    street(town, [1, 2], motor_vehicle__conditional="no @ (Sa,Su 10:00-18:00)")
    assert town.network(tmp_path).seconds(1, 2) == 144
    assert town.network(tmp_path, weekday="su").takes(1, 2, 12 * H) == 6 * H + 144


def test_a_ferry_that_takes_a_while(town: OsmMap, tmp_path: Path) -> None:
    """40 minutes over both its parts; a street meets it half-way."""
    street(town, [1, 2])
    town.way([2, 3, 4], route="ferry", duration="00:40")
    street(town, [4, 5])
    street(town, [3, 6])
    town.node(6, 1000, 2000)
    net = town.network(tmp_path)
    assert net.seconds(2, 3) == net.seconds(3, 4) == 1200 and net.takes(1, 5) == 144 + 2400 + 144


def test_a_ferry_without_a_duration(town: OsmMap, tmp_path: Path) -> None:
    street(town, [1, 2])
    town.way([2, 3], route="ferry")
    assert town.network(tmp_path).takes(2, 3) == 720


def test_one_waits_for_a_ferry_once(town: OsmMap, tmp_path: Path) -> None:
    """Every hour, 40 minutes, with a node half-way that a street meets: one waits where one boards it, and not there again."""
    street(town, [1, 2])
    town.way([2, 3, 4], route="ferry", duration="00:40", interval="01:00")
    street(town, [4, 5])
    street(town, [3, 6])
    town.node(6, 1000, 2000)
    net = town.network(tmp_path)
    assert net.takes(1, 5, 8 * H) == H + 2400 + 144 and net.takes(2, 4, 9 * H) == 2400 and net.takes(4, 2, 9 * H + 1) == H - 1 + 2400
    assert net.seconds(3, 4) == 1200 and net.seconds(3, 2) == 1200 and len(net.pieces(2, 3)) == 25


def test_a_ferry_over_midnight(town: OsmMap, tmp_path: Path) -> None:
    street(town, [1, 2])
    town.way([2, 3], route="ferry", duration="00:10", interval="02:00", opening_hours="18:00-02:00")
    net = town.network(tmp_path)
    goes = [0, 2 * H, 18 * H, 20 * H, 22 * H]
    assert net.pieces(2, 3) == [(0, "until", 600), (1, "until", 2 * H + 600), (2 * H + 1, "until", 18 * H + 600),
                                (18 * H + 1, "until", 20 * H + 600), (20 * H + 1, "until", 22 * H + 600), (22 * H + 1, "until", DAY + 600)]
    assert all(net.takes(2, 3, second) == 600 for second in goes) and net.takes(2, 3, 2 * H + 1) == 16 * H - 1 + 600


def test_ferries_that_arent_for_it(town: OsmMap, tmp_path: Path) -> None:
    street(town, [1, 2])
    town.way([2, 3], route="ferry", foot="yes")
    town.way([2, 4], route="ferry", motorcar="no")
    town.way([1, 5], route="ferry", foot="yes", motor_vehicle="yes")
    net = town.network(tmp_path)
    assert net.junctions == [1, 2, 5] and net.count("left out: ferries that name walkers or bicycles and no others") == 1


def test_clipped_ways(town: OsmMap, tmp_path: Path) -> None:
    """Node 3 isn't in the file: the way is two."""
    street(town, [1, 2, 3, 4, 5])
    street(town, [2, 4])
    street(town, [3])
    del town.nodes[3]
    net = town.network(tmp_path)
    assert net.roads == [(1, 2), (2, 1), (2, 4), (4, 2), (4, 5), (5, 4)] or net.roads == [(1, 5), (5, 1)]
    assert net.takes(1, 5) == 144 + 288 + 144 and net.count("ways cut or left out: their nodes aren't there") == 2
    assert any("cut where their nodes aren't there" in line for line in net.made.lines)


def test_one_boards_each_part_of_a_clipped_ferry(town: OsmMap, tmp_path: Path) -> None:
    town.way([1, 2, 3, 4, 5], route="ferry", duration="00:40", interval="01:00")
    street(town, [2, 4])
    del town.nodes[3]
    net = town.network(tmp_path)
    assert len(net.pieces(1, 2)) == len(net.pieces(4, 5)) == len(net.pieces(2, 1)) == len(net.pieces(5, 4)) == 25


def test_a_box(town: OsmMap, tmp_path: Path) -> None:
    street(town, [1, 2, 3, 4, 5])
    assert town.network(tmp_path, bbox=(8.9, 47.005, 9.1, 47.03)).roads == [(2, 4), (4, 2)]


def test_order_and_numbers_in_the_file_are_of_no_matter(town: OsmMap, tmp_path: Path) -> None:
    street(town, [1, 2, 3])
    street(town, [2, 5])
    plain = town.network(tmp_path)
    text = town.text().split("\n")
    nodes, ways = ([line for line in text if line.startswith(start)] for start in ("<node", "<way"))
    turned = "\n".join([*text[:2], *ways, *reversed(nodes), "</osm>"])
    for number in range(1, 6):
        turned = turned.replace(f'<node id="{number}"', f'<node id="-{number}"').replace(f'ref="{number}"', f'ref="-{number}"')
    path = tmp_path / "turned.osm"
    path.write_text(turned, encoding="utf-8")
    from catchup.maps.importing import Options, import_osm
    from osm_maps import Net
    other = Net(import_osm(path, Options(), lambda text: None))
    assert other.roads == sorted((-a, -b) for a, b in plain.roads) and other.takes(-1, -5) == plain.takes(1, 5)


def test_the_same_way_twice(town: OsmMap, tmp_path: Path) -> None:
    street(town, [1, 2, 3])
    town.way([1, 2, 3], number=1, highway="residential")
    net = town.network(tmp_path)
    assert net.roads == [(1, 3), (3, 1)] and net.count("left out: the same number again") == 1


def test_a_history(town: OsmMap, tmp_path: Path) -> None:
    street(town, [1, 2, 3])
    town.way([1, 2], number=1, attributes='version="2"', highway="residential")
    with pytest.raises(Failure, match="several versions.*history"):
        town.network(tmp_path)


def test_deleted_ways(town: OsmMap, tmp_path: Path) -> None:
    street(town, [1, 2, 3])
    town.way([3, 4], attributes='version="2" visible="false"', highway="residential")
    net = town.network(tmp_path)
    assert net.roads == [(1, 3), (3, 1)] and net.count("left out: deleted in this file") == 1


def test_odd_ways(town: OsmMap, tmp_path: Path) -> None:
    street(town, [1, 2, 2, 3])
    street(town, [3])
    street(town, [4, 4])
    net = town.network(tmp_path)
    assert net.roads == [(1, 3), (3, 1)] and net.count("ways with the same node twice in a row") == 2
    assert net.count("left out: less than two nodes") == 2


def test_the_largest_part_is_kept(town: OsmMap, tmp_path: Path) -> None:
    """An island, a street that one can't get into, and one that one can't leave."""
    street(town, [1, 2, 3, 4])
    street(town, [2, 11], oneway="yes")
    street(town, [12, 3], oneway="yes")
    town.way([13, 14], highway="motorway")
    town.node(11, 500, 1000), town.node(12, 500, 2000), town.node(13, 2000, 0), town.node(14, 2000, 1000)
    net = town.network(tmp_path)
    assert net.junctions == [1, 2, 3, 4]
    assert [net.count(f"junctions lost: {what}") for what in ("not joined at all", "not reached", "without a way out")] == [2, 1, 1]
    text = "\n".join(net.made.lines)
    assert "2 km (40.0 %) in 4 junctions" in text and "MOTORWAY 1" in text and "40.0 % of the kilometres are lost" in text
    assert "main roads are among what is lost: motorway 1" in text and "motorway: 1.0" in net.made.report
    assert town.network(tmp_path, islands=True).junctions == [1, 2, 3, 4, 11, 12, 13, 14]


def test_names_are_parts_of_roads(town: OsmMap, tmp_path: Path) -> None:
    street(town, [1, 2], name="High Street", ref="B 1")
    street(town, [3, 2], name="Low Street")
    street(town, [3, 4])
    street(town, [4, 5], ref="B 2")
    net = town.network(tmp_path)
    names, north = net.made.names, next(road for road, tail in enumerate(net.tail) if net.osm[tail] == 1)
    spans = {road: [(round(span.from_metres), round(span.to_metres), span.name, span.ref) for span in names.of(road)] for road in (0, 1)}
    there = [(0, 1000, "High Street", "B 1"), (1000, 2000, "Low Street", ""), (3000, 4000, "", "B 2")]
    back = [(4000 - b, 4000 - a, name, ref) for a, b, name, ref in reversed(there)]
    assert spans[north] == there and spans[1 - north] == back


def test_signals_and_crossings(town: OsmMap, tmp_path: Path) -> None:
    """Who drives onto one waits there, at its own side where it has one."""
    town.node(2, 0, 1000, highway="traffic_signals")
    town.node(3, 0, 2000, highway="traffic_signals", traffic_signals__direction="forward")
    town.node(4, 0, 3000, highway="crossing")
    street(town, [1, 2, 3, 4, 5])
    net = town.network(tmp_path, signals=20.0, crossings=5.0)
    assert (net.seconds(1, 5), net.seconds(5, 1)) == (576 + 45, 576 + 25) and net.count("signals") == 2


def test_rush_hours(town: OsmMap, tmp_path: Path) -> None:
    """2,000 m with 65 km/h are 110.8 s; at 7 o'clock half as much again: 166.2 s."""
    town.way([1, 2, 3], highway="primary")
    street(town, [3, 4])
    net = town.network(tmp_path, rush=True)
    assert net.junctions == [1, 4]
    town.node(6, 1000, 2000)
    street(town, [3, 6])
    net = town.network(tmp_path, rush=True)
    assert net.takes(1, 3) == 111 and net.takes(1, 3, 7 * H) == 166 and net.seconds(3, 4) == 144
    assert town.network(tmp_path, rush=True, weekday="su").takes(1, 3, 7 * H) == 111


def test_profiles_are_shared_and_some_are_spare(town: OsmMap, tmp_path: Path) -> None:
    street(town, [1, 2, 3, 4])
    street(town, [2, 5])
    town.node(5, 1000, 1000)
    net = town.network(tmp_path, spare=3)
    profiles = net.made.network.profiles
    assert len(profiles) == 1 + 2 + 3 and [len(profiles.pieces(profile)) for profile in range(6)] == [1] * 6
    kinds = [profiles.pieces(profile)[0].kind for profile in range(6)]
    assert kinds == ["closed", "travel", "travel", "closed", "closed", "closed"] and set(net.profile) == {1, 2}


def test_places_are_tenths_of_a_metre(town: OsmMap, tmp_path: Path) -> None:
    """So that a metre is as long both ways, at the map's middle."""
    town.node(6, 1000, 0)
    street(town, [1, 2, 3])
    street(town, [1, 6])
    nodes = town.network(tmp_path).made.network.nodes
    assert nodes.y.max() == pytest.approx(20000, abs=1) and nodes.x.max() == pytest.approx(10000, abs=5)


def test_more_than_the_limit(town: OsmMap, tmp_path: Path, monkeypatch: pytest.MonkeyPatch) -> None:
    street(town, [1, 2, 3])
    town.way([2, 4], highway="service")
    monkeypatch.setattr(tables, "MOST_NODES", 3)
    with pytest.raises(Failure, match=r"4 junctions and 6 roads are more than the 3 .*--without service,track \(roads of these: service 2.*--bbox"):
        town.network(tmp_path)
    assert town.network(tmp_path, without=frozenset({"service"})).junctions == [1, 3]
    monkeypatch.setattr(tables, "MOST_NODES", 1)
    town.restrict(1, 2, 2, "no_left_turn")
    with pytest.raises(Failure, match=r"junctions \(\d+ of them copies: --turn-back and --through need fewer\) and"):
        town.network(tmp_path)


@pytest.mark.parametrize("tags, says", [
    (dict(highway="footway"), "no way in it is a road for cars"), (dict(highway="residential", access="no"), "no way in it is a road for cars"),
    (dict(highway="residential", oneway="yes"), "none of its roads leads anywhere and back")])
def test_no_roads(town: OsmMap, tmp_path: Path, tags: dict[str, str], says: str) -> None:
    town.way([1, 2], **tags)
    with pytest.raises(Failure, match=says):
        town.network(tmp_path)


@pytest.mark.parametrize("islands", [False, True])
def test_no_roads_on_that_day(town: OsmMap, tmp_path: Path, islands: bool) -> None:
    """All there is is a ferry of Saturdays."""
    town.way([1, 2], route="ferry", duration="10", opening_hours="Sa 08:00-10:00")
    assert town.network(tmp_path, weekday="sa", islands=islands).takes(1, 2) == 8 * H + 600
    with pytest.raises(Failure, match="none of its roads can be entered at any hour of that day: name another by --weekday"):
        town.network(tmp_path, islands=islands)


def test_no_nodes(town: OsmMap, tmp_path: Path) -> None:
    street(town, [11, 12])
    with pytest.raises(Failure, match="none of the nodes of its roads is in the file"):
        town.network(tmp_path)
    street(town, [1, 12, 2])
    with pytest.raises(Failure, match="no two nodes of a road follow each other"):
        town.network(tmp_path)
