"""Turn restrictions on small made maps, as drives that keep them.

A crossing 5 has arms of 1,000 m to 1 in the north, 2 in the south, 3 in the east and 4 in the west, each a way of its own
with its end's number, and each longer by another 1,000 m to 11, 12, 13 and 14. An arm takes 144 s. Dead ends are at 11 to 14
alone, where streets are that come from the side at 1 to 4: so one turns back at 1 to 4, or at 11 to 14, by choice.
"""
from __future__ import annotations

from pathlib import Path

import pytest
from osm_maps import Net, OsmMap

from catchup.maps.values import DAY

H = 3600
ARMS = {1: (0, 1000), 2: (0, -1000), 3: (1000, 0), 4: (-1000, 0)}


@pytest.fixture
def crossing() -> OsmMap:
    made = OsmMap()
    made.node(5, 0, 0)
    for number, (x, y) in ARMS.items():
        made.node(number, x, y), made.node(10 + number, 2 * x, 2 * y), made.node(20 + number, x + 0.3 * y, y + 0.3 * x)
        made.way([number, 5], number=number, highway="residential")
        made.way([number, 10 + number], number=10 + number, highway="residential")
        made.way([number, 20 + number], number=20 + number, highway="residential")
    return made


def path(net: Net, a: int, b: int, second: int = 0) -> list[int]:
    found = net.drive(a, b, second)
    assert found is not None
    return found[1]


def test_nothing_is_restricted(crossing: OsmMap, tmp_path: Path) -> None:
    net = crossing.network(tmp_path)
    assert max(net.copy) == 0 and all(path(net, a, b) == [a, 5, b] for a in ARMS for b in ARMS if a != b)


@pytest.mark.parametrize("kind", ["no_left_turn", "no_right_turn", "no_straight_on", "no_entry", "no_exit"])
def test_a_forbidden_turn(crossing: OsmMap, tmp_path: Path, kind: str) -> None:
    """Nobody turns from 2 to 4. To get there one goes by a dead end: 2 5 1 and 21, 300 m on and back, and then right."""
    crossing.restrict(2, 5, 4, kind)
    net = crossing.network(tmp_path)
    assert path(net, 2, 1) == [2, 5, 1] and path(net, 2, 3) == [2, 5, 3] and path(net, 4, 2) == [4, 5, 2] and path(net, 1, 4) == [1, 5, 4]
    assert path(net, 2, 4) in ([2, 5, 1, 21, 1, 5, 4], [2, 5, 3, 23, 3, 5, 4]) and net.takes(2, 4) == 4 * 144 + 86
    assert net.takes(5, 4) == 144 and net.count("restrictions made: no") == 1
    # With turning back allowed one turns at 1 or 3.
    assert crossing.network(tmp_path, turn_back=True).takes(2, 4) == 4 * 144


@pytest.mark.parametrize("target, others", [(1, (3, 4)), (3, (1, 4))])
def test_one_turn_alone_is_allowed(crossing: OsmMap, tmp_path: Path, target: int, others: tuple[int, int]) -> None:
    crossing.restrict(2, 5, target, "only_straight_on")
    net = crossing.network(tmp_path)
    assert path(net, 2, target) == [2, 5, target] and net.count("restrictions made: only") == 1
    for other in others:
        assert path(net, 2, other) == [2, 5, target, 20 + target, target, 5, other]
    assert path(net, 1, 4) == [1, 5, 4]


def test_either_of_two_that_alone_are_allowed(crossing: OsmMap, tmp_path: Path) -> None:
    crossing.restrict(2, 5, 1, "only_straight_on")
    crossing.restrict(2, 5, 3, "only_right_turn")
    net = crossing.network(tmp_path)
    assert path(net, 2, 1) == [2, 5, 1] and path(net, 2, 3) == [2, 5, 3] and len(path(net, 2, 4)) == 7


@pytest.mark.parametrize("tags, vehicle, made", [
    (dict(except_="bus;taxi"), "car", True), (dict(except_="motorcar"), "car", False), (dict(except_="bus;motorcar"), "car", False),
    (dict(except_="motor_vehicle"), "car", False), (dict(except_="bicycle"), "bicycle", False), (dict(except_="bicycle"), "car", True),
    (dict(), "foot", False), (dict(except_="hgv"), "truck", False), (dict(except_="hgv"), "car", True)])
def test_who_is_excepted(crossing: OsmMap, tmp_path: Path, tags: dict[str, str], vehicle: str, made: bool) -> None:
    crossing.restrict(2, 5, 4, "no_left_turn", **tags)
    assert (path(crossing.network(tmp_path, vehicle=vehicle), 2, 4) != [2, 5, 4]) == made


@pytest.mark.parametrize("vehicle, made", [("car", False), ("truck", True), ("bicycle", False)])
@pytest.mark.parametrize("tags", [dict(restriction__hgv="no_left_turn"), dict(type="restriction:hgv", restriction="no_left_turn")])
def test_restrictions_of_some(crossing: OsmMap, tmp_path: Path, tags: dict[str, str], vehicle: str, made: bool) -> None:
    crossing.restrict(2, 5, 4, **tags)
    net = crossing.network(tmp_path, vehicle=vehicle)
    assert (path(net, 2, 4) != [2, 5, 4]) == made and net.count("restrictions: for others") == (not made)


def test_a_forbidden_turn_at_some_hours(crossing: OsmMap, tmp_path: Path) -> None:
    """One may wait at the crossing until it's allowed, or go round."""
    crossing.restrict(2, 5, 4, restriction__conditional="no_left_turn @ (Mo-Fr 07:00-09:00)")
    net = crossing.network(tmp_path)
    assert path(net, 2, 4, 12 * H) == [2, 5, 4] and net.takes(2, 4, 8 * H) == 4 * 144 + 86
    assert net.takes(2, 4, 9 * H - 144 - 60) == 144 + 60 + 144
    assert crossing.network(tmp_path, weekday="sa").takes(2, 4, 8 * H) == 288


def test_one_turn_alone_at_some_hours(crossing: OsmMap, tmp_path: Path) -> None:
    crossing.restrict(2, 5, 1, restriction__conditional="only_straight_on @ (22:00-06:00)")
    crossing.restrict(2, 5, 3, "only_right_turn")
    net = crossing.network(tmp_path)
    assert path(net, 2, 3, 12 * H) == path(net, 2, 3, 23 * H) == [2, 5, 3]
    assert path(net, 2, 1, 23 * H) == [2, 5, 1] and len(path(net, 2, 1, 12 * H)) == 7


@pytest.mark.parametrize("tags, why", [
    (dict(restriction__conditional="no_left_turn @ (sunset-sunrise)"), "at times that aren't understood"),
    (dict(restriction="no_left_turn", hour_on="07:00", hour_off="09:00"), "at times that aren't understood"),
    (dict(restriction="slowly"), "not understood")])
def test_what_isnt_understood(crossing: OsmMap, tmp_path: Path, tags: dict[str, str], why: str) -> None:
    crossing.restrict(2, 5, 4, **tags)
    net = crossing.network(tmp_path)
    assert path(net, 2, 4) == [2, 5, 4] and net.count(f"restrictions: {why}") == 1
    if "at times" in why:
        assert "1 restrictions at times that aren't understood are left out" in net.made.lines[-1]


def test_what_cant_be_made(crossing: OsmMap, tmp_path: Path) -> None:
    crossing.restrict(2, 1, 4, "no_left_turn")
    crossing.restrict(99, 5, 4, "no_left_turn")
    crossing.restrict([], 5, 4, "no_left_turn")
    crossing.way([5, 1], number=30, highway="footway")
    crossing.restrict(2, 5, 30, "no_straight_on")
    net = crossing.network(tmp_path)
    assert max(net.copy) == 0 and net.count("restrictions: members missing or too many") == 1
    assert net.count("restrictions: their roads aren't taken, don't meet or go the other way") == 3


def test_no_turning_back(crossing: OsmMap, tmp_path: Path) -> None:
    """A ban on turning back on the way that one came by."""
    crossing.restrict(2, 5, 2, "no_u_turn")
    net = crossing.network(tmp_path)
    assert path(net, 2, 1) == [2, 5, 1]
    assert net.may(12, 2, 5, 1) and not net.may(12, 2, 5, 2) and not net.may(2, 5, 2) and net.may(1, 5, 1)


def test_no_turning_back_where_the_way_goes_on(tmp_path: Path) -> None:
    """The ban is on going back, and not on going on along the way."""
    made = OsmMap()
    made.row(3)
    made.way([1, 2, 3], highway="residential")
    made.way([2, 4], highway="residential")
    made.node(4, 500, 1000)
    made.restrict(1, 2, 1, "no_u_turn")
    net = made.network(tmp_path)
    assert path(net, 1, 3) == [1, 2, 3] and path(net, 3, 1) == [3, 2, 1] and net.count("restrictions made: no") == 1


def test_a_way_that_goes_on_beyond_the_junction(tmp_path: Path) -> None:
    """A ban from a way that goes on counts for both sides."""
    made = OsmMap()
    made.row(3)
    made.way([1, 2, 3], highway="residential")
    made.way([2, 4], highway="residential")
    made.node(4, 500, 1000)
    made.restrict(1, 2, 2, "no_left_turn")
    net = made.network(tmp_path)
    assert net.takes(1, 4) is None or len(path(net, 1, 4)) > 3
    assert net.count("restrictions with a way that goes on beyond the junction") == 1


def dual() -> OsmMap:
    """A dual carriageway: 1 2 3 to the north, 6 5 4 to the south, 100 m beside, joined by 2 5. All its ends go on to dead ends."""
    made = OsmMap()
    made.row(3)
    for number, (x, y) in {4: (100, 0), 5: (100, 1000), 6: (100, 2000), 7: (50, -1000), 8: (50, 3000), 9: (0, -2000)}.items():
        made.node(number, x, y)
    made.way([1, 2], number=12, highway="primary", oneway="yes")
    made.way([2, 3], number=23, highway="primary", oneway="yes")
    made.way([6, 5], number=65, highway="primary", oneway="yes")
    made.way([5, 4], number=54, highway="primary", oneway="yes")
    made.way([2, 5], number=25, highway="residential")
    made.way([7, 1], number=71, highway="primary", oneway="yes")
    made.way([4, 7], number=47, highway="primary", oneway="yes")
    made.way([3, 8], number=38, highway="primary", oneway="yes")
    made.way([8, 6], number=86, highway="primary", oneway="yes")
    made.way([7, 9], number=79, highway="primary")
    made.way([8, 10], number=80, highway="primary")
    made.node(10, 50, 4000)
    return made


def test_a_ban_over_a_way(tmp_path: Path) -> None:
    made = dual()
    assert path(made.network(tmp_path), 7, 9) == [7, 9] and path(made.network(tmp_path), 9, 5) == [9, 7, 2, 5]
    assert made.network(tmp_path).takes(2, 7) == 14 + 55 + 56
    made.restrict(12, [25], 54, "no_u_turn")
    net = made.network(tmp_path)
    assert net.count("restrictions made: no over ways") == 1
    # The link is fine, and so is the road back for who comes to it otherwise; turning on the link is no way round either.
    assert net.may(7, 2, 5) and not net.may(7, 2, 5, 7) and net.may(2, 5, 7) and net.may(8, 5, 7) and not net.may(7, 2, 5, 2)
    assert path(net, 5, 7) == [5, 7] and path(net, 9, 5) == [9, 7, 2, 5]


def test_only_over_a_way(tmp_path: Path) -> None:
    made = dual()
    made.restrict(12, [25], 54, "only_u_turn")
    net = made.network(tmp_path)
    # Who comes to 2 has to take the link and go back down.
    net = made.network(tmp_path, islands=True)
    assert net.count("restrictions made: only over ways") == 1 and net.may(9, 7, 2, 5, 7, 9) and net.may(2, 8)
    assert not net.may(7, 2, 8) and not net.may(7, 2, 5, 2) and net.drive(9, 8) is None


@pytest.mark.parametrize("between", [False, True])
def test_no_turn_gets_past_a_restriction(tmp_path: Path, between: bool) -> None:
    """Behind the forbidden turn stand four junctions in a row with side streets: only behind the third may one turn round.
    Nodes between them at which there is nothing to choose don't count."""
    made = OsmMap()
    made.node(1, 0, -1000), made.node(2, 0, 0), made.node(3, -1000, 0)
    made.way([1, 2], number=1, highway="residential")
    made.way([2, 3], number=2, highway="residential")
    row = [2] + [made.node(number, 0, y) for i in range(1, 6) for number, y in ((30 + i, i * 1000 - 500), (10 + i, i * 1000))]
    made.way(row, number=3, highway="residential")
    if between:
        for i in range(1, 6):
            made.restrict(3, 30 + i, 99, "no_left_turn")
    for i in range(1, 5):
        made.node(20 + i, 5000, i * 1000)
        made.way([10 + i, 20 + i], highway="residential")
    made.restrict(1, 2, 2, "no_left_turn")
    net = made.network(tmp_path)
    found = path(net, 1, 3)
    assert [node for node in found if node < 30] == [1, 2, 11, 12, 13, 14, 13, 12, 11, 2, 3] and (31 in found) == between


def test_no_turn_in_the_middle_of_a_road(tmp_path: Path) -> None:
    """A node half-way that only the map's loop or a gate makes is no junction: there nobody turns, nor does it count as one."""
    made = OsmMap()
    made.node(1, 0, -1000), made.node(2, 0, 0), made.node(3, -1000, 0), made.node(4, 0, 500, barrier="gate", access="customers")
    made.node(5, 0, 1000)
    made.way([1, 2], number=1, highway="residential", access="destination")
    made.way([2, 3], number=2, highway="residential", access="destination")
    made.way([2, 4, 5], number=3, highway="residential")
    made.restrict(1, 2, 2, "no_left_turn")
    net = made.network(tmp_path)
    assert path(net, 1, 3) == [1, 2, 4, 5, 4, 2, 3]


def test_a_road_that_is_driven_by_who_begins_there_alone(tmp_path: Path) -> None:
    """A ring 1 2 3 4. Nobody turns onto the road from 1 to 2, and it leads nowhere on: still one drives it from 1 to 2."""
    made = OsmMap()
    for number, place in enumerate(((0, 0), (0, 1000), (1000, 1000), (1000, 0)), 1):
        made.node(number, *place)
    ways = {(a, b): made.way([a, b], highway="residential") for a, b in ((1, 2), (2, 3), (3, 4), (4, 1))}
    made.restrict(ways[4, 1], 1, ways[1, 2], "no_left_turn")
    made.restrict(ways[1, 2], 2, ways[2, 3], "no_right_turn")
    for node in (1, 2):
        made.restrict(ways[1, 2], node, ways[1, 2], "no_u_turn")
    net = made.network(tmp_path)
    assert net.takes(1, 2) == net.takes(2, 1) == 144


def test_a_private_drive_is_no_place_to_turn(crossing: OsmMap, tmp_path: Path) -> None:
    """The dead ends at 21 to 24 and 11 to 14 are private or far: one doesn't turn in a private one on the way elsewhere."""
    crossing.ways = [(number, nodes, dict(tags, access="private") if number > 20 else tags, attributes)
                     for number, nodes, tags, attributes in crossing.ways]
    crossing.restrict(2, 5, 4, "no_left_turn")
    net = crossing.network(tmp_path)
    assert path(net, 2, 4) in ([2, 5, 1, 11, 1, 5, 4], [2, 5, 3, 13, 3, 5, 4]) and path(net, 2, 24)[-1] == 24


def test_turns_in_streets_that_are_there_twice(crossing: OsmMap, tmp_path: Path) -> None:
    """The arm to 4 is for destinations alone in the morning: the turn onto it is forbidden at all hours all the same."""
    crossing.ways = [(number, nodes, dict(tags, **{"motor_vehicle:conditional": "destination @ (07:00-09:00)"}) if number == 4 else tags, attributes)
                     for number, nodes, tags, attributes in crossing.ways]
    crossing.restrict(2, 5, 4, "no_left_turn")
    net = crossing.network(tmp_path)
    for second in (8 * H, 12 * H):
        assert len(path(net, 2, 4, second)) == 7 and path(net, 1, 4, second) == [1, 5, 4]


def test_hours_are_those_of_the_turn(crossing: OsmMap, tmp_path: Path) -> None:
    """A copy's road is closed at the hours of the ban, and open at the others: its pieces say so."""
    crossing.restrict(2, 5, 4, restriction__conditional="no_left_turn @ (07:00-09:00)")
    net = crossing.network(tmp_path)
    profiles = net.made.network.profiles
    gated = {tuple((piece.start, piece.kind, piece.value) for piece in profiles.pieces(profile)) for profile in range(len(profiles))}
    assert ((0, "travel", 144), (7 * H, "until", 9 * H + 144), (9 * H, "travel", 144)) in gated
    assert all(value < 2 * DAY for pieces in gated for _, _, value in pieces)


def test_turns_to_a_side_take_seconds(crossing: OsmMap, tmp_path: Path) -> None:
    """To the left 20 s, to the right 5; straight on and in a bend nothing."""
    net = crossing.network(tmp_path, left=20, right=5)
    assert (net.takes(2, 4), net.takes(2, 1), net.takes(2, 3)) == (288 + 20, 288, 288 + 5) and net.takes(5, 4) == 144
    assert (net.takes(1, 3), net.takes(3, 2), net.takes(4, 1)) == (288 + 20,) * 3 and net.takes(1, 4) == net.takes(4, 2) == 288 + 5
    # 12 over 2 to 22: the side street lies to the left or right of who comes from outside.
    assert {net.takes(12, 22), net.takes(5, 22)} == {144 + 43 + 20, 144 + 43 + 5}
    # The road behind the turn says so outside too.
    assert set(net.made.map.road_seconds.tolist()) >= {144, 149, 164}
    assert crossing.network(tmp_path, left=20).takes(2, 3) == 288


def test_turns_and_bans_at_once(crossing: OsmMap, tmp_path: Path) -> None:
    crossing.restrict(2, 5, 4, restriction__conditional="no_left_turn @ (07:00-09:00)")
    net = crossing.network(tmp_path, left=20)
    assert net.takes(2, 4, 12 * H) == 308 and net.takes(2, 4, 9 * H - 200) == 200 + 164
