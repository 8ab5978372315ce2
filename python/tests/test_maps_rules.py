"""What the tags of a way say: classes, directions, speeds, access and hours, as tables of cases."""
from __future__ import annotations

from functools import cache
from pathlib import Path
from typing import Any

import pytest

from catchup.errors import Failure
from catchup.maps.rules import Rule, read_rule
from catchup.maps.timing import Timing, closed_in, open_in
from catchup.maps.values import DAY
from catchup.maps.vehicles import VEHICLES, read_rush, read_speeds, read_vehicle

H = 3600


vehicle_of = cache(read_vehicle)


def rule(who: Any = "car", with_private: Any = True, **tags: Any) -> Rule:
    said = {key.replace("__", ":"): value for key, value in tags.items()}
    found = read_rule(said, vehicle_of(who, None, with_private), 0)
    assert found is not None
    return found


def speeds(of: Rule) -> tuple[float | None, float | None]:
    forth, back = (None if side is None else round(side.kmh, 4) for side in (of.forth, of.back))
    return forth, back


@pytest.mark.parametrize("tags, expected", [
    (dict(highway="residential"), (25, 25)),
    (dict(highway="motorway"), (90, None)),
    (dict(highway="motorway_link"), (45, 45)),
    (dict(highway="motorway", oneway="no"), (90, 90)),
    (dict(highway="tertiary", junction="roundabout"), (40, None)),
    (dict(highway="tertiary", junction="circular"), (40, None)),
    (dict(highway="tertiary", junction="roundabout", oneway="-1"), (None, 40)),
    *((dict(highway="residential", oneway=value), (25, None)) for value in ("yes", "true", "1")),
    *((dict(highway="residential", oneway=value), (None, 25)) for value in ("-1", "reverse")),
    *((dict(highway="residential", oneway=value), (25, 25))
      for value in ("no", "false", "0", "alternating", "sometimes")),
    (dict(highway="residential", oneway="yes", oneway__motor_vehicle="no"), (25, 25)),
    (dict(highway="residential", oneway__motorcar="yes"), (25, None)),
    (dict(highway="residential", oneway="no", oneway__motor_vehicle="yes", oneway__motorcar="-1"), (None, 25)),
    # Of a limit four fifths are driven.
    (dict(highway="residential", maxspeed="30"), (24, 24)),
    (dict(highway="residential", maxspeed="20 mph"), (25.7495, 25.7495)),
    (dict(highway="primary", maxspeed="none"), (104, 104)),
    (dict(highway="primary", maxspeed="signals"), (65, 65)),
    (dict(highway="residential", maxspeed="30", maxspeed__motorcar="50"), (40, 40)),
    (dict(highway="residential", maxspeed="50", maxspeed__forward="30"), (24, 40)),
    (dict(highway="residential", maxspeed__backward="30"), (25, 24)),
    (dict(highway="residential", source__maxspeed="DE:urban"), (40, 40)),
    (dict(highway="residential", maxspeed__type="DE:zone30"), (24, 24)),
    (dict(highway="residential", zone__maxspeed="DE:30"), (24, 24)),
    (dict(highway="residential", maxspeed="50", source__maxspeed="DE:rural"), (40, 40)),
    (dict(highway="residential", maxspeed="fast"), (25, 25)),
    # No faster than the surface lets one.
    (dict(highway="primary", surface="gravel"), (40, 40)),
    (dict(highway="primary", maxspeed="50", tracktype="grade5"), (20, 20)),
    (dict(highway="primary", smoothness="bad", surface="mud"), (10, 10)),
    (dict(highway="living_street", surface="gravel"), (10, 10)),
    (dict(highway="primary", surface="asphalt"), (65, 65)),
    # Of a list the least counts; links, tolls and lanes for buses change nothing.
    (dict(highway="residential", maxspeed="50;30"), (24, 24)),
    (dict(highway="motorway", maxspeed="DE:motorway", toll="yes", oneway="yes"), (104, None)),
    (dict(highway="motorway_link", oneway="yes", maxspeed="70 mph"), (90.1233, None)),
    (dict(highway="secondary", lanes__psv="1", busway="lane", maxspeed="GB:nsl_single"), (77.28, 77.28)),
    (dict(highway="trunk", maxspeed="RO:trunk", oneway="yes", oneway__bus="no"), (80, None)),
    (dict(route="ferry"), (5, 5)),
    (dict(route="ferry", maxspeed="10 knots", highway="primary"), (14.816, 14.816)),
    (dict(route="ferry", motor_vehicle="yes", foot="yes"), (5, 5)),
])
def test_directions_and_speeds(tags: dict[str, str], expected: tuple[float | None, float | None]) -> None:
    found = rule(**tags)
    assert found.out is None and speeds(found) == expected


@pytest.mark.parametrize("tags, ends", [
    (dict(access="destination"), True), (dict(motor_vehicle="customers"), True), (dict(vehicle="delivery"), True),
    (dict(access="private"), True), (dict(motorcar="residents"), True), (dict(motorcar="permit"), True),
    (dict(access="no", motor_vehicle="destination"), True),
    (dict(access="yes"), False), (dict(access="permissive"), False), (dict(access="no", motorcar="designated"), False),
    (dict(access="private", vehicle="yes"), False), (dict(motor_vehicle="private", motorcar="yes"), False),
    # A list is as open as the most open of its words.
    (dict(access="agricultural;destination"), True), (dict(access="no;yes"), False), (dict(access="Destination"), True),
    (dict(access="unknown"), False), (dict(foot="no", bicycle="no"), False),
    (dict(access="yes", bus="no", hgv="no"), False),
])
def test_access(tags: dict[str, str], ends: bool) -> None:
    found = rule(highway="residential", **tags)
    assert (found.out, found.ends, found.too) == (None, ends, None)


@pytest.mark.parametrize("tags, why", [
    (dict(highway="residential", access="no"), "barred: access=no"),
    (dict(highway="residential", motor_vehicle="no"), "barred: motor_vehicle=no"),
    (dict(highway="residential", access="yes", motorcar="no"), "barred: motorcar=no"),
    (dict(highway="residential", motor_vehicle="agricultural;forestry"), "barred: motor_vehicle=agricultural;forestry"),
    (dict(highway="residential", access="military"), "barred: access=military"),
    (dict(highway="service", access="no", bus="yes"), "barred: access=no"),
    (dict(highway="residential", motor_vehicle="no", psv="yes"), "barred: motor_vehicle=no"),
    (dict(highway="busway"), "class: busway"), (dict(highway="construction"), "class: construction"),
    (dict(highway="residential", opening_hours="off"), "closed all day"),
    (dict(highway="residential", opening_hours="Sa,Su"), "closed all day"),
    (dict(highway="residential", opening_hours="06:00-12:00", access__conditional="no @ (06:00-12:00)"),
     "closed all day"),
    (dict(highway="footway"), "class: footway"), (dict(highway="track"), "class: track"),
    (dict(highway="proposed"), "class: proposed"),
    (dict(highway="service", area="yes"), "areas"),
    (dict(highway="residential", oneway="reversible"), "reversible"),
    *((dict(highway="residential", **{key: "yes"}), "abandoned, disused or impassable")
      for key in ("abandoned", "disused", "impassable")),
    (dict(highway="residential", smoothness="impassable"), "abandoned, disused or impassable"),
    (dict(route="ferry", foot="yes"), "ferries that name walkers or bicycles and no others"),
    (dict(route="ferry", bicycle="yes"), "ferries that name walkers or bicycles and no others"),
    (dict(route="ferry", motorcar="no"), "barred: motorcar=no"),
    # A class that no tag of its own lets a car in on.
    (dict(highway="footway", access="yes"), "class: footway"),
    (dict(highway="track", access="private"), "class: track"),
    (dict(highway="track", motor_vehicle="agricultural"), "class: track"),
    (dict(highway="path", motor_vehicle="no"), "class: path"),
    (dict(highway="steps", motor_vehicle="yes"), "class: steps"),
])
def test_left_out(tags: dict[str, str], why: str) -> None:
    assert rule(**tags).out == why


@pytest.mark.parametrize("tags, speed, ends", [
    (dict(highway="track", access="yes"), 10, False), (dict(highway="track", motorcar="yes"), 10, False),
    (dict(highway="track", access="destination"), 10, True), (dict(highway="track", motor_vehicle="private"), 10, True),
    (dict(highway="footway", motorcar="yes"), 5, False), (dict(highway="path", motor_vehicle="destination"), 5, True),
    (dict(highway="pedestrian", vehicle="delivery"), 5, True),
    (dict(highway="cycleway", motor_vehicle="yes"), 5, False),
    (dict(highway="track", access="yes", maxspeed="30"), 24, False),
])
def test_classes_that_a_tag_opens(tags: dict[str, str], speed: float, ends: bool) -> None:
    found = rule(**tags)
    assert (found.out, speeds(found), found.ends) == (None, (speed, speed), ends)
    assert f"opened: {tags['highway']}" in found.notes


def test_private_roads_may_be_barred() -> None:
    assert rule(highway="service", access="private", with_private=False).out == "barred: access=private"
    assert rule(highway="service", access="customers", with_private=False).ends


def test_nothing_that_anybody_goes_on() -> None:
    assert read_rule({"building": "yes"}, vehicle_of("car"), 0) is None
    found = read_rule({"highway": "service"}, read_vehicle("car"), 0, frozenset({"service"}))
    assert found is not None and found.out == "asked to be left out: service"


@pytest.mark.parametrize("vehicle, tags, expected", [
    ("truck", dict(highway="motorway"), (80, None)), ("truck", dict(highway="primary", maxspeed="120"), (80, 80)),
    ("bicycle", dict(highway="residential"), (18, 18)), ("bicycle", dict(highway="cycleway", oneway="yes"), (18, None)),
    ("bicycle", dict(highway="residential", oneway="yes", oneway__bicycle="no"), (18, 18)),
    ("bicycle", dict(highway="residential", oneway="yes", cycleway="opposite_lane"), (18, 18)),
    ("bicycle", dict(highway="residential", maxspeed="10"), (10, 10)),
    ("bicycle", dict(highway="footway", bicycle="yes"), (8, 8)),
    ("bicycle", dict(highway="path"), (12, 12)),
    ("bicycle", dict(highway="primary", bicycle="yes", motorroad="yes"), (18, 18)),
    ("foot", dict(highway="footway"), (5, 5)), ("foot", dict(highway="steps"), (2, 2)),
    ("foot", dict(highway="residential", oneway="yes", junction="roundabout"), (5, 5)),
    ("foot", dict(highway="residential", vehicle="no"), (5, 5)), ("foot", dict(route="ferry", foot="yes"), (5, 5)),
])
def test_other_vehicles(vehicle: str, tags: dict[str, str], expected: tuple[float | None, float | None]) -> None:
    found = rule(vehicle, True, **tags)
    assert found.out is None and speeds(found) == expected


@pytest.mark.parametrize("vehicle, tags, why", [
    ("truck", dict(highway="residential", hgv="no"), "barred: hgv=no"),
    ("bicycle", dict(highway="motorway"), "class: motorway"),
    ("bicycle", dict(highway="primary", motorroad="yes"), "barred: motorroad=yes"),
    ("foot", dict(highway="motorway"), "class: motorway"),
    ("foot", dict(highway="residential", foot="no"), "barred: foot=no"),
    ("bicycle", dict(highway="steps"), "class: steps"),
])
def test_barred_to_other_vehicles(vehicle: str, tags: dict[str, str], why: str) -> None:
    assert rule(vehicle, True, **tags).out == why


NIGHT = closed_in(((0, 6 * H), (22 * H, DAY)))


@pytest.mark.parametrize("tags, ends, forth", [
    (dict(motor_vehicle__conditional="no @ (22:00-06:00)"), False, NIGHT),
    # Closed by itself, and opened at some hours.
    (dict(motor_vehicle="no", motor_vehicle__conditional="yes @ (06:00-22:00)"), False, NIGHT),
    (dict(motor_vehicle="no", motor_vehicle__conditional="delivery @ (06:00-22:00)"), True, NIGHT),
    (dict(access="destination", access__conditional="no @ (22:00-06:00)"), True, NIGHT),
    # The more special tag decides, with a condition or without.
    (dict(motorcar="yes", motor_vehicle__conditional="no @ (22:00-06:00)"), False, None),
    (dict(vehicle="no", motor_vehicle__conditional="yes @ (06:00-22:00)"), False, NIGHT),
    (dict(vehicle__conditional="no @ (Sa,Su 10:00-12:00)"), False, None),
    (dict(motor_vehicle__conditional="no @ (weight>7.5)"), False, None),
    (dict(opening_hours="06:00-22:00"), False, NIGHT), (dict(opening_hours="sunrise-sunset"), False, None),
    (dict(opening_hours="24/7"), False, None), (dict(opening_hours="Mo-Fr 06:00-22:00; PH off"), False, NIGHT),
])
def test_hours(tags: dict[str, str], ends: bool, forth: Timing | None) -> None:
    found = rule(highway="residential", **tags)
    assert found.out is None and found.ends == ends and found.too is None
    assert found.forth is not None and found.forth.timing == forth
    assert found.back is not None and found.back.timing == forth


@pytest.mark.parametrize("vehicle, tags, ends", [
    ("car", dict(highway="footway", motor_vehicle__conditional="yes @ (06:00-22:00)"), False),
    ("car", dict(highway="pedestrian", motor_vehicle="no", motor_vehicle__conditional="delivery @ (06:00-22:00)"),
     True),
    ("car", dict(highway="track", access__conditional="yes @ (06:00-22:00)"), False),
    ("car", dict(highway="track", motorcar="yes", motorcar__conditional="no @ (22:00-06:00)"), False),
    ("car", dict(route="ferry", foot="yes", motor_vehicle__conditional="yes @ (06:00-22:00)"), False),
    ("bicycle", dict(highway="primary", motorroad="yes", bicycle__conditional="yes @ (06:00-22:00)"), False),
])
def test_hours_of_what_a_tag_opens(vehicle: str, tags: dict[str, str], ends: bool) -> None:
    found = rule(vehicle, True, **tags)
    assert (found.out, found.ends, found.too) == (None, ends, None)
    assert found.forth is not None and found.forth.timing == NIGHT


def test_a_class_that_isnt_for_it_is_not_opened_by_a_condition_that_bars() -> None:
    assert rule(highway="footway", motor_vehicle__conditional="no @ (22:00-06:00)").out == "class: footway"
    assert rule(highway="track", access__conditional="private @ (06:00-22:00)").out == "class: track"


def test_barred_at_all_hours() -> None:
    assert rule(highway="residential", motor_vehicle__conditional="no @ (00:00-24:00)").out == "barred: at all hours"


def test_for_destinations_alone_at_some_hours() -> None:
    found = rule(highway="residential", motor_vehicle__conditional="destination @ (07:00-09:00); no @ (22:00-06:00)")
    assert not found.ends and found.forth is not None and found.too is not None and found.too.forth is not None
    assert found.forth.timing == closed_in(((0, 6 * H), (7 * H, 9 * H), (22 * H, DAY)))
    assert found.too.ends and found.too.forth.timing == NIGHT and found.too.forth.kmh == found.forth.kmh == 25


def test_limits_at_some_hours() -> None:
    found = rule(highway="primary", maxspeed="100", maxspeed__conditional="50 @ (22:00-06:00); 30 @ wet")
    assert found.forth is not None and found.forth.kmh == 80 and "conditions not used: maxspeed" in found.notes
    assert found.forth.timing is not None and found.forth.timing.steps == ((0, 2.0), (6 * H, 1.0), (22 * H, 2.0))


@pytest.mark.parametrize("tags, forth, back", [
    (dict(maxspeed="100", maxspeed__forward__conditional="50 @ (22:00-06:00)"), True, False),
    (dict(maxspeed="100", maxspeed__motorcar__conditional="50 @ (22:00-06:00)"), True, True),
    (dict(maxspeed="100", maxspeed__hgv__conditional="50 @ (22:00-06:00)"), False, False),
    (dict(maxspeed="100", maxspeed__backward="100", maxspeed__conditional="50 @ (22:00-06:00)"), True, False),
    (dict(maxspeed="100", maxspeed__conditional="DE:urban @ (22:00-06:00)"), True, True),
    (dict(maxspeed="100", maxspeed__conditional="fast @ (22:00-06:00)"), False, False),
])
def test_limits_at_some_hours_of_one_side_or_vehicle(tags: dict[str, str], forth: bool, back: bool) -> None:
    found = rule(highway="primary", **tags)
    twice = Timing(((0, 2.0), (6 * H, 1.0), (22 * H, 2.0)))
    assert found.forth is not None and found.forth.timing == (twice if forth else None)
    assert found.back is not None and found.back.timing == (twice if back else None)


def test_limits_of_a_ferry_are_the_same_all_day() -> None:
    found = rule(route="ferry", maxspeed="10", maxspeed__conditional="5 @ (22:00-06:00)")
    assert found.forth is not None and (found.forth.kmh, found.forth.timing) == (8, None)


def test_one_way_at_some_hours() -> None:
    found = rule(highway="primary", oneway__conditional="yes @ (07:00-09:00)")
    assert found.forth is not None and found.forth.timing is None
    assert found.back is not None and found.back.timing == closed_in(((7 * H, 9 * H),))
    found = rule(highway="primary", oneway="reversible", oneway__conditional="yes @ (00:00-12:00); -1 @ (12:00-24:00)")
    assert found.forth is not None and found.forth.timing == closed_in(((12 * H, DAY),))
    assert found.back is not None and found.back.timing == closed_in(((0, 12 * H),))
    found = rule(highway="primary", oneway="yes", oneway__conditional="no @ (20:00-24:00)")
    assert found.forth is not None and found.forth.timing is None
    assert found.back is not None and found.back.timing == open_in(((20 * H, DAY),))
    # Of the vehicle's own tags; an ordinary one doesn't stand against them.
    found = rule(highway="primary", oneway="yes", oneway__motor_vehicle__conditional="no @ (20:00-24:00)")
    assert found.back is not None and found.back.timing == open_in(((20 * H, DAY),))
    found = rule(highway="primary", oneway__motorcar="no", oneway__conditional="yes @ (20:00-24:00)")
    assert found.back is not None and found.back.timing is None
    # Where the condition isn't understood, what is said without one holds.
    found = rule(highway="primary", oneway="yes", oneway__conditional="no @ wet")
    assert found.back is None and "conditions not used: oneway" in found.notes


@pytest.mark.parametrize("tags, seconds, departures", [
    (dict(duration="00:40"), 2400, None), (dict(duration="00:40", interval="12:00"), 2400, (0, 12 * H)),
    (dict(duration="PT1H", interval="04:00", opening_hours="06:00-14:00"), 3600, (6 * H, 10 * H, 14 * H)),
    (dict(interval="06:00", opening_hours="18:00-02:00"), None, (0, 18 * H)),
    (dict(interval="12:00", opening_hours="sunrise-sunset"), None, (0, 12 * H)),
    (dict(interval="often"), None, None), (dict(duration="a while"), None, None), (dict(duration="P9D"), None, None),
])
def test_ferries(tags: dict[str, str], seconds: int | None, departures: tuple[int, ...] | None) -> None:
    found = rule(route="ferry", **tags)
    assert found.ferry and found.seconds == seconds and found.forth is not None
    assert found.forth.timing == (None if departures is None else Timing(departures=departures))


@pytest.mark.parametrize("tags, note", [
    (dict(oneway="alternating"), "alternating, taken as open both ways without a wait"),
    (dict(oneway="sometimes"), "oneway not understood, taken as both ways: sometimes"),
    (dict(maxspeed="fast"), "maxspeed not understood: fast"),
    (dict(maxspeed__forward="??"), "maxspeed not understood: ??"),
    (dict(maxspeed__conditional="30 @ wet"), "conditions not used: maxspeed"),
    (dict(maxspeed__conditional="fast @ (08:00-10:00)"), "conditions not used: maxspeed"),
    (dict(oneway__conditional="yes @ wet"), "conditions not used: oneway"),
    (dict(access__conditional="no @ (weight>7.5)"), "conditions not used: access"),
    (dict(opening_hours="sunrise-sunset"), "opening hours not understood, taken as all day"),
    (dict(route="ferry", duration="a while"), "durations not understood: a while"),
    (dict(route="ferry", duration="P9D"), "durations not understood: P9D"),
    (dict(route="ferry", interval="often"), "intervals not understood, taken as none: often"),
    (dict(route="ferry", interval="01:00", opening_hours="by day"), "opening hours not understood, taken as all day"),
    (dict(access__conditional="no @ (08:00-10:00)"), "open at some hours alone"),
    (dict(source__maxspeed="DE:urban"), "limits by zone or type of maxspeed"),
    (dict(surface="mud"), "slowed by surface, tracktype or smoothness"),
])
def test_what_the_report_counts(tags: dict[str, str], note: str) -> None:
    assert rule(highway="residential", **tags).notes.count(note) == 1


def test_a_ferry_that_goes_on_other_days_alone() -> None:
    found = rule(route="ferry", interval="01:00", opening_hours="Sa 08:00-10:00")
    assert found.forth is not None and found.forth.timing is not None and found.forth.timing.steps == ((0, None),)


def test_speeds_of_ones_own(tmp_path: Path) -> None:
    path = tmp_path / "speeds.toml"
    path.write_text("[car]\nshare = 0.5\n[car.classes]\nresidential = 33\nrace_track = 200\n", encoding="utf-8")
    found = read_speeds("car", path)
    assert (found.share, found.classes["residential"], found.classes["race_track"],
            found.classes["primary"]) == (0.5, 33, 200, 65)
    assert read_speeds("foot", path) == read_speeds("foot")


@pytest.mark.parametrize("text, says", [
    ("[car\n", "isn't TOML"), ("[tram]\n", "[tram] is no vehicle"), ("[car]\nhorses = 90\n", "car.horses isn't known"),
    ("[car]\nshare = \"much\"\n", "share is a number"), ("[car]\nshare = 0\n", "above 0"),
    ("[car.classes]\nprimary = -5\n", "above 0"),
    ("[car.classes]\nprimary = 0\n", "above 0"), ("[car]\nclasses = 5\n", "table of speeds"),
    ("[car]\nlimits = \"none\"\n", "limits is"),
    ("[car]\nlet_in_by_access = \"track\"\n", "list of classes"), ("[car.surface]\nmud = true\n", "table of speeds"),
])
def test_speeds_that_are_none(tmp_path: Path, text: str, says: str) -> None:
    path = tmp_path / "speeds.toml"
    path.write_text(text, encoding="utf-8")
    with pytest.raises(Failure) as caught:
        read_speeds("car", path)
    assert str(path) in str(caught.value) and says in str(caught.value)


def test_speeds_that_arent_there(tmp_path: Path) -> None:
    with pytest.raises(Failure, match="no such file"):
        read_speeds("car", tmp_path / "none.toml")


@pytest.mark.parametrize("vehicle", VEHICLES)
def test_the_packages_data(vehicle: str) -> None:
    found = read_vehicle(vehicle)
    assert found.speeds.classes and found.keys[-1] == "access" and found.own <= set(found.keys)


@pytest.mark.parametrize("weekday", ["mo", "tu", "we", "th", "fr", "sa", "su"])
def test_rush_hours(weekday: str) -> None:
    found = read_rush(weekday).steps
    assert "motorway" in found and "residential" not in found
    for steps in found.values():
        assert steps[0][0] == 0 and list(steps) == sorted(steps) and all(1 <= factor < 3 for _, factor in steps)
