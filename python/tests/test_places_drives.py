"""Drives between places beside a search of another kind over the same map, and beside one another."""

from __future__ import annotations

import random
from collections.abc import Iterator, Sequence
from pathlib import Path

import numpy as np
import pytest
from placed import DAY, Town, import_map, made_town, real_map

from catchup.places import Ask, Leg, NoRoute, Places, Snap, TooLate, days, matrix, reach
from catchup.places.travel import Travel
from catchup.tables import PROFILES_FILE, read_profiles

THEMES = ["hours", "turns", "ferries", "edges"]


@pytest.fixture(scope="module")
def liechtenstein(program: Path, tmp_path_factory: pytest.TempPathFactory) -> Town:
    return import_map(real_map(), tmp_path_factory.mktemp("real") / "li")


@pytest.fixture(scope="module", params=THEMES)
def made(request: pytest.FixtureRequest, program: Path, tmp_path_factory: pytest.TempPathFactory) -> Iterator[Town]:
    yield made_town(request.param, 7, tmp_path_factory.mktemp(request.param), "--left", "4", "--rush")


def check_leg(town: Town, leg: Leg) -> None:
    """That a leg is one drive from its start to its end, as its roads and pieces say."""
    ends = town.places.ground.ends
    assert all(ends.head[one] == ends.tail[other] for one, other in zip(leg.roads, leg.roads[1:]))
    assert len(leg.seconds) == len(leg.roads) and list(leg.seconds) == sorted(leg.seconds)
    driven = [piece.road for piece in leg.pieces if piece.metres or not leg.roads]
    assert driven[:1] == list(leg.roads[:1] or [leg.pieces[0].road])
    times = [time for piece in leg.pieces for time in (piece.entered, piece.left)]
    assert times == sorted(times) and (times[0], times[-1]) == (leg.depart, leg.arrive)
    line = np.concatenate([piece.coordinates for piece in leg.pieces])
    assert np.allclose(line[[0, -1]], [leg.start.point, leg.end.point], atol=1e-7)
    for one, other in zip(leg.pieces, leg.pieces[1:]):
        assert len(one.coordinates) >= 2 and np.allclose(one.coordinates[-1], other.coordinates[0], atol=1e-7)


def compare(town: Town, pairs: int, seed: int, within: float) -> None:
    """Compares drives between random places with the search's."""
    draw = random.Random(seed)

    async def drives(ask: Ask) -> list[str]:
        wrong, reached = [], 0
        for _ in range(pairs):
            start, end, depart = town.anywhere(draw), town.anywhere(draw), draw.randrange(DAY)
            snaps = [town.places.nearest(place)[0] for place in (start, end)]
            near = [town.search.near(*place)[1] for place in (start, end)]
            for snap, roads in zip(snaps, near):
                assert [road for road, _ in snap.roads] == [road for road, _ in roads]
            least = town.search.drive(near[0], near[1], depart)
            try:
                [leg] = await town.places.legs(snaps, depart, ask)
            except NoRoute:
                wrong += [] if least is None else [f"{start} {end} {depart}: no way, but {least}"]
                continue
            check_leg(town, leg)
            reached += 1
            if least is None or abs(leg.arrive - least) > within:
                wrong.append(f"{start} {end} {depart}: {leg.arrive}, and not {least}")
        assert reached > pairs / 2
        return wrong

    assert town.ask(drives) == []


@pytest.mark.parametrize("pairs", [60, pytest.param(500, marks=pytest.mark.long)])
def test_a_real_map_s_drives_are_the_search_s(liechtenstein: Town, pairs: int) -> None:
    # A drive arrives at the nearest second, so half a second is the most.
    compare(liechtenstein, pairs, pairs, 0.501)


def test_a_made_map_s_drives_are_the_search_s(made: Town) -> None:
    compare(made, 40, 2, 1.0)


async def arrival(town: Town, start: Snap, end: Snap, depart: int, ask: Ask) -> int | None:
    """When the drive of a second arrives; None where no way leads."""
    try:
        [leg] = await town.places.legs([start, end], depart, ask)
    except NoRoute:
        return None
    check_leg(town, leg)
    return leg.arrive


def test_days_and_latest_departures_are_those_of_drives(made: Town) -> None:
    draw = random.Random(3)

    async def compare_days(ask: Ask) -> None:
        for _ in range(6):
            start, end = made.somewhere(draw), made.somewhere(draw)
            try:
                found = await days.arrivals(made.places.driver, start, end, ask)
            except NoRoute:
                assert await arrival(made, start, end, draw.randrange(DAY), ask) is None
                continue
            # Who leaves later never arrives earlier, midnight included.
            assert (np.diff(found) >= 0).all() and found[0] + DAY >= found[-1]
            pieces = days.pieces_of(found)
            bounds = [max(0, piece.start + step) for piece in draw.sample(pieces, min(4, len(pieces)))
                      for step in (-1, 0)]
            for second in {0, DAY - 1, *bounds, *(draw.randrange(DAY) for _ in range(5))}:
                assert await arrival(made, start, end, second, ask) == found[second]
            for by in (draw.randrange(DAY), int(found[draw.randrange(DAY)]), int(found[0]) - 1, int(found[-1]) + DAY):
                in_time = np.flatnonzero(found <= by)
                try:
                    leg = await made.places.latest(start, end, by, ask)
                except TooLate:
                    assert len(in_time) == 0
                    continue
                assert (leg.depart, leg.arrive) == (in_time[-1], found[in_time[-1]])

    made.ask(compare_days)


def test_each_second_s_best_way_is_one(made: Town) -> None:
    draw = random.Random(4)

    async def compare_ways(ask: Ask) -> None:
        driver = made.places.driver
        for _ in range(4):
            start, end = made.somewhere(draw), made.somewhere(draw)
            try:
                found = await days.arrivals(driver, start, end, ask)
            except NoRoute:
                continue
            choices = await days.choices(driver, start, end, found, ask)
            assert choices[0].second == 0 and all(a.second < b.second for a, b in zip(choices, choices[1:]))
            for choice in choices:
                assert choice.drive.arrive == found[choice.second]

    made.ask(compare_ways)


@pytest.mark.parametrize("row", [1, 1_000])
def test_a_table_is_its_drives(made: Town, row: int, monkeypatch: pytest.MonkeyPatch) -> None:
    # Later seconds are asked by rows alone, or by single drives alone.
    monkeypatch.setattr(matrix, "ROW", row)
    draw = random.Random(5)

    async def compare_table(ask: Ask) -> None:
        sources, targets = ([made.somewhere(draw) for _ in range(count)] for count in (8, 6))
        targets.append(sources[0])
        # Behind rush hours one may start later and be there as early.
        for depart in (draw.randrange(DAY), draw.randrange(30_300, 30_600), DAY - 1):
            table = await made.places.table(sources, targets, depart, ask)
            for row, start in zip(table, sources):
                for takes, end in zip(row, targets):
                    found = await arrival(made, start, end, depart, ask)
                    assert np.isnan(takes) if found is None else takes == found - depart
        assert (await made.places.table([], targets, 0, ask)).shape == (0, 7)
        assert (await made.places.table(sources, [], 0, ask)).shape == (8, 0)

    made.ask(compare_table)


def test_a_table_asks_each_beginning_once(made: Town) -> None:
    draw = random.Random(6)
    lines: list[str] = []

    async def count(ask: Ask) -> None:
        async def asked(said: Sequence[str]) -> Sequence[str]:
            lines.extend(said)
            return await ask(said)

        places = [made.somewhere(draw) for _ in range(12)]
        await made.places.table(places, places, 30_400, asked)

    made.ask(count)
    rows: list[tuple[str, str]] = []
    for words in [line.split(",") for line in lines if line[0] == "t"]:
        assert int(words[2]) <= matrix.LINE
        rows += [(words[1], node) for node in words[3:][:int(words[2])]]
    assert len(rows) == len(set(rows))
    singles = [line for line in lines if line[0] == "q"]
    assert len(singles) == len(set(singles)) < 24 * len(rows)


def test_a_table_is_the_same_in_whatever_order_its_places_are(made: Town) -> None:
    draw = random.Random(7)

    async def compare_orders(ask: Ask) -> None:
        places = [made.somewhere(draw) for _ in range(9)]
        table = await made.places.table(places, places, 30_400, ask)
        order = draw.sample(range(9), 9)
        mixed = await made.places.table([places[at] for at in order], places, 30_400, ask)
        assert np.array_equal(mixed, table[order], equal_nan=True)

    made.ask(compare_orders)


def test_a_reach_has_what_drives_reach(made: Town) -> None:
    draw = random.Random(6)

    async def compare_reach(ask: Ask) -> None:
        places, streets = made.places, made.places.ground.streets
        for _ in range(3):
            start, depart, within = made.somewhere(draw), draw.randrange(DAY), draw.choice([120, 600])
            found = await reach.reached(places.driver, streets, start, depart, depart + within, ask)
            assert (found.entered < depart + within).all() and (found.left <= depart + within).all()
            rows = list(zip(found.road.tolist(), found.begin.tolist(), found.end.tolist(), found.left.tolist()))
            for road, begin, end, left in draw.sample(rows, min(5, len(rows))):
                assert 0.0 <= begin <= end <= 1.0
                place = places.lines.place(road, end)
                snap = next((each for each in places.nearest(place, 4)
                             if any(of == road for of, _ in each.roads)), None)
                if snap is not None:
                    arrive = await arrival(made, start, snap, depart, ask)
                    # The place is on a street that other roads lead along too.
                    assert arrive is not None and arrive <= left + 1.5

    made.ask(compare_reach)


def test_legs_go_on_from_one_another(made: Town) -> None:
    draw = random.Random(8)

    async def compare_legs(ask: Ask) -> None:
        stops = [made.places.nearest(made.anywhere(draw))[0] for _ in range(4)]
        for depart in (draw.randrange(DAY), DAY - 60):
            try:
                legs = await made.places.legs(stops, depart, ask)
            except NoRoute as problem:
                assert await arrival(made, stops[problem.index], stops[problem.index + 1], depart, ask) is None
                continue
            assert [leg.depart for leg in legs] == [depart, *(leg.arrive for leg in legs[:-1])]
            for leg in legs:
                day = leg.depart // DAY * DAY
                assert await arrival(made, leg.start, leg.end, leg.depart - day, ask) == leg.arrive - day

    made.ask(compare_legs)


def test_no_more_is_asked_than_may_count(made: Town) -> None:
    """Who begins within a second is asked for at the next one only where that may be as early."""
    draw = random.Random(11)
    driver = made.places.driver

    async def count_lines(ask: Ask) -> list[int]:
        asked: list[Sequence[str]] = []

        async def counting(lines: Sequence[str]) -> Sequence[str]:
            asked.append(lines)
            return await ask(lines)

        rounds = []
        for _ in range(60):
            start, end, depart = made.somewhere(draw), made.somewhere(draw), draw.randrange(DAY)
            asked.clear()
            try:
                drive = await driver.drive(start, end, depart, counting)
            except NoRoute:
                continue
            sources, targets = (driver.ends.sources(start, depart, driver.travel),
                                driver.ends.targets(end, driver.travel))
            if not asked:
                continue
            assert len(asked[0]) == len(sources) * len({target.node for target in targets})
            rounds.append(len(asked))
            if all(source.part == 0.0 for source in sources) or not driver.travel.has_rest(depart, depart + DAY):
                assert len(asked) == 1, drive
        return rounds

    assert set(made.ask(count_lines)) <= {1, 2}


def test_seconds_that_the_program_says_are_taken(made: Town) -> None:
    """Where the program answers `v` lines a drive has its seconds, and is the same as without."""
    travel = made.places.ground.travel
    told = made.places.over(travel, "v")

    async def compare_lines(ask: Ask) -> None:
        async def ask_for_seconds(lines: Sequence[str]) -> list[str]:
            assert all(line.startswith("v,") for line in lines)
            replies = await ask(["q" + line[1:] for line in lines])
            return [with_seconds(line, reply) for line, reply in zip(lines, replies)]

        def with_seconds(line: str, reply: str) -> str:
            head, _, arcs = reply.partition(" arcs=")
            if not head.startswith("arrive="):
                return reply
            roads = list(map(int, arcs.split()))
            seconds, _ = travel.entered(roads, int(line.split(",")[3]))
            return f"{head} drive=" + " ".join(f"{road},{second}" for road, second in zip(roads, seconds))

        await compare_told(made, told, ask, ask_for_seconds)

    made.ask(compare_lines)


async def compare_told(made: Town, told: Places, ask: Ask, ask_for_seconds: Ask) -> None:
    """Compares drives whose seconds are said with those whose seconds are added up."""
    draw = random.Random(9)
    for _ in range(30):
        stops = [made.somewhere(draw) for _ in range(3)]
        depart = draw.choice([draw.randrange(DAY), DAY - 30])
        try:
            wanted = await made.places.drives(stops, depart, ask)
        except NoRoute:
            continue
        assert await told.drives(stops, depart, ask_for_seconds) == wanted


def test_the_program_s_seconds_are_those_that_are_added_up(made: Town) -> None:
    """Where the program answers `v` lines nothing is added up, and all is as with `q` lines."""
    told = made.places.over(Silent(made.places.ground.profile, read_profiles(made.folder / PROFILES_FILE)), "v")

    async def compare_lines(ask: Ask) -> bool:
        [said] = await ask(["v,0,0,0"])
        if said.startswith("refused"):
            return False
        await compare_told(made, told, ask, ask)
        return True

    if not made.ask(compare_lines):
        pytest.skip("this program doesn't say at which second a road is entered")


class Silent(Travel):
    """Travel functions that add nothing up."""

    def entered(self, roads: list[int], second: int) -> tuple[list[int], int]:
        pytest.fail("seconds are added up that the program says")
