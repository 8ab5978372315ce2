"""Measured travel times: the profiles that stand for them, and slices of many."""

from __future__ import annotations

from collections import defaultdict
from collections.abc import Iterator
from pathlib import Path
from typing import NamedTuple

import numpy as np
import numpy.typing as npt
import pytest
from conftest import EXAMPLES

from catchup.program import run_program

pytestmark = pytest.mark.usefixtures("program")

DAY = 86400
HEADER = "profile,second,mode,travel\n"
Seconds = npt.NDArray[np.int64]


class Point(NamedTuple):
    """A measured point: its second of the day, its mode and its travel time in seconds."""

    second: int
    mode: str
    travel: int


Profile = list[Point]


def make_profiles() -> list[Profile]:
    """Profiles of one to twelve points, with steps and lines, that go up and down by up to some hours."""
    profiles, draw = [], 0
    for profile in range(10):
        points, many = [], 1 + profile * 7 % 12
        for point in range(many):
            draw = (draw * 1103 + 12345) % 1000003
            second = DAY * point // many + draw % 500 if point else 0
            points.append(Point(second, "line" if draw % 3 else "step", draw % (900 if profile < 5 else 14400)))
        profiles.append(points)
    return profiles


def table(profiles: list[Profile]) -> str:
    rows = (f"{number},{each.second},{each.mode},{each.travel}\n" for number, points in enumerate(profiles) for each in points)
    return HEADER + "".join(rows)


def raw_arrivals(points: Profile) -> Seconds:
    """The arrival of who leaves at each second of a day, waiting nowhere: between points on a line it is rounded down."""
    arrivals = np.arange(DAY, dtype=np.int64)
    for point, following in zip(points, [*points[1:], Point(DAY, "", points[0].travel)]):
        until = following.second
        behind = np.arange(until - point.second, dtype=np.int64)
        more = (following.travel - point.travel) * behind // (until - point.second) if point.mode == "line" else 0 * behind
        arrivals[point.second : until] += point.travel + more
    return arrivals


def least_arrivals(points: Profile) -> Seconds:
    """The least arrival of all who leave then or later: on this day, or on the next."""
    raw = raw_arrivals(points)
    both = np.concatenate([raw, raw + DAY])
    return np.minimum.accumulate(both[::-1])[::-1][:DAY]


def profile_arrivals(rows: list[tuple[int, str, int]]) -> Seconds:
    """The arrival at each second, as the pieces of PROFILES say."""
    arrivals = np.arange(DAY, dtype=np.int64)
    for (start, kind, value), (until, *_) in zip(rows, [*rows[1:], (DAY, "", 0)]):
        arrivals[start:until] = value if kind == "until" else arrivals[start:until] + value
    return arrivals


def read_profiles(place: Path) -> dict[int, list[tuple[int, str, int]]]:
    pieces: dict[int, list[tuple[int, str, int]]] = defaultdict(list)
    for row in place.read_text().splitlines()[1:]:
        profile, start, kind, value = row.split(",")
        pieces[int(profile)].append((int(start), kind, int(value)))
    return dict(pieces)


def measure(folder: Path, text: str, out: str = "profiles.csv") -> tuple[int, str]:
    """The status of `catchup measure` over a table, and what it printed."""
    (folder / "measured.csv").write_text(text)
    run = run_program(["measure", folder / "measured.csv", folder / out])
    # Where the table is refused, standard error says what to do.
    assert run.error == "" if run.status == 0 else run.error.startswith("catchup: ")
    return run.status, run.output


def test_raw_arrivals() -> None:
    """The reading of this test itself, by hand: a line down is rounded so that one is never too soon."""
    arrivals = raw_arrivals([Point(0, "line", 10), Point(3, "step", 0)])
    assert list(arrivals[:5]) == [10, 1 + 6, 2 + 3, 3, 4]


def test_least_arrivals(tmp_path: Path) -> None:
    profiles = make_profiles()
    assert measure(tmp_path, table(profiles)) == (0, "measured 10\n")
    pieces = read_profiles(tmp_path / "profiles.csv")
    assert sorted(pieces) == list(range(10))
    for number, points in enumerate(profiles):
        assert np.array_equal(profile_arrivals(pieces[number]), least_arrivals(points)), number


def test_the_spelling_of_days(tmp_path: Path) -> None:
    """A profile is spelled as the day over its one road is."""
    measure(tmp_path, table(make_profiles()))
    (tmp_path / "nodes.csv").write_text("node,x,y\n0,0,0\n1,1,1\n")
    (tmp_path / "roads.csv").write_text("arc,tail,head,profile\n0,0,1,7\n")
    tables = [tmp_path / f"{name}.csv" for name in ("nodes", "roads", "profiles")]
    day = run_program(["serve", *tables, "identity"], input="d,0,1\n").output
    rows = [row[2:] for row in (tmp_path / "profiles.csv").read_text().splitlines() if row.startswith("7,")]
    assert day.split() == ["day", *rows]


def test_slices_make_the_same_table(tmp_path: Path) -> None:
    profiles = make_profiles()
    measure(tmp_path, table(profiles), "whole.csv")
    said, rows = [], ["profile,from,kind,value"]
    for first in range(0, 10, 3):
        said.append(measure(tmp_path, table(profiles[first : first + 3])))
        for number, pieces in read_profiles(tmp_path / "profiles.csv").items():
            rows += [f"{first + number},{start},{kind},{value}" for start, kind, value in pieces]
    assert said == [(0, f"measured {many}\n") for many in (3, 3, 3, 1)]
    assert "".join(row + "\n" for row in rows) == (tmp_path / "whole.csv").read_text()


def hours_of_streets() -> Iterator[Profile]:
    """The streets of examples/own_data: what each takes in each hour of the day."""
    for line in (EXAMPLES / "own_data/streets.csv").read_text().splitlines():
        yield [Point(hour * 3600, "step", int(seconds)) for hour, seconds in enumerate(line.split(",")[2:])]


def test_hours_are_steps(tmp_path: Path) -> None:
    streets = list(hours_of_streets())
    # One that is quicker by more than an hour, so that who leaves in the hour before waits for all of it.
    streets.append([Point(hour * 3600, "step", 7200 if hour == 8 else 60) for hour in range(24)])
    assert measure(tmp_path, table(streets)) == (0, f"measured {len(streets)}\n")
    pieces = read_profiles(tmp_path / "profiles.csv")
    for number, points in enumerate(streets):
        assert np.array_equal(profile_arrivals(pieces[number]), least_arrivals(points)), number


MANY = "".join(f"{profile},0,step,60\n" for profile in range(49711))


@pytest.mark.parametrize(
    ("text", "line"),
    [
        ("profile,from,kind,value\n0,0,travel,60\n", "measured: header"),
        (HEADER + "0,0,line\n", "measured: 0 fields"),
        (HEADER + "0,0,line,1\n0,1,line,-1\n", "measured: 1 number"),
        (HEADER + "1,0,line,1\n", "measured: 0 sequence"),
        (HEADER + "0,0,travel,1\n", "measured: 0 mode"),
        (HEADER + "0,0,line,1\n0,86400,line,1\n", "measured: 1 limit"),
        (HEADER + "0,0,line,604801\n", "measured: 0 limit"),
        (HEADER + "0,1,line,1\n", "measured: 0 start"),
        (HEADER + "0,0,line,1\n0,9,line,1\n0,9,line,1\n", "measured: 2 rising"),
        (HEADER + MANY, "measured: 49710 count"),
    ],
    ids=[
        "a header", "fields", "a number", "a sequence", "a mode", "a second past the day", "a time past the limit", "a start",
        "seconds that don't rise", "one profile too many",
    ],
)  # fmt: skip
def test_refuses(tmp_path: Path, text: str, line: str) -> None:
    assert measure(tmp_path, text, "none") == (4, line + "\n")
    assert not (tmp_path / "none").exists()


def test_no_file(tmp_path: Path) -> None:
    run = run_program(["measure", tmp_path / "nowhere", tmp_path / "none"])
    assert (run.status, run.output) == (3, "shelf: fault profiles\n")
    assert not list(tmp_path.iterdir())
