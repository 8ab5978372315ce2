"""Drives, road by road: `v` lines of `serve`, `ask` and `wait` beside the walk of the query and a plain count of its seconds."""

from __future__ import annotations

import random
import struct
from pathlib import Path

import numpy as np
import pytest
from test_differential import DAY, Plain, draw_network, draw_profile, drive, write
from test_measured import Point, Profile, Seconds, raw_arrivals, table
from test_versions import DIGEST, ORDER, as_first_version, sealed

from catchup.program import run_program
from catchup.replies import Drive, Piece, parse

NETWORKS = 150
LINES = 100
TRAVEL = 0


# ---- scripts ----


def draw_questions(plain: Plain, draw: random.Random) -> list[str]:
    """Fields behind the first word of query lines, some of which are refused."""
    fields = []
    for _ in range(LINES):
        second = draw.choice([0, DAY - 1, draw.randrange(DAY), draw.randrange(DAY), draw.randrange(DAY)])
        if draw.randrange(20) == 0:
            second = DAY
        fields.append(f"{draw.randrange(plain.nodes)},{draw.randrange(plain.nodes + draw.randrange(10) // 9)},{second}")
    return fields


def draw_edit(plain: Plain, draw: random.Random) -> str:
    if plain.roads and draw.randrange(2):
        return f"a,{draw.randrange(len(plain.roads))},{draw.randrange(len(plain.profiles))}"
    return f"s,{draw.randrange(len(plain.profiles))},{','.join(map(str, draw_profile(draw)))}"


def make_edit(plain: Plain, line: str) -> None:
    kind, number, *words = line.split(",")
    if kind == "a":
        plain.roads[int(number)][2] = int(words[0])
    else:
        pieces = zip(words[::3], words[1::3], words[2::3])
        plain.profiles[int(number)] = tuple(Piece(int(a), b, int(c)) for a, b, c in pieces)  # type: ignore[arg-type]


def script_of(fields: list[str], edit: str) -> str:
    """Each question as a query and as one for its drive, with an edit in the middle."""
    lines = [f"{word},{each}" for each in fields for word in "qv"]
    return "\n".join([*lines[:LINES], edit, *lines[LINES:]])


def pairs_of(replies: list[str]) -> list[tuple[str, str]]:
    """The replies to a query and to its drive, without that to the edit."""
    told = replies[:LINES] + replies[LINES + 1 :]
    assert len(told) == 2 * LINES
    return list(zip(told[::2], told[1::2]))


# ---- the seconds, counted plainly ----


class Measured:
    """A network with measured profiles, of which edits have set some."""

    def __init__(self, plain: Plain, points: list[Profile]) -> None:
        self.plain = plain
        self.raw: list[Seconds | None] = [raw_arrivals(each) for each in points]

    def left(self, road: int, second: int) -> int:
        """The least second from this one on at which who leaves for the road arrives first of all who leave from then on."""
        raw = self.raw[self.plain.roads[road][2]]
        if raw is None:
            return second
        days, of_day = divmod(second, DAY)
        behind = np.concatenate([raw, raw + DAY])[of_day : of_day + DAY]
        return days * DAY + of_day + int(np.argmin(behind))

    def drive(self, road: int, second: int) -> int:
        profile = self.plain.roads[road][2]
        raw = self.raw[profile]
        return drive(self.plain.profiles[profile], second) if raw is None else second // DAY * DAY + int(raw[second % DAY])


def entered(plain: Plain, roads: tuple[int, ...], second: int) -> tuple[int, ...]:
    """When each road is entered, and last when the walk arrives."""
    seconds = [second]
    for road in roads:
        seconds.append(drive(plain.profiles[plain.roads[road][2]], seconds[-1]))
    return tuple(seconds)


def check(plain: Plain, field: str, answer: str, told: str) -> None:
    reply = parse(answer)
    if not isinstance(reply, Drive):
        assert told == answer
        return
    *seconds, arrive = entered(plain, reply.roads, int(field.split(",")[2]))
    assert arrive == reply.arrive
    assert told == str(Drive(arrive, reply.roads, tuple(seconds)))


def check_waiting(measured: Measured, field: str, answer: str, told: str) -> None:
    reply = parse(answer)
    if not isinstance(reply, Drive) or not reply.roads:
        assert told == answer.replace("arcs=", "drive=")
        return
    now, stops = int(field.split(",")[2]), []
    for road in reply.roads:
        left = measured.left(road, now)
        stops.append((now, left))
        now = measured.drive(road, left)
    assert now == reply.arrive
    seconds, lefts = zip(*stops)
    assert told == str(Drive(now, reply.roads, tuple(seconds), tuple(lefts)))


# ---- networks ----


def told(words: list[str | Path], fields: list[str], edit: str) -> list[tuple[str, str]]:
    run = run_program(words, input=script_of(fields, edit))
    assert (run.status, run.error) == (0, "")
    return pairs_of(run.output.splitlines())


def check_all(plain: Plain, fields: list[str], edit: str, pairs: list[tuple[str, str]]) -> None:
    for number, (field, pair) in enumerate(zip(fields, pairs)):
        if 2 * number == LINES:
            make_edit(plain, edit)
        check(plain, field, *pair)


def copied(plain: Plain) -> Plain:
    return Plain(plain.nodes, [list(road) for road in plain.roads], list(plain.profiles))


def forge(plain: Plain, built: bytes, draw: random.Random) -> tuple[bytes, Plain]:
    """A file of version 1 of which every travel time of a constant profile is another: its ways are those of the old ones."""
    file = bytearray(as_first_version(built)[:-DIGEST])
    places = ORDER + 8 * plain.nodes + 12 * len(plain.roads) + 8 * (len(plain.profiles) + 1)
    other = copied(plain)
    for number, pieces in enumerate(plain.profiles):
        if len(pieces) == 1 and pieces[0].kind == "travel":
            travel = draw.randrange(5000)
            struct.pack_into("<III", file, places, 0, TRAVEL, travel)
            other.profiles[number] = (Piece(0, "travel", travel),)
        places += 12 * len(pieces)
    return sealed(bytes(file)), other


def draw_points(draw: random.Random) -> Profile:
    """A measured profile of one to five points, by which a later departure may arrive earlier."""
    seconds = [0, *sorted(draw.sample(range(1, DAY), draw.randrange(5)))]
    most = draw.choice([20, 3000, 100_000])
    return [Point(second, draw.choice(["line", "step"]), draw.randrange(most)) for second in seconds]


# The first networks are tried each time, and all of them with --long.
SEEDS = [pytest.param(start, marks=[pytest.mark.long] if start else []) for start in range(0, NETWORKS, 15)]


@pytest.mark.parametrize("start", SEEDS)
def test_seconds_of_tables_and_files(program: Path, tmp_path: Path, start: int) -> None:
    for seed in range(start, start + 15):
        draw = random.Random(seed)
        plain = draw_network(draw)
        write(plain, tmp_path, draw)
        tables: list[str | Path] = [tmp_path / name for name in ("nodes.csv", "roads.csv", "profiles.csv")]
        order = draw.choice([tmp_path / "order.csv", "identity", "dissect"])
        fields, edit = draw_questions(plain, draw), draw_edit(plain, draw)
        build = run_program(["build", *tables, order, tmp_path / "made.cu"])
        assert build.status == 0, (seed, build)
        check_all(copied(plain), fields, edit, told(["serve", *tables, order], fields, edit))
        check_all(copied(plain), fields, edit, told(["ask", tmp_path / "made.cu"], fields, edit))
        forged, other = forge(plain, (tmp_path / "made.cu").read_bytes(), draw)
        (tmp_path / "forged.cu").write_bytes(forged)
        check_all(other, fields, edit, told(["ask", tmp_path / "forged.cu"], fields, edit))


@pytest.mark.parametrize("start", SEEDS)
def test_seconds_with_waits(program: Path, tmp_path: Path, start: int) -> None:
    for seed in range(start, start + 15):
        draw = random.Random(seed)
        plain = draw_network(draw)
        points = [draw_points(draw) for _ in plain.profiles]
        write(plain, tmp_path, draw)
        (tmp_path / "measured.csv").write_text(table(points))
        tables: list[str | Path] = [tmp_path / name for name in ("nodes.csv", "roads.csv", "measured.csv")]
        order = draw.choice([tmp_path / "order.csv", "identity", "dissect"])
        fields, edit = draw_questions(plain, draw), draw_edit(plain, draw)
        measured = Measured(copied(plain), points)
        pairs = told(["wait", *tables, order], fields, edit)
        for number, (field, pair) in enumerate(zip(fields, pairs)):
            if 2 * number == LINES:
                make_edit(measured.plain, edit)
                if edit.startswith("s"):
                    measured.raw[int(edit.split(",")[1])] = None
            check_waiting(measured, field, *pair)
