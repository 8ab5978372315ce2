"""bin/draw-day and catchup.draw.day: with a program of ten lines in place of the real one, and with that."""

from __future__ import annotations

import functools
import os
import re
import signal
import subprocess
import sys
import time
from collections.abc import Callable, Mapping, Sequence
from pathlib import Path

import pytest
from commands import BIN, Ran, call, check_refused, run, run_into_closed_pipe
from conftest import EXAMPLES
from drawings import SVG, Drawn

from catchup.draw import asking
from catchup.draw.asking import ask_day
from catchup.draw.day import draw_day
from catchup.errors import Failure
from catchup.program import run_program
from catchup.replies import Day, Piece

Answer = Callable[[int], tuple[int, str]]


def peak(second: int) -> tuple[int, str]:
    """Travel time and roads: ten minutes, more from 07:00 to 10:00, greatest at 08:31:07, which is between five minutes;
    and another road from 08:00 to 09:00."""
    off = abs(30667 - second)
    return (5400 - off) // 6 + 700 if off < 5400 else 600, "5" if 28800 <= second < 32400 else "0 3"


def hidden(second: int) -> tuple[int, str]:
    """As `peak`, but for eleven seconds with another road that is as quick."""
    travel, roads = peak(second)
    return travel, "6" if 50000 <= second <= 50010 else roads


def turns(second: int) -> tuple[int, str]:
    """Twelve routes hold an hour each, and then two take turns of 8 seconds for half a day: they hold six hours each."""
    turn = second // 8 % 2
    return 3000 + turn * 600, str(second // 3600 if second < 43200 else 20 + turn)


def late(second: int) -> tuple[int, str]:
    return 601 - second, ""


def day_form(travel: Sequence[int]) -> str:
    """The day of travel times at each second, in the one spelling that the program has."""
    pieces, start = [], 0
    while start < 86400:
        arrival, end = start + travel[start], start + 1
        if end < 86400 and end + travel[end] == arrival:
            while end < 86400 and end + travel[end] == arrival:
                end += 1
            pieces.append(f"{start},until,{arrival}")
        else:
            while end < 86400 and travel[end] == travel[start]:
                end += 1
            pieces.append(f"{start},travel,{travel[start]}")
        start = end
    return "day " + " ".join(pieces)


class Stub:
    """Answers lines as the program does, of a day of its own."""

    def __init__(self, answer: Answer, day_of: Answer | None = None) -> None:
        self.answer = answer
        self.day = day_form([(day_of or answer)(second)[0] for second in range(86400)])
        self.asked: list[str] = []

    def ask(self, lines: Sequence[str]) -> list[str]:
        self.asked += lines
        return [self._reply(line) for line in lines]

    def _reply(self, line: str) -> str:
        kind, start, end, *rest = line.split(",")
        if (start, end) != ("0", "3"):
            return "refused: node"
        if kind == "d":
            return self.day
        travel, roads = self.answer(int(rest[0]))
        return f"arrive={int(rest[0]) + travel} arcs={roads}"


@functools.cache
def draw(answer: Answer, every: int = 300) -> Drawn:
    return Drawn(draw_day(ask_day(Stub(answer).ask, 0, 3, every), 0, 3, every))


# ---- what is drawn ----


def test_the_curve_is_that_of_the_queries() -> None:
    """The axes' marks tell what a place means. Between points the curve is straight, and no second may be off it by more
    than what rounding of places makes."""
    drawn = draw(peak)
    heights = [float(line.get("y1", 0)) for line in drawn.group("travel").iter(f"{SVG}line")]
    minutes = [int(words.removesuffix(" min")) for words in drawn.words("travel")]
    hours = [float(line.get("x1", 0)) for line in drawn.group("departure").iter(f"{SVG}line")]
    assert minutes[0] == 0 and len(hours) == 25

    def second(x: float) -> float:
        return (x - hours[0]) / (hours[-1] - hours[0]) * 86400

    def travel(y: float) -> float:
        return (heights[0] - y) / (heights[0] - heights[-1]) * minutes[-1] * 60

    points = [tuple(map(float, pair.split(","))) for line in drawn.group("curve") for pair in line.get("points", "").split()]
    curve = [(second(x), travel(y)) for x, y in points]
    travels = [peak(at)[0] for at in range(86400)]
    seen = 0
    for (a, va), (b, vb) in zip(curve, curve[1:]):
        for at in range(int(a) + 1, int(b) + 1):
            value = va + (vb - va) * (at - a) / (b - a)
            seen += 1
            # A tenth of a place is 15 seconds of the day: the answers of some seconds around count too.
            around = travels[max(0, at - 30)], travels[min(86399, at)], travels[min(86399, at + 30)]
            assert min(around) - 5 < value < max(around) + 10, (at, value)
    assert seen > 86000


def test_words_say_what_is_shown() -> None:
    drawn = draw(peak)
    assert drawn.title == "Travel time from node 0 to node 3 over the day"
    assert {"least 10 min at 00:00", "greatest 26 min 40 s at 08:31:07"} <= set(drawn.words("marks"))
    assert "least 10 min at 00:00, greatest 26 min 40 s at 08:31:07" in drawn.words()
    assert "changes 2 times, among 2 routes." in drawn.description
    assert "From 08:00 route 2, road 5. From 09:00 route 1, roads 0 3." in drawn.description
    assert drawn.words("routes") == [
        "route 1, roads 0 3, 23 h: 00:00 to 07:59:59, 09:00 to 23:59:59",
        "route 2, road 5, 1 h: 08:00 to 08:59:59",
    ]
    assert not re.search(r"\bwalk", drawn.text)


def test_a_colour_for_each_route() -> None:
    drawn = draw(peak)
    colours = [line.get("stroke") for line in drawn.group("curve")]
    assert len(colours) == 3 and colours[0] == colours[2] != colours[1]
    assert [line.get("stroke") for line in drawn.group("routes").iter(f"{SVG}line")] == colours[:2]
    assert [area.get("fill") for area in drawn.group("areas")] == colours


def test_few_queries_draw_the_same() -> None:
    few = draw(peak, 3600)
    assert "asked at corners and each 1 h" in few.text
    assert few.text.replace(" each 1 h<", " each 5 min<") == draw(peak).text
    stub = Stub(peak)
    ask_day(stub.ask, 0, 3, 3600)
    assert 24 < len(stub.asked) < 4000


def test_a_route_that_comes_and_goes_is_seen_where_each_second_is_asked() -> None:
    assert draw(hidden).text == draw(peak).text
    each = draw(hidden, 1)
    assert "route 3, road 6, 11 s: 13:53:20 to 13:53:30" in each.words("routes")
    assert "exact at each second; a colour for each route, asked at each second" in each.words()


def test_the_legend_has_the_longest_first() -> None:
    drawn = draw(turns)
    legend = drawn.words("routes")
    assert legend[0].startswith("route 1, road 20, 6 h: ") and legend[1].startswith("route 2, road 21, 6 h: ")
    assert len(legend) == 9 and legend[-1] == "6 more routes: 6 h in all"
    assert re.search(r"; the axis begins at [0-9]+ min, not at 0", drawn.text) and drawn.find("areas") is None
    assert " And so on." in drawn.description


def test_a_flat_day() -> None:
    drawn = draw(lambda second: (0, ""))
    assert drawn.words("routes") == ["no road: all day"] and drawn.words("marks") == ["always 0 s"]
    assert "One route is the best all day: no road." in drawn.description
    long = draw(lambda second: (90_000, " ".join(map(str, range(11)))))
    assert long.words("routes") == ["route 1, 11 roads: all day"] and "always 1 day 1 h" in long.words()


def test_words_keep_off_the_axis_and_within_the_picture() -> None:
    for answer in (peak, turns, lambda second: (600 if second < 86_000 else 700, "1")):
        drawn = draw(answer)
        axis = float(next(drawn.group("departure").iter(f"{SVG}line")).get("x1", 0))
        right = float(drawn.root.get("width", 0))
        for text in drawn.group("marks").iter(f"{SVG}text"):
            x, half = float(text.get("x", 0)), 3.5 * len(text.text or "")
            left = {"start": x, "middle": x - half, "end": x - 2 * half}[text.get("text-anchor", "start")]
            assert axis < left and left + 2 * half < right


# ---- what is asked ----

BAD_ANSWERS = [
    ("unreachable", "no way leads from node 0 to node 3"),
    ("refused: node", "FROM and TO must be nodes of this network, and 0 or 3 is none"),
    ("no memory", "the program answers: no memory"),
    ("damaged 5 up 0", "the program answers: damaged 5 up 0"),
    ("arrive=5 arcs=", "the program answers: arrive=5 arcs="),
    ("day 1,travel,5", "the program answers: day 1,travel,5"),
    ("\x1b[0m", "the program answers: ?[0m"),
]


@pytest.mark.parametrize("answer, said", BAD_ANSWERS)
def test_other_answers_than_a_day(answer: str, said: str) -> None:
    with pytest.raises(Failure) as raised:
        ask_day(lambda lines: [answer] * len(lines), 0, 3, 300)
    assert str(raised.value) == said


def test_other_arrivals_than_the_days() -> None:
    with pytest.raises(Failure, match="a query at second 0 arrives at 601, and the day at 600: so the packed file isn't a built one"):
        ask_day(Stub(late, peak).ask, 0, 3, 300)


def test_neighbours_with_other_routes_are_a_second_apart() -> None:
    asked = ask_day(Stub(hidden).ask, 0, 3, 700)
    assert asked.day == Day(asked.day.pieces) and asked.day.pieces[0] == Piece(0, "travel", 600)
    for (a, one), (b, other) in zip(asked.routes, asked.routes[1:]):
        assert one == other or b == a + 1
    assert (asked.routes[0][0], asked.routes[-1][0]) == (0, 86399)


# ---- the command, with a program of its own ----

PROGRAM = """\
#!{python}
import os, sys, time
say = os.environ.get("SAY", "day 0,travel,600")
if sys.argv[1:] not in (["serve", "the nodes", "roads", "profiles", "identity"], ["ask", "a town.cu"]):
    print("words"); sys.exit(2)
asked = 0
for line in sys.stdin:
    asked += 1
    if asked > int(os.environ.get("FEW", asked)): break
    if "HANG" in os.environ: open("asked", "w").close(); time.sleep(600)
    print(say if asked == 1 else "arrive=%d arcs=7" % (600 + int(line.split(",")[3])), flush=True)
sys.exit(int(os.environ.get("STATUS", 0)))
"""
TABLES = ["the nodes", "roads", "profiles", "identity"]


@pytest.fixture
def stub(tmp_path: Path, monkeypatch: pytest.MonkeyPatch) -> Path:
    """A program in place of the real one, which CATCHUP names, in the folder of the test."""
    path = tmp_path / "program"
    path.write_text(PROGRAM.format(python=sys.executable))
    path.chmod(0o755)
    monkeypatch.chdir(tmp_path)
    monkeypatch.setenv("CATCHUP", str(path))
    return path


def day(*words: str, env: Mapping[str, str] | None = None) -> Ran:
    return call("draw-day", *words, env=env)


def test_over_tables_and_over_a_packed_file(stub: Path) -> None:
    ran = run("draw-day", *TABLES, "0", "3")
    assert (ran.status, ran.error) == (0, "")
    assert Drawn(ran.output).words("routes") == ["route 1, road 7: all day"]
    assert run("draw-day", "a town.cu", "0", "3", env={"LC_ALL": "de_DE.UTF-8"}) == ran
    assert day("--every", "300", "a town.cu", "0", "3") == ran


ENDS = [
    ({"SAY": "unreachable"}, "draw-day: no way leads from node 0 to node 3\n"),
    ({"FEW": "0"}, "draw-day: the program has ended with status 0\n"),
    ({"FEW": "3"}, "draw-day: the program has ended with status 0\n"),
    ({"FEW": "3", "STATUS": "7"}, "draw-day: the program has ended with status 7\n"),
    ({"SAY": "network: nodes header", "STATUS": "4"}, "draw-day: the program has ended with status 4: network: nodes header\n"),
    ({"CATCHUP": "/none/such"}, "draw-day: CATCHUP names /none/such, and that is no program"),
]


@pytest.mark.parametrize("env, said", ENDS)
def test_a_program_that_answers_otherwise(stub: Path, env: dict[str, str], said: str) -> None:
    check_refused(day("a town.cu", "0", "3", env=env), 1, said)


LAUNCHERS = [("exit 0", True), ("echo why >&2; exit 1", False)]


@pytest.mark.parametrize("does, ready", LAUNCHERS)
def test_the_launcher_says_itself_what_it_does(
    tmp_path: Path, monkeypatch: pytest.MonkeyPatch, capfd: pytest.CaptureFixture[str], does: str, ready: bool
) -> None:
    launcher = tmp_path / "catchup"
    launcher.write_text(f"#!/bin/sh\necho answers\n{does}\n")
    launcher.chmod(0o755)
    monkeypatch.setattr(asking, "find_program", lambda: launcher)
    monkeypatch.delenv("CATCHUP", raising=False)
    assert asking.make_ready() is ready
    assert capfd.readouterr() == ("", "" if ready else "why\n")
    monkeypatch.setenv("CATCHUP", str(launcher))
    assert asking.make_ready() and capfd.readouterr() == ("", "")


WORDS = [
    ([], "the words are (HIERARCHY | NODES ROADS PROFILES ORDER) FROM TO"),
    (["0", "3"], "the words are"),
    ([*TABLES, "0"], "the words are"),
    (["a", *TABLES, "0", "3"], "the words are"),
    (["a town.cu", "0", "3x"], "FROM and TO must be node numbers"),
    (["a town.cu", "", "3"], "FROM and TO must be node numbers"),
    (["a town.cu", "0", "-3"], "-3"),
    (["--every", "0", "a town.cu", "0", "3"], "write a whole number from 1 to 3600, and not '0'"),
    (["--every", "3601", "a town.cu", "0", "3"], "from 1 to 3600"),
    (["--every", "1x", "a town.cu", "0", "3"], "'1x'"),
    (["--every", "", "a town.cu", "0", "3"], "''"),
    (["--every"], "--every"),
    (["--none", "a town.cu", "0", "3"], "--none"),
]


@pytest.mark.parametrize("words, said", WORDS)
def test_wrong_words(stub: Path, words: list[str], said: str) -> None:
    check_refused(day(*words), 2, said)


def test_help_has_an_example() -> None:
    ran = run("draw-day", "--help")
    assert ran.status == 0 and ran.output.startswith("Usage: draw-day [OPTIONS] (HIERARCHY | NODES ROADS PROFILES ORDER) FROM TO\n")
    assert "Example:" in ran.output and "[default: 300; 1<=x<=3600]" in " ".join(ran.output.split())


def test_a_closed_pipe_is_no_fault(stub: Path) -> None:
    assert run_into_closed_pipe("draw-day", "a town.cu", "0", "3")[::2] == (141, "")


def test_an_interrupt_leaves_nothing(stub: Path, tmp_path: Path) -> None:
    """Nor the program, which the signal isn't sent to here."""
    process = subprocess.Popen(
        [BIN / "draw-day", "a town.cu", "0", "3"], stdout=subprocess.PIPE, stderr=subprocess.PIPE, env={**os.environ, "HANG": "1"}
    )
    until = time.monotonic() + 600
    while not (tmp_path / "asked").exists():
        assert process.poll() is None and time.monotonic() < until
        time.sleep(0.02)
    children = Path(f"/proc/{process.pid}/task/{process.pid}/children").read_text().split()
    process.send_signal(signal.SIGINT)
    assert process.communicate(timeout=600) == (b"", b"") and process.returncode == 130
    assert children and not any(Path(f"/proc/{child}").exists() for child in children)
    assert sorted(path.name for path in tmp_path.iterdir()) == ["asked", "program"]


# ---- the program's own days ----


def test_the_programs_day_is_what_queries_at_each_second_get(town: Path, tmp_path: Path) -> None:
    queries = "".join(f"q,5,151,{second}\n" for second in range(86400))
    arrivals = re.findall("^arrive=([0-9]+)", run_program(["ask", town], input=queries).output, re.MULTILINE)
    wanted = day_form([int(arrival) - second for second, arrival in enumerate(arrivals)])
    folder = EXAMPLES / "town"
    tables = [folder / name for name in ("nodes.csv", "roads.csv", "profiles.csv")]
    commands: list[list[str | Path]] = [["ask", town], ["serve", *tables, "dissect"]]
    for words in commands:
        assert run_program(words, input="d,5,151\n").output == wanted + "\n"
    # With a number before each its pieces are a profile, whose one road has that day.
    (tmp_path / "nodes").write_text("node,x,y\n0,0,0\n1,1,1\n")
    (tmp_path / "roads").write_text("arc,tail,head,profile\n0,0,1,0\n")
    rows = "".join(f"0,{piece}\n" for piece in wanted.split(" ")[1:])
    (tmp_path / "profiles").write_text(f"profile,from,kind,value\n{rows}")
    lines = "d,0,1\nd,1,0\nd,1,1\nd,0,2\nd,0\nd,0,1,2\n"
    run_ = run_program(["serve", *(tmp_path / name for name in ("nodes", "roads", "profiles")), "identity"], input=lines)
    assert run_.output.splitlines() == [wanted, "unreachable", "day 0,travel,0", "refused: node", "refused: line", "refused: line"]


def test_the_picture_of_the_pages(program: Path) -> None:
    """docs/pictures/day.svg is what the command makes of the example."""
    ran = run("draw-day", "nodes.csv", "roads.csv", "profiles.csv", "identity", "5", "151", cwd=EXAMPLES / "town")
    assert ran.error == "" and ran.output == (EXAMPLES.parent / "docs" / "pictures" / "day.svg").read_text()


def test_files_that_are_none(program: Path, tmp_path: Path) -> None:
    (tmp_path / "none.cu").write_bytes(b"none")
    check_refused(run("draw-day", tmp_path / "none.cu", "0", "3"), 1, "the program has ended with status 6: file: short")
    check_refused(run("draw-day", tmp_path / "missing.cu", "0", "3"), 1, "the program has ended with status 3: shelf: fault hierarchy")
    tables = [EXAMPLES / "town" / name for name in ("nodes.csv", "roads.csv", "profiles.csv")]
    check_refused(run("draw-day", tables[0], tables[0], tables[2], "identity", "0", "3"), 1, "status 4: network: roads header")
    check_refused(run("draw-day", *tables, "identity", "0", "159"), 2, "FROM and TO must be nodes of this network, and 0 or 159 is none")
