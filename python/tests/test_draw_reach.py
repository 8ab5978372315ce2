"""bin/draw-reach and catchup.draw.reach: what is drawn of a reply to an `r` line, and how others are refused."""

from __future__ import annotations

import resource
import subprocess
from collections.abc import Callable
from pathlib import Path

import pytest
from commands import BIN, call, check_refused, interrupt_at_a_pipe, run, run_into_closed_pipe
from conftest import EXAMPLES
from drawings import SVG, Drawn, grid, small, steps, write_small, write_tables
from hypothesis import given
from hypothesis import strategies as st

from catchup.draw.bands import MOST_BANDS, Bands
from catchup.draw.reach import draw_reach
from catchup.draw.replies import read_reach
from catchup.draw.tables import Nodes, Roads
from catchup.program import run_program

# Node 0 leaves at 08:00, reaches node 2 after a minute and node 3 after three; nodes 1 and 4 aren't reached.
REACHED = "reach 28800 - 28860 28980 -"


@pytest.fixture
def folder(tmp_path: Path, monkeypatch: pytest.MonkeyPatch) -> Path:
    monkeypatch.chdir(tmp_path)
    return write_small(tmp_path)


def draw(reply: str, network: tuple[Nodes, Roads] | None = None) -> Drawn:
    nodes, roads = network or small()
    return Drawn(draw_reach(nodes, roads, read_reach([reply])))


def legend(drawn: Drawn) -> dict[str, str]:
    """The words of each colour."""
    words = [words for words in drawn.words("legend")[1:] if not words.endswith(("node", "nodes"))]
    colours = [rect.get("fill", "") for rect in drawn.group("legend").iter(f"{SVG}rect")]
    return dict(zip(colours, words, strict=True))


# ---- what is drawn ----


def test_words_say_what_is_shown() -> None:
    drawn = draw(REACHED)
    head = "leaving node 0 at 08:00:00: 3 of 5 nodes reached, the last after 3 min"
    bands = "under 1 min: 1 node. 1 to 2 min: 1 node. 3 to 4 min: 1 node. not reached: 2 nodes."
    assert head in drawn.words() and drawn.description == f"{head}. {bands}"
    assert list(legend(drawn).values()) == ["under 1 min", "1 to 2 min", "2 to 3 min", "3 to 4 min", "not reached"]
    assert drawn.words("legend")[2::2] == ["1 node", "1 node", "0 nodes", "1 node", "2 nodes"]
    assert "start" in drawn.words("key") and [name.text for name in drawn.of_class("name")] == ["node 0"]


def test_no_start_among_nodes_that_are_reached_at_once() -> None:
    drawn = draw("reach 7 7 7 7 -")
    assert "leaving at 00:00:07, 4 nodes at once: 4 of 5 nodes reached, the last after 0 s" in drawn.words()
    assert "start" not in drawn.words() and not drawn.of_class("name")


def test_one_node_and_no_road() -> None:
    drawn = draw("reach 0", (Nodes([5], [5]), Roads([], [], frozenset())))
    assert "leaving node 0 at 00:00:00: all 1 node reached, the last after 0 s" in drawn.words()


def test_roads_have_their_ends_colours_up_to_the_middle() -> None:
    """Of the roads between nodes 0, 2 and 3, which have a colour each."""
    drawn = draw(REACHED)
    dots = {path.get("stroke"): steps(path.get("d")) for path in drawn.group("nodes")}
    lines = {path.get("stroke"): steps(path.get("d")) for path in drawn.group("roads")}
    first, second, _, last = [colour for colour, words in legend(drawn).items() if "min" in words]
    at = {colour: dots[colour][0] for colour in (first, second, last)}
    for a, b in [(first, second), (first, last), (second, last)]:
        middle = (at[a][0] + at[b][0]) / 2, (at[a][1] + at[b][1]) / 2
        for one, other in [(a, b), (b, a)]:
            assert any(near(place, middle) for place in lines[one])
            assert any(near(place, at[one]) for place in lines[one])
            assert not any(near(place, at[other]) for place in lines[one])


def near(a: tuple[float, float], b: tuple[float, float]) -> bool:
    return abs(a[0] - b[0]) <= 1.5 and abs(a[1] - b[1]) <= 1.5


# ---- bands ----

SIDE = 24

# Seconds of each node of the grid, None where it isn't reached; the legend, and what the head says of the last.
GRIDS: list[tuple[Callable[[int], int | None], list[str] | None, str]] = [
    (
        lambda n: None if n % 10 == 7 else 0 if n == 300 else 1 + n * 7919 % 3000,
        ["under 10 min", "10 to 20 min", "20 to 30 min", "30 to 40 min", "40 to 50 min", "not reached"],
        "the last after 49 min",
    ),
    # Few late nodes count to the last band.
    (
        lambda n: 0 if n == 0 else 36000 if n > 560 else n * 4,
        [f"{5 * k} to {5 * k + 5} min" if k else "under 5 min" for k in range(7)] + ["35 min or more"],
        "the last after 10 h",
    ),
    (lambda n: n * 3600, None, "the last after 23 days 23 h"),
]


@pytest.mark.parametrize("seconds, bands, last", GRIDS)
def test_each_mark_has_the_colour_of_its_minutes(
    seconds: Callable[[int], int | None], bands: list[str] | None, last: str
) -> None:
    times = [seconds(n) for n in range(SIDE * SIDE)]
    drawn = draw("reach " + " ".join("-" if t is None else str(28800 + t) for t in times), grid(SIDE))
    words = legend(drawn)
    assert bands is None or list(words.values()) == bands
    assert last in drawn.description
    dots = [(place, words[path.get("stroke", "")]) for path in drawn.group("nodes") for place in steps(path.get("d"))]
    assert len(dots) == SIDE * SIDE
    left, right = min(x for (x, _), _ in dots), max(x for (x, _), _ in dots)
    top, low = min(y for (_, y), _ in dots), max(y for (_, y), _ in dots)
    for (x, y), said in dots:
        node = round((x - left) / (right - left) * (SIDE - 1)) + SIDE * round((low - y) / (low - top) * (SIDE - 1))
        assert holds(said, times[node]), (node, said, times[node])


def holds(words: str, seconds: int | None) -> bool:
    """Whether the words of a band are right of so many seconds."""
    if seconds is None or words == "not reached":
        return seconds is None and words == "not reached"
    numbers = [int(word) for word in words.split() if word.isdigit()]
    low, high = (0, numbers[0]) if words.startswith("under") else (numbers[0], numbers[1] if len(numbers) > 1 else 10**9)
    return low <= seconds // 60 < high


@given(st.lists(st.integers(0, 2_000_000), min_size=1, max_size=80))
def test_bands(seconds: list[int]) -> None:
    bands = Bands(seconds)
    late = sum(each >= MOST_BANDS * bands.step * 60 for each in seconds)
    assert 1 <= bands.count <= MOST_BANDS and late * 20 <= len(seconds) and bands.is_open == (late > 0)
    numbers = [bands.band(each) for each in seconds]
    assert all(1 <= number <= bands.count for number in numbers) and max(numbers) == bands.count
    assert all(holds(bands.words(number), each) for number, each in zip(numbers, seconds))
    assert len({bands.colour(number) for number in range(bands.count + 1)}) == bands.count + 1


@pytest.mark.parametrize("side", [150, pytest.param(300, marks=pytest.mark.long)])
def test_many_nodes_are_quick_and_small(tmp_path: Path, side: int) -> None:
    """22,500 nodes and, with --long, 90,000: a step that took the square of that would be seen at either."""
    write_tables(tmp_path, *grid(side))
    nodes = side * side
    reply = "reach " + " ".join(str(n // side * 5 + n % side * 7) for n in range(nodes))
    before = sum(resource.getrusage(resource.RUSAGE_CHILDREN)[:2])
    ran = run("draw-reach", "nodes", "roads", input=reply, cwd=tmp_path)
    assert ran.status == 0 and sum(resource.getrusage(resource.RUSAGE_CHILDREN)[:2]) - before < 10 * nodes / 90_000 + 1
    assert len(ran.output) < 22 * nodes and f"all {nodes} nodes" in Drawn(ran.output).description


# ---- the command ----


@pytest.mark.parametrize("end", ["\n", "\r\n", ""])
def test_the_command_draws_what_the_module_does(folder: Path, end: str) -> None:
    ran = run("draw-reach", "nodes", "roads", input=REACHED + end, env={"LC_ALL": "de_DE.UTF-8", "TMPDIR": "/none/such"})
    assert (ran.status, ran.error) == (0, "") and ran.output == draw(REACHED).text


def test_help_has_an_example() -> None:
    ran = run("draw-reach", "--help")
    assert ran.status == 0 and ran.output.startswith("Usage: draw-reach [OPTIONS] NODES ROADS\n") and "Example:" in ran.output


FIRST = "this is no reply to an r line: "
ENTRY = "the reply's entry for node "
REPLIES = [
    ("reach 0 - 7 8\n", "the reply is of 4 nodes, and the table has 5"),
    ("reach 0 - 7 8 9 10\n", "the reply is of 6 nodes, and the table has 5"),
    ("reach\n", "the reply is of 0 nodes, and the table has 5"),
    ("refused: node\n", FIRST + "refused: node"),
    ("damaged 5 up 0\n", FIRST + "damaged 5 up 0"),
    ("table 0 1 2 3 4\n", FIRST + "table 0 1 2 3 4"),
    ("network: nodes header\n", FIRST + "network: nodes header"),
    ("reach 0 7x 7 8 9\n", ENTRY + "1 must be an arrival or -: 7x"),
    ("reach 0 1 7 8 \x1b[0m\n", ENTRY + "4 must be an arrival or -: ?[0m"),
    ("reach 0 1 1000000000000000 8 9\n", ENTRY + "2 must be an arrival or -: 1000000000000000"),
    ("reach  0 1 2 3\n", ENTRY + "0 must be an arrival or -:"),
    ("reach 0 1 2 3 4 \n", ENTRY + "5 must be an arrival or -:"),
    ("reach 28800 2", "the reply is of 2 nodes, and the table has 5"),
    ("reach - - - - -\n", "the reply reaches no node, not even its start"),
    ("reach 86400 - - - -\n", "the reply's least arrival must be a second of the day: 86400"),
    ("reach 0 1 2 3 4\nreach 0 1 2 3 4\n", "the reply must be one line, and there are more"),
    ("", "the reply is missing: there is no line"),
    ("\n", FIRST.strip()),
]
WORDS = [
    (["missing", "roads"], 1, "missing can't be read: No such file or directory"),
    (["nodes", "missing"], 1, "missing can't be read"),
    (["folder", "roads"], 1, "folder can't be read: Is a directory"),
    (["roads", "roads"], 1, "roads, line 1: found 'arc,tail,head,profile', allowed: the header node,x,y"),
    (["binary", "roads"], 1, "binary, line 1"),
    (["nodes", "binary"], 1, "binary, line 1"),
    (["nodes", "wrong"], 1, "wrong, line 5, column arc: found '4', allowed: 3: rows are numbered from 0 on"),
    (["one", "roads"], 1, "roads, line 2, column head: found '2', allowed: nodes 0 to 0"),
    ([], 2, "Missing argument 'NODES'"),
    (["nodes"], 2, "Missing argument 'ROADS'"),
    (["nodes", "roads", "profiles"], 2, "profiles"),
    (["--none", "nodes", "roads"], 2, "--none"),
]


@pytest.mark.parametrize(
    "reply, words, status, said",
    [(reply, ["nodes", "roads"], 1, said) for reply, said in REPLIES] + [(REACHED, *each) for each in WORDS],
)
def test_refusals(folder: Path, reply: str, words: list[str], status: int, said: str) -> None:
    (folder / "folder").mkdir()
    (folder / "binary").write_bytes(bytes(range(256)) * 20)
    (folder / "wrong").write_text((folder / "roads").read_text().replace("\n3,", "\n4,", 1))
    (folder / "one").write_text("node,x,y\n0,0,0\n")
    before = sorted(folder.iterdir())
    ran = call("draw-reach", *words, input=reply)
    check_refused(ran, status, said)
    assert ran.error.startswith("draw-reach: ") and sorted(folder.iterdir()) == before


def test_a_closed_input_and_output(folder: Path) -> None:
    (folder / "reply").write_text(REACHED)
    for redirection, said in [("<&-", "standard input is closed"), (">&- <reply", "standard output is closed"), (">/dev/full <reply", "No space left")]:
        words = ["sh", "-c", f'"$0" nodes roads {redirection}', BIN / "draw-reach"]
        done = subprocess.run(words, capture_output=True, text=True, timeout=600)
        assert done.returncode == 1 and said in done.stderr and done.stderr.count("\n") == 1, done


def test_a_closed_pipe_is_no_fault(folder: Path) -> None:
    assert run_into_closed_pipe("draw-reach", "nodes", "roads", input=REACHED.encode())[::2] == (141, "")


def test_an_interrupt_leaves_nothing(folder: Path) -> None:
    interrupt_at_a_pipe("draw-reach", folder)


# ---- the program's own reach ----


def test_the_programs_reach_is_what_a_query_to_each_node_gets(town: Path) -> None:
    folder = EXAMPLES / "town"
    lines = "".join(f"q,5,{node},28800\n" for node in range(159))
    drives = run_program(["ask", town], input=lines).output.splitlines()
    wanted = "reach " + " ".join(drive.split(" ")[0].removeprefix("arrive=") if "=" in drive else "-" for drive in drives)
    tables = [folder / name for name in ("nodes.csv", "roads.csv", "profiles.csv")]
    commands: list[list[str | Path]] = [["ask", town], ["serve", *tables, "dissect"]]
    for words in commands:
        assert run_program(words, input="r,5,28800\n").output == wanted + "\n"
    ran = run("draw-reach", "nodes.csv", "roads.csv", input=wanted + "\n", cwd=folder)
    assert "leaving node 5 at 08:00:00: all 159 nodes reached, the last after 13 min 10 s" in Drawn(ran.output).words()
    assert ran.output == (EXAMPLES.parent / "docs" / "pictures" / "reach.svg").read_text()


def test_replies_to_other_reach_lines(program: Path, rush_hour: Path) -> None:
    tables = [rush_hour / name for name in ("nodes.csv", "roads.csv", "profiles.csv")]
    run_ = run_program(["serve", *tables, "identity"], input="r,0,0\nr,2,5\nr,3,0\nr,0,86400\nr,0\n")
    assert run_.output.splitlines() == ["reach 0 60 160", "reach - - 5", "refused: node", "refused: second", "refused: line"]
