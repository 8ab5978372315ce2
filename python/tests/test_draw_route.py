"""bin/draw-route and catchup.draw.route: what is drawn of replies, and how it refuses."""

from __future__ import annotations

import resource
import shutil
import subprocess
from pathlib import Path

import pytest
from commands import BIN, call, check_refused, interrupt_at_a_pipe, run, run_into_closed_pipe
from conftest import EXAMPLES
from drawings import FIVE, PLACES, SVG, Drawn, draw, grid, small, steps, write_small, write_tables
from waiting import least_seconds

from catchup.draw.replies import read_answers
from catchup.draw.route import draw_routes
from catchup.draw.svg import ROAD, ROAD_ALONE
from catchup.errors import Failure

ASKED = ["q,0,3,100", "q,1,4,0", "q,0,3,86399", "a,1,1", "q,2,2,7"]
ANSWERED = ["arrive=160 arcs=0 3", "unreachable", "arrive=172850 arcs=5", "done 3", "arrive=7 arcs="]
LATEST = ["l,0,3,200", "l,0,3,7", "l,2,2,7"]
FOUND = ["depart=100 arrive=160 arcs=0 3", "too late", "depart=7 arrive=7 arcs="]


@pytest.fixture
def folder(tmp_path: Path, monkeypatch: pytest.MonkeyPatch) -> Path:
    monkeypatch.chdir(tmp_path)
    return write_small(tmp_path)


# ---- what is drawn ----


def test_routes_and_the_words_of_other_replies() -> None:
    drawn = draw(FIVE)
    assert (drawn.title, len(drawn.of_class("route"))) == ("Routes on a map of roads", 2)
    assert "5 replies, 2 routes" in drawn.words()
    legend = drawn.words("legend")
    assert [words for words in legend if words.startswith("arrives")] == [
        "arrives 00:02:40",
        "arrives 00:00:50 (+2 days)",
        "arrives 00:00:07",
    ]
    assert {"unreachable", "refused: node", "no road", "2 roads, node 0 to 3"} <= set(legend)
    assert "Reply 1: arrives 00:02:40, 2 roads, node 0 to 3. Reply 2: unreachable." in drawn.description
    assert drawn.description.startswith("The map shows 5 roads and 1 closed road, and 2 routes.")


def test_a_closed_road_is_marked() -> None:
    drawn = draw(FIVE)
    assert drawn.group("closed").get("stroke-dasharray") and "closed road" in drawn.words("key")
    nodes, roads = small()
    plain = Drawn(draw_routes(nodes, roads, read_answers(FIVE, roads, None), has_profiles=False))
    assert "closed" not in plain.description


def test_places_are_to_scale_and_y_goes_upwards() -> None:
    """The first route leads from (0, 0) over (50, 10) to (100, 0)."""
    path = draw(FIVE).of_class("route")[0][0]
    (ax, ay), (bx, by), (cx, cy) = steps(path.get("d"))
    assert cx > bx > ax and by < ay == cy
    assert bx - ax == pytest.approx(5 * (ay - by), abs=1)
    scale = (cx - ax) / (PLACES[3][0] - PLACES[0][0])
    assert cx - bx == pytest.approx(50 * scale, abs=0.2)


OTHERS = [
    ("day 0,travel,60 28800,until,28900 28841,travel,60", "a day of 3 pieces"),
    ("day 0,travel,60", "a day of 1 piece"),
    ("damaged 5 up 0", "damaged 5 up 0"),
    ("reach 0 - 7", "reach, entries: 3"),
    ("table 5 damaged 5 up 0", "table, entries: 1, then damaged 5 up 0"),
    ("table", "table, entries: 0"),
    ("too late", "too late"),
    ("no memory", "no memory"),
    ("refused: fifo 5", "refused: fifo 5"),
]


@pytest.mark.parametrize("reply, words", OTHERS)
def test_replies_without_a_route_are_told(reply: str, words: str) -> None:
    drawn = draw([reply])
    assert words in drawn.words("legend") and not drawn.of_class("route")
    assert drawn.title == "A map of roads"


def test_without_replies_the_map_is_of_the_whole_network() -> None:
    drawn = draw([])
    assert not drawn.of_class("route") and "5 nodes, 7 roads, 1 closed road" in drawn.words()
    assert drawn.group("roads")[0].get("stroke") == ROAD_ALONE
    seen = {place for path in drawn.group("roads") for place in steps(path.get("d"))}
    # Nodes 1 and 4 have no road to another place.
    assert len(seen) == 3
    one = small()[0].__class__([5], [5]), small()[1].__class__([], [], frozenset())
    assert "1 node, 0 roads" in draw([], network=one).words()


def test_a_local_route_is_drawn_among_few_roads() -> None:
    """Roads 0 and 4 lead from node 0 over 1 to 2, and the grid has 39,600."""
    drawn = draw(["arrive=200 arcs=0 4"], network=grid(100))
    shown = int(drawn.description.split()[3])
    assert 2 < shown < 60
    assert drawn.group("roads")[0].get("stroke") == ROAD


# ---- departures ----


def test_departures_stand_beside_the_arrivals() -> None:
    legend = draw(ANSWERED, ASKED).words("legend")
    assert [words for words in legend if words.startswith("leaves")] == [
        "leaves 00:01:40, arrives 00:02:40",
        "leaves 23:59:59, arrives 00:00:50 (+2 days)",
        "leaves 00:00:07, arrives 00:00:07",
    ]
    assert {"1 min, 2 roads, node 0 to 3", "0 s, no road"} <= set(legend)


@pytest.mark.parametrize("script", [LATEST, None])
def test_a_latest_departure_says_it_itself(script: list[str] | None) -> None:
    legend = draw(FOUND, script).words("legend")
    assert {"leaves 00:01:40, arrives 00:02:40", "too late", "leaves 00:00:07, arrives 00:00:07"} <= set(legend)


OTHER_SCRIPTS = [
    (FOUND, ["l,0,3,159", *LATEST[1:]], "line 1 of the replies: its line of the script asks for an earlier arrival"),
    (FOUND, ASKED, "line 1 of the replies: its line of the script is no query of this kind"),
    (ANSWERED, ["q,0,2,100", *ASKED[1:]], "line 1 of the replies: its line of the script asks for other nodes"),
    (ANSWERED, ["q,2,3,100", *ASKED[1:]], "line 1 of the replies: its line of the script asks for other nodes"),
    (ANSWERED, ["q,0,3,161", *ASKED[1:]], "line 1 of the replies: its line of the script leaves later"),
    (ANSWERED, ASKED[:-1], "line 5 of the replies: its line of the script is no query"),
    (ANSWERED, [*ASKED[:-1], "q,2,3,7"], "line 5 of the replies: its line of the script asks for other nodes"),
    (ANSWERED, ["q,0,3", *ASKED[1:]], "line 1 of the replies: its line of the script is no query"),
]


@pytest.mark.parametrize("replies, script, why", OTHER_SCRIPTS)
def test_replies_to_another_script(replies: list[str], script: list[str], why: str) -> None:
    with pytest.raises(Failure) as raised:
        draw(replies, script)
    assert str(raised.value) == why


# ---- many routes ----

ALIKE = "arrive=200 arcs=0 4"


def crossing() -> list[str]:
    """Twenty routes along rows of the grid of 100 by 100, eight roads long, in rows beside each other."""
    _, roads = grid(100)
    east = {tail: road for road, (tail, head) in enumerate(zip(roads.tail, roads.head)) if head == tail + 1}
    firsts = [(40 + i // 4) * 100 + 40 + 3 * (i % 4) for i in range(20)]
    return [f"arrive={1000 + i} arcs=" + " ".join(str(east[first + k]) for k in range(8)) for i, first in enumerate(firsts)]


def test_twenty_routes_have_a_colour_and_an_entry_each() -> None:
    drawn = draw([ALIKE] * 20, network=grid(100))
    routes = drawn.of_class("route")
    assert len({route.get("stroke") for route in routes}) == len(routes) == 20
    assert drawn.words("legend").count("arrives 00:03:20") == 20
    widths = [float(path.get("stroke-width", 0)) for route in routes for path in route]
    assert (max(widths), min(widths), widths) == (13, 4, sorted(widths, reverse=True))
    assert "a wider line: more routes" in drawn.words("key")


def test_names_and_numbers_do_not_cover_each_other() -> None:
    drawn = draw(crossing(), network=grid(100))
    assert drawn.covered() == [] and len(list(drawn.boxes())) > 20


def test_more_routes_are_drawn_together() -> None:
    drawn = draw([ALIKE] * 20 + ["arrive=50 arcs=8", "unreachable"], network=grid(100))
    assert not drawn.of_class("route") and not drawn.of_class("name")
    legend = drawn.words("legend")
    assert legend[0] == "21 routes"
    assert {"unreachable: 1", "arriving 00:00:50 to 00:03:20", "roads of a route: 1 to 2", "1 route", "11 to 20 routes"} <= set(legend)
    shades = [float(path.get("stroke-opacity", 0)) for path in drawn.group("used")]
    assert shades == sorted(shades) and len(shades) == 2
    assert "21 routes. unreachable: 1." in drawn.description


def test_more_than_sixty_replies_are_told_in_sums() -> None:
    script = ["q,1,4,0"] * 61
    drawn = draw(["unreachable"] * 61, script)
    assert drawn.words("legend") == ["0 routes", "unreachable: 61"]
    assert "unreachable" in draw(["unreachable"] * 60).words("legend")


def test_departures_of_many_are_told_from_when_to_when() -> None:
    legend = draw([ANSWERED[0]] * 30, [f"q,0,3,{second}" for second in range(100, 130)]).words("legend")
    assert {"leaving 00:01:40 to 00:02:09", "arriving 00:02:40", "taking 31 s to 1 min", "roads of a route: 2"} <= set(legend)


def test_no_more_than_ten_thousand() -> None:
    assert draw([ALIKE] * 10_000, network=grid(3)).words("legend")[0] == "10000 routes"
    with pytest.raises(Failure, match="more than 10000 replies can't be drawn: take some of them"):
        draw([ALIKE] * 10_001)


def processor_seconds() -> float:
    return sum(resource.getrusage(resource.RUSAGE_CHILDREN)[:2])


def test_four_thousand_long_routes_are_quick(tmp_path: Path) -> None:
    """They go along 400,000 roads in all; a step that took the square of that would be seen."""
    side = 141
    nodes, roads = grid(side)
    east = {tail: road for road, (tail, head) in enumerate(zip(roads.tail, roads.head)) if head == tail + 1}
    write_tables(tmp_path, nodes, roads)
    firsts = [i % side * side + i % 40 for i in range(4000)]
    lines = [f"arrive={30000 + i} arcs=" + " ".join(str(east[first + k]) for k in range(100)) for i, first in enumerate(firsts)]

    def take() -> float:
        before = processor_seconds()
        ran = run("draw-route", "nodes", "roads", input="\n".join(lines) + "\n", cwd=tmp_path)
        assert ran.status == 0 and "4000 routes" in Drawn(ran.output).words("legend")
        return processor_seconds() - before

    assert least_seconds(take, 15) < 15


def test_a_large_network_is_quick_and_small(tmp_path: Path) -> None:
    """70,225 nodes and 180,000 roads, in 5 s of a processor and 500 MB; the limit of memory is one of addresses."""
    nodes, roads = grid(265)
    roads = type(roads)(roads.tail[:180_000], roads.head[:180_000], frozenset())
    write_tables(tmp_path, nodes, roads)

    def take() -> float:
        before = processor_seconds()
        done = subprocess.run(
            ["sh", "-c", 'ulimit -v 500000; exec "$0" nodes roads < /dev/null', BIN / "draw-route"],
            cwd=tmp_path, capture_output=True, timeout=600,
        )
        took = processor_seconds() - before
        assert (done.returncode, done.stderr) == (0, b"")
        assert "70225 nodes, 180000 roads" in Drawn(done.stdout.decode()).words()
        assert len(done.stdout) < 1_500_000
        return took

    assert least_seconds(take, 5) < 5


# ---- the command ----


def test_the_command_draws_what_the_module_does(folder: Path) -> None:
    (folder / "asked").write_text("\r\n".join(ASKED))
    ran = run("draw-route", "--script", "asked", "nodes", "roads", "profiles", input="\r\n".join(ANSWERED))
    assert (ran.status, ran.error) == (0, "")
    assert ran.output == draw(ANSWERED, ASKED).text
    assert run("draw-route", "nodes", "roads", "profiles", "--script=asked", input="\n".join(ANSWERED) + "\n") == ran
    assert run("draw-route", "nodes", "roads", input="").output.startswith("<?xml")


def test_help_has_an_example() -> None:
    for word in ("--help", "-h"):
        ran = run("draw-route", word)
        assert ran.status == 0 and ran.output.startswith("Usage: draw-route [OPTIONS] NODES ROADS [PROFILES]")
        assert "Example:" in ran.output and "10000" in ran.output


REFUSED = [
    (["missing", "roads"], FIVE[0], 1, "missing can't be read: No such file or directory"),
    (["nodes", "missing"], FIVE[0], 1, "missing can't be read"),
    (["nodes", "roads", "missing"], FIVE[0], 1, "missing can't be read"),
    (["--script", "missing", "nodes", "roads"], FIVE[0], 1, "missing can't be read"),
    (["folder", "roads"], FIVE[0], 1, "folder can't be read: Is a directory"),
    (["--script", "folder", "nodes", "roads"], FIVE[0], 1, "folder can't be read"),
    (["roads", "roads"], FIVE[0], 1, "roads, line 1: found 'arc,tail,head,profile', allowed: the header node,x,y"),
    (["empty", "roads"], FIVE[0], 1, "empty, line 1: found nothing, allowed: the header node,x,y"),
    (["binary", "roads"], FIVE[0], 1, "binary, line 1"),
    (["nodes", "binary"], FIVE[0], 1, "binary, line 1"),
    (["nodes", "roads", "binary"], FIVE[0], 1, "binary, line 1"),
    (["wrong", "roads"], FIVE[0], 1, "wrong, line 3, column x: found 'five', allowed: a number of digits alone"),
    (["one", "roads"], FIVE[0], 1, "roads, line 2, column head: found '2', allowed: nodes 0 to 0"),
    (["nodes", "roads", "nodes"], FIVE[0], 1, "the header profile,from,kind,value"),
    (["nodes", "roads"], "arrive=1 arcs=5 3", 1, "line 1 of the replies: road 3 doesn't begin where road 5 ends"),
    (["nodes", "roads"], "arrive=1 arcs=7", 1, "line 1 of the replies: road 7 isn't in the table"),
    (["nodes", "roads"], "unreachable\nnetwork: nodes header", 1, "line 2 of the replies: this is no reply: network: nodes header"),
    (["nodes", "roads"], "unreachable\n\nunreachable", 1, "line 2 of the replies: this is no reply"),
    (["nodes", "roads"], "\x1b[0m arrive", 1, "this is no reply: ?[0m arrive"),
    (["--script", "binary", "nodes", "roads"], FIVE[0], 1, "line 1 of the replies: its line of the script is no query"),
    ([], "", 2, "Missing argument 'NODES'"),
    (["nodes"], "", 2, "Missing argument 'ROADS'"),
    (["nodes", "roads", "profiles", "more"], "", 2, "more"),
    (["--script"], "", 2, "--script"),
    (["--none", "nodes", "roads"], "", 2, "--none"),
]


@pytest.mark.parametrize("words, replies, status, said", REFUSED)
def test_refusals(folder: Path, words: list[str], replies: str, status: int, said: str) -> None:
    (folder / "folder").mkdir()
    (folder / "empty").write_text("")
    (folder / "binary").write_bytes(bytes(range(256)) * 20)
    (folder / "wrong").write_text("node,x,y\n0,0,0\n1,five,0\n")
    (folder / "one").write_text("node,x,y\n0,0,0\n")
    before = sorted(folder.iterdir())
    ran = call("draw-route", *words, input=replies and replies + "\n")
    check_refused(ran, status, said)
    assert ran.error.startswith("draw-route: ") and sorted(folder.iterdir()) == before


def test_a_closed_input_and_output(folder: Path) -> None:
    for redirection, said in [("<&-", "standard input is closed"), (">&- </dev/null", "standard output is closed"), (">/dev/full </dev/null", "No space left")]:
        words = ["sh", "-c", f'"$0" nodes roads {redirection}', BIN / "draw-route"]
        done = subprocess.run(words, capture_output=True, text=True, timeout=600)
        assert done.returncode == 1 and said in done.stderr and done.stderr.count("\n") == 1, done


def test_a_closed_pipe_is_no_fault(folder: Path) -> None:
    assert run_into_closed_pipe("draw-route", "nodes", "roads")[::2] == (141, "")


def test_an_interrupt_leaves_nothing(folder: Path) -> None:
    interrupt_at_a_pipe("draw-route", folder)


def test_odd_names_and_a_folder_that_cannot_be_written(folder: Path) -> None:
    """Nothing is written beside the tables, and no language of the system changes a byte."""
    odd = folder / "-an odd & x=1"
    odd.mkdir()
    shutil.copy("nodes", odd / "-nodes here")
    shutil.copy("roads", odd / "it's=roads")
    expected = run("draw-route", "nodes", "roads", input="\n".join(FIVE))
    odd.chmod(0o555)
    env = {"LC_ALL": "de_DE.UTF-8", "TMPDIR": "/none/such"}
    ran = run("draw-route", "--", "-nodes here", "it's=roads", input="\n".join(FIVE), cwd=odd, env=env)
    odd.chmod(0o755)
    assert ran == expected and expected.status == 0
    assert sorted(path.name for path in odd.iterdir()) == ["-nodes here", "it's=roads"]


def test_the_picture_of_the_pages() -> None:
    """docs/pictures/routes.svg is what the command makes of the example's replies."""
    town = EXAMPLES / "town"
    ran = run("draw-route", "--script", "script.txt", "nodes.csv", "roads.csv", "profiles.csv", input=(town / "replies.txt").read_bytes(), cwd=town)
    assert ran.output == (EXAMPLES.parent / "docs" / "pictures" / "routes.svg").read_text()


def test_routes_of_the_program_itself(town: Path) -> None:
    from catchup.program import run_program

    lines = [f"q,{a},{b},{second}" for a, b, second in [(0, 158, 0), (158, 0, 28800), (5, 5, 7), (40, 90, 61500)]] + ["l,5,151,32400", "d,5,151"]
    replies = run_program(["ask", town], input="\n".join(lines) + "\n").output
    folder = EXAMPLES / "town"
    (town.parent / "lines").write_text("\n".join(lines))
    ran = run("draw-route", "--script", town.parent / "lines", "nodes.csv", "roads.csv", input=replies, cwd=folder)
    drawn = Drawn(ran.output)
    assert len(drawn.of_class("route")) == 4 and drawn.covered() == []
    assert "leaves 08:50:25, arrives 09:00:00" in drawn.words("legend")
    assert {f"{SVG}rect", f"{SVG}circle"} <= {each.tag for each in drawn.root}
