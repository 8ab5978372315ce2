"""Times and waits along routes whose replies say them."""

from __future__ import annotations

import random

import pytest
from drawings import SVG, draw, grid, steps

from catchup.draw.times import _spread
from catchup.errors import Failure

TIMED = ["arrive=29050 drive=0,28800 3,28860"]
WAITS = ["arrive=29350 drive=0,28800,28800 3,28860,29160"]


def test_times_stand_at_the_ends_of_roads() -> None:
    drawn = draw(TIMED)
    assert sorted(each.text or "" for each in drawn.of_class("time")) == ["08:00", "08:01", "08:04:10"]
    assert "1 reply, 1 route; times on the map say when one gets there" in drawn.words()
    assert "leaves 08:00:00, arrives 08:04:10" in drawn.words("legend")
    assert "4 min 10 s, 2 roads, node 0 to 3" in drawn.words("legend")
    assert drawn.covered() == [] and "wait" not in drawn.words("key")


def test_a_route_without_seconds_has_no_times() -> None:
    drawn = draw(["arrive=29050 arcs=0 3"])
    assert drawn.find("times") is None and drawn.find("waits") is None
    assert "1 reply, 1 route" in drawn.words()


def test_waits_are_marked() -> None:
    drawn = draw(WAITS)
    assert "waits 5 min" in drawn.words("times") and "wait" in drawn.words("key")
    assert "9 min 10 s, 5 min of it waiting, 2 roads, node 0 to 3" in drawn.words("legend")
    marks = drawn.group("waits").findall(f"{SVG}circle")
    middle = steps(drawn.of_class("route")[0][0].get("d"))[1]
    assert [(float(mark.get("cx", 0)), float(mark.get("cy", 0))) for mark in marks] == [middle]


def test_a_wait_at_the_start() -> None:
    drawn = draw(["arrive=1020 drive=5,950,1000"])
    assert {"waits 50 s", "00:15:50", "00:17"} <= set(drawn.words("times"))
    assert "leaves 00:15:50, arrives 00:17:00" in drawn.words("legend")


def test_no_wait_is_marked_where_there_is_none() -> None:
    drawn = draw(["arrive=29050 drive=0,28800,28800 3,28860,28860"])
    assert len(drawn.group("waits")) == 0 and "waiting" not in drawn.text


SCRIPTS = [
    (TIMED, "v,0,3,28800", None),
    (WAITS, "v,0,3,28800", None),
    (["arrive=5 drive="], "v,2,2,5", None),
    (TIMED, "q,0,3,28800", "its line of the script is no query of this kind"),
    (["arrive=29050 arcs=0 3"], "v,0,3,28800", "its line of the script is no query of this kind"),
    (TIMED, "v,0,3,28799", "its line of the script leaves earlier"),
    (TIMED, "v,0,3,28801", "its line of the script leaves later"),
    (TIMED, "v,0,2,28800", "its line of the script asks for other nodes"),
]


@pytest.mark.parametrize("replies, line, why", SCRIPTS)
def test_scripts(replies: list[str], line: str, why: str | None) -> None:
    if why is None:
        assert "leaves" in draw(replies, [line]).words("legend")[1]
    else:
        with pytest.raises(Failure) as raised:
            draw(replies, [line])
        assert str(raised.value) == f"line 1 of the replies: {why}"


FALLING = ["arrive=100 drive=0,50 3,40", "arrive=30 drive=0,50", "arrive=90 drive=0,50,40 3,60,60", "arrive=90 drive=0,50,70 3,60,60"]


@pytest.mark.parametrize("reply", FALLING)
def test_seconds_never_fall(reply: str) -> None:
    with pytest.raises(Failure, match="its seconds must not fall from road to road"):
        draw([reply])


def test_many_times_cover_nothing_and_keep_off_the_lines() -> None:
    network = nodes, roads = grid(30)
    draws = random.Random(1)
    joined: dict[int, list[int]] = {}
    for road, tail in enumerate(roads.tail):
        joined.setdefault(tail, []).append(road)
    replies = []
    for _ in range(12):
        at, second, words = draws.randrange(len(nodes)), 20_000, []
        for _ in range(25):
            road = draws.choice(joined[at])
            wait = draws.choice([0, 0, 0, 90])
            words.append(f"{road},{second},{second + wait}")
            at, second = roads.head[road], second + wait + 37
        replies.append(f"arrive={second} drive={' '.join(words)}")
    drawn = draw(replies, network=network)
    assert drawn.covered() == [] and len(drawn.of_class("time")) > 10
    places = [at for route in drawn.of_class("route") for path in route for at in steps(path.get("d"))]
    assert len(places) > 300
    for each in drawn.of_class("time"):
        x, y, half = float(each.get("x", 0)), float(each.get("y", 0)) - 4, 3.5 * len(each.text or "")
        assert not any(abs(px - x) < half - 4 and abs(py - y) < 4 for px, py in places), each.text


def test_too_many_routes_have_no_times() -> None:
    drawn = draw(TIMED * 21)
    assert drawn.find("times") is None and "times on the map" not in drawn.text


@pytest.mark.parametrize("count", [2, 3, 4, 9, 59, 60, 61, 500])
def test_times_are_written_from_the_ends_inwards(count: int) -> None:
    order = list(_spread(count))
    assert order[:2] == [0, count - 1] and len(order) == len(set(order)) == min(count, 60)
    assert set(order) <= set(range(count))
