"""Replies as values: from values to lines and back, from lines to values and back, and what no program prints."""

from __future__ import annotations

from pathlib import Path

import pytest
from hypothesis import given
from hypothesis import strategies as st

from catchup import errors
from catchup.program import run_program
from catchup.replies import (
    Damage,
    Day,
    Departure,
    Done,
    Drive,
    NoMemoryReply,
    NotAReply,
    Piece,
    Reach,
    RefusedReply,
    Reply,
    Table,
    TooLate,
    Unreachable,
    parse,
    value,
)

SECONDS = st.integers(0, 2**61 - 1)
OF_DAY = st.integers(0, 86_399)
ROADS = st.lists(st.integers(0, 4_194_303), max_size=6).map(tuple)
ARRIVALS = st.lists(st.none() | SECONDS, max_size=6).map(tuple)
DAMAGE = st.builds(Damage, st.integers(0, 2**24 - 1), st.sampled_from(["up", "down"]), SECONDS)
WORDS = ("long", "line", "node", "second", "limit", "profile", "arc", "kind", "start", "rising", "closed")


@st.composite
def drives(draw: st.DrawFn) -> Drive:
    roads = draw(ROADS)
    seconds = st.lists(SECONDS, min_size=len(roads), max_size=len(roads)).map(tuple)
    entered = draw(st.none() | seconds)
    left = draw(st.none() | seconds) if entered else None
    return Drive(draw(SECONDS), roads, entered, left)


@st.composite
def days(draw: st.DrawFn) -> Day:
    starts = sorted({0} | draw(st.sets(OF_DAY, max_size=5)))
    kinds = st.sampled_from(["travel", "until"])
    return Day(tuple(Piece(start, draw(kinds), draw(SECONDS)) for start in starts))


REPLIES: st.SearchStrategy[Reply] = st.one_of(
    drives(),
    days(),
    st.builds(Reach, st.lists(st.none() | SECONDS, min_size=1, max_size=6).map(tuple)),
    st.builds(Table, ARRIVALS, st.none() | DAMAGE),
    st.builds(Departure, OF_DAY, SECONDS, ROADS),
    st.builds(Done, st.integers(0, 2**24)),
    st.builds(RefusedReply, st.sampled_from(WORDS) | st.builds("{} {}".format, st.sampled_from(["early", "fifo"]), OF_DAY)),
    DAMAGE,
    st.sampled_from([TooLate(), Unreachable(), NoMemoryReply()]),
)


@given(REPLIES)
def test_values_write_lines_that_are_read_as_these_values(reply: Reply) -> None:
    assert parse(str(reply)) == reply


@given(REPLIES, st.data())
def test_a_changed_line_is_none_or_is_written_back_as_it_is(reply: Reply, data: st.DataObject) -> None:
    line = str(reply)
    start = data.draw(st.integers(0, len(line)))
    end = data.draw(st.integers(start, min(len(line), start + 3)))
    put = data.draw(st.text("0123456789 ,-=abdilmnotuv+_\u0660\n\r\t", max_size=3) | st.just("0" * 20) | st.just("9" * 20))
    changed = line[:start] + put + line[end:]
    try:
        assert str(parse(changed)) == changed
    except NotAReply as error:
        assert "\n" not in str(error)


@given(st.text(max_size=20))
def test_no_text_does_harm(text: str) -> None:
    try:
        assert str(parse(text)) == text
    except NotAReply:
        pass


NONE = [
    "",
    " ",
    "arrive",
    "arrive=",
    "arrive=1",
    "arrive=1 ",
    "arrive=1 arcs",
    "arrive=01 arcs=1",
    "arrive=1 arcs=01",
    "arrive=1 arcs= 1",
    "arrive=1 arcs=1 ",
    "arrive=1 arcs=1  2",
    "arrive=1  arcs=1",
    "arrive=1 arcs=1,2",
    "arrive=-1 arcs=",
    "arrive=+1 arcs=",
    "arrive=1_0 arcs=",
    "arrive=\u0661 arcs=",
    "arrive=1 arcs=4194304",
    "arrive=2305843009213693952 arcs=",
    "arrive=99999999999999999999999999 arcs=",
    "arrive=1 drive=1",
    "arrive=1 drive=1,2,3,4",
    "arrive=1 drive=1,2 3,4,5",
    "arrive=1 drive=1,2,3 3,4",
    "arrive=1 drive=4194304,1",
    "arrive=1 drive=1,2305843009213693952",
    "arrive=1 arcs=1\n",
    "Arrive=1 arcs=1",
    "day",
    "day ",
    "day 1,travel,1",
    "day 0,closed,0",
    "day 0,travel,1 0,travel,2",
    "day 0,travel,1 5,travel,2 4,travel,2",
    "day 0,travel,1 86400,travel,2",
    "day 0,travel",
    "day 0,travel,1,2",
    "day 00,travel,1",
    "reach",
    "reach ",
    "reach 1 ",
    "reach -1",
    "reach --",
    "reach 2305843009213693952",
    "table ",
    "table 1 damaged",
    "table 1 damaged 1 up",
    "table damaged 1 left 1",
    "table damaged 1 up 1 1",
    "table damaged 16777216 up 1",
    "depart=86400 arrive=1 arcs=",
    "depart=1 arcs=1",
    "depart=1 arrive=1",
    "too",
    "too late ",
    "too many shortcuts",
    "no",
    "no  memory",
    "unreachable ",
    "done",
    "done ",
    "done 01",
    "done 16777217",
    "refused:",
    "refused: ",
    "refused: nothing",
    "refused: early",
    "refused: fifo 86400",
    "refused: line 1",
    "damaged 1 up",
    "damaged 1 up 01",
    "shelf: fault hierarchy",
    "words",
    "1 arrive=1 arcs=1",
]


@pytest.mark.parametrize("line", NONE)
def test_what_no_program_prints(line: str) -> None:
    with pytest.raises(NotAReply):
        parse(line)


def test_the_replies_of_the_program(program: Path, rush_hour: Path) -> None:
    lines = [
        "q,0,2,0", "q,1,1,5", "q,2,0,0", "q,9,0,0", "x", "d,0,2", "r,0,28800", "t,0,2,0,1,2,1,0", "t,0,0", "l,0,2,36100",
        "l,0,2,159", "s,2,0,closed,0", "s,0,0,travel,5,9,travel,1", "s,0,0,until,5", "a,2,1", "a,9,9", "s,0,1,travel,1",
        "s,0,0,flies,1", "s,0,0,travel,604801", "q,0,0,86400", "d,1,0", "s,0,0,travel,1,0,travel,1", "s,9,0,travel,1",
        "s,0,0,closed,0,5,travel,1",
    ]  # fmt: skip
    tables = [rush_hour / name for name in ("nodes.csv", "roads.csv", "profiles.csv")]
    run = run_program(["serve", *tables, "identity"], input="\n".join(lines))
    replies = run.output.splitlines()
    assert len(replies) == len(lines)
    assert [str(parse(reply)) for reply in replies] == replies
    kinds = {type(parse(reply)) for reply in replies}
    assert kinds == {Drive, Day, Reach, Table, Departure, TooLate, Unreachable, Done, RefusedReply}


def test_drives_with_seconds() -> None:
    assert parse("arrive=160 drive=0,0 1,60") == Drive(160, (0, 1), (0, 60))
    assert parse("arrive=1020 drive=0,950,1000") == Drive(1020, (0,), (950,), (1000,))
    assert parse("arrive=5 drive=") == Drive(5, (), ())
    for wrong in [((1,), (), None), ((), (), ()), ((1,), (1,), ()), ((1,), None, (1,))]:
        with pytest.raises(ValueError):
            Drive(1, *wrong)


def test_a_day_has_an_arrival_at_each_second() -> None:
    day = parse("day 0,travel,160 28740,travel,250 35851,until,36100 35941,travel,160")
    assert isinstance(day, Day)
    cases = [(0, 160), (28739, 28899), (28740, 28990), (35850, 36100), (35851, 36100), (35940, 36100), (35941, 36101), (86399, 86559)]
    assert [(second, day.arrival(second)) for second, _ in cases] == cases
    for second in (-1, 86400):
        with pytest.raises(ValueError):
            day.arrival(second)


def test_values_that_are_no_answers_are_raised() -> None:
    assert value(parse("done 3")) == Done(3)
    assert value(parse("too late")) == TooLate()
    with pytest.raises(errors.Refused, match="fifo 28799") as refused:
        value(parse("refused: fifo 28799"))
    assert refused.value.word == "fifo 28799"
    with pytest.raises(errors.Damaged, match="edge 5 up at second 0"):
        value(parse("damaged 5 up 0"))
    with pytest.raises(errors.NoMemory):
        value(parse("no memory"))


def test_a_reach_of_a_million_nodes_is_read_in_its_time() -> None:
    line = "reach" + " 12345" * 2**20
    reach = parse(line)
    assert isinstance(reach, Reach) and len(reach.arrivals) == 2**20 and str(reach) == line
