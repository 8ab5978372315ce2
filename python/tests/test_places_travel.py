"""How long roads take: the pieces of their profiles at whole seconds, and between them."""

from __future__ import annotations

import math

import numpy as np
import pytest

pytest.importorskip("hypothesis")
from hypothesis import given
from hypothesis import strategies as st

from catchup.places.travel import Travel
from catchup.replies import Piece
from catchup.tables import profiles_of

DAY = 86_400


@st.composite
def profiles(draw: st.DrawFn) -> list[Piece]:
    """Pieces of which none lets who leaves later arrive earlier."""
    starts = [0, *sorted(draw(st.sets(st.integers(1, DAY - 1), max_size=4)))]
    pieces: list[Piece] = []
    first = last = 0
    for start, end in zip(starts, [*starts[1:], DAY]):
        # No earlier than who left a second before, and by the end of the piece not late for the next one.
        least = max(last, start if not pieces else last)
        if draw(st.booleans()):
            value = max(least, end - 1) + draw(st.integers(0, 300))
            pieces.append(Piece(start, "until", value))
            last = value
        else:
            value = max(least - start, 0) + draw(st.integers(0, 300))
            pieces.append(Piece(start, "travel", value))
            last = end - 1 + value
        first = pieces[0].value
    # Who leaves at midnight arrives no earlier than who left just before it.
    return pieces if first + DAY >= last else [Piece(0, "travel", 60)]


def arrive(pieces: list[Piece], second: int) -> int:
    """What a profile says of a second of any day."""
    day, now = divmod(second, DAY)
    piece = [piece for piece in pieces if piece.start <= now][-1]
    return second + piece.value if piece.kind == "travel" else day * DAY + piece.value


@given(st.lists(profiles(), min_size=1, max_size=4), st.lists(st.floats(0, 3 * DAY), min_size=1, max_size=30),
       st.data())
def test_arrivals_at_seconds_and_between(made: list[list[Piece]], times: list[float], data: st.DataObject) -> None:
    travel = Travel(np.arange(len(made), dtype=np.int32), profiles_of(made))
    road = data.draw(st.integers(0, len(made) - 1))
    seconds = np.array(sorted(math.floor(time) for time in times))
    wanted = [arrive(made[road], second) for second in seconds.tolist()]
    assert [travel.arrive(road, second) for second in seconds.tolist()] == wanted
    assert travel.arrive_rising(road, seconds).tolist() == wanted
    roads = np.full(len(seconds), road)
    assert travel.arrive_all(roads, seconds).tolist() == wanted
    between = [travel.arrive_between(road, time) for time in times]
    assert np.allclose(travel.arrive_all_between(np.full(len(times), road), np.array(times)), between, rtol=0,
                       atol=1e-6)
    for time, left in zip(times, between):
        low, high = arrive(made[road], math.floor(time)), arrive(made[road], math.floor(time) + 1)
        assert left == pytest.approx(min(low + time % 1, high), abs=1e-6)


@given(st.lists(profiles(), min_size=1, max_size=3), st.lists(st.tuples(st.integers(0, 2 * DAY), st.integers(0, DAY)),
                                                              min_size=1, max_size=10))
def test_where_a_second_may_make_no_difference(made: list[list[Piece]], windows: list[tuple[int, int]]) -> None:
    travel = Travel(np.arange(len(made), dtype=np.int32), profiles_of(made))
    rests = np.zeros(DAY, dtype=bool)
    for pieces in made:
        arrivals = np.arange(DAY + 1)
        for piece, end in zip(pieces, [piece.start for piece in pieces[1:]] + [DAY]):
            if piece.kind == "travel":
                arrivals[piece.start:end] += piece.value
            else:
                arrivals[piece.start:end] = piece.value
        arrivals[DAY] = arrivals[0] + DAY
        rests |= arrivals[1:] == arrivals[:-1]
    for begin, wide in windows:
        assert travel.has_rest(begin, begin + wide) == bool(rests[np.arange(begin, begin + wide + 1) % DAY].any())


def test_closed_roads_are_no_rests() -> None:
    travel = Travel(np.array([0, 1], dtype=np.int32), profiles_of([[Piece(0, "closed", 0)], [Piece(0, "travel", 5)]]))
    assert travel.is_closed.tolist() == [True, False] and not travel.has_rest(0, DAY)
    assert travel.entered([1, 1, 1], 86_398) == ([86_398, 86_403, 86_408], 86_413)
