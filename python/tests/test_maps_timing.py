"""Timings over the day, and the pieces that stand for them."""
from __future__ import annotations

import pytest
from hypothesis import given
from hypothesis import strategies as st

from catchup.maps.timing import ALWAYS, CLOSED, NEVER, Timing, Timings, closed_in, closed_spans, combined, open_in, pieces, timing
from catchup.maps.values import DAY
from catchup.replies import Piece

H = 3600


def rows(of: Timing | None, seconds: int) -> list[tuple[int, str, int]]:
    return [(piece.start, piece.kind, piece.value) for piece in pieces(of, lambda factor: round(factor * seconds))]


@pytest.mark.parametrize("of, seconds, expected", [
    (None, 70, [(0, "travel", 70)]),
    (Timing(), 70, [(0, "travel", 70)]),
    (NEVER, 70, [(0, "closed", 0)]),
    # Closed by day: who comes then waits for its end.
    (closed_in(((8 * H, 9 * H),)), 70, [(0, "travel", 70), (8 * H, "until", 9 * H + 70), (9 * H, "travel", 70)]),
    # Closed at night, over midnight.
    (closed_in(((0, 6 * H), (22 * H, DAY))), 70,
     [(0, "until", 6 * H + 70), (6 * H, "travel", 70), (22 * H, "until", DAY + 6 * H + 70)]),
    (open_in(((8 * H, 9 * H),)), 70, [(0, "until", 8 * H + 70), (8 * H, "travel", 70), (9 * H, "until", DAY + 8 * H + 70)]),
    (open_in(ALWAYS), 70, [(0, "travel", 70)]),
    (open_in(()), 70, [(0, "closed", 0)]),
    (closed_in(ALWAYS), 70, [(0, "closed", 0)]),
    # Slow from 7 to 8: who enters in the last 70 seconds arrives with who enters at 8.
    (timing([(0, 1.0), (7 * H, 2.0), (8 * H, 1.0)]), 70,
     [(0, "travel", 70), (7 * H, "travel", 140), (8 * H - 69, "until", 8 * H + 70), (8 * H, "travel", 70)]),
    # Slow over midnight.
    (timing([(0, 2.0), (H, 1.0), (23 * H, 2.0)]), 70,
     [(0, "travel", 140), (H - 69, "until", H + 70), (H, "travel", 70), (23 * H, "travel", 140)]),
    # Departures at 6 and 18 o'clock.
    (Timing(departures=(6 * H, 18 * H)), 600,
     [(0, "until", 6 * H + 600), (6 * H + 1, "until", 18 * H + 600), (18 * H + 1, "until", DAY + 6 * H + 600)]),
    (Timing(departures=(DAY - 1,)), 600, [(0, "until", DAY - 1 + 600)]),
    # One may not come from 17 to 19: who does so later waits for the next day's; who came before goes at 18.
    (combined(Timing(departures=(6 * H, 18 * H)), closed_in(((17 * H, 19 * H),))), 600,
     [(0, "until", 6 * H + 600), (6 * H + 1, "until", 18 * H + 600), (17 * H, "until", DAY + 6 * H + 600)]),
    # One may come by night alone, over midnight.
    (combined(Timing(departures=(6 * H, 18 * H)), closed_in(((5 * H, 22 * H),))), 600,
     [(0, "until", 6 * H + 600), (5 * H, "until", DAY + 6 * H + 600)]),
    # One may not come by night, over midnight: from 20 o'clock on one comes to it at 7.
    (combined(Timing(departures=(6 * H, 18 * H)), closed_in(((0, 7 * H), (20 * H, DAY)))), 600,
     [(0, "until", 18 * H + 600), (18 * H + 1, "until", DAY + 6 * H + 600), (20 * H, "until", DAY + 18 * H + 600)]),
    (combined(Timing(departures=(6 * H,)), NEVER), 600, [(0, "closed", 0)]),
])
def test_pieces(of: Timing | None, seconds: int, expected: list[tuple[int, str, int]]) -> None:
    assert rows(of, seconds) == expected


def arrival(found: tuple[Piece, ...], second: int) -> int | None:
    day, now = divmod(second, DAY)
    piece = [piece for piece in found if piece.start <= now][-1]
    if piece.kind == "closed":
        return None
    return second + piece.value if piece.kind == "travel" else day * DAY + piece.value


factors = st.one_of(st.none(), st.sampled_from([0.5, 1.0, 1.3, 2.0, 3.0]))
steps = st.lists(st.tuples(st.integers(1, DAY - 1), factors), max_size=5, unique_by=lambda step: step[0]).map(lambda found: sorted(found, key=lambda step: step[0]))


@given(factors, steps, st.integers(0, 20_000), st.lists(st.integers(0, DAY - 1), max_size=20))
def test_pieces_are_the_least_over_all_waits(first: float | None, rest: list[tuple[int, float | None]], seconds: int, asked: list[int]) -> None:
    of = timing([(0, first), *rest])
    found = pieces(of, lambda factor: round(factor * seconds))
    if all(factor is None for _, factor in of.steps):
        assert found == CLOSED
        return
    begins = [start + day * DAY for day in range(3) for start, _ in of.steps]
    for second in [*asked, *(piece.start for piece in found), *(max(0, piece.start - 1) for piece in found)]:
        goes = [second, *(start for start in begins if start > second)]
        best = min(go + round(factor * seconds) for go in goes if (factor := of.at(go % DAY)) is not None)
        assert arrival(found, second) == best
    assert [piece.start for piece in found] == sorted({piece.start for piece in found}) and found[0].start == 0


def test_combined() -> None:
    night, rush = closed_in(((22 * H, DAY),)), timing([(0, 1.0), (7 * H, 1.5), (9 * H, 1.0)])
    both = combined(night, rush)
    assert both is not None and both.steps == ((0, 1.0), (7 * H, 1.5), (9 * H, 1.0), (22 * H, None))
    assert combined(night, None) is night and combined(None, rush) is rush and combined(None, None) is None
    assert closed_spans(both) == ((22 * H, DAY),)


def test_never() -> None:
    timings = Timings()
    day, boat = timings.number(open_in(((6 * H, 20 * H),))), timings.number(Timing(departures=(9 * H,)))
    assert not timings.never(0) and not timings.never(day) and not timings.never(boat) and timings.never(timings.number(NEVER))
    assert timings.never(day, ((0, 7 * H), (7 * H, 20 * H))) and not timings.never(day, ((0, 19 * H),)) and timings.never(0, ALWAYS)
    assert timings.never(boat, ALWAYS) and not timings.never(boat, ((0, 20 * H),))
