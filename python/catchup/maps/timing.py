"""What of a road changes over the day, and the pieces of the profile that says so.

Whoever comes to a road may wait there. So a road that is closed for some hours is a wait for its opening, and where a
road is slow and then fast again, nobody who enters it while it is slow arrives later than who waits until it is fast.
"""
from __future__ import annotations

from bisect import bisect_left
from dataclasses import dataclass
from typing import Callable, Sequence

from catchup.maps.hours import Spans, merged
from catchup.maps.values import DAY
from catchup.replies import Piece

CLOSED = (Piece(0, "closed", 0),)
ALWAYS: Spans = ((0, DAY),)


@dataclass(frozen=True)
class Timing:
    """How a road is over the day: from each second on a factor of its seconds, or None while it is closed. The first
    step is at second 0. Where it is a ferry's, its departures: then the steps say when one may come to wait for
    them."""
    steps: tuple[tuple[int, float | None], ...] = ((0, 1.0),)
    departures: tuple[int, ...] = ()

    def at(self, second: int) -> float | None:
        """The factor at a second of the day; None while it is closed."""
        return [factor for start, factor in self.steps if start <= second][-1]

    @property
    def factors(self) -> list[float]:
        """All factors that it has; of departures 1."""
        return [1.0] if self.departures else sorted({factor for _, factor in self.steps if factor is not None})

    @property
    def plain(self) -> bool:
        """Whether the road is the same all day."""
        return not self.departures and self.steps == ((0, 1.0),)


NEVER = Timing(((0, None),))
"""Closed all day."""


def _simple(steps: Sequence[tuple[int, float | None]]) -> tuple[tuple[int, float | None], ...]:
    """The same without steps that change nothing."""
    kept: list[tuple[int, float | None]] = []
    for start, factor in steps:
        if not kept or kept[-1][1] != factor:
            kept.append((start, factor))
    return tuple(kept)


def timing(steps: Sequence[tuple[int, float | None]], departures: tuple[int, ...] = ()) -> Timing:
    """A timing of steps that may repeat one another."""
    return Timing(_simple(steps), departures)


def closed_in(spans: Spans) -> Timing:
    """Closed in these parts of the day, and else open."""
    steps: list[tuple[int, float | None]] = [(0, 1.0)]
    for begin, end in merged(spans):
        steps = [step for step in steps if step[0] != begin] + [(begin, None)]
        if end < DAY:
            steps.append((end, 1.0))
    return timing(steps)


def open_in(spans: Spans) -> Timing:
    """Open in these parts of the day, and else closed."""
    steps: list[tuple[int, float | None]] = [(0, None)]
    for begin, end in merged(spans):
        steps = [step for step in steps if step[0] != begin] + [(begin, 1.0)]
        if end < DAY:
            steps.append((end, None))
    return timing(steps)


def closed_spans(of: Timing) -> Spans:
    """The parts of the day in which a timing is closed."""
    ends = [start for start, _ in of.steps[1:]] + [DAY]
    return tuple((start, end) for (start, factor), end in zip(of.steps, ends) if factor is None)


def combined(one: Timing | None, other: Timing | None) -> Timing | None:
    """Both together: closed where either is, and slowed by both."""
    if one is None or other is None:
        return one or other
    steps: list[tuple[int, float | None]] = []
    for second in sorted({start for start, _ in one.steps + other.steps}):
        a, b = one.at(second), other.at(second)
        steps.append((second, None if a is None or b is None else a * b))
    departures = tuple(sorted(set(one.departures) | set(other.departures)))
    return timing(steps, departures)


class Timings:
    """Timings under numbers; 0 is none."""

    def __init__(self) -> None:
        self.all: list[Timing | None] = [None]
        self._number: dict[Timing | None, int] = {None: 0}
        self._never: dict[tuple[int, Spans], bool] = {}

    def number(self, of: Timing | None) -> int:
        """The number of a timing."""
        if of is not None and of.plain:
            of = None
        if of not in self._number:
            self._number[of] = len(self.all)
            self.all.append(of)
        return self._number[of]

    def never(self, number: int, closed: Spans = ()) -> bool:
        """Whether a timing opens at no second of the day that isn't in these hours."""
        key = number, closed
        if key not in self._never:
            of = combined(self.all[number], closed_in(closed) if closed else None)
            self._never[key] = pieces(of, lambda factor: 0) == CLOSED
        return self._never[key]


def pieces(of: Timing | None, takes: Callable[[float], int]) -> tuple[Piece, ...]:
    """The pieces of a road, its waits with them; `takes` says its seconds at each of its factors, and at 1."""
    if of is None or of.plain:
        return (Piece(0, "travel", takes(1.0)),)
    if all(factor is None for _, factor in of.steps):
        return CLOSED
    if of.departures:
        return _departures(of, takes(1.0))
    travels = [None if factor is None else takes(factor) for _, factor in of.steps]
    starts = [start for start, _ in of.steps]
    done: list[Piece] = []
    for i, (start, travel) in enumerate(zip(starts, travels)):
        end = starts[i + 1] if i + 1 < len(starts) else DAY
        later = min(starts[j] + (DAY if j <= i else 0) + other for j, other in enumerate(travels) if other is not None)
        # The first second at which waiting for a later step is better than going.
        turn = start if travel is None else max(start, later - travel + 1)
        if travel is not None and turn > start:
            done.append(Piece(start, "travel", travel))
        if turn < end:
            done.append(Piece(turn, "until", later))
    said = [(piece.kind, piece.value) for piece in done]
    return tuple(piece for i, piece in enumerate(done) if i == 0 or said[i - 1] != said[i])


def _departures(of: Timing, seconds: int) -> tuple[Piece, ...]:
    """The pieces of who waits for the next departure, today's or tomorrow's, where one may come to it by the steps."""
    closed = closed_spans(of)
    turns = {0} | {second + 1 for second in of.departures} | {second for span in closed for second in span}
    goes = [second + day * DAY for day in range(3) for second in of.departures]
    done: list[Piece] = []
    for second in sorted(turn for turn in turns if turn < DAY):
        comes = next((end for begin, end in closed if begin <= second < end), second)
        if comes == DAY and closed and closed[0][0] == 0:
            comes += closed[0][1]
        then = goes[bisect_left(goes, comes)] + seconds
        if not done or done[-1].value != then:
            done.append(Piece(second, "until", then))
    return tuple(done)
