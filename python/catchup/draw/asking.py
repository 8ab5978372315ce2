"""What a drawing of a day asks the program: the day, and the routes at some of its seconds."""

from __future__ import annotations

import os
import subprocess
from collections.abc import Callable, Iterable, Sequence
from dataclasses import dataclass

from catchup import replies
from catchup.clock import DAY
from catchup.draw.replies import printable
from catchup.errors import Failure, WrongWords
from catchup.program import find_program
from catchup.replies import Day, Drive, Unreachable

# Lines asked at once at most, which bounds the memory of their replies.
_BLOCK = 4096


@dataclass(frozen=True, slots=True)
class Asked:
    """A day, and the roads of the route at each second that was asked, by rising second.

    Two neighbours that have different routes are one second apart.
    """

    day: Day
    routes: list[tuple[int, tuple[int, ...]]]


def ask_day(ask: Callable[[Sequence[str]], list[str]], start: int, end: int, every: int) -> Asked:
    """Asks for the day by one line, and for routes at its corners and at each `every` seconds, and between two that differ
    until the second of the change is found.

    Raises WrongWords where one of the nodes isn't there, and Failure where there is no way, or the program answers otherwise, or a route arrives at another second than the
    day says.
    """
    answer = ask([f"d,{start},{end}"])[0]
    if answer == "refused: node":
        raise WrongWords(f"FROM and TO must be nodes of this network, and {start} or {end} is none")
    day = _parsed(answer)
    if isinstance(day, Unreachable):
        raise Failure(f"no way leads from node {start} to node {end}")
    if not isinstance(day, Day):
        raise _otherwise(answer)
    routes: dict[int, tuple[int, ...]] = {}
    known: dict[tuple[int, ...], tuple[int, ...]] = {}
    wanted = _first_seconds(day, every)
    while wanted:
        for at in range(0, len(wanted), _BLOCK):
            seconds = wanted[at : at + _BLOCK]
            for second, line in zip(seconds, ask([f"q,{start},{end},{second}" for second in seconds])):
                roads = _roads(day, second, line)
                routes[second] = known.setdefault(roads, roads)
        wanted = _between(sorted(routes.items()))
    return Asked(day, sorted(routes.items()))


def make_ready() -> bool:
    """Lets the launcher of a checkout find the program, or build it, and says whether it could. The launcher says itself
    how far it is, or why it can't, on standard error. A program that CATCHUP names is ready.

    Raises Failure where there is no program to start.
    """
    program = find_program()
    if os.environ.get("CATCHUP"):
        return True
    try:
        return subprocess.run([program, "trial", "1", "2", "2", "1"], stdout=subprocess.DEVNULL).returncode == 0
    except OSError as error:
        raise Failure(f"{program} can't be started: {error.strerror or error}") from None


def _first_seconds(day: Day, every: int) -> list[int]:
    """The first and the last second of each piece, and each `every` seconds."""
    starts = [piece.start for piece in day.pieces]
    return sorted({*starts, *(start - 1 for start in starts[1:]), DAY - 1, *range(0, DAY, every)})


def _between(routes: Iterable[tuple[int, tuple[int, ...]]]) -> list[int]:
    """The seconds halfway between two neighbours that have different routes."""
    wanted = []
    before: tuple[int, tuple[int, ...]] | None = None
    for second, roads in routes:
        if before and before[1] != roads and second - before[0] > 1:
            wanted.append((second + before[0]) // 2)
        before = second, roads
    return wanted


def _roads(day: Day, second: int, line: str) -> tuple[int, ...]:
    drive = _parsed(line)
    if not isinstance(drive, Drive):
        raise _otherwise(line)
    if drive.arrive != day.arrival(second):
        raise Failure(
            f"a query at second {second} arrives at {drive.arrive}, and the day at {day.arrival(second)}:"
            " so the packed file isn't a built one (catchup verify tells, catchup build makes it anew)"
        )
    return drive.roads


def _parsed(line: str) -> replies.Reply:
    try:
        return replies.parse(line)
    except replies.NotAReply:
        raise _otherwise(line) from None


def _otherwise(line: str) -> Failure:
    return Failure(f"the program answers: {printable(line)}")
