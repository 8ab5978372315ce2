"""The whole day between two places: the least arrival at each second, as drives at these seconds have it."""

from __future__ import annotations

import asyncio
from collections.abc import Mapping, Sequence
from dataclasses import dataclass

import numpy as np
from numpy.typing import NDArray

from catchup.clock import DAY
from catchup.errors import CatchupError
from catchup.places.drives import Drive, Driver
from catchup.places.ends import NO_ROAD, Beginning, Target
from catchup.places.values import Ask, NoRoute, Snap
from catchup.replies import Kind, Piece

Ints = NDArray[np.int64]
Floats = NDArray[np.float64]

_FIRST_LOOK = 1_024


@dataclass(frozen=True, slots=True)
class Choice:
    """From second `second` of the day on this drive's roads are a best way, until the next choice's second."""

    second: int
    drive: Drive


async def arrivals(driver: Driver, start: Snap, end: Snap, ask: Ask) -> Ints:
    """The arrival of the drive at each second of the day, int64[86400]. NoRoute(0) where no way leads."""
    begins = driver.ends.beginnings(start, driver.travel)
    targets = driver.ends.targets(end, driver.travel)
    pairs = list({(begin.node, target.node): None for begin in begins for target in targets})
    replies = await ask([f"d,{one},{other}" for one, other in pairs]) if pairs else []
    days = {pair: await asyncio.to_thread(_day_of, reply) for pair, reply in zip(pairs, replies)}
    best = await asyncio.to_thread(_least, driver, begins, targets, days)
    np.minimum(best, await asyncio.to_thread(_straight, driver, start, end), out=best)
    if not np.isfinite(best[0]):
        raise NoRoute(0)
    return _nearest_seconds(best)


def _least(driver: Driver, begins: Sequence[Beginning], targets: Sequence[Target],
           days: Mapping[tuple[int, int], Ints | None]) -> Floats:
    """The least arrival at a place over all its ends, for each second of departure; infinite where no way leads."""
    best = np.full(DAY, np.inf)
    for begin in begins:
        times = _begun(driver, begin)
        for target in targets:
            day = days[begin.node, target.node]
            if day is not None:
                np.minimum(best, _finished(driver, target, _between(day, times)), out=best)
    return best


def pieces_of(found: Ints) -> tuple[Piece, ...]:
    """Arrivals at each second of the day as pieces, in the spelling of the program's days."""
    seconds = np.arange(len(found))
    ends_until, ends_travel = (np.append(np.flatnonzero(np.diff(values)) + 1, len(found))
                               for values in (found, found - seconds))
    pieces: list[Piece] = []
    at = 0
    while at < len(found):
        is_until = at + 1 < len(found) and found[at + 1] == found[at]
        kind: Kind = "until" if is_until else "travel"
        pieces.append(Piece(at, kind, int(found[at]) - (0 if is_until else at)))
        ends = ends_until if is_until else ends_travel
        at = int(ends[np.searchsorted(ends, at, "right")])
    return tuple(pieces)


async def choices(driver: Driver, start: Snap, end: Snap, found: Ints, ask: Ask) -> list[Choice]:
    """A best way for each second of the day, whose arrivals are `found`: each as long as it is one."""
    made: list[Choice] = []
    at = 0
    while at < DAY:
        drive = await driver.drive(start, end, at, ask)
        made.append(Choice(at, drive))
        at = await asyncio.to_thread(_end_of, driver, drive, at, found)
    return made


def _end_of(driver: Driver, drive: Drive, at: int, found: Ints) -> int:
    """The first second behind `at`, at which a way is a best one, at which it isn't any more."""
    at, width = at + 1, _FIRST_LOOK
    while at < DAY:
        end = min(at + width, DAY)
        late = np.flatnonzero(_driven(driver, drive, np.arange(at, end)) > found[at:end])
        if len(late):
            return at + int(late[0])
        at, width = end, 4 * width
    return DAY


def _driven(driver: Driver, drive: Drive, departs: Ints) -> Ints:
    """When one arrives who drives a way at some seconds, which follow one another."""
    travel, parts = driver.travel, drive.parts
    times = departs.astype(np.float64)
    if parts and parts[0][2] - parts[0][1] < 1.0:
        times = _part_driven(driver, parts[0][0], parts[0][2] - parts[0][1], times)
        parts = parts[1:]
    last = parts[-1] if parts and parts[-1][2] < 1.0 else None
    seconds = np.arange(int(times[0]), int(times[-1]) + 2)
    day = seconds.copy()
    for road, _, _ in parts[:len(parts) - (last is not None)]:
        day = travel.arrive_rising(road, day)
    second = np.floor(times).astype(np.int64)
    row = second - seconds[0]
    times = np.minimum(day[row] + (times - second), day[row + 1])
    if last is not None:
        times = _part_driven(driver, last[0], last[2], times)
    return _nearest_seconds(times)


def _nearest_seconds(times: Floats) -> Ints:
    """The whole seconds that are nearest, as drives.nearest_second has them."""
    found: Ints = np.floor(times + 0.5).astype(np.int64)
    return found


def _part_driven(driver: Driver, road: int, share: float, times: Floats) -> Floats:
    """When one has driven a share of a road that is entered at some times, which never fall."""
    takes = int(driver.travel.constant[road])
    if takes >= 0:
        return times + share * takes
    second = np.floor(times).astype(np.int64)
    part = times - second
    arrive, later = (driver.travel.arrive_rising(road, at) for at in (second, second + 1))
    return times + share * (np.minimum(arrive + part, np.where(part > 0.0, later, arrive)) - times)


def _begun(driver: Driver, begin: Beginning) -> Floats:
    """When one is at the node of a beginning, for each second of departure."""
    times = np.arange(DAY, dtype=np.float64)
    return times if begin.road == NO_ROAD else _part_driven(driver, begin.road, 1.0 - begin.share, times)


def _between(day: Ints, times: Floats) -> Floats:
    """A day's arrivals at times of any day: between two seconds they rise as time does, up to the later one's."""
    second = np.floor(times).astype(np.int64)
    one, other = (day[at % DAY] + at // DAY * DAY for at in (second, second + 1))
    found: Floats = np.minimum(one + (times - second), other)
    return found


def _finished(driver: Driver, target: Target, times: Floats) -> Floats:
    """When one is at a place, for each time at the node of its end."""
    return times if target.share == 0.0 else _part_driven(driver, target.road, target.share, times)


def _straight(driver: Driver, start: Snap, end: Snap) -> Floats:
    """When one arrives along one road, for each second of departure; infinite where none leads there."""
    best = np.full(DAY, np.inf)
    for road, share, ahead in driver.straight_parts(start, end):
        np.minimum(best, _part_driven(driver, road, ahead - share, np.arange(DAY, dtype=np.float64)), out=best)
    return best


def _day_of(reply: str) -> Ints | None:
    """The arrivals of a reply to a line `d` at each second of the day, int64[86400]; None where no walk leads."""
    if reply == "unreachable":
        return None
    if not reply.startswith("day "):
        raise CatchupError(f"the program answered something else than was asked: {reply[:60]}")
    pieces = [piece.split(",") for piece in reply[4:].split(" ")]
    starts = np.array([int(piece[0]) for piece in pieces] + [DAY])
    sizes = np.diff(starts)
    values = np.repeat(np.array([int(piece[2]) for piece in pieces]), sizes)
    is_travel = np.repeat(np.array([piece[1] == "travel" for piece in pieces]), sizes)
    return np.where(is_travel, values + np.arange(DAY), values)

