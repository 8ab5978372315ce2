"""The latest departure that is in time.

Who leaves later never arrives earlier, so a guess and steps from there will do. The guess is the program's: of each
beginning and each end the latest departure between their nodes (line `l`), with the last seconds at which one may be
there.
"""

from __future__ import annotations

from collections.abc import Callable, Sequence
from dataclasses import replace

from catchup.clock import DAY
from catchup.errors import CatchupError
from catchup.places.drives import Drive, Driver
from catchup.places.ends import NO_ROAD, Source
from catchup.places.values import Ask, Snap, TooLate

MOST_DAYS_BACK = 8
"""No drive that anybody asks for takes so many days."""


async def latest(driver: Driver, start: Snap, end: Snap, by: int, ask: Ask, leg: int = 0) -> Drive:
    """The drive of the last second of the day that is there by a second. NoRoute(leg), TooLate(leg)."""
    drives: dict[int, Drive] = {}

    async def is_in_time(second: int) -> bool:
        drives[second] = await driver.drive(start, end, second, ask, leg)
        return drives[second].arrive <= by

    good, bad, step = await _guess(driver, start, end, by, ask), DAY, 1
    while good >= 0 and not await is_in_time(good):
        good, bad, step = max(good - step, -1), good, 2 * step
    step = 1
    while good + 1 < bad:
        # Up to the first that is too late by steps that grow, since the guess is rarely more than a second off.
        middle = min(good + step, bad - 1) if bad == DAY else (good + bad) // 2
        if await is_in_time(middle):
            good, step = middle, 2 * step
        else:
            bad = middle
    if good < 0:
        raise TooLate(leg)
    return drives[good]


async def latest_over(driver: Driver, snaps: Sequence[Snap], by: int, ask: Ask) -> list[Drive]:
    """The drives over some places that leave as late as is in time: the first one on the first day, others perhaps
    later. NoRoute(leg), TooLate(leg)."""
    for leg in range(len(snaps) - 2, 0, -1):
        by = (await _latest_of_any_day(driver, snaps[leg], snaps[leg + 1], by, ask, leg)).depart
    drives = [await latest(driver, snaps[0], snaps[1], by, ask)]
    for leg in range(1, len(snaps) - 1):
        drives.append(await driver.drive(snaps[leg], snaps[leg + 1], drives[-1].arrive, ask, leg))
    return drives


async def _latest_of_any_day(driver: Driver, start: Snap, end: Snap, by: int, ask: Ask, leg: int) -> Drive:
    """The drive of the last second of any day that is there by a second."""
    for day in range(by // DAY, max(by // DAY - MOST_DAYS_BACK, -1), -1):
        try:
            found = await latest(driver, start, end, by - day * DAY, ask, leg)
        except TooLate:
            continue
        return replace(found, depart=found.depart + day * DAY)
    raise TooLate(leg)


async def _guess(driver: Driver, start: Snap, end: Snap, by: int, ask: Ask) -> int:
    """A second of the day close to the last one that is in time, if there is one."""
    sources = driver.ends.sources(start, min(by, DAY - 1), driver.travel)
    pairs = [(source, target) for source in sources for target in driver.ends.targets(end, driver.travel)]
    lasts = [_last(lambda second: driver.finished(target, second), by + 0.5, by) for _, target in pairs]
    asked = [(source, target, last) for (source, target), last in zip(pairs, lasts) if last >= 0]
    replies = await ask([f"l,{source.node},{target.node},{last}" for source, target, last in asked]) if asked else []
    found = [_last_departure(driver, source, _departure(reply)) for (source, _, _), reply in zip(asked, replies)]
    found.append(_last_straight(driver, start, end, by))
    return max(0, *found)


def _last(time_of: Callable[[int], float], limit: float, most: int) -> int:
    """The last second up to `most` whose time is below a limit, -1 where there is none; times never fall."""
    good, bad = -1, most + 1
    while bad - good > 1:
        middle = (good + bad) // 2
        if time_of(middle) < limit:
            good = middle
        else:
            bad = middle
    return good


def _departure(reply: str) -> int:
    """The second of a reply `depart=..`, -1 where there is none in time, or no walk at all."""
    if reply.startswith("depart="):
        return int(reply[7:reply.index(" ")])
    if reply in ("too late", "unreachable"):
        return -1
    raise CatchupError(f"the program answered something else than was asked: {reply[:60]}")


def _last_departure(driver: Driver, source: Source, second: int) -> int:
    """The last second at which one may leave a place to be at the node of a beginning at some second."""
    if second < 0 or source.road == NO_ROAD:
        return second
    travel, left = driver.travel, 1.0 - source.share
    return _last(lambda depart: depart + left * (travel.arrive(source.road, depart) - depart), second + 1.0, second)


def _last_straight(driver: Driver, start: Snap, end: Snap, by: int) -> int:
    """The last second at which one may drive along one road and be in time."""

    def arrive(depart: int) -> float:
        found = driver.straight(start, end, depart)
        return found[0] if found is not None else float("inf")

    return _last(arrive, by + 0.5, min(by, DAY - 1))
