"""What is reached from a place within some time: stretches of roads, cut where the time runs out."""

from __future__ import annotations

import asyncio
from dataclasses import dataclass
from typing import Final

import numpy as np
from numpy.typing import NDArray

from catchup.beside import beside
from catchup.clock import DAY
from catchup.errors import CatchupError
from catchup.places.drives import Driver
from catchup.places.ends import NO_ROAD, Source
from catchup.places.streets import Streets
from catchup.places.values import Ask, Snap

Ints = NDArray[np.int64]
Floats = NDArray[np.float64]

CHARACTERS: Final = 256
"""Of a reply that are read in the time of one step."""


@dataclass(frozen=True, slots=True)
class Reached:
    """Stretches of roads, each driven from share `begin` to share `end` of its metres, which takes from `entered` to
    `left`, in seconds from the midnight before departure; by rising `entered`. road: int64[r]; the others: float64[r].

    A street that is driven both ways may be there twice, but no road and its copy.
    """

    road: Ints
    begin: Floats
    end: Floats
    entered: Floats
    left: Floats

    def within(self, limit: float) -> Reached:
        """What of it is reached before a time, cut there."""
        there = self.entered < limit
        begin, end, entered, left = (of[there] for of in (self.begin, self.end, self.entered, self.left))
        takes = left - entered
        done = np.where(takes > 0.0, np.minimum((limit - entered) / np.where(takes > 0.0, takes, 1.0), 1.0), 1.0)
        return Reached(self.road[there], begin, begin + done * (end - begin), entered, np.minimum(left, limit))


async def node_times(driver: Driver, start: Snap, depart: int, ask: Ask) -> Floats:
    """When each node is reached by who leaves a place at a second, float64[n]; infinite where no way leads."""
    times = np.full(len(driver.ends.copy), np.inf)
    for source in driver.ends.sources(start, depart, driver.travel):
        np.minimum(times, await _source_times(driver, source, ask), out=times)
    return times


async def reached(driver: Driver, streets: Streets, start: Snap, depart: int, limit: int, ask: Ask) -> Reached:
    """What is reached by who leaves a place at a second, before the second `limit`."""
    times = await node_times(driver, start, depart, ask)
    return await asyncio.to_thread(_reached, driver, streets, start, times, (depart, limit))


def _reached(driver: Driver, streets: Streets, start: Snap, times: Floats, span: tuple[int, int]) -> Reached:
    """The same, from when each node is reached, and the seconds from which and up to which one drives."""
    depart, limit = span
    entered = times[driver.ends.tail]
    roads = np.flatnonzero((entered < limit) & ~driver.travel.is_closed)
    left = driver.travel.arrive_all_between(roads, entered[roads])
    # Of a road and its copies that which is left first.
    order = np.lexsort(np.stack((roads, left)))
    key = 2 * streets.of_road[roads].astype(np.int64) + streets.is_forward[roads]
    _, firsts = np.unique(key[order], return_index=True)
    kept = order[np.sort(firsts)]
    roads, left = roads[kept], left[kept]
    whole = np.ones(len(roads))
    begun = _begun(driver, start, depart)
    every = [np.concatenate(pair) for pair in zip(begun, (roads, 0.0 * whole, whole, entered[roads], left))]
    order = np.argsort(every[3], kind="stable")
    return Reached(every[0][order].astype(np.int64), *(of[order] for of in every[1:])).within(limit)


def _begun(driver: Driver, start: Snap, depart: int) -> tuple[Ints, Floats, Floats, Floats, Floats]:
    """The rests of the roads on which drives begin."""
    begins = [begin for begin in driver.ends.beginnings(start, driver.travel)
              if begin.road != NO_ROAD and begin.share < 1.0]
    shares = np.array([begin.share for begin in begins], dtype=np.float64)
    takes = np.array([driver.travel.arrive(begin.road, depart) - depart for begin in begins], dtype=np.float64)
    return (np.array([begin.road for begin in begins], dtype=np.int64), shares, np.ones(len(begins)),
            np.full(len(begins), float(depart)), depart + (1.0 - shares) * takes)


async def _source_times(driver: Driver, source: Source, ask: Ask) -> Floats:
    """When each node is reached from a beginning."""
    [reply] = await ask([f"r,{source.node},{source.second % DAY}"])
    times = await beside(len(reply) // CHARACTERS, _times_of, reply, source.second)
    there = np.isfinite(times)
    latest = int(times[there].max(initial=source.second))
    if source.part == 0.0 or not driver.travel.has_rest(source.second, latest):
        return times + source.part
    [reply] = await ask([f"r,{source.node},{(source.second + 1) % DAY}"])
    later = await beside(len(reply) // CHARACTERS, _times_of, reply, source.second + 1)
    return np.minimum(times + source.part, later)


def _times_of(reply: str, second: int) -> Floats:
    """The arrivals of a reply to a line `r` at a second of any day; infinite where no walk leads."""
    if not reply.startswith("reach"):
        raise CatchupError(f"the program answered something else than was asked: {reply[:60]}")
    found = np.fromstring(reply[5:].replace("-", "-1"), dtype=np.int64, sep=" ")
    return np.where(found < 0, np.inf, (found + second // DAY * DAY).astype(np.float64))
