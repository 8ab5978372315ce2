"""The best drive from one place to another: of all ways to begin and all ways to end, the earliest arrival.

Between a beginning and an end the program is asked by lines `q` (or `v`, where it says seconds). Times are kept to the
fraction of a second within a drive; it arrives at the nearest whole second.
"""

from __future__ import annotations

import math
from collections.abc import Sequence
from dataclasses import dataclass
from typing import NamedTuple

import numpy as np

from catchup.clock import DAY
from catchup.errors import CatchupError
from catchup.places.ends import Ends, Source, Target
from catchup.places.lines import Part, parts_of
from catchup.places.travel import Travel
from catchup.places.values import Ask, NoRoute, Snap


@dataclass(frozen=True, slots=True)
class Drive:
    """A drive: `roads` in their order, the first from share `begin` of its metres on and the last up to share `stop`,
    and `seconds` at which each is entered. All seconds count from the first leg's midnight. Where nothing is driven
    there are no roads."""

    start: Snap
    end: Snap
    depart: int
    arrive: int
    roads: list[int]
    seconds: list[int]
    begin: float = 0.0
    stop: float = 1.0

    @property
    def parts(self) -> list[Part]:
        """The roads with the shares of each that are driven."""
        return parts_of(self.roads, self.begin, self.stop) if self.roads else []


class _Way(NamedTuple):
    """A way from a beginning to an end: when one is at the end's node, and what the program said of the roads between,
    asked at some second."""

    source: Source
    target: Target
    time: float
    second: int
    reply: str


class Driver:
    """Finds drives over one version of a network. `line` is the kind of line that asks for a drive: `q`, or `v` where
    the program says the second at which each road is entered."""

    def __init__(self, ends: Ends, travel: Travel, line: str = "q") -> None:
        self.ends = ends
        self.travel = travel
        self._line = line

    async def drive(self, start: Snap, end: Snap, depart: int, ask: Ask, leg: int = 0) -> Drive:
        """The drive that leaves at a second and arrives first. NoRoute(leg) where no way leads."""
        sources, targets = self.ends.sources(start, depart, self.travel), self.ends.targets(end, self.travel)
        straight = self.straight(start, end, depart)
        ways = await self._ways(sources, targets, ask)
        best, least = None, math.inf
        for way in ways:
            arrive = self.finished(way.target, way.time)
            if arrive < least:
                best, least = way, arrive
        if straight is not None and straight[0] <= least:
            return self._along(start, end, depart, *straight)
        if best is None:
            raise NoRoute(leg)
        return self._driven(start, end, depart, nearest_second(least), best)

    def straight(self, start: Snap, end: Snap, depart: int) -> tuple[float, Part] | None:
        """The drive along one road, where the end lies ahead on it: when it arrives, and the part of the road."""
        travel = self.travel
        return min(((depart + (ahead - share) * (travel.arrive(road, depart) - depart), (road, share, ahead))
                    for road, share, ahead in self.straight_parts(start, end)), default=None)

    def straight_parts(self, start: Snap, end: Snap) -> list[Part]:
        """The parts of single roads from one place to another that lies ahead on them."""
        return [(road, share, ahead) for road, share in start.roads for other, ahead in end.roads
                if road == other and ahead >= share and self.ends.may_begin(road) and not self.travel.is_closed[road]]

    def finished(self, target: Target, time: float) -> float:
        """When one is at a place who is at the node of its end at some time."""
        if target.share == 0.0:
            return time
        takes = int(self.travel.constant[target.road])
        return time + target.share * (takes if takes >= 0 else self.travel.arrive_between(target.road, time) - time)

    async def _ways(self, sources: Sequence[Source], targets: Sequence[Target], ask: Ask) -> list[_Way]:
        """The best way from each beginning to the node of each end."""
        nodes: dict[int, list[Target]] = {}
        for target in targets:
            nodes.setdefault(target.node, []).append(target)
        pairs = [(source, node) for source in sources for node in nodes]
        replies = await self._said(pairs, 0, ask)
        # Who begins between two seconds might arrive as early as who begins at the later one.
        late = [at for at, ((source, _), reply) in enumerate(zip(pairs, replies))
                if reply and source.part > 0.0 and self._may_wait(source, reply)]
        later = dict(zip(late, await self._said([pairs[at] for at in late], 1, ask))) if late else {}
        ways: list[_Way] = []
        for at, ((source, node), reply) in enumerate(zip(pairs, replies)):
            if reply:
                time = _between_seconds(source, reply, later.get(at, ""))
                ways += [_Way(source, target, *time) for target in nodes[node]]
        return ways

    async def _said(self, pairs: Sequence[tuple[Source, int]], later: int, ask: Ask) -> list[str]:
        """The replies of drives from some beginnings, so many seconds later, to a node each; empty where no way
        leads."""
        if not pairs:
            return []
        return [checked(reply) for reply in await ask([
            f"{self._line},{source.node},{node},{(source.second + later) % DAY}" for source, node in pairs])]

    def _may_wait(self, source: Source, reply: str) -> bool:
        """Whether who begins a second later than a reply says might arrive as early: somewhere on the way one may leave
        a road no later for entering it a second later."""
        return self.travel.has_rest(source.second, arrival(reply, source.second))

    def _along(self, start: Snap, end: Snap, depart: int, time: float, part: Part) -> Drive:
        road, begin, stop = part
        is_driven = begin < stop
        return Drive(start, end, depart, nearest_second(time), [road] * is_driven, [depart] * is_driven, begin, stop)

    def _driven(self, start: Snap, end: Snap, depart: int, arrive: int, way: _Way) -> Drive:
        """The drive of a way, with the seconds at which its roads are entered."""
        source, target = way.source, way.target
        roads, seconds, entered = self._between(way.reply, way.second)
        begin, stop = 0.0, 1.0
        if source.share < 1.0:
            begin, roads, seconds = source.share, [source.road, *roads], [depart, *seconds]
        if target.share > 0.0:
            stop, roads, seconds = target.share, [*roads, target.road], [*seconds, entered]
        return Drive(start, end, depart, arrive, roads, seconds, begin, stop)

    def _between(self, reply: str, second: int) -> tuple[list[int], list[int], int]:
        """The roads of a reply to a query at a second, when each is entered, and when the last one is left."""
        head, _, said = reply.partition(" ")
        if said.startswith("arcs="):
            # Of a program that doesn't say seconds.
            roads = list(map(int, said[5:].split()))
            return roads, *self.travel.entered(roads, second)
        day = second // DAY * DAY
        # There are many, which the library reads faster.
        numbers = np.fromstring(said[6:].replace(",", " "), dtype=np.int64, sep=" ")
        return numbers[::2].tolist(), (numbers[1::2] + day).tolist(), int(head[7:]) + day


def roads_of(drives: Sequence[Drive]) -> int:
    """How many roads some drives go over."""
    return sum([len(drive.roads) for drive in drives])


def nearest_second(time: float) -> int:
    """The whole second that is nearest to a time; of two the later one."""
    return math.floor(time + 0.5)


def arrival(reply: str, second: int) -> int:
    """The arrival of a reply `arrive=SECOND ..` to a query at a second of any day."""
    return int(reply[7:reply.index(" ")]) + second // DAY * DAY


def _between_seconds(source: Source, reply: str, later: str) -> tuple[float, int, str]:
    """When one arrives who begins between two seconds, and the second and the reply that lead there: those of the later
    one where that is as early."""
    arrive = arrival(reply, source.second)
    if later and arrival(later, source.second + 1) == arrive:
        return arrive, source.second + 1, later
    return arrive + source.part, source.second, reply


def checked(reply: str) -> str:
    """A reply that is a drive, or empty where no walk leads. CatchupError where it is anything else."""
    if reply.startswith("arrive="):
        return reply
    if reply == "unreachable":
        return ""
    raise CatchupError(f"the program answered something else than was asked: {reply[:60]}")
