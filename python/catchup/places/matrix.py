"""Tables of travel between many places, by lines `t`: one row for each beginning. Sources that are near one another are
asked behind one another, since the program remembers at which seconds it drove what.

Who begins between two seconds may arrive as early as who begins at the first of them. Where the entry that is answered,
a whole second, hangs on that, the later second is asked too: by lines `q`, or by another row where they would be many.
"""

from __future__ import annotations

from collections.abc import Sequence
from dataclasses import dataclass

import numpy as np
from numpy.typing import NDArray

from catchup.beside import beside
from catchup.clock import DAY
from catchup.errors import CatchupError
from catchup.places.curve import along
from catchup.places.drives import Driver, arrival, checked
from catchup.places.ends import Source, Target
from catchup.places.values import Ask, Snap

Ints = NDArray[np.int64]
Floats = NDArray[np.float64]
Bools = NDArray[np.bool_]

MOST_ENTRIES = 1_048_576
"""Of one line `t`."""
ENTRIES = 64
"""That are read in the time of one step."""

STEPS = 8
"""That it takes to look at the ends of a place."""

TOGETHER = 32_768
"""Entries that are asked for together, before others get their turn, where each line has one row."""

LINE = 4
"""Rows of one line: several processes of the program may share in many lines."""

SINGLE = 512
"""Lines of single drives that are asked for together."""

ROW = 64
"""Single drives from which on a row of all is the quicker way."""

_NEVER = -1


@dataclass(frozen=True, slots=True)
class _Rows:
    """The beginnings at some sources, each a row. node: of each; second, part: int64[b], float64[b]; source: int64[b],
    whose it is; size: int64[S], how many each source has."""

    node: list[int]
    second: Ints
    part: Floats
    source: Ints
    size: Ints

    @classmethod
    def of(cls, begins: Sequence[Sequence[Source]]) -> _Rows:
        """The beginnings of each source."""
        flat = [source for of in begins for source in of]
        size = np.array([len(of) for of in begins], dtype=np.int64)
        return cls([each.node for each in flat], np.array([each.second for each in flat], dtype=np.int64),
                   np.array([each.part for each in flat], dtype=np.float64), np.repeat(np.arange(len(size)), size),
                   size)

    def starts(self, rows: Sequence[int], later: int = 0) -> list[tuple[int, int]]:
        """The node and the second of some beginnings, so many seconds later."""
        second = self.second.tolist()
        return [(self.node[row], second[row] + later) for row in rows]


@dataclass(frozen=True, slots=True)
class _Columns:
    """The ends of all targets. node: the nodes, each once; at: int64[e], each end's place among these; road, share:
    int64[e], float64[e]; target: int64[e], whose it is; first: int64[T], where the ends of each target begin; empty:
    bool[T], whether it has none."""

    node: list[int]
    at: Ints
    road: Ints
    share: Floats
    target: Ints
    first: Ints
    empty: Bools


async def table(driver: Driver, sources: Sequence[Snap], targets: Sequence[Snap], depart: int, ask: Ask) -> Floats:
    """The seconds of travel from each source to each target, whole ones, float64[S, T]; nan where no way leads."""
    found = np.full((len(sources), len(targets)), np.nan)
    if not len(sources) or not len(targets):
        return found
    order = along([snap.point for snap in sources])
    near = [sources[at] for at in order.tolist()]
    columns, begins = await beside(STEPS * (len(sources) + len(targets)), _ends, driver, near, targets, depart)
    for rows in _blocks([len(each) for each in begins], max(len(columns.at), len(columns.node))):
        found[order[rows]] = await _block(driver, begins[rows], columns, depart, ask)
    await beside(STEPS * (len(sources) + len(targets)), _go_straight, driver, sources, targets, depart, found)
    return found


def _ends(driver: Driver, sources: Sequence[Snap], targets: Sequence[Snap],
          depart: int) -> tuple[_Columns, list[list[Source]]]:
    """The ends of drives to all targets, and the beginnings of drives from each source."""
    begins = [driver.ends.sources(snap, depart, driver.travel) for snap in sources]
    return _columns([driver.ends.targets(snap, driver.travel) for snap in targets]), begins


def _blocks(sizes: Sequence[int], width: int) -> list[slice]:
    """Sources in blocks of so many entries."""
    blocks, begin, rows = [], 0, 0
    for at, size in enumerate(sizes):
        if rows and (rows + size) * width > MOST_ENTRIES:
            blocks.append(slice(begin, at))
            begin, rows = at, 0
        rows += size
    return [*blocks, slice(begin, len(sizes))]


def _columns(ends: Sequence[Sequence[Target]]) -> _Columns:
    number: dict[int, int] = {}
    flat = [target for of in ends for target in of]
    at = [number.setdefault(target.node, len(number)) for target in flat]
    sizes = np.array([len(of) for of in ends], dtype=np.int64)
    return _Columns(list(number), np.array(at, dtype=np.int64),
                    np.array([target.road for target in flat], dtype=np.int64),
                    np.array([target.share for target in flat], dtype=np.float64),
                    np.repeat(np.arange(len(ends)), sizes), np.cumsum(sizes) - sizes, sizes == 0)


async def _block(
        driver: Driver, begins: Sequence[Sequence[Source]], columns: _Columns, depart: int, ask: Ask) -> Floats:
    """The travel times of some sources; nan where no way leads."""
    rows = _Rows.of(begins)
    steps = len(rows.node) * len(columns.at) // ENTRIES
    arrive = await _arrivals(rows.starts(range(len(rows.node))), columns.node, ask)
    times = np.where(arrive == _NEVER, np.inf, arrive + rows.part[:, None])
    undecided = await beside(steps, _undecided, driver, rows, columns, arrive, times)
    if undecided.any():
        is_early = await _is_early(rows, columns, arrive, undecided, ask)
        times[is_early] = arrive[is_early]
    return await beside(steps, _travel, driver, rows, columns, times, depart)


def _travel(driver: Driver, rows: _Rows, columns: _Columns, times: Floats, depart: int) -> Floats:
    """The travel times from when one is at each node."""
    best = _whole(_best(driver, rows, columns, times))
    best[np.isinf(best)] = np.nan
    return best - depart


def _best(driver: Driver, rows: _Rows, columns: _Columns, times: Floats) -> Floats:
    """The least arrivals at all targets from each source, float64[S, T]; infinite where no way leads."""
    best = np.full((len(rows.size), len(columns.first)), np.inf)
    if len(times) and len(columns.at):
        arrivals = _finished(driver, times[:, columns.at], columns)
        # A place without ends has none of the columns, and would be given its neighbour's.
        there, wide = np.flatnonzero(rows.size), np.flatnonzero(~columns.empty)
        by_source = np.minimum.reduceat(arrivals, (np.cumsum(rows.size) - rows.size)[there], axis=0)
        best[np.ix_(there, wide)] = np.minimum.reduceat(by_source, columns.first[wide], axis=1)
    return best


def _whole(times: Floats) -> Floats:
    """The whole seconds that are nearest to some times, as nearest_second has them."""
    whole: Floats = np.floor(times + 0.5)
    return whole


def _undecided(driver: Driver, rows: _Rows, columns: _Columns, arrive: Ints, times: Floats) -> Bools:
    """At which nodes it has to be known whether one is there as early as who begins at the second before,
    bool[b, nodes]: where that may be, and a target would be reached at another whole second then. times: when one is
    there where it isn't so."""
    second = rows.second[:, None]
    may_be: Bools = (rows.part[:, None] > 0.0) & (arrive != _NEVER)
    may_be &= driver.travel.have_rests(second, np.maximum(arrive, second))
    found = np.zeros_like(may_be)
    if may_be.any() and len(columns.at):
        latest = _whole(_best(driver, rows, columns, times))[rows.source][:, columns.target]
        soonest = _whole(_finished(driver, np.where(may_be, arrive, times)[:, columns.at], columns))
        row, end = np.nonzero((soonest < latest) & may_be[:, columns.at])
        found[row, columns.at[end]] = True
    return found


async def _is_early(rows: _Rows, columns: _Columns, arrive: Ints, undecided: Bools, ask: Ask) -> Bools:
    """At which of these nodes one is as early who begins a second later, bool[b, nodes]."""
    found = np.zeros_like(undecided)
    count = undecided.sum(axis=1)
    many = np.flatnonzero(count >= ROW)
    if len(many):
        behind = await _arrivals(rows.starts(many.tolist(), 1), columns.node, ask)
        found[many] = undecided[many] & (behind == arrive[many])
    row, at = np.nonzero(undecided & (count < ROW)[:, None])
    starts = rows.starts(row.tolist(), 1)
    found[row, at] = await _single(starts, [columns.node[each] for each in at.tolist()], ask) == arrive[row, at]
    return found


async def _single(starts: Sequence[tuple[int, int]], ends: Sequence[int], ask: Ask) -> Ints:
    """The least arrivals of drives from nodes and seconds to a node each, int64[d]; _NEVER where no walk leads."""
    found: list[int] = []
    for begin in range(0, len(starts), SINGLE):
        these = list(zip(starts[begin:begin + SINGLE], ends[begin:begin + SINGLE]))
        replies = await ask([f"q,{node},{end},{second % DAY}" for (node, second), end in these])
        found += [arrival(reply, second) if checked(reply) else _NEVER
                  for ((_, second), _), reply in zip(these, replies)]
    return np.array(found, dtype=np.int64)


async def _arrivals(starts: Sequence[tuple[int, int]], nodes: Sequence[int], ask: Ask) -> Ints:
    """The least arrivals at nodes from nodes and seconds, int64[starts, nodes]; _NEVER where no walk leads."""
    if not nodes or not starts:
        return np.empty((len(starts), len(nodes)), dtype=np.int64)
    most = max(TOGETHER // len(nodes), 1)
    parts = _lines(starts, min(most, LINE))
    row_of = {start: row for row, start in enumerate((node, second) for second, of in parts for node in of)}
    rows: list[Ints] = []
    for at in range(0, len(parts), most):
        # Others get their turn between.
        rows.append(await _asked(parts[at:at + most], nodes, ask))
    return np.concatenate(rows)[[row_of[start] for start in starts]]


def _lines(starts: Sequence[tuple[int, int]], most: int) -> list[tuple[int, list[int]]]:
    """Lines of a second and the nodes where one begins then, so many of them at most: each beginning once, in the order
    in which they are given."""
    lines: list[tuple[int, list[int]]] = []
    for node, second in dict.fromkeys(starts):
        if not lines or lines[-1][0] != second or len(lines[-1][1]) == most:
            lines.append((second, []))
        lines[-1][1].append(node)
    return lines


async def _asked(parts: Sequence[tuple[int, list[int]]], nodes: Sequence[int], ask: Ask) -> Ints:
    """The entries of some lines, each of a second and the nodes where one begins then."""
    said = ",".join(map(str, nodes))
    replies = await ask([f"t,{second % DAY},{len(of)},{','.join(map(str, of))},{said}" for second, of in parts])

    def entries() -> Ints:
        return np.concatenate([_entries(reply, len(of), len(nodes), second // DAY * DAY)
                               for (second, of), reply in zip(parts, replies)])

    return await beside(sum(len(of) for _, of in parts) * len(nodes) // ENTRIES, entries)


def _entries(reply: str, rows: int, width: int, day: int) -> Ints:
    """The entries of a table's reply, seconds of which count from a midnight `day`."""
    if not reply.startswith("table"):
        raise CatchupError(f"the program answered something else than was asked: {reply[:60]}")
    found = np.fromstring(reply[5:].replace("-", "-1"), dtype=np.int64, sep=" ")
    if len(found) != rows * width:
        raise CatchupError(f"a table of {rows} by {width} was answered by {len(found)} entries")
    return np.where(found < 0, _NEVER, found + day).reshape(rows, width)


def _finished(driver: Driver, times: Floats, columns: _Columns) -> Floats:
    """When one is at each place, from the nodes of its ends, float64[sources, ends]."""
    travel = driver.travel
    constant = np.where(columns.share > 0.0, travel.constant[columns.road], 0)
    arrive: Floats = times + columns.share * constant
    for end in np.flatnonzero(constant < 0).tolist():
        known = np.isfinite(times[:, end])
        time = times[known, end]
        roads = np.full(len(time), columns.road[end])
        arrive[known, end] = time + columns.share[end] * (travel.arrive_all_between(roads, time) - time)
    return arrive


def _go_straight(driver: Driver, sources: Sequence[Snap], targets: Sequence[Snap], depart: int, found: Floats) -> None:
    """Takes the drives along one road where these are earlier."""
    on_road: dict[int, set[int]] = {}
    for column, snap in enumerate(targets):
        for road, _ in snap.roads:
            on_road.setdefault(road, set()).add(column)
    for row, snap in enumerate(sources):
        for column in set().union(*(on_road.get(road, ()) for road, _ in snap.roads)):
            straight = driver.straight(snap, targets[column], depart)
            if straight is not None:
                takes = np.floor(straight[0] + 0.5) - depart
                found[row, column] = np.fmin(found[row, column], takes)
