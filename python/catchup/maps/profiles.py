"""The profiles of roads: what each takes over the day, one for each shape that there is."""
from __future__ import annotations

from dataclasses import dataclass

import numpy as np

from catchup.maps.arrays import Ints
from catchup.maps.directed import Directed
from catchup.maps.graph import Groups
from catchup.maps.labels import Labels
from catchup.maps.seconds import WholeSeconds
from catchup.maps.states import Network
from catchup.maps.timing import CLOSED, Timing, closed_in, combined, pieces
from catchup.maps.vehicles import Rush
from catchup.replies import Piece


@dataclass
class Shapes:
    """The profile of each road, and the pieces of each profile. Profile 0 is closed; the last `spare` are of no
    road."""
    seconds: Ints
    """What each road takes at its usual speed."""
    profile: Ints
    pieces: list[tuple[Piece, ...]]
    spare: int


def time_streets(directed: Directed) -> None:
    """Finds the timing of each directed street, by its rule, and by a gate that it begins at; a ferry's is for who
    boards it. Those that are never open are taken away, so that they join nothing. Comes before what asks which streets
    there are."""
    raw, segments, streets, timings = directed.raw, directed.segments, directed.streets, directed.timings
    table = np.zeros((2, 2, len(raw.rules)), dtype=np.int64)
    for number, rule in enumerate(raw.rules):
        for row, one in enumerate((rule, rule.too)):
            for back, side in enumerate((one.forth, one.back) if one else ()):
                table[row, back, number] = timings.number(None if side is None else side.timing)
    step = directed.first_step
    rule_of = raw.way_rule[segments.way[step >> 1]]
    second = np.repeat(directed.original != np.arange(len(streets)), 2).astype(np.int64)
    found: Ints = table[second, step & 1, rule_of]
    ferry = np.array([rule.ferry for rule in raw.rules], dtype=bool)[rule_of]
    boarding = np.where(step & 1, segments.finishes[step >> 1], segments.begins[step >> 1])
    found[ferry & ~boarding] = 0
    gates = {number: barrier.timing for number, barrier in raw.barriers.items() if barrier.timing is not None}
    leaving = segments.osm[directed.tail]
    for d in np.flatnonzero(np.isin(leaving, np.array(sorted(gates), dtype=np.int64))).tolist():
        found[d] = timings.number(combined(timings.all[found[d]], gates[int(leaving[d])]))
    directed.timing = found
    directed.exists &= ~np.array([timings.never(number) for number in range(len(timings.all))], dtype=bool)[found]


def rush_timings(labels: Labels, rush: Rush | None) -> Ints:
    """The timing of each street by its class, where rush hours are asked for."""
    timings = labels.of.timings
    of_class = [timings.number(Timing(rush.steps[kind]) if rush and kind in rush.steps else None)
                for kind in labels.classes]
    return np.array(of_class, dtype=np.int64)[labels.kind]


def shapes_of(network: Network, directed: Directed, seconds: WholeSeconds, rush: Ints, spare: int) -> Shapes:
    """The profiles of the roads. `rush` has the timings of streets at rush hours."""
    timings, street = directed.timings, network.street
    count, spans = len(timings.all), len(network.spans)
    timed = directed.timing[street] * count + rush[street >> 1]
    kinds, kind = np.unique(timed * spans + network.closed, return_inverse=True)
    roads_of = Groups(kind, np.arange(len(street)), len(kinds))
    known: dict[tuple[Piece, ...], int] = {CLOSED: 0}
    profile = np.zeros(len(street), dtype=np.int64)
    for number, value in enumerate(kinds.tolist()):
        value, closed = divmod(value, spans)
        of = combined(*(timings.all[timing] for timing in divmod(value, count)))
        if closed:
            of = combined(of, closed_in(network.spans[closed]))
        roads = np.array(roads_of[number], dtype=np.int64)
        factors = [1.0] if of is None else of.factors
        takes, row = _different([seconds.at(factor, street[roads]) + network.delay[roads] for factor in factors])
        shapes = [pieces(of, dict(zip(factors, seconds_of)).__getitem__) for seconds_of in takes]
        profile[roads] = np.array([known.setdefault(shape, len(known)) for shape in shapes], dtype=np.int64)[row]
    return Shapes(seconds.at(1.0, street) + network.delay, profile, list(known) + [CLOSED] * spare, spare)


def _different(columns: list[Ints]) -> tuple[list[tuple[int, ...]], Ints]:
    """The different rows of columns of numbers, 0 and more, and which of them each row is."""
    which = columns[0]
    for column in columns[1:]:
        which = np.unique(which, return_inverse=True)[1] * (int(column.max()) + 1) + column
    _, first, row = np.unique(which, return_index=True, return_inverse=True)
    return list(zip(*(column[first].tolist() for column in columns))), row
