"""How long each directed street takes, in whole seconds.

A street takes the nearest whole second, a half upwards. So none is off by more than half a second, but many short ones
along a way might together gain or lose much. Where by that a stretch of a way would be off by more than SPARE and a
SHARE of its seconds, its last street is rounded the other way, and is off by less than a second.
"""
from __future__ import annotations

import numpy as np

from catchup.maps.arrays import Floats, Ints, offsets, pairs, ranges
from catchup.maps.chains import cut_rings
from catchup.maps.directed import Directed
from catchup.maps.reading import RawMap
from catchup.maps.rules import LONGEST, Rule
from catchup.maps.streets import Segments

SPARE, SHARE = 1.5, 0.05
"""So many seconds, and this part of what it takes, a stretch along a way may be off: from 30 s on a tenth at most."""


def step_seconds(segments: Segments, raw: RawMap) -> Floats:
    """How long each step takes, not rounded, delays at its end with it. Where nobody may go it means nothing."""
    rule = raw.way_rule[segments.way]
    seconds = segments.metres[:, None] * 3.6 / np.array([_speeds(of) for of in raw.rules]).reshape(-1, 2)[rule]
    takes = np.array([of.seconds if of.ferry and of.seconds else 0 for of in raw.rules], dtype=np.float64)[rule]
    whole = np.bincount(segments.way, weights=segments.metres, minlength=len(raw.way_ids))[segments.way]
    sails = (takes > 0) & (whole > 0)
    seconds[sails] = (takes[sails] * segments.metres[sails] / whole[sails])[:, None]
    along, against = _delays(segments, raw)
    seconds[:, 0] += along[segments.b]
    seconds[:, 1] += against[segments.a]
    done: Floats = seconds.reshape(-1)
    return done


def _speeds(rule: Rule) -> tuple[float, float]:
    """The speeds along a way and against it, in km/h; 1 where nobody may go."""
    too = rule.too or rule
    forth, back = rule.forth or too.forth, rule.back or too.back
    return forth.kmh if forth else 1.0, back.kmh if back else 1.0


def _delays(segments: Segments, raw: RawMap) -> tuple[Floats, Floats]:
    """The delay at each node, of who comes along the way and of who comes against it."""
    along, against = np.zeros(len(segments.osm)), np.zeros(len(segments.osm))
    if raw.delays:
        numbers = np.array(sorted(raw.delays), dtype=np.int64)
        at = np.flatnonzero(np.isin(segments.osm, numbers))
        table = np.array([raw.delays[number] for number in segments.osm[at].tolist()])
        along[at], against[at] = table[:, 0], table[:, 1]
    return along, against


def exact_seconds(directed: Directed, of_step: Floats) -> Floats:
    """How long each directed street takes, not rounded."""
    streets = directed.streets
    return pairs(streets.sums(of_step[streets.steps]), streets.sums(of_step[streets.steps ^ 1]))


def _next_in_way(segments: Segments, steps: Ints) -> Ints:
    """The step that goes on along each one's way, or -1."""
    segment, back = steps >> 1, steps & 1
    ends = np.where(back, segments.begins[segment], segments.finishes[segment])
    return np.where(ends, -1, steps + np.where(back, -2, 2))


class WholeSeconds:
    """The whole seconds of directed streets. Those that follow one another along a way, in one direction, are a
    chain."""

    def __init__(self, directed: Directed, exact: Floats) -> None:
        """`exact` has the seconds of each, not rounded."""
        self._exact = exact
        self._itself = pairs(2 * directed.original, 2 * directed.original + 1)
        here = np.unique(self._itself[directed.exists])
        starting = np.full(directed.segments.steps, -1, dtype=np.int64)
        starting[directed.first_step[here]] = here
        going_on = _next_in_way(directed.segments, directed.first_step[here ^ 1] ^ 1)
        after = np.full(len(exact), -1, dtype=np.int64)
        after[here] = np.where(going_on >= 0, starting[going_on], -1)
        first, self._rank = cut_rings(after)
        self._order = here[np.lexsort((self._rank[here], first[here]))]
        self._begins = np.flatnonzero(self._rank[self._order] == 0)
        self._sizes = np.diff(np.append(self._begins, len(self._order)))
        self._chain = np.full(len(exact), -1, dtype=np.int64)
        self._chain[self._order] = np.repeat(np.arange(len(self._begins)), self._sizes)

    def at(self, factor: float, streets: Ints) -> Ints:
        """What these directed streets take where all take so many times their usual seconds: five days at most, so
        that the program takes them whatever a way says."""
        own = self._itself[streets]
        chains, place = np.unique(self._chain[own], return_inverse=True)
        sizes = self._sizes[chains]
        members = self._order[ranges(self._begins[chains], sizes)]
        # fmin also takes what is no number: no time at all, times without an end.
        whole = rounded_along(np.fmin(self._exact[members] * factor, LONGEST), sizes)
        found: Ints = whole[offsets(sizes)[place] + self._rank[own]]
        return found


def rounded_along(exact: Floats, sizes: Ints) -> Ints:
    """Whole numbers for these, 0 and more, in chains of these sizes, 1 and more, that stand behind one another."""
    whole = np.floor(exact + 0.5)
    longest_first = np.argsort(-sizes, kind="stable")
    starts, falling = offsets(sizes)[:-1][longest_first], -sizes[longest_first]
    # What the stretches that end here have gained and lost at most, beyond their share.
    gained, lost = np.zeros(len(sizes)), np.zeros(len(sizes))
    for place in range(int(sizes.max(initial=0))):
        there = slice(int(np.searchsorted(falling, -place)))
        at = starts[there] + place
        over, share = whole[at] - exact[at], SHARE * exact[at]
        turn = (lost[there] - over - share > SPARE).astype(np.float64) - (gained[there] + over - share > SPARE)
        whole[at] += turn
        over += turn
        gained[there] = np.maximum(gained[there] + over - share, 0.0)
        lost[there] = np.maximum(lost[there] - over - share, 0.0)
    found: Ints = whole.astype(np.int64)
    return found
