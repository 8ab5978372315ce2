"""Steps as OSRM answers them: each with its maneuver, its street, its line and its intersections, as JSON."""

from __future__ import annotations

import functools
from collections.abc import Mapping, Sequence
from itertools import accumulate, chain, pairwise
from typing import Final

from catchup.places import Snap
from catchup.service.osrm.courses import course, direction, turned
from catchup.service.osrm.legs import Leg
from catchup.service.osrm.lines import Form, point
from catchup.service.osrm.rows import Rows, far_told
from catchup.service.osrm.steps import Steps, steps_of
from catchup.service.osrm.texts import sums, text
from catchup.service.osrm.turns import head_of, modifier_of, sides_told

ASIDE: Final = (5.0, 300.0)             # metres within which a place lies on a side of its street that is worth a word
SUMMED: Final = 2                       # streets of a summary


def steps_told(leg: Leg, rows: Rows) -> tuple[list[str], str]:
    """The steps of a leg with its arrival, as parts of a text, and the names of the streets that take longest. rows:
    those of the network."""
    steps = steps_of(leg.rows)
    seconds = [leg.depart, *map(leg.entered.__getitem__, steps.begins[1:]), leg.arrive]
    takes = [later - second if later > second else 0.0 for second, later in pairwise(seconds)]
    told = list(chain.from_iterable(zip(begun(leg, steps, rows), map(ended, takes))))
    told.append(arrival(leg, rows.form))
    return told, summary_of(leg, steps, takes)


def begun(leg: Leg, steps: Steps, rows: Rows) -> list[str]:
    """The text of each step up to its seconds."""
    its, begins, heads, so_far = leg.rows, steps.begins, heads_of(leg, steps), list(accumulate(leg.far, initial=0.0))
    told = [its[at].told for at in begins]
    for at, begin, end in unready(leg, steps, heads):
        if at in heads or end == len(its):
            # At the ends a road is driven in part, mostly, and isn't met again.
            row = its[begin]
            text, is_unsure = rows.begun(heads.get(at) or row.told[:row.head], its[begin:end]), True
        else:
            text, is_unsure = rows.steps[tuple(its[begin:end])]
        told[at] = text + far_told(so_far[end] - so_far[begin]) if is_unsure else text
    return told


def unready(leg: Leg, steps: Steps, heads: Mapping[int, str]) -> list[tuple[int, int, int]]:
    """The steps whose texts aren't ready, by their numbers, each with its first row and that behind its last: those
    over several rows, and those with heads of their own."""
    rows, begins = leg.rows, steps.begins
    return [(at, begin, end) for at, (begin, end) in enumerate(pairwise([*begins, len(rows)]))
            if end - begin > 1 or not rows[begin].is_ready or at in heads]


@functools.lru_cache(maxsize=65_536)
def ended(seconds: float) -> str:
    """The text of a step from its seconds on. They are whole numbers mostly, so the same come again and again."""
    return f'{seconds:.1f},"weight":{seconds:.1f}}},'


def heads_of(leg: Leg, steps: Steps) -> dict[int, str]:
    """The text up to the first of its intersections of the first step, and of those into roundabouts and out of
    them."""
    found = {0: departure(leg)}
    for begin, ring in steps.rings.items():
        row = leg.rows[begin]
        rotary = f'"rotary_name":{text(ring.rotary)},' if ring.rotary else ""
        maneuver = f'"type":"{ring.kind}","exit":{ring.exit},{row.sides}'
        found[steps.begins.index(begin)] = head_of(
            rotary + leg.rows[ring.street].stretch.street, maneuver, row.intersection)
    return found


def departure(leg: Leg) -> str:
    """The text of the first step up to its intersection."""
    stretch = leg.rows[0].stretch
    ahead = course(stretch.places)
    sides = sides_told(side_of(leg.start, ahead, is_start=True), stretch.at, 0, ahead)
    first = f'{{"out":0,"entry":[true],"bearings":[{ahead}],"location":{stretch.at}}}'
    return head_of(stretch.street, f'"type":"depart",{sides}', first)


def arrival(leg: Leg, form: Form) -> str:
    """The last step of a leg."""
    stretch = leg.rows[-1].stretch
    places = stretch.places
    place = places[-1]
    before, at = course(places, at_end=True), point(place)
    sides = sides_told(side_of(leg.end, before, is_start=False), at, before, 0)
    back = f'{{"in":0,"entry":[true],"bearings":[{(before + 180) % 360}],"location":{at}}}'
    head = head_of(stretch.street, f'"type":"arrive",{sides}', back)
    return f'{head}],"geometry":{form.single(place)},{sums(0.0, 0.0)}}}'


def side_of(snap: Snap, ahead: int, *, is_start: bool) -> str:
    """On which side of the street a place lies that is left, or that is come to; nothing where it is on the street, or
    far from it. ahead: the direction of the drive there, in degrees."""
    if not ASIDE[0] <= snap.metres <= ASIDE[1]:
        return ""
    if is_start:
        angle = turned(direction(snap.place, snap.point), ahead)
    else:
        angle = turned(ahead, direction(snap.point, snap.place))
    return "" if angle == 180 else modifier_of(angle)


def summary_of(leg: Leg, steps: Steps, takes: Sequence[float]) -> str:
    """The names of the streets that take longest, in their order."""
    rings, rows = steps.rings, leg.rows
    told = [rings[begin].street if begin in rings else begin for begin in steps.begins] if rings else steps.begins
    seconds: dict[str, float] = {}
    for name, second in zip([rows[at].called for at in told], takes):
        seconds[name] = seconds.get(name, 0.0) + second
    seconds.pop("", None)
    least = min(sorted(seconds.values())[-SUMMED:], default=0.0)
    longest = [name for name, second in seconds.items() if second >= least]
    if len(longest) > SUMMED:
        # Of streets that take equally long the first ones.
        first = sorted(longest, key=seconds.__getitem__, reverse=True)[:SUMMED]
        longest = [name for name in longest if name in first]
    return ", ".join(longest)
