"""What OSRM answers, as JSON: waypoints, routes with their legs, tables.

The text is put together from parts of it, since most of them are ready: lines, intersections and names are texts
already, and most of a request's time would go into them.
"""

from __future__ import annotations

import asyncio
import json
from collections.abc import Sequence
from typing import Final

import numpy as np

from catchup.places import Snap
from catchup.places.drives import Drive
from catchup.service.osrm.address import Asked, AskedRoute
from catchup.service.osrm.annotations import annotation
from catchup.service.osrm.guide import Guide
from catchup.service.osrm.legs import Leg, legs_of
from catchup.service.osrm.lines import FORMS, Floats, Form, point
from catchup.service.osrm.overview import simplified
from catchup.service.osrm.stepshapes import steps_told
from catchup.service.osrm.texts import sums, text, timed

ENTRIES: Final = 4_096                  # of a table that are written in one turn of the loop


def waypoint(snap: Snap, guide: Guide, *, with_hint: bool, more: str = "") -> str:
    """Where a place was found; `more` are members that come first."""
    hint = f'"hint":"{guide.hints.written(snap)}",' if with_hint else ""
    metres, name = round(snap.metres, 3), text(snap.name)
    return f'{{{more}{hint}"distance":{metres},"name":{name},"location":{point(snap.point)}}}'


def waypoints(snaps: Sequence[Snap], guide: Guide, asked: Asked) -> str:
    """A list of places that were found."""
    return f'[{",".join([waypoint(snap, guide, with_hint=asked.generate_hints) for snap in snaps])}]'


def route(drives: Sequence[Drive], guide: Guide, asked: AskedRoute) -> list[str]:
    """A route over drives, as parts of a text: most are ready, and are put together once, with all of the answer."""
    legs = legs_of(drives, asked.waypoints, guide.rows[asked.geometries, asked.steps])
    told = ["{"]
    if asked.overview != "false":
        told += ['"geometry":', *overview_of(legs, asked), ","]
    told.append('"legs":[')
    for at, leg in enumerate(legs):
        told += [*"," * (at > 0), *leg_told(leg, guide, asked)]
    depart, arrive = legs[0].depart, legs[-1].arrive
    whole = sums(arrive - depart, sum(leg.metres for leg in legs))
    told.append(f'],{whole},"weight_name":"duration",{timed("depart", depart)},{timed("arrive", arrive)}}}')
    return told


def leg_told(leg: Leg, guide: Guide, asked: AskedRoute) -> list[str]:
    """A leg, as parts of a text."""
    steps, summary = steps_told(leg, guide.rows[asked.geometries, True]) if asked.steps else ([], "")
    more = f'"annotation":{annotation(leg, guide, asked.annotations)},' if asked.annotations else ""
    return ['{"steps":[', *steps, f'],"summary":{text(summary)},{more}{sums(leg.arrive - leg.depart, leg.metres)},'
            f'{timed("depart", leg.depart)},{timed("arrive", leg.arrive)}}}']


def overview_of(legs: Sequence[Leg], asked: AskedRoute) -> list[str]:
    """The line of all of a route, as parts of a text."""
    form = FORMS[asked.geometries]
    if asked.overview == "simplified":
        return [form.whole(simplified([leg.line() for leg in legs]))]
    told = [form.opens]
    for at, leg in enumerate(legs):
        if at:
            told.append(joint(legs[at - 1], leg, form))
        # The first place of a line is told in another way than those behind it.
        told += [row.rest for row in leg.rows] if at else [
            leg.rows[0].stretch.line, *[row.rest for row in leg.rows[1:]]]
    told.append(form.closes)
    return told


def joint(before: Leg, after: Leg, form: Form) -> str:
    """What a line has between two legs: nothing, where one begins at the very place where the other ends."""
    ends, begins = before.rows[-1].stretch.places[-1], after.rows[0].stretch.places[0]
    return "" if form.single(ends) == form.single(begins) else form.rest([ends, begins])


async def grid(entries: Floats) -> str:
    """A table's rows; null where an entry is nan. Others are answered between its rows."""
    rows, every = [], max(ENTRIES // max(entries.shape[1], 1), 1)
    for row in entries:
        rows.append(json.dumps(np.round(row, 1).tolist(), separators=(",", ":")).replace("NaN", "null"))
        if len(rows) % every == 0:
            await asyncio.sleep(0)
    return f'[{",".join(rows)}]'
