"""Tables between places."""

from __future__ import annotations

from typing import Any

import numpy as np
from starlette.responses import Response

from catchup.beside import beside
from catchup.places.matrix import ENTRIES, Ints
from catchup.service.answers import answer, as_json, timed
from catchup.service.errors import Refusal
from catchup.service.placed import placed
from catchup.service.stops import snaps_of, told
from catchup.service.versions import Version
from catchup.service.words import DAY


async def table(version: Version, asked: dict[str, Any]) -> Response:
    """The answer to /table over places."""
    found, depart = placed(version), asked["depart"]
    if depart >= DAY:
        raise Refusal(400, "refused: second", hint="a second of the day is below 86400")
    with version.held():
        sources, targets = [await snaps_of(found.places, asked[name], name) for name in ("from", "to")]
        seconds = await found.places.table(sources, targets, depart, found.slow)
    arrive = np.where(np.isnan(seconds), -1, seconds + depart).astype(np.int64)
    said = {"answer": "table", "from": told(asked["from"]), "to": told(asked["to"]), **timed("depart", depart)}
    return answer(said, version.name, raw=("arrive", await beside(arrive.size // ENTRIES, listed, arrive)))


def listed(arrive: Ints) -> bytes:
    """A table as JSON, row by row."""
    return b"[%b]" % b",".join([as_json(row.tolist()).replace(b"-1", b"null") for row in arrive])
