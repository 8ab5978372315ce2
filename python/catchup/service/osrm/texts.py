"""Texts that answers are made of."""

from __future__ import annotations

import functools
import json

from catchup.clock import clock


@functools.lru_cache(maxsize=65_536)
def text(value: str) -> str:
    """A string as JSON."""
    return json.dumps(value)


def sums(seconds: float, metres: float) -> str:
    """The members that tell how long and how far a route, a leg or a step is."""
    return f'"duration":{seconds:.1f},"distance":{metres:.1f},"weight":{seconds:.1f}'


def timed(name: str, second: int) -> str:
    """The members of a second, counted from the midnight before leaving, and of the time of day that it is."""
    return f'"{name}":{second},"{name}_time":"{clock(second)[:8]}"'
