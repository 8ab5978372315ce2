"""Values of tags that are speeds and durations."""
from __future__ import annotations

import math
import re
from typing import Mapping

DAY = 86400
IMPLICIT = frozenset(("signals", "variable", "sign", "implicit"))
"""What may stand in the place of a limit and says none."""

_NUMBER = re.compile(r"(\d+(?:\.\d+)?)\s*(km/h|kmh|kph|mph|knots)?")
_ZONE = re.compile(r"(?:[a-z]{2}:)?(?:zone:?)?(\d+)")
_UNITS = {"mph": 1.609344, "knots": 1.852}
_PART = r"(\d+(?:[.,]\d+)?)"
_ISO = re.compile(f"P(?:{_PART}D)?(?:T(?:{_PART}H)?(?:{_PART}M)?(?:{_PART}S)?)?")


def kmh(text: str, zones: Mapping[str, float]) -> float | None:
    """The limit that a text says, in km/h: the least where it says several; None where it says none."""
    best: float | None = None
    for word in re.split("[;|,]", text):
        word = word.strip().lower()
        number, zone = _NUMBER.fullmatch(word), _ZONE.fullmatch(word)
        if number:
            value: float | None = float(number[1]) * _UNITS.get(number[2], 1.0)
        elif zone:
            value = float(zone[1])
        else:
            value = zones.get(word.rsplit(":", 1)[-1])
        if value and (best is None or value < best):
            best = value
    return best


def duration(text: str) -> int | None:
    """A duration in seconds, written as minutes, HH:MM, HH:MM:SS or by ISO 8601; None where it is none or nothing."""
    text = text.strip()
    iso = _ISO.fullmatch(text)
    if iso and any(iso.groups()):
        days, hours, minutes, seconds = (float((part or "0").replace(",", ".")) for part in iso.groups())
        # Of a number of hundreds of digits there is no float that is one.
        whole = days * DAY + hours * 3600 + minutes * 60 + seconds
        total = int(whole + 0.5) if math.isfinite(whole) else 0
    elif re.fullmatch(r"\d+(:\d\d){0,2}", text):
        parts = [int(part) for part in text.split(":")]
        hours, minutes, seconds = (0, *parts, 0) if len(parts) == 1 else (*parts, 0)[:3]
        total = hours * 3600 + minutes * 60 + seconds
    else:
        return None
    return total or None
