"""Speeds and durations as tags write them."""
from __future__ import annotations

import pytest

from catchup.maps.values import duration, kmh
from catchup.maps.vehicles import read_speeds

ZONES = read_speeds("car").zones


@pytest.mark.parametrize("text, speed", [
    ("50", 50), ("50 km/h", 50), ("50 kmh", 50), ("50kph", 50), ("30.5", 30.5), ("30 mph", 48.28032), ("30mph", 48.28032),
    ("10 knots", 18.52), ("walk", 7), ("none", 130), ("DE:urban", 50), ("DE:rural", 100), ("at:motorway", 130),
    ("RO:urban", 50), ("DE:zone30", 30), ("DE:zone:30", 30), ("de:30", 30), ("GB:nsl_single", 96.6), ("50;30", 30), ("80, 100", 80),
    ("50|70", 50), ("DE:living_street", 7), ("signals", None), ("variable", None), ("", None), ("fast", None), ("0", None),
    ("-20", None), ("DE:nowhere", None), ("50 ; fast", 50)])
def test_a_limit(text: str, speed: float | None) -> None:
    assert kmh(text, ZONES) == (None if speed is None else pytest.approx(speed))


@pytest.mark.parametrize("text, seconds", [
    ("40", 2400), ("00:40", 2400), ("1:10", 4200), ("01:10:05", 4205), ("PT1H10M", 4200), ("PT40M", 2400), ("PT90S", 90),
    ("P1DT2H", 93600), ("P2D", 172800), (" 25 ", 1500), ("0", None), ("00:00", None), ("", None), ("soon", None), ("PT", None), ("P", None),
    ("1:2", None), ("-5", None), ("40 min", None), ("PT1.5H", 5400), ("PT0,5H", 1800), ("PT1H7.5M", 4050), ("P0.5D", 43200),
    ("PT2.5S", 3), ("PT0.4S", None), ("PT.5H", None), ("PT1.H", None), ("P1W", None)])
def test_a_duration(text: str, seconds: int | None) -> None:
    assert duration(text) == seconds
