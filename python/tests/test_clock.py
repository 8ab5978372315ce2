"""Seconds and times of day."""

from __future__ import annotations

import pytest
from hypothesis import given
from hypothesis import strategies as st

from catchup.clock import clock, duration, parse_clock, parse_second, short_clock

TIMES = [
    ("0", 0), ("28800", 28800), ("86399", 86399), ("00028800", 28800), ("0:00", 0), ("8:00", 28800), ("08:00", 28800),
    ("08:00:30", 28830), ("23:59:59", 86399), ("0" * 30 + "7", 7),
]  # fmt: skip


@pytest.mark.parametrize("text, second", TIMES)
def test_times_of_day(text: str, second: int) -> None:
    assert parse_clock(text) == parse_second(text) == second


@pytest.mark.parametrize(
    "text",
    ["", " ", "86400", "24:00", "8:60", "8:00:60", "8:0", "8:00:0", "-1", "+1", "1.5", "08:00 ", " 08:00", "1 08:00",
     "\u0661\u0662", "08:00:00:00", "8h", "9" * 30, "08:00\n"],
)  # fmt: skip
def test_what_is_no_time_of_day(text: str) -> None:
    with pytest.raises(ValueError) as error:
        parse_clock(text)
    assert "\n" not in str(error.value) and len(str(error.value)) < 150


def test_absolute_seconds() -> None:
    assert parse_second("86400") == 86400
    assert parse_second(str(2**40)) == 2**40
    for text in (str(2**40 + 1), "9" * 13, "9" * 40, "24:00", "-1", ""):
        with pytest.raises(ValueError):
            parse_second(text)


WRITTEN = [
    (0, "00:00:00"), (28830, "08:00:30"), (86399, "23:59:59"), (86400, "00:00:00 (+1 day)"), (87000, "00:10:00 (+1 day)"),
    (172800 + 61, "00:01:01 (+2 days)"),
]  # fmt: skip


@pytest.mark.parametrize("second, text", WRITTEN)
def test_clock(second: int, text: str) -> None:
    assert clock(second) == text
    assert short_clock(second) == text[:5]


@given(st.integers(0, 86_399))
def test_what_is_written_is_read(second: int) -> None:
    assert parse_clock(clock(second)) == second


@pytest.mark.parametrize(
    "seconds, text",
    [(0, "0 s"), (40, "40 s"), (60, "1 min"), (90, "1 min 30 s"), (720, "12 min"), (3600, "1 h"), (3900, "1 h 5 min"),
     (3605, "1 h 5 s"), (90061, "25 h 1 min 1 s")],
)  # fmt: skip
def test_durations(seconds: int, text: str) -> None:
    assert duration(seconds) == text


def test_nothing_is_below_zero() -> None:
    for write in (clock, short_clock, duration):
        with pytest.raises(ValueError):
            write(-1)
