"""Seconds and times of day: how they are read and how they are written, once for all."""

from __future__ import annotations

import re

DAY = 86_400
MOST_SECONDS = 2**40

_NUMBER = re.compile(r"[0-9]+", re.ASCII)
_TIME = re.compile(r"([0-9]{1,2}):([0-9]{2})(?::([0-9]{2}))?", re.ASCII)


def parse_clock(text: str) -> int:
    """The second of the day, 0 to 86,399, of `8:00`, `08:00`, `08:00:30` or the plain second `28800`.

    Raises ValueError with one line.
    """
    second = _second_of(text)
    if second is None or second >= DAY:
        raise ValueError(f"{_shown(text)} is no time of day: write 08:00, 08:00:30 or a second from 0 to 86399")
    return second


def parse_second(text: str) -> int:
    """An absolute second, counted from the midnight before leaving: a time of day, or a plain second up to 2**40.

    Raises ValueError with one line.
    """
    second = _second_of(text)
    if second is None or second > MOST_SECONDS:
        raise ValueError(f"{_shown(text)} is no second: write 08:00, 08:00:30 or a second from 0 to {MOST_SECONDS}")
    return second


def clock(second: int) -> str:
    """`08:00:30`; of a second past midnight the days later too, as `00:10:00 (+1 day)`."""
    day, rest = _parted(second)
    days = "" if day == 0 else " (+1 day)" if day == 1 else f" (+{day} days)"
    return f"{rest // 3600:02}:{rest // 60 % 60:02}:{rest % 60:02}{days}"


def short_clock(second: int) -> str:
    """`08:00`: hour and minute of the day alone."""
    _, rest = _parted(second)
    return f"{rest // 3600:02}:{rest // 60 % 60:02}"


def duration(seconds: int) -> str:
    """`12 min`, `1 h 5 min`, `40 s`: exact, without the parts that are none."""
    if seconds < 0:
        raise ValueError("a duration can't be below 0")
    hours, minutes, rest = seconds // 3600, seconds // 60 % 60, seconds % 60
    parts = [(hours, "h"), (minutes, "min"), (rest, "s")]
    return " ".join(f"{count} {unit}" for count, unit in parts if count) or "0 s"


def _second_of(text: str) -> int | None:
    if _NUMBER.fullmatch(text):
        # Past 2**40 there are 13 digits, without leading zeros.
        digits = text.lstrip("0") or "0"
        return int(digits) if len(digits) <= 13 else None
    time = _TIME.fullmatch(text)
    if not time:
        return None
    hour, minute, second = int(time[1]), int(time[2]), int(time[3] or 0)
    return hour * 3600 + minute * 60 + second if hour < 24 and minute < 60 and second < 60 else None


def _parted(second: int) -> tuple[int, int]:
    if second < 0:
        raise ValueError("a second can't be below 0")
    return divmod(second, DAY)


def _shown(text: str) -> str:
    return repr(text if len(text) <= 40 else text[:37] + "...")
