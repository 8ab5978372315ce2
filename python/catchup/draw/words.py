"""How drawings say counts and times; the times by the package's one clock."""

from __future__ import annotations

from catchup import clock
from catchup.clock import DAY


def plural(count: int, word: str) -> str:
    """`1 road`, `2 roads`; `2 replies`."""
    if count == 1:
        return f"{count} {word}"
    return f"{count} {word.removesuffix('y')}ies" if word.endswith("y") and word != "day" else f"{count} {word}s"


def duration(seconds: int) -> str:
    """`1 h 5 min`, and from a day on `2 days 1 h`."""
    days, rest = divmod(seconds, DAY)
    if not days:
        return clock.duration(rest)
    return plural(days, "day") + (f" {clock.duration(rest)}" if rest else "")


def moment(second: int) -> str:
    """A time of day without its seconds where they are none: `08:00`, `08:00:30`, `00:10 (+1 day)`."""
    time, blank, days = clock.clock(second).partition(" ")
    return time.removesuffix(":00") + blank + days
