"""Opening hours and conditions by the hour, as they hold on one day of the week.

Understood are days of the week (`Mo-Fr`, `Sa,Su`), times (`08:00-12:00,13:00-17:00`, over midnight too), `24/7` and
`off`, in rules parted by semicolons, of which the later ones replace the earlier ones on the days that they name.
Holidays (`PH`, `SH`) are passed over: the day is none. Whatever else is written (months, sunrise, weights, `wet`) isn't
understood.
"""
from __future__ import annotations

import re
from collections.abc import Callable, Iterable, Mapping

from catchup.maps.values import DAY

WEEKDAYS = ("mo", "tu", "we", "th", "fr", "sa", "su")

Spans = tuple[tuple[int, int], ...]
"""Parts of a day: from a second to before another, by rising second, 86,400 the latest."""

_SPAN = r"\d{1,2}:[0-5]\d-\d{1,2}:[0-5]\d"
_TIMES = re.compile(rf"{_SPAN}(?:\s*,\s*{_SPAN})*")
_DAYS = re.compile(r"(?:mo|tu|we|th|fr|sa|su|ph|sh)(?:\s*[-,]\s*(?:mo|tu|we|th|fr|sa|su|ph|sh))*")
_OFF = ("off", "closed")


def _days_of(text: str) -> set[int] | None:
    """The days of the week that a text names; none of them where it names holidays alone; None where it isn't
    understood."""
    days: set[int] = set()
    for part in text.split(","):
        ends = [word.strip() for word in part.split("-")]
        if len(ends) == 1 and ends[0] in ("ph", "sh"):
            continue
        if len(ends) > 2 or not all(word in WEEKDAYS for word in ends):
            return None
        first, last = WEEKDAYS.index(ends[0]), WEEKDAYS.index(ends[-1])
        days |= {day % 7 for day in range(first, last + 1 if first <= last else last + 8)}
    return days


def _times_of(text: str) -> list[tuple[int, int]] | None:
    """The times of a text, each up to 48:00; None where one is none."""
    spans = []
    for part in text.split(","):
        begin, end = (int(hour) * 3600 + int(minute) * 60 for hour, minute in
                      (word.strip().split(":") for word in part.split("-")))
        if begin >= DAY or end > 2 * DAY or end - begin > DAY:
            return None
        spans.append((begin, end if end > begin else end + DAY))
    return spans


def _rule_of(text: str) -> tuple[set[int], list[tuple[int, int]]] | None:
    """The days of a rule, and its times on them; None where it isn't understood."""
    text = " ".join(text.strip().lower().split())
    if text == "24/7":
        return set(range(7)), [(0, DAY)]
    named = _DAYS.match(text)
    days: set[int] | None = set(range(7))
    if named:
        days, text = _days_of(named[0]), text[named.end():].lstrip(" :")
    off = False
    for word in (*_OFF, "open"):
        if text == word or text.endswith(" " + word):
            off, text = word in _OFF, text[:-len(word)].strip()
    if days is None or text and not _TIMES.fullmatch(text) or not (text or named or off):
        return None
    times = _times_of(text) if text else [(0, DAY)]
    if times is None or off and text:
        return None
    return days, [] if off else times


def week(text: str) -> list[list[tuple[int, int]]] | None:
    """The times of each day of the week, Monday first, each up to 48:00; None where the text isn't understood."""
    days: list[list[tuple[int, int]]] = [[] for _ in range(7)]
    rules = [part for part in text.split(";") if part.strip()]
    for part in rules:
        rule = _rule_of(part)
        if rule is None:
            return None
        for day in rule[0]:
            days[day] = rule[1]
    return days if rules else None


def merged(spans: Iterable[tuple[int, int]]) -> Spans:
    """Spans in order; those that meet are one."""
    done: list[tuple[int, int]] = []
    for begin, end in sorted(spans):
        if done and begin <= done[-1][1]:
            done[-1] = done[-1][0], max(done[-1][1], end)
        elif begin < end:
            done.append((begin, end))
    return tuple(done)


def on_day(days: list[list[tuple[int, int]]], weekday: int) -> Spans:
    """The spans of a day: its own times, and what the day before has over midnight."""
    own = [(begin, min(end, DAY)) for begin, end in days[weekday]]
    over = [(0, end - DAY) for _, end in days[weekday - 1] if end > DAY]
    return merged(own + over)


def open_spans(text: str, weekday: int) -> Spans | None:
    """When it is open on a day, of a text of opening hours; None where that isn't understood."""
    days = week(text)
    return None if days is None else on_day(days, weekday)


def starts(text: str, every: int, weekday: int) -> tuple[int, ...] | None:
    """The seconds of a day at which something begins that goes every so many seconds in opening hours, the last second
    of each span with it; None where the hours aren't understood."""
    days = week(text)
    if days is None or every <= 0:
        return None
    today, before = ([second for begin, end in spans for second in range(begin, end + 1, every)]
                     for spans in (days[weekday], days[weekday - 1]))
    over = (second - DAY for second in before if second >= DAY)
    return tuple(sorted({*(second for second in today if second < DAY), *over}))


def conditions(text: str, weekday: int) -> tuple[list[tuple[str, Spans]], list[str]]:
    """The values of a conditional tag, each with when it holds on a day, and the parts that aren't understood."""
    known: list[tuple[str, Spans]] = []
    unknown: list[str] = []
    for part in re.findall(r"[^;(]+(?:\([^)]*\))?", text):
        value, at, when = part.partition("@")
        value, when = value.strip(" ;").lower(), when.strip().removeprefix("(").removesuffix(")")
        if not value and not at:
            continue
        spans = open_spans(when, weekday) if at and value else None
        if spans is None:
            unknown.append(part.strip(" ;"))
        else:
            known.append((value, spans))
    return known, unknown


def value_at(known: list[tuple[str, Spans]], second: int) -> str | None:
    """The value that holds at a second of the day: the last of those that do; None where none does."""
    holding = [value for value, spans in known if any(begin <= second < end for begin, end in spans)]
    return holding[-1] if holding else None


def turning_points(*several: list[tuple[str, Spans]]) -> list[int]:
    """The seconds of the day at which values may change, 0 first."""
    ends = {second for known in several for _, spans in known for span in spans for second in span}
    return sorted({0} | {second for second in ends if second < DAY})


def over_day(tags: Mapping[str, str], keys: Iterable[str], weekday: int,
             used: Callable[[str], bool] = lambda value: True) -> tuple[list[tuple[int, dict[str, str]]], bool]:
    """From each second of a day on at which a condition of one of these tags may begin or end: the tags as they then
    hold, those with conditions in the place of those without. And whether all conditions are understood and their
    values `used`."""
    known: dict[str, list[tuple[str, Spans]]] = {}
    all_used = True
    for key in keys:
        found, unknown = conditions(tags.get(key + ":conditional", ""), weekday)
        known[key] = [(value, spans) for value, spans in found if used(value)]
        all_used &= not unknown and len(known[key]) == len(found)
    day = []
    for second in turning_points(*known.values()):
        held = {key: value for key in known if (value := value_at(known[key], second)) is not None}
        day.append((second, {**tags, **held}))
    return day, all_used
