"""Opening hours and conditions, as they hold on one day."""
from __future__ import annotations

import pytest

from catchup.maps.hours import conditions, merged, open_spans, starts, value_at
from catchup.maps.values import DAY

MO, FR, SA, SU = 0, 4, 5, 6
H = 3600


@pytest.mark.parametrize("text, day, spans", [
    ("24/7", MO, ((0, DAY),)),
    ("08:00-18:00", MO, ((8 * H, 18 * H),)),
    ("8:00-18:30", MO, ((8 * H, 18 * H + 1800),)),
    ("08:00-12:00,13:00-17:00", MO, ((8 * H, 12 * H), (13 * H, 17 * H))),
    ("08:00-12:00, 13:00-17:00", MO, ((8 * H, 12 * H), (13 * H, 17 * H))),
    ("Mo-Su 06:00-22:00", SU, ((6 * H, 22 * H),)),
    ("Mo-Fr 07:00-09:00", MO, ((7 * H, 9 * H),)),
    ("Mo-Fr 07:00-09:00", SA, ()),
    ("Mo-Fr 07:00-09:00; Sa 10:00-12:00", SA, ((10 * H, 12 * H),)),
    ("mo,we,fr 07:00-09:00", FR, ((7 * H, 9 * H),)),
    ("Mo, Fr 07:00-09:00", FR, ((7 * H, 9 * H),)),
    ("Sa-Mo 07:00-09:00", SU, ((7 * H, 9 * H),)),
    ("Sa-Mo 07:00-09:00", FR, ()),
    # Over midnight: of today from the evening on, of yesterday to the morning.
    ("22:00-06:00", MO, ((0, 6 * H), (22 * H, DAY))),
    ("Fr 22:00-06:00", FR, ((22 * H, DAY),)),
    ("Fr 22:00-06:00", SA, ((0, 6 * H),)),
    ("Su 22:00-06:00", MO, ((0, 6 * H),)),
    ("18:00-26:00", MO, ((0, 2 * H), (18 * H, DAY))),
    ("00:00-24:00", MO, ((0, DAY),)),
    ("Mo-Fr", MO, ((0, DAY),)),
    ("Sa", MO, ()),
    ("Mo-Su 08:00-18:00; Su off", SU, ()),
    ("08:00-18:00; Su closed", MO, ((8 * H, 18 * H),)),
    ("off", MO, ()),
    ("Mo-Fr 08:00-18:00 open", MO, ((8 * H, 18 * H),)),
    # The day is no holiday.
    ("Mo-Fr 08:00-18:00; PH off", MO, ((8 * H, 18 * H),)),
    ("Mo-Fr,PH 08:00-18:00", MO, ((8 * H, 18 * H),)),
    ("SH 08:00-18:00", MO, ()),
    # A later rule replaces an earlier one on its days.
    ("Mo-Su 08:00-18:00; Mo 10:00-12:00", MO, ((10 * H, 12 * H),)),
])
def test_open(text: str, day: int, spans: tuple[tuple[int, int], ...]) -> None:
    assert open_spans(text, day) == spans


@pytest.mark.parametrize("text", ["", "sunrise-sunset", "Mar-Oct 08:00-18:00", "08:00+", "weekdays", "Mo-Fr 8-18", "25:00-26:00",
                                  "08:60-10:00", "08:00-09:99",
                                  "Mo-Xx 08:00-10:00", "08:00-60:00", "Mo-Fr 08:00-18:00 if wet", "week 10-20", "open"[:0] + ";", "Mo[1] 08:00-10:00"])
def test_not_understood(text: str) -> None:
    assert open_spans(text, MO) is None


@pytest.mark.parametrize("text, every, day, first, last, count", [
    ("24/7", 1800, MO, 0, DAY - 1800, 48),
    ("24/7", 7 * 60, MO, 0, 86100, 206),
    ("06:00-22:00", 3600, MO, 6 * H, 22 * H, 17),
    # Over midnight: tonight's, and those of yesterday's night that go today; the last at 2 o'clock.
    ("18:00-02:00", 3600, MO, 0, 23 * H, 9),
    ("Mo-Fr 18:00-02:00", 3600, SA, 0, 2 * H, 3),
    ("Mo-Fr 18:00-02:00", 3600, MO, 18 * H, 23 * H, 6),
])
def test_departures(text: str, every: int, day: int, first: int, last: int, count: int) -> None:
    goes = starts(text, every, day)
    assert goes is not None and (goes[0], goes[-1], len(goes)) == (first, last, count)


def test_no_departures() -> None:
    assert starts("sunrise-sunset", 3600, MO) is None
    assert starts("Sa 08:00-10:00", 3600, MO) == ()


@pytest.mark.parametrize("text, day, known, unknown", [
    ("no @ (22:00-06:00)", MO, [("no", ((0, 6 * H), (22 * H, DAY)))], []),
    ("no @ 22:00-06:00", MO, [("no", ((0, 6 * H), (22 * H, DAY)))], []),
    ("No @ (Mo-Fr 07:00-09:00)", SA, [("no", ())], []),
    ("destination @ (07:00-09:00); no @ (Mo 12:00-13:00; PH off)", MO,
     [("destination", ((7 * H, 9 * H),)), ("no", ((12 * H, 13 * H),))], []),
    ("no @ (weight>7.5)", MO, [], ["no @ (weight>7.5)"]),
    ("60 @ wet", MO, [], ["60 @ wet"]),
    ("no @ (wet); 30 @ (22:00-06:00)", MO, [("30", ((0, 6 * H), (22 * H, DAY)))], ["no @ (wet)"]),
    ("no", MO, [], ["no"]),
    ("", MO, [], []),
])
def test_conditions(text: str, day: int, known: list[object], unknown: list[str]) -> None:
    assert conditions(text, day) == (known, unknown)


def test_the_last_condition_that_holds_decides() -> None:
    known, _ = conditions("no @ (00:00-24:00); yes @ (08:00-10:00)", MO)
    assert [value_at(known, second) for second in (0, 8 * H - 1, 8 * H, 10 * H - 1, 10 * H)] == ["no", "no", "yes", "yes", "no"]
    assert value_at([], 0) is None


def test_spans_that_meet_are_one() -> None:
    assert merged([(5, 9), (1, 3), (3, 4), (8, 12), (20, 20)]) == ((1, 4), (5, 12))
