"""catchup.draw.svg, words and trails."""

from __future__ import annotations

from xml.etree import ElementTree

import pytest
from drawings import SVG, steps
from hypothesis import given
from hypothesis import strategies as st

from catchup.draw.svg import Picture, colour, place
from catchup.draw.trails import Trails
from catchup.draw.words import duration, moment, plural

NUMBERS = [(0, "0"), (-0.04, "0"), (1.25, "1.2"), (1.26, "1.3"), (12, "12"), (12.0, "12"), (-3.96, "-4"), (99.95, "100"), (0.1, "0.1")]


@pytest.mark.parametrize("value, text", NUMBERS)
def test_places_have_at_most_one_decimal(value: float, text: str) -> None:
    assert place(value) == text


# What XML can hold at all.
texts = st.text(st.characters(min_codepoint=32, max_codepoint=0xD7FF))


@given(texts, texts, texts)
def test_all_words_and_values_are_escaped(title: str, words: str, value: str) -> None:
    picture = Picture(10, 20.25, title, words)
    with picture.group(id=value):
        picture.text(1, 2, words, class_=value)
        picture.tag("rect", fill=value)
        picture.path(["M1 2l3 4"], stroke=value)
    root = ElementTree.fromstring(picture.finish())
    assert root.findtext(f"{SVG}title") == title and root.findtext(f"{SVG}desc") == words
    text, rect, path = list(root.find(f"{SVG}g") or [])
    assert (text.text or "") == words
    assert text.get("class") == rect.get("fill") == path.get("stroke") == value
    assert root.get("viewBox") == "0 0 10 20.2"


def test_a_picture_is_white_and_says_what_it_shows() -> None:
    picture = Picture(10, 20, "A title", "A description.").finish()
    assert 'role="img" aria-labelledby="title desc"' in picture
    assert '<rect width="100%" height="100%" fill="#ffffff"/>' in picture


def brightness(text: str) -> float:
    """The relative luminance of a colour, as the guidelines for contrast have it."""
    parts = [int(text[i : i + 2], 16) for i in (1, 3, 5)] if text[0] == "#" else [int(part) for part in text[4:-1].split(",")]
    lit: list[float] = [part / 255 / 12.92 if part <= 10 else ((part / 255 + 0.055) / 1.055) ** 2.4 for part in parts]
    return 0.2126 * lit[0] + 0.7152 * lit[1] + 0.0722 * lit[2]


def test_colours_differ_and_are_seen_on_white() -> None:
    colours = [colour(number) for number in range(1, 61)]
    assert len(set(colours)) == 60
    assert all(1.05 / (brightness(each) + 0.05) > 2.2 for each in colours)


COUNTS = [(0, "road", "0 roads"), (1, "road", "1 road"), (2, "day", "2 days"), (2, "reply", "2 replies"), (1, "reply", "1 reply")]


@pytest.mark.parametrize("count, word, text", COUNTS)
def test_counts(count: int, word: str, text: str) -> None:
    assert plural(count, word) == text


DURATIONS = [(0, "0 s"), (59, "59 s"), (60, "1 min"), (3600, "1 h"), (3661, "1 h 1 min 1 s"), (86400, "1 day"), (2070000, "23 days 23 h")]
MOMENTS = [(0, "00:00"), (28800, "08:00"), (28801, "08:00:01"), (86399, "23:59:59"), (87000, "00:10 (+1 day)"), (172850, "00:00:50 (+2 days)")]


@pytest.mark.parametrize("seconds, text", DURATIONS)
def test_durations_have_days(seconds: int, text: str) -> None:
    assert duration(seconds) == text


@pytest.mark.parametrize("second, text", MOMENTS)
def test_moments_leave_out_seconds_that_are_none(second: int, text: str) -> None:
    assert moment(second) == text


@given(st.lists(st.tuples(st.integers(0, 12), st.integers(0, 12)), max_size=60))
def test_trails_go_along_each_road_once(roads: list[tuple[int, int]]) -> None:
    trails = Trails(0.5)
    spots = [(float(node % 4), float(node // 4)) for node in range(13)]
    for a, b in roads:
        trails.join(trails.point(spots[a]), trails.point(spots[b]))
    seen = []
    for line in trails.lines():
        places = steps(line)
        seen += [frozenset([a, b]) for a, b in zip(places, places[1:])]
    wanted = {frozenset([(x * 2, y * 2) for x, y in (spots[a], spots[b])]) for a, b in roads if a != b}
    assert len(seen) == len(wanted) and set(seen) == wanted
