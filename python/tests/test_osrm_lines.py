"""Lines as texts, beside the library that encodes polylines and a reader of JSON; and overviews beside a plain
search."""

from __future__ import annotations

import json
import math

import numpy as np
import polyline
import pytest
from hypothesis import given
from hypothesis import strategies as st

from catchup.service.osrm.lines import FORMS, FEW, Polyline, places_text
from catchup.service.osrm.overview import PIXELS, fitted_zoom, pixels, simplified

PLACE = st.tuples(st.floats(-180, 180), st.floats(-90, 90))
LINE = st.lists(PLACE, min_size=1, max_size=40)
NEAR = st.builds(lambda start, steps: (np.cumsum([start, *steps], axis=0)).tolist(),
                 st.tuples(st.floats(-170, 170), st.floats(-80, 80)),
                 st.lists(st.tuples(st.floats(-1e-3, 1e-3), st.floats(-1e-3, 1e-3)), min_size=1, max_size=60))


@pytest.mark.parametrize(("form", "decimals"), [("polyline", 5), ("polyline6", 6)])
@given(line=LINE)
def test_polylines_are_those_of_the_library(form: str, decimals: int, line: list[tuple[float, float]]) -> None:
    assert json.loads(FORMS[form].whole(np.array(line))) == polyline.encode([(lat, lon) for lon, lat in line], decimals)


@given(line=LINE)
def test_geojson_comes_back(line: list[tuple[float, float]]) -> None:
    found = json.loads(FORMS["geojson"].whole(np.array(line)))
    assert found["type"] == "LineString"
    np.testing.assert_allclose(found["coordinates"], line, atol=5.1e-7)


@given(line=LINE)
def test_places_are_written_with_six_decimals(line: list[tuple[float, float]]) -> None:
    for text, place in zip(places_text(np.array(line)).split(",[")[1:], line):
        for written, value in zip(text.rstrip("]").split(","), place):
            assert abs(float(written) - value) <= 5.1e-7
            assert written.lstrip("-") == f"{abs(float(written)):.6f}"


@pytest.mark.parametrize("form", FORMS)
@given(line=NEAR, cut=st.integers(0, 60))
def test_a_line_is_put_together_from_its_parts(form: str, line: list[list[float]], cut: int) -> None:
    places, write = np.array(line), FORMS[form]
    cut = min(cut, len(line) - 1)
    text = write.told(places[:cut + 1])[0] + write.rest(places[cut:])
    assert json.loads(write.line(text)) == json.loads(write.whole(places))


def test_few_places_are_written_as_many() -> None:
    places = np.cumsum(np.random.default_rng(1).normal(0, 1e-3, (FEW + 1, 2)), axis=0) + [9.5, 47.1]
    for form in FORMS.values():
        joined = form.line(form.told(places[:FEW])[0] + form.rest(places[FEW - 1:]))
        assert json.loads(joined) == json.loads(form.whole(places))


def test_a_single_place() -> None:
    place = [9.5, 47.1]
    assert json.loads(FORMS["geojson"].single(place)) == {"type": "LineString", "coordinates": [place, place]}
    assert json.loads(FORMS["polyline"].single(place)) == polyline.encode([(47.1, 9.5)])


def test_a_backslash_is_one_of_the_letters() -> None:
    line = [(at * -15e-5, at * 1e-5) for at in range(30)]
    text = FORMS["polyline"].whole(np.array(line))
    assert "\\\\" in text and json.loads(text) == polyline.encode([(lat, lon) for lon, lat in line])
    assert isinstance(FORMS["polyline"], Polyline)


# ---- overviews ----


def away(place: tuple[float, float], start: tuple[float, float], end: tuple[float, float]) -> float:
    """The distance of a point from a segment of a plane."""
    dx, dy = end[0] - start[0], end[1] - start[1]
    length = dx * dx + dy * dy
    share = min(max(((place[0] - start[0]) * dx + (place[1] - start[1]) * dy) / length, 0.0), 1.0) if length else 0.0
    return math.hypot(place[0] - start[0] - share * dx, place[1] - start[1] - share * dy)


def kept(points: list[tuple[float, float]], tolerance: float) -> set[int]:
    """The numbers of the points that Douglas and Peucker keep."""
    found, todo = {0, len(points) - 1}, [(0, len(points) - 1)]
    while todo:
        low, high = todo.pop()
        distances = [(away(points[at], points[low], points[high]), at) for at in range(low + 1, high)]
        most, at = max(distances, default=(0.0, low), key=lambda each: each[0])
        if most > tolerance:
            found.add(at)
            todo += [(low, at), (at, high)]
    return found


@given(line=NEAR)
def test_an_overview_is_near_the_line_and_short(line: list[list[float]]) -> None:
    places = np.array(line)
    x, y = pixels(places)
    scale = 2.0 ** fitted_zoom(x, y)
    points = list(zip((x * scale).tolist(), (y * scale).tolist()))
    found = simplified([places]).tolist()
    wanted = [line[at] for at in sorted(kept(points, PIXELS))]
    assert found[0] == line[0] and found[-1] == line[-1]
    numbers = [line.index(place) for place in found]
    for low, high in zip(numbers, numbers[1:]):
        assert all(away(points[at], points[low], points[high]) <= PIXELS + 1e-6 for at in range(low, high))
    assert abs(len(found) - len(wanted)) <= 1


@given(line=NEAR, cut=st.integers(0, 60))
def test_an_overview_has_the_ends_of_legs(line: list[list[float]], cut: int) -> None:
    places, cut = np.array(line), min(cut, len(line) - 1)
    found = simplified([places[:cut + 1], places[cut:]]).tolist()
    assert line[cut] in found and found[0] == line[0] and found[-1] == line[-1]


@pytest.mark.parametrize(("spans", "zoom"), [((0.0, 0.0), 18), ((1e-9, 1e-9), 18), ((0.01, 0.01), 17), ((1.0, 0.1), 11),
                                             ((340.0, 100.0), 3)])
def test_the_zoom_shows_the_whole_line(spans: tuple[float, float], zoom: int) -> None:
    x, y = pixels(np.array([(0.0, 0.0), spans]))
    assert fitted_zoom(x, y) == zoom
    assert float(np.ptp(x)) * 2**zoom <= 2048 and float(np.ptp(y)) * 2**zoom <= 1280


def test_a_way_there_and_back_keeps_its_ends() -> None:
    there = [(9.5 + k * 0.001, 47.1) for k in range(10)]
    found = simplified([np.array(there + there[::-1])]).tolist()
    assert found[0] == found[-1] == list(there[0])
