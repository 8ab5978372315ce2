"""Distances, lines, polylines and blobs."""
from __future__ import annotations

import math
import struct

import numpy as np
import pytest
from hypothesis import given
from hypothesis import strategies as st

from catchup import geometry
from catchup.geometry import EARTH

DEGREE = math.radians(1) * EARTH
places = st.lists(st.tuples(st.floats(-180, 180), st.floats(-89, 89)), min_size=1, max_size=20)


@pytest.mark.parametrize("a, b, metres", [
    ((9, 47), (9, 48), DEGREE), ((9, 0), (10, 0), DEGREE), ((9, 60), (9.001, 60), DEGREE / 2000), ((9, 47), (9, 47), 0),
    ((0, 0), (180, 0), math.pi * EARTH), ((-179.5, 0), (179.5, 0), DEGREE), ((0, 90), (77, 90), 0),
    # Berlin to Paris, as an atlas has it.
    ((13.405, 52.52), (2.3522, 48.8566), 877_500)])
def test_metres(a: tuple[float, float], b: tuple[float, float], metres: float) -> None:
    assert float(geometry.metres(*a, *b)) == pytest.approx(metres, rel=1e-4, abs=1e-6)
    assert float(geometry.metres(*b, *a)) == pytest.approx(float(geometry.metres(*a, *b)))


def test_metres_of_arrays() -> None:
    found = geometry.metres(np.array([9.0, 9.0]), np.array([47.0, 47.0]), np.array([9.0, 9.0]), np.array([48.0, 47.5]))
    assert found.tolist() == pytest.approx([DEGREE, DEGREE / 2])


def test_along() -> None:
    assert geometry.along([9, 9, 9], [47, 47.1, 47.05]).tolist() == pytest.approx([0, DEGREE / 10, DEGREE * 0.15])
    assert geometry.along([9], [47]).tolist() == [0]


def test_plane() -> None:
    """A metre is as long both ways at the middle latitude."""
    x, y = geometry.plane([9.001, 9.0], [60.0, 60.001], 60.0, 9.0, 60.0)
    assert x.tolist() == pytest.approx([DEGREE / 2000, 0]) and y.tolist() == pytest.approx([0, DEGREE / 1000])


@given(st.lists(places.filter(lambda line: len(line) > 1), max_size=5))
def test_lines_come_back(lines: list[list[tuple[float, float]]]) -> None:
    first = np.cumsum([0, *map(len, lines)])
    lon = np.array([lon for line in lines for lon, _ in line])
    lat = np.array([lat for line in lines for _, lat in line])
    blobs = list(geometry.line_blobs(first, lon, lat))
    assert len(blobs) == len(lines)
    found = geometry.read_blobs(blobs)
    assert [values.tolist() for values in found] == [first.tolist(), lon.tolist(), lat.tolist()]


@given(places)
def test_points_come_back(points: list[tuple[float, float]]) -> None:
    lon, lat = np.array([lon for lon, _ in points]), np.array([lat for _, lat in points])
    first, x, y = geometry.read_blobs(list(geometry.point_blobs(lon, lat)))
    assert first.tolist() == list(range(len(points) + 1)) and x.tolist() == lon.tolist() and y.tolist() == lat.tolist()


def test_a_blob_with_an_envelope() -> None:
    """As others write them."""
    body = struct.pack("<BIIdddd", 1, 2, 2, 9.0, 47.0, 9.5, 47.5)
    blob = struct.pack("<2sBBi", b"GP", 0, 1 | 1 << 1, 4326) + struct.pack("<dddd", 9.0, 9.5, 47.0, 47.5) + body
    first, lon, lat = geometry.read_blobs([blob])
    assert (first.tolist(), lon.tolist(), lat.tolist()) == ([0, 2], [9.0, 9.5], [47.0, 47.5])


@pytest.mark.parametrize("change", [
    lambda blob: b"", lambda blob: b"XX" + blob[2:], lambda blob: blob[:-1], lambda blob: blob + b"x" * 16, lambda blob: blob[:20],
    lambda blob: blob[:8] + b"\0" + blob[9:], lambda blob: blob[:9] + b"\3" + blob[10:], lambda blob: blob[:3] + b"\x0f" + blob[4:]])
def test_blobs_that_are_none(change: object) -> None:
    [blob] = geometry.line_blobs(np.array([0, 2]), np.array([9.0, 9.5]), np.array([47.0, 47.5]))
    with pytest.raises(geometry.NotGeometry):
        geometry.read_blobs([change(blob)])  # type: ignore[operator]


@given(places, st.sampled_from([5, 6]))
def test_polylines_come_back(points: list[tuple[float, float]], precision: int) -> None:
    lon, lat = np.array([lon for lon, _ in points]), np.array([lat for _, lat in points])
    x, y = geometry.decode_polyline(geometry.encode_polyline(lon, lat, precision), precision)
    assert np.abs(x - lon).max() <= 0.51 * 10.0 ** -precision and np.abs(y - lat).max() <= 0.51 * 10.0 ** -precision


def test_a_known_polyline() -> None:
    """The example of the format's description."""
    assert geometry.encode_polyline([-120.2, -120.95, -126.453], [38.5, 40.7, 43.252], 5) == "_p~iF~ps|U_ulLnnqC_mqNvxq`@"
    lon, lat = geometry.decode_polyline("_p~iF~ps|U", 5)
    assert (lon.tolist(), lat.tolist()) == ([-120.2], [38.5])


def test_no_polyline() -> None:
    with pytest.raises(ValueError, match="isn't an encoded polyline"):
        geometry.decode_polyline("_p~iF~ps|", 5)


def test_geojson() -> None:
    assert geometry.geojson_line([9.12345678, 9.5], [47, 47.5]) == {"type": "LineString", "coordinates": [[9.1234568, 47.0], [9.5, 47.5]]}
    assert geometry.geojson_point(9.12345678, 47) == {"type": "Point", "coordinates": [9.1234568, 47.0]}


def test_joined_lines() -> None:
    one, two, three = (np.array([1.0, 2.0]), np.array([5.0, 6.0])), (np.array([2.0, 3.0]), np.array([6.0, 7.0])), (np.array([4.0]), np.array([8.0]))
    lon, lat = geometry.joined_lines([one, two, three])
    assert lon.tolist() == [1, 2, 3, 4] and lat.tolist() == [5, 6, 7, 8]
    assert [len(part) for part in geometry.joined_lines([])] == [0, 0]
