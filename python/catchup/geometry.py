"""Places on the earth, in degrees of longitude and latitude, and the lines that roads make of them.

Distances are in metres, over a ball with the earth's mean radius. Lines are two arrays, longitudes and latitudes, in
driving order. Geometry is kept in GeoPackage blobs, and given out as GeoJSON or as encoded polylines.
"""
from __future__ import annotations

import struct
from typing import Iterable, Iterator, Sequence

import numpy as np
from numpy.typing import ArrayLike, NDArray

Floats = NDArray[np.float64]
Ints = NDArray[np.int64]

EARTH = 6_371_008.8
"""The mean radius of the earth, in metres."""

WGS84 = 4326
"""The number of longitude and latitude among coordinate systems."""

_BLOB = struct.pack("<2sBBi", b"GP", 0, 1, WGS84)
_POINT = _BLOB + struct.pack("<BI", 1, 1)
_LINE = _BLOB + struct.pack("<BI", 1, 2)
_ENVELOPES = (0, 32, 48, 48, 64)
_SHIFTS = np.arange(0, 35, 5)


class NotGeometry(ValueError):
    """A blob isn't a GeoPackage's point or line."""


def metres(lon1: ArrayLike, lat1: ArrayLike, lon2: ArrayLike, lat2: ArrayLike) -> Floats:
    """The distances between places in degrees, in metres, by the haversine formula."""
    x1, y1, x2, y2 = (np.radians(np.asarray(v, dtype=np.float64)) for v in (lon1, lat1, lon2, lat2))
    half = np.sin((y2 - y1) / 2) ** 2 + np.cos(y1) * np.cos(y2) * np.sin((x2 - x1) / 2) ** 2
    return np.asarray(2 * EARTH * np.arcsin(np.sqrt(np.clip(half, 0.0, 1.0))), dtype=np.float64)


def along(lon: ArrayLike, lat: ArrayLike) -> Floats:
    """How far each point of a line is from its first, in metres along the line."""
    x, y = np.asarray(lon, dtype=np.float64), np.asarray(lat, dtype=np.float64)
    return np.append(0.0, np.cumsum(metres(x[:-1], y[:-1], x[1:], y[1:])))


def plane(lon: ArrayLike, lat: ArrayLike, middle: float, west: float = 0.0, south: float = 0.0) -> tuple[Floats, Floats]:
    """Metres east of `west` and north of `south`, as true as they are at latitude `middle`."""
    each = np.radians(1.0) * EARTH
    x = (np.asarray(lon, dtype=np.float64) - west) * each * np.cos(np.radians(middle))
    y = (np.asarray(lat, dtype=np.float64) - south) * each
    return np.asarray(x, dtype=np.float64), np.asarray(y, dtype=np.float64)


def point_blobs(lon: Floats, lat: Floats) -> Iterator[bytes]:
    """Each place as a GeoPackage's point."""
    places = np.column_stack((lon, lat)).astype("<f8").tobytes()
    return (_POINT + places[i:i + 16] for i in range(0, len(places), 16))


def line_blobs(first: Ints, lon: Floats, lat: Floats) -> Iterator[bytes]:
    """Each line as a GeoPackage's linestring: line i has the points first[i] to first[i + 1]."""
    places = np.column_stack((lon, lat)).astype("<f8").tobytes()
    bounds = first.tolist()
    return (_LINE + struct.pack("<I", b - a) + places[16 * a:16 * b] for a, b in zip(bounds, bounds[1:]))


def _body(blob: bytes) -> bytes:
    """The places of one blob, 16 bytes each, where it is little-endian as all that is written here is."""
    if not isinstance(blob, bytes) or len(blob) < 13 or blob[:2] != b"GP" or (blob[3] >> 1 & 7) > 4:
        raise NotGeometry("a blob that isn't a GeoPackage's geometry")
    at = 8 + _ENVELOPES[blob[3] >> 1 & 7]
    order, kind = struct.unpack_from("<BI", blob, at) if len(blob) >= at + 5 else (0, 0)
    if order != 1 or kind not in (1, 2):
        raise NotGeometry("a geometry that is neither a little-endian point nor a linestring")
    body = blob[at + 5:] if kind == 1 else blob[at + 9:]
    count = 1 if kind == 1 else struct.unpack_from("<I", blob, at + 5)[0]
    if len(body) != 16 * count:
        raise NotGeometry("a geometry of another length than it says")
    return body


def read_blobs(blobs: Sequence[bytes]) -> tuple[Ints, Floats, Floats]:
    """The points or lines of blobs: where each begins among the places, and all longitudes and latitudes."""
    if all(isinstance(blob, bytes) and blob.startswith(_LINE) and len(blob) > 16 for blob in blobs):
        bodies = [blob[17:] for blob in blobs]
        said = np.frombuffer(b"".join([blob[13:17] for blob in blobs]), dtype="<u4").astype(np.int64) * 16
    else:
        bodies = [_body(blob) for blob in blobs]
        said = None
    sizes = np.fromiter(map(len, bodies), dtype=np.int64, count=len(bodies))
    if said is not None and np.any(sizes != said):
        raise NotGeometry("a geometry of another length than it says")
    places = np.frombuffer(b"".join(bodies), dtype="<f8").reshape(-1, 2)
    first = np.concatenate((np.zeros(1, dtype=np.int64), np.cumsum(sizes // 16)))
    return first, places[:, 0].astype(np.float64), places[:, 1].astype(np.float64)


def encode_polyline(lon: ArrayLike, lat: ArrayLike, precision: int = 6) -> str:
    """A line as an encoded polyline, latitude first, of 5 or 6 decimals."""
    places = np.column_stack((np.asarray(lon, dtype=np.float64), np.asarray(lat, dtype=np.float64)))
    return encode_behind([np.concatenate((np.zeros((1, 2)), places))], precision)[0]


def encode_behind(lines: Sequence[Floats], precision: int = 6) -> list[str]:
    """Of each line, float64[k, 2], its encoded polyline but for the first place: each place is written by how it
    differs from the one before it, so the texts of lines that go on from one another make one."""
    scaled = np.concatenate(lines)[:, ::-1] * 10.0**precision
    # Halves go away from 0, as all who write polylines have them.
    steps = np.diff(np.copysign(np.floor(np.abs(scaled) + 0.5), scaled).astype(np.int64), axis=0)
    ends = np.cumsum([len(line) for line in lines])
    is_inside = np.ones(len(steps), dtype=bool)
    is_inside[ends[:-1] - 1] = False
    # The sign is the lowest bit; then five bits a character from the lowest on, with a mark on all but the last.
    values = steps[is_inside].ravel()
    left = ((values << 1) ^ (values >> 63))[:, None] >> _SHIFTS
    is_written = (left > 0) | (_SHIFTS == 0)
    text = str(((left & 31) + np.where(left > 31, 95, 63))[is_written].astype(np.uint8).tobytes(), "ascii")
    # Each place has two values; a line has one place less than points.
    so_far = np.concatenate(([0], np.cumsum(is_written.sum(axis=1))))[2 * (ends - np.arange(1, len(ends) + 1))].tolist()
    return [text[low:high] for low, high in zip([0, *so_far], so_far)]


def decode_polyline(text: str, precision: int = 6) -> tuple[Floats, Floats]:
    """The longitudes and latitudes of an encoded polyline; ValueError where it is none."""
    import polyline
    try:
        pairs = polyline.decode(text, precision)
    except (IndexError, TypeError) as fault:
        raise ValueError("this isn't an encoded polyline") from fault
    places = np.array(pairs, dtype=np.float64).reshape(-1, 2)
    return places[:, 1], places[:, 0]


def decimal_text(values: ArrayLike, decimals: int) -> NDArray[np.uint8]:
    """The characters of numbers with so many decimals, one at least: uint8[n, width], 0 where a number has none. In
    JSON they are numbers once the zero bytes are left out."""
    whole = np.rint(np.asarray(values, dtype=np.float64) * 10.0**decimals).astype(np.int64)
    left = np.abs(whole)
    digits = max(len(str(int(left.max(initial=0)))), decimals + 1)
    text = np.zeros((len(whole), digits + 2), dtype=np.uint8)
    text[:, 0] = np.where(whole < 0, ord("-"), 0)
    text[:, digits + 1 - decimals] = ord(".")
    for place in range(digits):
        digit = left % 10 + ord("0")
        column = digits + 1 - place - (place >= decimals)
        text[:, column] = digit if place <= decimals else np.where(left > 0, digit, 0)
        left //= 10
    return text


def geojson_line(lon: ArrayLike, lat: ArrayLike) -> dict[str, object]:
    """A line as GeoJSON, to seven decimals."""
    places = np.round(np.column_stack((np.asarray(lon, dtype=np.float64), np.asarray(lat, dtype=np.float64))), 7)
    return {"type": "LineString", "coordinates": places.tolist()}


def geojson_point(lon: float, lat: float) -> dict[str, object]:
    """A place as GeoJSON, to seven decimals."""
    return {"type": "Point", "coordinates": [round(float(lon), 7), round(float(lat), 7)]}


def joined_lines(lines: Iterable[tuple[Floats, Floats]]) -> tuple[Floats, Floats]:
    """One line of several that go on from one another; a place where two meet stands once."""
    lons: list[Floats] = []
    lats: list[Floats] = []
    for lon, lat in lines:
        skip = 1 if lons and len(lon) and lons[-1][-1] == lon[0] and lats[-1][-1] == lat[0] else 0
        if len(lon) > skip:
            lons.append(lon[skip:])
            lats.append(lat[skip:])
    if not lons:
        return np.empty(0), np.empty(0)
    return np.concatenate(lons), np.concatenate(lats)
