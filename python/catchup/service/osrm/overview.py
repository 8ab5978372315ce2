"""The overview of a route: its line with no more places than are needed at the zoom that shows all of it, as OSRM has
it."""

from __future__ import annotations

import math
import struct
from collections.abc import Sequence
from typing import Final

import numpy as np
from shapely import wkb

from catchup.service.osrm.lines import Floats, Ints

TILE: Final = 256                       # pixels of the whole world at zoom 0
MOST_ZOOM: Final = 18
WIDTH, HEIGHT = 8 * TILE, 5 * TILE      # pixels of a window in which a route is seen
PIXELS: Final = 4                       # that the simplified line is away from the true one, at most
POLE: Final = 85.051128779806589        # degrees of latitude where the world's map ends
LINE: Final = struct.Struct("<BII")     # of a binary line: the order of bytes, the kind, how many places
LINE_KIND: Final = 0x80000002           # with three numbers a place


def pixels(places: Floats) -> tuple[Floats, Floats]:
    """Where places are on the map of the world at zoom 0, in pixels from its north-western corner: x and y,
    float64[n]."""
    lat = np.radians(np.minimum(np.maximum(places[:, 1], -POLE), POLE))
    return (places[:, 0] / 360 + 0.5) * TILE, (0.5 - np.arcsinh(np.tan(lat)) / (2 * math.pi)) * TILE


def fitted_zoom(x: Floats, y: Floats) -> int:
    """The zoom, 1 to 18, at which a line is seen whole, from its pixels at zoom 0."""
    most = max(float(x.max() - x.min()) / WIDTH, float(y.max() - y.min()) / HEIGHT)
    return MOST_ZOOM if most <= 0 else min(max(math.floor(-math.log2(most)), 1), MOST_ZOOM)


def simplified(parts: Sequence[Floats]) -> Floats:
    """The places that are left of a line, float64[k, 2]: the ends of each part, and what lies between by Douglas and
    Peucker. parts: float64[n, 2], longitude and latitude in degrees, each beginning where the one before ends."""
    x, y = pixels(np.concatenate(parts) if len(parts) > 1 else parts[0])
    tolerance = PIXELS / 2.0**fitted_zoom(x, y)
    if len(parts) == 1:
        return np.asarray(parts[0][kept_of(x, y, tolerance)])
    found, begin = [], 0
    for part in parts:
        end = begin + len(part)
        kept = kept_of(x[begin:end], y[begin:end], tolerance)
        found.append(part[kept[1 if begin else 0:]])
        begin = end
    return np.concatenate(found)


def kept_of(x: Floats, y: Floats, tolerance: float) -> Ints:
    """The numbers of the places of a line that are left, by rising number: its ends, and others between."""
    count = len(x)
    if count < 3:
        return np.arange(count)
    # The library takes a third number of each place along, so places come back with theirs.
    numbered = np.empty((count, 3))
    numbered[:, 0], numbered[:, 1], numbered[:, 2] = x, y, np.arange(count)
    line = wkb.loads(LINE.pack(1, LINE_KIND, count) + numbered.tobytes()).simplify(tolerance, preserve_topology=False)
    left = np.frombuffer(wkb.dumps(line, output_dimension=3, srid=None), dtype="<f8", offset=LINE.size)[2::3]
    # Of a line that comes back to where it began nothing may be left.
    return left.astype(np.int64) if len(left) > 1 else np.array((0, count - 1))
