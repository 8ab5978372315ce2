"""Lines of places as JSON: encoded polylines, and GeoJSON.

A line is put together from texts of its places. In an encoded polyline a place is told by its difference from the one
before, so the text of a road's places but the first is the same wherever the road stands in a line.
"""

from __future__ import annotations

import functools
import math
from abc import ABC, abstractmethod
from collections.abc import Mapping, Sequence
from typing import Final

import numpy as np
from numpy.typing import NDArray

from catchup.geometry import decimal_text

Floats = NDArray[np.float64]
Ints = NDArray[np.int64]
Place = Sequence[float]

DECIMALS: Final = 6                     # of a degree, in GeoJSON and wherever a place stands alone
FEW: Final = 12                         # places up to which one after the other is faster than all at once


class Form(ABC):
    """A form of lines. Places are longitude and latitude in degrees, float64[n, 2] where there are many. The texts of
    a line's places stand between `opens` and `closes`."""

    opens = closes = '"'

    def told(self, places: Sequence[Place]) -> tuple[str, str]:
        """The texts of all places of a line, and of all but the first."""
        return self._few(places) if len(places) <= FEW else self._many(np.array(places))

    @abstractmethod
    def _few(self, places: Sequence[Place]) -> tuple[str, str]:
        """The same, one place after the other."""

    @abstractmethod
    def _many(self, places: Floats) -> tuple[str, str]:
        """The same, all places at once."""

    def rest(self, places: Sequence[Place]) -> str:
        """The text of all places of a line but the first."""
        return self.told(places)[1]

    def line(self, text: str) -> str:
        """The JSON of a line, from the text of its places."""
        return f"{self.opens}{text}{self.closes}"

    @abstractmethod
    def single(self, place: Place) -> str:
        """The JSON of a line of one place."""

    def whole(self, places: Floats) -> str:
        """The JSON of a line."""
        return self.line((self._few(places.tolist()) if len(places) <= FEW else self._many(places))[0])


class Polyline(Form):
    """Encoded polylines of 5 or 6 decimals. Their texts are those of JSON: a backslash, which may be in them, is
    doubled."""

    def __init__(self, decimals: int) -> None:
        self.decimals, self.units = decimals, 10.0**decimals

    def first(self, place: Place) -> str:
        """The text of a line's first place."""
        return escaped(letters(unit(place[1], self.units)) + letters(unit(place[0], self.units)))

    def _many(self, places: Floats) -> tuple[str, str]:
        scaled = places[:, ::-1] * self.units
        # As `unit` has them.
        whole = np.copysign(np.floor(np.abs(scaled) + 0.5), scaled).astype(np.int64)
        rest = escaped("".join(map(letters, np.diff(whole, axis=0).ravel().tolist())))
        return self.first(places[0].tolist()) + rest, rest

    def _few(self, places: Sequence[Place]) -> tuple[str, str]:
        units, texts = self.units, []
        v = u = 0
        for lon, lat in places:
            # As `unit` has them.
            y, x = int(lat * units + (0.5 if lat > 0.0 else -0.5)), int(lon * units + (0.5 if lon > 0.0 else -0.5))
            texts.append(letters(y - v) + letters(x - u))
            v, u = y, x
        first, rest = escaped(texts[0]), escaped("".join(texts[1:]))
        return first + rest, rest

    def single(self, place: Place) -> str:
        return f'"{self.first(place)}"'


class GeoJson(Form):
    """GeoJSON's LineString, which has two places at least."""

    opens, closes = '{"type":"LineString","coordinates":[', "]}"

    def _many(self, places: Floats) -> tuple[str, str]:
        rest = places_text(places[1:])
        return point(places[0].tolist()) + rest, rest

    def _few(self, places: Sequence[Place]) -> tuple[str, str]:
        rest = "".join([f",{point(place)}" for place in places[1:]])
        return point(places[0]) + rest, rest

    def single(self, place: Place) -> str:
        return self.line(f"{point(place)},{point(place)}")


def point(place: Place) -> str:
    """A place as JSON."""
    return "[%.6f,%.6f]" % (place[0], place[1])


def escaped(text: str) -> str:
    """Letters of a polyline within a string of JSON."""
    return text.replace("\\", "\\\\")


def unit(degrees: float, units: float) -> int:
    """Degrees as a whole number of units, rounded half away from zero, as OSRM does."""
    return int(degrees * units + math.copysign(0.5, degrees))


@functools.lru_cache(maxsize=65_536)
def letters(value: int) -> str:
    """The letters of one number of a polyline."""
    value = ~(value << 1) if value < 0 else value << 1
    found = []
    while value >= 32:
        found.append(chr((value & 31) + 95))
        value >>= 5
    return "".join(found) + chr(value + 63)


def places_text(places: Floats) -> str:
    """Places as lists of JSON, each with a comma before it."""
    count = len(places)
    signs = [np.broadcast_to(np.frombuffer(sign, dtype=np.uint8), (count, len(sign))) for sign in (b",[", b",", b"]")]
    lon, lat = (decimal_text(places[:, at], DECIMALS) for at in (0, 1))
    texts = np.concatenate((signs[0], lon, signs[1], lat, signs[2]), axis=1).tobytes()
    return texts.replace(b"\0", b"").decode("ascii")


FORMS: Final[Mapping[str, Form]] = {"polyline": Polyline(5), "polyline6": Polyline(6), "geojson": GeoJson()}
"""The forms by OSRM's names."""
