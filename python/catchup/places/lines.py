"""What drives look like: their lines, in coordinates and in the texts that answers are made of, and the names along
them.

A part of a drive is a road with the shares of its metres at which the part begins and ends: (road, 0.0, 1.0) is a whole
road. What is made of whole roads is kept, since drives share most of them.
"""

from __future__ import annotations

import json
from bisect import bisect_left, bisect_right
from collections.abc import Sequence
from functools import cached_property
from typing import NamedTuple, TypeAlias, TypeVar

import numpy as np
from numpy.typing import NDArray

from catchup import geometry
from catchup.mapfile import RoadNames
from catchup.places.streets import Streets
from catchup.places.values import Place

Ints = NDArray[np.int64]
Shorts = NDArray[np.int32]
Floats = NDArray[np.float64]
Rows = NDArray[np.void]
Bools = NDArray[np.bool_]

Part: TypeAlias = tuple[int, float, float]
"""A road, and the shares of its metres from which and up to which it is driven."""

Named: TypeAlias = tuple[str, str, float, float]
"""A name and a reference number, and the shares of a road's metres between which they hold."""

DECIMALS = 6
"""Of coordinates in answers: a tenth of a metre."""

_WHOLE = (0.0, 1.0)
_MOST_KEPT = 200_000
_LEAST = 1e-4
"""The share of a road that is too short for a stretch of its own."""


Key = TypeVar("Key")
Kept = TypeVar("Kept")


class Stretch(NamedTuple):
    """Where a name and a reference number hold, in shares of a road, with the coordinates from there to there."""

    name: str
    ref: str
    begin: float
    end: float
    coordinates: Floats


class Told(NamedTuple):
    """A line's coordinates, and the names and metres of its roads, as members of JSON lists."""

    line: bytes
    names: bytes
    metres: bytes


class Lines:
    """The lines and names of m roads. metres: float64[m]; kind: int32[m], a number into `kinds`, the classes of roads;
    ring: bool[m], whether a road is part of a roundabout."""

    def __init__(self, streets: Streets, names: RoadNames, metres: Floats, kind: Shorts, kinds: list[str],
                 ring: Bools) -> None:
        self._streets = streets
        self._names = names
        self._text = names.longest()
        self.metres = metres
        self._kind = kind
        self._kinds = kinds
        self._ring = ring
        self._said = [json.dumps(name or ref).encode() for name, ref in names.texts] + [b'""']
        self._rows = _rows_of(streets.places)
        self._told: dict[int, Told] = {}
        self._encoded: dict[int, dict[int, str]] = {}
        self._stretches: dict[int, list[Stretch]] = {}

    @cached_property
    def _numbers(self) -> tuple[memoryview, memoryview, memoryview]:
        """Each road's class, whether it is of a roundabout, and its metres, for who looks up one: numpy takes several
        times as long."""
        return self._kind.data, self._ring.data, self.metres.data

    @property
    def kinds(self) -> tuple[Shorts, list[str]]:
        """Of each road its class, int32[m], a number into a list of them."""
        return self._kind, self._kinds

    @property
    def names(self) -> tuple[Ints, list[tuple[str, str]]]:
        """Of each road the name and the reference number of most of it, int64[m]: a number into a list of them, -1
        where it has none."""
        return self._text, self._names.texts

    def kind(self, road: int) -> str:
        """A road's class."""
        return self._kinds[self._numbers[0][road]]

    def is_roundabout(self, road: int) -> bool:
        """Whether a road is one of a roundabout."""
        return bool(self._numbers[1][road])

    @cached_property
    def several(self) -> frozenset[int]:
        """The roads whose name isn't the same all along."""
        return frozenset(self._names.several(self.metres).tolist())

    def length(self, road: int) -> float:
        """A road's metres."""
        return float(self._numbers[2][road])

    def name(self, road: int) -> tuple[str, str]:
        """The name and the reference number of most of a road, empty where it has none."""
        text = int(self._text[road])
        return self._names.texts[text] if text >= 0 else ("", "")

    def name_at(self, road: int, share: float) -> tuple[str, str]:
        """The name and the reference number at a point of a road."""
        name = self._names.only(road, self.length(road))
        if name is not None:
            return name
        at = share * self.length(road)
        for span in self._names.of(road):
            if span.from_metres - 0.01 <= at <= span.to_metres + 0.01:
                return span.name, span.ref
        return "", ""

    def place(self, road: int, share: float) -> Place:
        """The point of a road behind a share of its metres."""
        shares = self._streets.shares(road).tolist()
        return _between(self._streets.line(road).tolist(), shares, bisect_right(shares, share), share)

    def line(self, roads: Sequence[int], begin: float, end: float) -> Floats:
        """The coordinates of roads that follow one another, from a share of the first one to one of the last one:
        float64[k, 2], two at least."""
        lines = [self.cut(part) for part in parts_of(roads, begin, end)]
        return np.concatenate([lines[0][:1], *[line[1:] for line in lines]])

    def line_encoded(self, roads: Sequence[int], begin: float, end: float, precision: int = DECIMALS) -> str:
        """The same as an encoded polyline of 5 or 6 decimals."""
        kept = self._encoded.setdefault(precision, {})
        texts = [kept.get(road, "") for road in roads]
        if begin > 0.0:
            texts[0] = ""
        if end < 1.0:
            texts[-1] = ""
        anew = [at for at, text in enumerate(texts) if not text]
        parts = [(roads[at], begin if at == 0 else 0.0, end if at == len(roads) - 1 else 1.0) for at in anew]
        first = np.array([(0.0, 0.0), self.place(roads[0], begin)])
        head, *made = geometry.encode_behind([first, *[self.cut(part) for part in parts]], precision)
        for at, part, text in zip(anew, parts, made):
            texts[at] = text if part[1:] != _WHOLE else _keep(kept, part[0], text)
        return head + "".join(texts)

    def told(self, roads: Sequence[int], begin: float, end: float) -> Told:
        """The same, and the roads' names and metres, as members of JSON lists; of a road without a name its reference
        number."""
        kept = self._told
        found = [kept.get(road) or self._tell(road) for road in roads]
        if begin > 0.0 or len(roads) == 1 and end < 1.0:
            found[0] = self._tell_part((roads[0], begin, end if len(roads) == 1 else 1.0))
        if end < 1.0 and len(roads) > 1:
            found[-1] = self._tell_part((roads[-1], 0.0, end))
        line, names, metres = zip(*found)
        return Told(_told(self.place(roads[0], begin)) + b"".join(line), b",".join(names), b",".join(metres))

    def told_still(self, place: Place) -> Told:
        """The line of a place that isn't left: it is there twice."""
        return Told(b"%b,%b" % (_told(place), _told(place)), b"", b"")

    def _tell(self, road: int) -> Told:
        """A road's coordinates but for the first, each behind a comma, its name and its metres."""
        return _keep(self._told, road, self._tell_part((road, 0.0, 1.0)))

    def _tell_part(self, part: Part) -> Told:
        road, begin, end = part
        streets = self._streets
        street, is_forward, shares = streets.of_road[road], streets.is_forward[road], streets.shares(road)
        rows = self._rows[streets.first[street]:streets.first[street + 1]]
        low, high = int(shares.searchsorted(begin, "right")), int(shares.searchsorted(end, "left"))
        inner = (rows if is_forward else rows[::-1])[low:high]
        line = b"%b,%b" % (inner.tobytes().replace(b"\0", b""), _told(self.place(road, end)))
        return Told(line, self._said[int(self._text[road])], b"%.1f" % (float(self.metres[road]) * (end - begin)))

    def cut(self, part: Part) -> Floats:
        """The coordinates of a part, float64[k, 2]; two equal ones at least."""
        return self._streets.line(part[0]) if part[1:] == _WHOLE else np.array(self.points(part))

    def points(self, part: Part) -> list[Place]:
        """The same as a list: roads have few points, for which lists are faster than arrays."""
        road, begin, end = part
        points, shares = self._streets.drawn(road)
        if begin == 0.0 and end == 1.0:
            return points
        first = bisect_right(shares, begin)
        return [_between(points, shares, first, begin), *points[first:bisect_left(shares, end)],
                _between(points, shares, bisect_right(shares, end), end)]

    def stretches(self, part: Part) -> list[Stretch]:
        """The stretches of a part under one name each."""
        road = part[0]
        if part[1:] != _WHOLE:
            return self._named(part)
        return self._stretches.get(road) or _keep(self._stretches, road, self._named(part))

    def _named(self, part: Part) -> list[Stretch]:
        return [Stretch(name, ref, low, high, self.cut((part[0], low, high)))
                for name, ref, low, high in self.names_along(part)]

    def names_along(self, part: Part) -> list[Named]:
        """The names along a part of a road, in the order of the drive."""
        road, begin, end = part
        name = self._names.only(road, self.length(road))
        if name is not None:
            return [(*name, begin, end)]
        found = self._names_along(road)
        return found if part[1:] == _WHOLE else _named_between(found, begin, end)

    def _names_along(self, road: int) -> list[Named]:
        """The names along a whole road."""
        found: list[Named] = []
        at, whole = 0.0, float(self.metres[road]) or 1.0
        for span in self._names.of(road):
            low, high = max(span.from_metres / whole, at), min(span.to_metres / whole, 1.0)
            if high - low <= _LEAST:
                continue
            if low - at > _LEAST:
                found.append(("", "", at, low))
            else:
                low = at
            found.append((span.name, span.ref, low, high))
            at = high
        if not found or 1.0 - at > _LEAST:
            found.append(("", "", at, 1.0))
        else:
            found[-1] = (*found[-1][:3], 1.0)
        return found


def _named_between(names: Sequence[Named], begin: float, end: float) -> list[Named]:
    """Those of a whole road's names that hold between two shares of it: one at least, however short that is."""
    its = [(min(high, end) - max(low, begin), name, ref, min(high, end)) for name, ref, low, high in names]
    found = [each for each in its if each[0] > _LEAST] or [max(its, key=lambda each: each[0])]
    bounds = [begin, *[high for _, _, _, high in found[:-1]], end]
    return [(name, ref, low, high) for (_, name, ref, _), low, high in zip(found, bounds, bounds[1:])]


def parts_of(roads: Sequence[int], begin: float, end: float) -> list[Part]:
    """The parts of roads that follow one another, one at least, from a share of the first one to one of the last
    one."""
    found = [(road, 0.0, 1.0) for road in roads]
    found[0] = (found[0][0], begin, 1.0)
    found[-1] = (*found[-1][:2], end)
    return found


def _between(line: Sequence[Sequence[float]], shares: Sequence[float], behind: int, share: float) -> Place:
    """The point of a line behind a share of its metres, which is between a point and the one before it."""
    at = min(behind, len(line) - 1)
    low, high = shares[at - 1:at + 1]
    part = min(max((share - low) / (high - low), 0.0), 1.0) if high > low else 0.0
    (x, y), (u, v) = line[at - 1:at + 1]
    return x + (u - x) * part, y + (v - y) * part


def _rows_of(places: Floats) -> Rows:
    """Places in JSON, each behind a comma, in rows of one length; a zero byte is where a shorter one has none."""
    parts: list[NDArray[np.uint8]] = []
    for side, sign in ((0, b",["), (1, b",")):
        parts += [np.broadcast_to(np.frombuffer(sign, dtype=np.uint8), (len(places), len(sign))),
                  geometry.decimal_text(places[:, side], DECIMALS)]
    text = np.concatenate([*parts, np.full((len(places), 1), ord("]"), dtype=np.uint8)], axis=1)
    rows: Rows = text.view(np.dtype((np.void, text.shape[1])))[:, 0]
    return rows


def _keep(kept: dict[Key, Kept], key: Key, value: Kept) -> Kept:
    """Keeps a value; where there are too many all others go."""
    if len(kept) >= _MOST_KEPT:
        kept.clear()
    kept[key] = value
    return value


def _told(place: Place) -> bytes:
    """A place in JSON."""
    return b"[%.6f,%.6f]" % place
