"""Places by what one types: names of streets, and numbers of nodes and roads."""

from __future__ import annotations

import re
import unicodedata
from dataclasses import dataclass
from typing import TYPE_CHECKING, Any, Final

import numpy as np

from catchup.places.values import NoSegment
from catchup.service.page.sheet import ZOOM, Ints, Sheet, degrees_of, world_of

if TYPE_CHECKING:
    from catchup.places import Places

MOST: Final = 12
"""Places that an answer has."""
MOST_NAMES: Final = 64
"""Names that are looked for among the streets."""
_PLACE: Final = re.compile(r"\s*(-?\d{1,3}(?:\.\d+)?)\s*[,; ]\s*(-?\d{1,3}(?:\.\d+)?)\s*")
_NUMBER: Final = re.compile(r"\s*(node:|osm:|road:|)\s*(-?\d{1,18})\s*")
_APART: Final = ZOOM - 13
"""Parts of a street more than some 5 km apart are two places."""


@dataclass(frozen=True, slots=True)
class Hit:
    """A place that was found: the word by which routes take it, its name, what else is said of it, and where it is."""

    place: str
    name: str
    more: str
    x: int
    y: int

    def told(self) -> dict[str, Any]:
        """Its object in JSON."""
        return {"place": self.place, "name": self.name, "more": self.more, "x": self.x, "y": self.y}


def plain(text: str) -> str:
    """A text as it is compared: without marks and capital letters."""
    found = unicodedata.normalize("NFKD", text.casefold())
    found = "".join(each for each in found if not unicodedata.combining(each))
    return found.replace("strasse", "str").replace("str.", "str")


class Search:
    """Finds places of a network."""

    def __init__(self, sheet: Sheet, places: Places | None) -> None:
        self._sheet = sheet
        self._places = places
        self._texts: list[tuple[str, str]] = []
        self._plain: list[str] = []
        if places is not None:
            of_road, texts = places.lines.names
            self._text: Ints = of_road[sheet.lead].astype(np.int64)
            self._texts = texts
            self._plain = [f"{plain(name)}\n{plain(ref)}" for name, ref in texts]

    def find(self, words: str, near: tuple[int, int]) -> list[Hit]:
        """The places that are meant by some words: those that begin so first, of these the nearest to a place of the
        world."""
        number = self._numbered(words)
        return number or self._named(words, near)

    def _numbered(self, words: str) -> list[Hit]:
        """The node, road or coordinates that words are."""
        sheet, found = self._sheet, _NUMBER.fullmatch(words)
        if found is None:
            return self._at_degrees(words)
        kind, number = found[1].rstrip(":"), int(found[2])
        hits: list[Hit] = []
        if kind in ("", "node") and 0 <= number < len(sheet.nodes):
            hits.append(self.at_node(number))
        if kind in ("", "osm") and self._places is not None and (snap := self._places.at_osm(number)) is not None:
            x, y = (int(value) for value in world_of(np.array(snap.point)))
            hits.append(Hit(f"osm:{number}", f"OpenStreetMap node {number}", snap.name or snap.ref, x, y))
        if kind in ("", "road") and 0 <= number < len(sheet.of_road):
            hits.append(self._at_road(number))
        return hits

    def at_node(self, node: int) -> Hit:
        """A node."""
        x, y = self._sheet.nodes[node].tolist()
        return Hit(str(node), f"Node {node}", "", x, y)

    def _at_road(self, road: int) -> Hit:
        street = int(self._sheet.of_road[road])
        line = self._sheet.line(street)
        x, y = line[len(line) // 2] if len(line) > 2 else [(line[0][side] + line[-1][side]) // 2 for side in (0, 1)]
        if self._places is None:
            return Hit(str(int(self._sheet.head[road])), f"Road {road}", f"to node {int(self._sheet.head[road])}", x, y)
        return Hit(word_of(x, y), f"Road {road}", self.name_of(street), x, y)

    def name_of(self, street: int) -> str:
        """What a street is called: its name, or its reference number; empty where it has none."""
        if self._places is None or self._text[street] < 0:
            return ""
        name, ref = self._texts[int(self._text[street])]
        return name or ref

    def _at_degrees(self, words: str) -> list[Hit]:
        """A longitude and a latitude; the other way round where that alone is on the map."""
        found = _PLACE.fullmatch(words)
        if found is None or self._places is None:
            return []
        one, other = float(found[1]), float(found[2])
        on_map = [place for place in ((one, other), (other, one)) if self._places.is_on_map(place)]
        for place in on_map or [(one, other)]:
            try:
                self._places.nearest(place)
            except (NoSegment, ValueError):
                continue
            x, y = (int(value) for value in world_of(np.array(place)))
            return [Hit(f"{place[0]},{place[1]}", f"{place[0]:.5f}, {place[1]:.5f}", "", x, y)]
        return []

    def _named(self, words: str, near: tuple[int, int]) -> list[Hit]:
        """Streets by a part of their names."""
        wanted = plain(words.strip())
        if len(wanted) < 2 or not self._texts:
            return []
        at = [number for number, text in enumerate(self._plain) if wanted in text]
        at.sort(key=lambda number: self._order(number, wanted))
        streets = np.flatnonzero(np.isin(self._text, at[:MOST_NAMES]))
        rows = sorted((self._order(int(self._text[street]), wanted), self._far(street, near), street)
                      for street in self._apart(streets))
        return [self._at_street(street) for _, _, street in rows[:MOST]]

    def _order(self, text: int, wanted: str) -> int:
        """Names that are what is wanted come first, then those that begin so, then others."""
        name, _, ref = self._plain[text].partition("\n")
        if wanted in (name, ref):
            return 0
        return 1 if name.startswith(wanted) or ref.startswith(wanted) else 2

    def _apart(self, streets: Ints) -> list[int]:
        """One street of each name in each part of the map: the middle one of them."""
        sheet = self._sheet
        x, y = sheet.x[sheet.first[streets]] >> _APART + 9, sheet.y[sheet.first[streets]] >> _APART + 9
        rows = np.column_stack((self._text[streets], x, y))
        _, first, group = np.unique(rows, axis=0, return_index=True, return_inverse=True)
        found: list[int] = []
        for number in range(len(first)):
            of = streets[group.ravel() == number]
            place = np.column_stack((sheet.x[sheet.first[of]], sheet.y[sheet.first[of]])).astype(np.float64)
            found.append(int(of[int(np.square(place - place.mean(axis=0)).sum(axis=1).argmin())]))
        return found

    def _far(self, street: int, near: tuple[int, int]) -> float:
        at = int(self._sheet.first[street])
        return float(np.hypot(float(self._sheet.x[at]) - near[0], float(self._sheet.y[at]) - near[1]))

    def _at_street(self, street: int) -> Hit:
        line = self._sheet.line(street)
        x, y = line[len(line) // 2]
        name, ref = self._texts[int(self._text[street])]
        crossing = self._crossing(street)
        more = " · ".join(part for part in (ref if name else "", f"near {crossing}" if crossing else "") if part)
        return Hit(word_of(x, y), name or ref, more, x, y)

    def _crossing(self, street: int) -> str:
        """The name of a street that meets one, empty where none has a name."""
        sheet, road = self._sheet, int(self._sheet.lead[street])
        ends = (sheet.tail[road], sheet.head[road])
        own = int(self._text[street])
        for node in ends:
            for other in np.flatnonzero((sheet.tail == node) | (sheet.head == node)).tolist():
                text = int(self._text[int(sheet.of_road[other])])
                if text >= 0 and text != own and self._texts[text][0]:
                    return self._texts[text][0]
        return ""


def word_of(x: int, y: int) -> str:
    """The word by which routes take a place of the world: its longitude and latitude."""
    lon, lat = degrees_of(x, y)
    return f"{lon:.6f},{lat:.6f}"
