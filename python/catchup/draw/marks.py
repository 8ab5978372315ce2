"""Marks on a map: rings, squares, numbered disks and names.

Names and numbers never cover each other or a mark: one that finds no free place is left out, and is in the legend.
"""

from __future__ import annotations

import math
from collections.abc import Iterable
from dataclasses import dataclass, field
from typing import NamedTuple

from catchup.draw.frame import LEFT, TOP, Frame
from catchup.draw.svg import INK, PAPER, Picture, Value, place, text_width
from catchup.draw.tables import Nodes

# The side of the squares by which it is known where lines go.
_CELL = 4
# How near another mark must be to matter, in the picture's units.
_FAR = 80
_HALF_LINE = 8
# How far words keep away from marks, and what covering a line costs a name, where the side of a node counts up to 2.
_GAP = 2
_COVERING = 1.2
_HALF_DISK = 11


@dataclass(slots=True)
class Directions:
    """Where lines lead from nodes, seen from there: a name keeps away from them. The longer side of a way counts as 1."""

    nodes: Nodes
    _toward: dict[int, list[tuple[float, float]]] = field(default_factory=dict)

    def add(self, node: int, next_node: int) -> None:
        across = self.nodes.x[next_node] - self.nodes.x[node]
        upwards = self.nodes.y[next_node] - self.nodes.y[node]
        far = max(abs(across), abs(upwards)) or 1
        self._toward.setdefault(node, []).append((across / far, upwards / far))

    def freedom(self, node: int, side: tuple[int, int]) -> float:
        """How far the lines at a node keep away from a side of it."""
        return -max((x * side[0] + y * side[1] for x, y in self._toward.get(node, [])), default=0)


class Candidate(NamedTuple):
    """A place for a route's number: how far from the route's middle it is, up to a half, and whether the route is alone
    there."""

    at: tuple[float, float]
    off_middle: float
    is_alone: bool


class Marks:
    """Draws marks on a map, and knows which places they have taken."""

    def __init__(self, picture: Picture, frame: Frame, directions: Directions) -> None:
        self._picture = picture
        self._frame = frame
        self._directions = directions
        # Boxes that are taken: their middles, half their widths and half their heights.
        self._boxes: list[tuple[float, float, float, float]] = []
        # Squares that lines go through.
        self._lines: set[tuple[int, int]] = set()

    def square(self, node: int) -> None:
        """An end."""
        square(self._picture, self._frame.at(node))

    def ring(self, node: int) -> None:
        """A start."""
        ring(self._picture, self._frame.at(node))

    def take(self, node: int, half: float = 9) -> None:
        """Keeps the place of a node's mark free of names and numbers."""
        self._take(self._frame.at(node), half, half)

    def line(self, a: int, b: int) -> None:
        """A line between two nodes, which words keep off."""
        (ax, ay), (bx, by) = self._frame.at(a), self._frame.at(b)
        steps = int(max(abs(bx - ax), abs(by - ay)) / _CELL) + 1
        for k in range(steps + 1):
            x, y = ax + (bx - ax) * k / steps, ay + (by - ay) * k / steps
            self._lines.add((int(x // _CELL), int(y // _CELL)))

    def name(self, node: int, words: str) -> None:
        """Writes the name of a node beside it, if there is a free place: rather off the lines."""
        self._write(node, words, _GAP, _COVERING, {"class_": "name", "text_anchor": "middle"}, INK)

    def time(self, node: int, words: str, ink: str, gap: float = _GAP) -> None:
        """Writes a time beside a node, if there is a free place off the lines, `gap` away from other marks."""
        self._write(node, words, gap, math.inf, {"class_": "time", "text_anchor": "middle"}, ink)

    def _write(self, node: int, words: str, gap: float, covering: float, look: dict[str, Value], ink: str) -> None:
        """Writes words at the best free one of the eight sides of a node, if there is one: best away from its own lines,
        the sides before the corners; `covering` is what it costs to cover a line."""
        half = text_width(words) / 2
        x, y = self._frame.at(node)
        most, best = -math.inf, (x, y)
        for down in (-1, 0, 1):
            for along in (-1, 0, 1):
                at = x + along * (13 + half), y + down * (16 if along else 22)
                if not along and not down or not self._is_free(at, half, gap):
                    continue
                worth = self._directions.freedom(node, (along, -down))
                worth -= (1.5 if along and down else 0) + (0 if along else 0.2)
                worth -= covering if self._covers_line(at, half) else 0
                if worth > most:
                    most, best = worth, at
        if most > -math.inf:
            self._take(best, half, _HALF_LINE)
            self._picture.label(best[0], best[1] + 4, words, ink=ink, **look)

    def number(self, places: Iterable[Candidate], number: int, fill: str) -> None:
        """A numbered disk at the best free one of some places, if there is one: where its route goes alone, near the
        middle of it, and away from other marks."""
        best: tuple[float, tuple[float, float]] | None = None
        for spot in places:
            clearance = self._clearance(spot.at, _HALF_DISK, _HALF_DISK)
            if clearance < 2 or not self._is_inside(spot.at, _HALF_DISK, _HALF_DISK):
                continue
            worth = 2 * clearance - 40 * spot.off_middle + (100 if spot.is_alone else 0)
            if best is None or worth > best[0]:
                best = worth, spot.at
        if best is not None:
            self._take(best[1], _HALF_DISK, _HALF_DISK)
            disk(self._picture, best[1], number, fill)

    def _take(self, at: tuple[float, float], half_width: float, half_height: float) -> None:
        self._boxes.append((*at, half_width, half_height))

    def _is_free(self, at: tuple[float, float], half: float, gap: float) -> bool:
        """Whether words would stand apart from all marks, within the map."""
        return self._is_inside(at, half, _HALF_LINE) and self._clearance(at, half, _HALF_LINE) >= gap

    def _covers_line(self, at: tuple[float, float], half: float) -> bool:
        """Whether words would cover a line."""
        left, right = int((at[0] - half) // _CELL), int((at[0] + half) // _CELL)
        top, bottom = int((at[1] - _HALF_LINE) // _CELL), int((at[1] + _HALF_LINE) // _CELL)
        return any((x, y) in self._lines for x in range(left, right + 1) for y in range(top, bottom + 1))

    def _is_inside(self, at: tuple[float, float], half_width: float, half_height: float) -> bool:
        x, y = at
        if x - half_width < LEFT or x + half_width > self._frame.right:
            return False
        return y - half_height >= TOP and y + half_height <= self._frame.bottom

    def _clearance(self, at: tuple[float, float], half_width: float, half_height: float) -> float:
        """How far a box is from the nearest one that is taken, up to what matters."""
        x, y = at
        gaps = (max(abs(x - bx) - half_width - bw, abs(y - by) - half_height - bh) for bx, by, bw, bh in self._boxes)
        return max(min([_FAR, *gaps]), 0)


def square(picture: Picture, at: tuple[float, float]) -> None:
    """The mark of an end."""
    picture.tag("rect", x=at[0] - 6, y=at[1] - 6, width=12, height=12, fill=INK, stroke=PAPER, stroke_width="1.5")


def ring(picture: Picture, at: tuple[float, float]) -> None:
    """The mark of a start."""
    picture.tag("circle", cx=at[0], cy=at[1], r=6, fill=PAPER, stroke=INK, stroke_width="2.5")


def pause(picture: Picture, at: tuple[float, float], stroke: str) -> None:
    """The mark of a wait."""
    x, y = at
    picture.tag("circle", cx=x, cy=y, r=6.5, fill=PAPER, stroke=stroke, stroke_width=2)
    bars = f"M{place(x - 2)} {place(y - 3)}v6M{place(x + 2)} {place(y - 3)}v6"
    picture.tag("path", fill="none", stroke=INK, stroke_width=2, d=bars)


def disk(picture: Picture, at: tuple[float, float], number: int, fill: str) -> None:
    """A reply's number."""
    picture.tag("circle", cx=at[0], cy=at[1], r=10, fill=fill, stroke=PAPER, stroke_width="1.5")
    look: dict[str, Value] = {"fill": PAPER, "font_weight": "bold", "text_anchor": "middle", "font_size": "11"}
    picture.text(at[0], at[1] + 4, str(number), **look)
