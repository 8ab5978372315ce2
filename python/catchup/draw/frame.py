"""The frame of a map: which part of the tables' plane it shows, and where a place of it is in the picture."""

from __future__ import annotations

from collections.abc import Iterable, Iterator
from contextlib import contextmanager

from catchup.draw.svg import FRAME, SOFT_INK, Picture, place
from catchup.draw.tables import Nodes

LEFT = 20
TOP = 66
_MOST_WIDTH, _MOST_HEIGHT = 600, 500
_LEAST_WIDTH, _LEAST_HEIGHT = 320, 240


class Frame:
    """A map in the picture, from (LEFT, TOP) on `width` wide and `height` high; `scale` units to one of the plane."""

    def __init__(self, nodes: Nodes, shown: Iterable[int], margin: float) -> None:
        """Shows these nodes with a margin around, a part of the longer side. It is never narrow."""
        self._nodes = nodes
        numbers = list(shown)
        across = [nodes.x[node] for node in numbers] or [0]
        upwards = [nodes.y[node] for node in numbers] or [0]
        left, right, low, high = min(across), max(across), min(upwards), max(upwards)
        around = max(right - left, high - low) * margin or 1
        width, height = right - left + 2 * around, high - low + 2 * around
        self.scale = min(_MOST_WIDTH / width, _MOST_HEIGHT / height)
        self.width = max(width * self.scale, _LEAST_WIDTH)
        self.height = max(height * self.scale, _LEAST_HEIGHT)
        self._left = (left + right - self.width / self.scale) / 2
        self._right = self._left + self.width / self.scale
        self._low = (low + high - self.height / self.scale) / 2
        self._high = self._low + self.height / self.scale
        self.right = LEFT + self.width
        self.bottom = TOP + self.height

    def at(self, node: int) -> tuple[float, float]:
        """Where a node is in the picture."""
        nodes = self._nodes
        return LEFT + (nodes.x[node] - self._left) * self.scale, TOP + (self._high - nodes.y[node]) * self.scale

    def is_near(self, a: int, b: int) -> bool:
        """Whether a road between two nodes may be seen: it isn't all to one side of the frame."""
        x, y = self._nodes.x, self._nodes.y
        if x[a] < self._left and x[b] < self._left or x[a] > self._right and x[b] > self._right:
            return False
        return not (y[a] < self._low and y[b] < self._low or y[a] > self._high and y[b] > self._high)

    @contextmanager
    def clipped(self, picture: Picture) -> Iterator[None]:
        """What is drawn in the block is cut to the frame, which is drawn around it."""
        picture.clip("map", LEFT, TOP, self.width, self.height)
        with picture.group(clip_path="url(#map)"):
            yield
        picture.tag("rect", x=LEFT, y=TOP, width=self.width, height=self.height, fill="none", stroke=FRAME)

    def draw_stretch(self, picture: Picture) -> None:
        """Below the map: how long a round stretch of the plane is."""
        stretch = _round(self.width / 3 / self.scale)
        line = self.bottom + 22
        length = place(stretch * self.scale)
        steps = f"M{LEFT} {place(line - 8)}v8h{length}v-8"
        picture.tag("path", fill="none", stroke=SOFT_INK, stroke_width="1.5", d=steps)
        words = f"{stretch:g}" if stretch < 1 else f"{stretch:.0f}"
        picture.text(LEFT + stretch * self.scale + 8, line, f"{words} units of x and y")


def _round(most: float) -> float:
    """The greatest 1, 2 or 5 with noughts that is no more than this."""
    stretch: float = 1
    while stretch * 10 <= most:
        stretch *= 10
    while stretch > most:
        stretch /= 10
    return max(part * stretch for part in (1, 2, 5) if part * stretch <= most)
