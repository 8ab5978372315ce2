"""SVG by hand: a picture's tags and words, a line each. All values and words are escaped here and nowhere else."""

from __future__ import annotations

import contextlib
from collections.abc import Iterable, Iterator
from html import escape
from typing import TypeAlias

Value: TypeAlias = str | float

INK = "#222222"
SOFT_INK = "#555555"
PAPER = "#ffffff"
ROAD = "#c3c7cd"
ROAD_ALONE = "#5b6470"
CLOSED_ROAD = "#b3262e"
FRAME = "#c9ccd1"
AXIS = "#888888"
GRID = "#e4e6e9"
OTHERS = "#9a9fa6"
NO_ROUTE = "#6b727c"

_SOBER = ("#1f5f8b", "#c8553d", "#2e7d4f", "#7b4b94", "#b8860b", "#2a8c93", "#a23b72", "#6b4f3a")


def place(value: float) -> str:
    """A number of the picture's units: at most one decimal."""
    text = f"{value:.1f}".removesuffix(".0")
    return "0" if text == "-0" else text


def colour(number: int) -> str:
    """The colour of the thing of this number, from 1 on: eight sober ones, and past these some of every hue."""
    if number <= len(_SOBER):
        return _SOBER[number - 1]
    hue = number * 137.508 % 360
    return f"rgb({_tint(hue, 0)},{_tint(hue, 120)},{_tint(hue, 240)})"


def _tint(hue: float, own: float) -> int:
    """One part of the colour of a hue, in degrees: most at its own angle, least on the other side."""
    away = abs(hue - own)
    away = min(away, 360 - away)
    return int(60 + (110 if away < 60 else 110 * (120 - away) / 60 if away < 120 else 0))


def text_width(words: str) -> int:
    """How wide words are at the usual size, in a wide font."""
    return 7 * len(words)


class Picture:
    """A picture on white, so that it is the same on a dark page; it says in words what it shows.

    Attributes are named as SVG names them, with `_` for `-` and behind a word that Python keeps (`class_`). Numbers have
    at most one decimal; what needs more is given as text.
    """

    def __init__(self, width: float, height: float, title: str, description: str) -> None:
        self._lines = ['<?xml version="1.0" encoding="UTF-8"?>']
        self._open(
            "svg",
            {
                "xmlns": "http://www.w3.org/2000/svg",
                "width": width,
                "height": height,
                "viewBox": f"0 0 {place(width)} {place(height)}",
                "role": "img",
                "aria_labelledby": "title desc",
                "font_family": "Helvetica, Arial, 'DejaVu Sans', sans-serif",
                "font_size": "12",
            },
        )
        self._words("title", title, {"id": "title"})
        self._words("desc", description, {"id": "desc"})
        self.tag("rect", width="100%", height="100%", fill=PAPER)

    def tag(self, name: str, **look: Value) -> None:
        """A tag with nothing in it."""
        self._lines.append(f"<{name}{_attributes(look)}/>")

    @contextlib.contextmanager
    def group(self, **look: Value) -> Iterator[None]:
        """What is drawn in the block is a group with these attributes."""
        self._open("g", look)
        yield
        self._lines.append("</g>")

    def clip(self, name: str, x: float, y: float, width: float, height: float) -> None:
        """A rectangle that a group may be cut to: `clip_path=f"url(#{name})"`."""
        rect = f"<rect{_attributes({'x': x, 'y': y, 'width': width, 'height': height})}/>"
        self._lines.append(f"<clipPath{_attributes({'id': name})}>{rect}</clipPath>")

    def line(self, start: tuple[float, float], end: tuple[float, float], **look: Value) -> None:
        """A straight line from one place to another."""
        self.tag("line", x1=start[0], y1=start[1], x2=end[0], y2=end[1], **look)

    def path(self, steps: Iterable[str], **look: Value) -> None:
        """A path with its steps on lines of their own, so that no line is long."""
        self.tag("path", **look, d="".join(["\n", *(f"{step}\n" for step in steps)]))

    def text(self, x: float, y: float, words: str, **look: Value) -> None:
        """Words that begin at a place, or are about it by `text_anchor`."""
        self._words("text", words, {"x": x, "y": y, **look})

    def label(self, x: float, y: float, words: str, ink: str = INK, **look: Value) -> None:
        """Words over a drawing, on a white rim that keeps them legible."""
        rim: dict[str, Value] = {"fill": "none", "stroke": PAPER, "stroke_width": 4, "stroke_linejoin": "round"}
        self.text(x, y, words, **look, **rim)
        self.text(x, y, words, **look, fill=ink)

    def finish(self) -> str:
        """The whole picture as text."""
        return "\n".join([*self._lines, "</svg>", ""])

    def _open(self, name: str, look: dict[str, Value]) -> None:
        self._lines.append(f"<{name}{_attributes(look)}>")

    def _words(self, name: str, words: str, look: dict[str, Value]) -> None:
        self._lines.append(f"<{name}{_attributes(look)}>{_escaped(words)}</{name}>")


def _attributes(look: dict[str, Value]) -> str:
    return "".join(f' {_name(name)}="{_escaped(_text(value))}"' for name, value in look.items())


def _name(name: str) -> str:
    return name.rstrip("_").replace("_", "-")


def _text(value: Value) -> str:
    return value if isinstance(value, str) else place(value)


def _escaped(text: str) -> str:
    return escape(text, quote=False).replace("\"", "&quot;")
