"""What stands around a map of routes: the head, what the marks mean, and an entry for each reply, or sums of many."""

from __future__ import annotations

from collections.abc import Callable, Iterable, Sequence
from dataclasses import dataclass

from catchup import clock
from catchup.draw import marks
from catchup.draw.frame import LEFT, TOP, Frame
from catchup.draw.replies import Answers, Route
from catchup.draw.svg import CLOSED_ROAD, INK, NO_ROUTE, SOFT_INK, Picture, colour, text_width
from catchup.draw.tables import Nodes, Roads
from catchup.draw.words import duration, plural

_COLUMNS = 4


def draw_head(picture: Picture, title: str, words: str) -> None:
    """The title and a line below it."""
    picture.text(LEFT, 30, title, font_size="17", font_weight="bold", fill=INK)
    picture.text(LEFT, 50, words, fill=SOFT_INK)


def head_words(answers: Answers, nodes: Nodes, roads: Roads, timed: bool) -> str:
    """How many replies and routes there are, and what times on the map say; of a map alone how many nodes and roads."""
    if not answers.entries:
        closed = f", {plural(len(roads.closed), 'closed road')}" if roads.closed else ""
        return f"{plural(len(nodes), 'node')}, {plural(len(roads), 'road')}{closed}"
    times = "; times on the map say when one gets there" if timed else ""
    return f"{plural(len(answers.entries), 'reply')}, {plural(len(answers.routes), 'route')}{times}"


def words_of(entry: Route | str) -> str:
    """A reply in words."""
    return entry if isinstance(entry, str) else f"{_times(entry)}, {_route_words(entry)}"


def _times(route: Route) -> str:
    leaves = "" if route.leaves is None else f"leaves {clock.clock(route.leaves)}, "
    return f"{leaves}arrives {clock.clock(route.arrives)}"


def _route_words(route: Route) -> str:
    words = [] if route.leaves is None else [duration(route.arrives - route.leaves)]
    waits = sum(seconds for _, seconds in route.waits)
    if waits:
        words.append(f"{duration(waits)} of it waiting")
    if not route.roads:
        return ", ".join([*words, "no road"])
    return ", ".join([*words, plural(len(route.roads), "road"), f"node {route.start} to {route.end}"])


# ---- below the map ----


@dataclass(frozen=True, slots=True)
class Signs:
    """What the map has that a line below it explains."""

    road: str
    routes: bool
    closed: bool
    shared: bool
    waits: bool


def draw_key(picture: Picture, frame: Frame, signs: Signs) -> None:
    """How long a stretch of the plane is, and what the marks mean."""
    with picture.group(id="key", fill=SOFT_INK):
        frame.draw_stretch(picture)
        _draw_signs(picture, frame.bottom + 46, signs)


def _draw_signs(picture: Picture, line: float, signs: Signs) -> None:
    at = LEFT + 6
    if signs.routes:
        marks.ring(picture, (at, line - 4))
        picture.text(at + 12, line, "start")
        marks.square(picture, (at + 66, line - 4))
        picture.text(at + 78, line, "end")
        at += 124
    picture.line((at, line - 4), (at + 24, line - 4), stroke=signs.road, stroke_width="2.5")
    picture.text(at + 30, line, "road")
    at += 74
    if signs.closed:
        picture.line((at, line - 4), (at + 26, line - 4), stroke=CLOSED_ROAD, stroke_width=2, stroke_dasharray="5 5")
        picture.text(at + 32, line, "closed road")
        at += 112
    if signs.waits:
        marks.pause(picture, (at + 6, line - 4), SOFT_INK)
        picture.text(at + 18, line, "wait")
        at += 58
    if signs.shared:
        picture.text(at, line, "a wider line: more routes")


# ---- beside the map ----


class Entries:
    """An entry for each reply, right of the map, in as many columns as it needs, up to four."""

    def __init__(self, entries: Sequence[Route | str], frame: Frame) -> None:
        self._entries = entries
        width = max(map(_entry_width, entries), default=0)
        height = max(sum(map(_entry_height, entries)) / _COLUMNS + 42, frame.height)
        self._places: list[tuple[float, float]] = []
        line: float = 0
        column = 0
        for entry in entries:
            if line + _entry_height(entry) > height:
                column += 1
                line = 0
            self._places.append((frame.right + 28 + width * column, TOP + line))
            line += _entry_height(entry)
        self.bottom = TOP + height
        self.right = frame.right + (28 + width * (column + 1) if entries else 20)

    def draw(self, picture: Picture) -> None:
        with picture.group(id="legend", fill=INK):
            for number, (entry, at) in enumerate(zip(self._entries, self._places), start=1):
                _draw_entry(picture, number, entry, at)


def _entry_height(entry: Route | str) -> float:
    return 28 if isinstance(entry, str) else 42


def _entry_width(entry: Route | str) -> float:
    if isinstance(entry, str):
        return 28 + text_width(entry) + 16
    return 28 + max(text_width(_route_words(entry)), 1.15 * text_width(_times(entry))) + 16


def _draw_entry(picture: Picture, number: int, entry: Route | str, at: tuple[float, float]) -> None:
    x, y = at
    has_place = isinstance(entry, Route) and entry.start is not None
    marks.disk(picture, (x + 10, y + 10), number, colour(number) if has_place else NO_ROUTE)
    if isinstance(entry, str):
        picture.text(x + 28, y + 14, entry)
        return
    picture.text(x + 28, y + 14, _times(entry), font_weight="bold", font_size="13")
    picture.text(x + 28, y + 29, _route_words(entry), fill=SOFT_INK)


@dataclass(frozen=True, slots=True)
class Shade:
    """How dark the roads are that so many routes take."""

    words: str
    opacity: float
    is_used: bool


class Sums:
    """The lines of a legend of many replies: how many there are of each kind, and from when to when."""

    def __init__(self, answers: Answers, shades: Sequence[Shade], frame: Frame) -> None:
        self._left = frame.right + 28
        self._shades = shades
        self.lines = _sum_lines(answers)
        width = max(map(text_width, self.lines))
        if answers.routes:
            width = max(width, text_width(shades[-1].words) + 40)
        self.bottom = TOP + 20 * (len(self.lines) + len(shades) + 2)
        self.right = self._left + width + 20

    def draw(self, picture: Picture) -> None:
        with picture.group(id="legend", fill=INK):
            line = TOP + 12
            for i, words in enumerate(self.lines):
                if i == 0:
                    picture.text(self._left, line, words, font_weight="bold", font_size="13")
                else:
                    picture.text(self._left, line, words)
                line += 20
            line += 12
            for shade in self._shades:
                if shade.is_used:
                    ends = (self._left, line - 4), (self._left + 30, line - 4)
                    picture.line(*ends, stroke=colour(1), stroke_width="1.6", stroke_opacity=f"{shade.opacity:g}")
                    picture.text(self._left + 40, line, shade.words)
                    line += 20


def _sum_lines(answers: Answers) -> list[str]:
    routes = answers.answered
    left = [route for route in routes if route.leaves is not None]
    lines = [plural(len(answers.routes), "route")]
    lines += [f"{kind}: {count}" for kind, count in answers.kinds.items()]
    lines += _range("leaving", (route.leaves for route in left if route.leaves is not None), clock.clock)
    lines += _range("arriving", (route.arrives for route in routes), clock.clock)
    lines += _range("taking", (route.arrives - (route.leaves or 0) for route in left), duration)
    return lines + _range("roads of a route:", (len(route.roads) for route in routes), str)


def _range(words: str, numbers: Iterable[int], said: Callable[[int], str]) -> list[str]:
    """The least and the greatest of some numbers in words; nothing where there are none."""
    known = list(numbers)
    if not known:
        return []
    least, greatest = min(known), max(known)
    return [f"{words} {said(least)}" + ("" if least == greatest else f" to {said(greatest)}")]
