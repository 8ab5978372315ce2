"""Draws travel time over departure, from the pieces of a day and the routes that were asked."""

from __future__ import annotations

from collections import Counter
from collections.abc import Iterator
from dataclasses import dataclass

from catchup.clock import DAY
from catchup.draw.asking import Asked
from catchup.draw.svg import AXIS, GRID, INK, OTHERS, PAPER, SOFT_INK, Picture, Value, colour, place, text_width
from catchup.draw.words import duration, moment, plural
from catchup.replies import Day

_PLOT_WIDTH, _PLOT_HEIGHT = 576, 240
_TOP = 102
_BASE = _TOP + _PLOT_HEIGHT
_LEAST_LEFT = 84
MOST_NAMED = 8
_MOST_MARKS = 7
_STEPS = (1, 2, 5, 10, 15, 30, 60, 120, 300, 600, 900, 1800, 3600, 7200, 10800, 21600, 43200)
# What words name of routes: roads of one, runs of one in the legend, and runs in the description.
_MOST_ROADS, _MOST_TIMES, _MOST_RUNS = 10, 3, 12


@dataclass(frozen=True, slots=True)
class _Run:
    """A longest row of departures, `first` to `last`, with the same route; `rank` is the route's, from 1 on."""

    first: int
    last: int
    rank: int

    def words(self) -> str:
        return moment(self.first) if self.first == self.last else f"{moment(self.first)} to {moment(self.last)}"


@dataclass(frozen=True, slots=True)
class _Routes:
    """The routes by how long they hold, the longest first, each with its roads and how many seconds it holds."""

    runs: list[_Run]
    roads: list[tuple[int, ...]]
    held: list[int]

    def name(self, rank: int) -> str:
        """A route by its rank and roads, or by how many they are where there are many."""
        roads = self.roads[rank - 1]
        if not roads:
            return "no road"
        if len(roads) > _MOST_ROADS:
            return f"route {rank}, {len(roads)} roads"
        return f"route {rank}, {'road' if len(roads) == 1 else 'roads'} {' '.join(map(str, roads))}"

    def line(self, rank: int) -> str:
        """A route's name, how long it holds, and when: its first runs, and how many more there are."""
        if len(self.roads) == 1:
            return f"{self.name(rank)}: all day"
        runs = [run.words() for run in self.runs if run.rank == rank]
        more = f" and {len(runs) - _MOST_TIMES} more" if len(runs) > _MOST_TIMES else ""
        return f"{self.name(rank)}, {duration(self.held[rank - 1])}: {', '.join(runs[:_MOST_TIMES])}{more}"


def draw_day(asked: Asked, start: int, end: int, every: int) -> str:
    """The picture of a day from node `start` to node `end`, whose routes were asked at each `every` seconds too."""
    curve = _Curve(asked.day)
    routes = _find_routes(asked.routes)
    plot = _Plot(curve)
    lines = [routes.line(rank) for rank in range(1, min(len(routes.roads), MOST_NAMED) + 1)]
    head = [curve.extremes(), _how_asked(every, plot.bottom)]
    width = max([_PLOT_WIDTH, *map(text_width, head), *(36 + text_width(line) for line in lines)])
    others = routes.held[MOST_NAMED:]
    first_line = _BASE + 66
    height = first_line + 20 * (len(lines) + bool(others)) + 4
    title = f"Travel time from node {start} to node {end} over the day"
    picture = Picture(plot.left + width + 28, height, title, _description(curve, routes))
    picture.text(plot.left, 30, title, font_size="17", font_weight="bold", fill=INK)
    for line, words in zip((50, 66), head):
        picture.text(plot.left, line, words, fill=SOFT_INK)
    plot.draw_axes(picture)
    _draw_curve(picture, plot, curve, routes)
    _draw_extremes(picture, plot, curve)
    with picture.group(id="routes", fill=INK):
        for i, words in enumerate(lines):
            _draw_entry(picture, plot.left, first_line + 20 * i, _colour(i + 1), words)
        if others:
            words = f"{plural(len(others), 'more route')}: {duration(sum(others))} in all"
            _draw_entry(picture, plot.left, first_line + 20 * len(lines), OTHERS, words)
    return picture.finish()


class _Curve:
    """Travel times over the day, and the first second with the least and with the greatest.

    Between corners, the first and the last second of each piece, travel times go straight.
    """

    def __init__(self, day: Day) -> None:
        self._day = day
        ends = [piece.start for piece in day.pieces[1:]] + [DAY]
        self.corners: list[tuple[int, int]] = []
        for piece, end in zip(day.pieces, ends):
            for second in (piece.start, end - 1)[: 2 if end - 1 > piece.start else 1]:
                travel = piece.value if piece.kind == "travel" else piece.value - second
                self.corners.append((second, travel))
        self.least = min(self.corners, key=lambda corner: corner[1])
        self.greatest = max(self.corners, key=lambda corner: corner[1])
        self.is_flat = self.least[1] == self.greatest[1]

    def travel(self, second: int) -> int:
        """How long it takes who leaves at a second."""
        return self._day.arrival(second) - second

    def bends(self) -> list[tuple[int, int]]:
        """The corners but those over which the curve goes straight: a piece may go on where the one before would have
        gone too."""
        return [
            (second, travel)
            for second, travel in self.corners
            if not 0 < second < DAY - 1 or travel - self.travel(second - 1) != self.travel(second + 1) - travel
        ]

    def extremes(self) -> str:
        if self.is_flat:
            return f"always {duration(self.least[1])}"
        (least, least_travel), (greatest, greatest_travel) = self.least, self.greatest
        return f"least {duration(least_travel)} at {moment(least)}, greatest {duration(greatest_travel)} at {moment(greatest)}"


def _find_routes(asked: list[tuple[int, tuple[int, ...]]]) -> _Routes:
    """The runs of the routes, which are ranked by how long they hold, and else by which comes first."""
    changes = [(second, roads) for i, (second, roads) in enumerate(asked) if i == 0 or roads != asked[i - 1][1]]
    lasts = [second - 1 for second, _ in changes[1:]] + [DAY - 1]
    held: Counter[tuple[int, ...]] = Counter()
    for (first, roads), last in zip(changes, lasts):
        held[roads] += last + 1 - first
    ranked = sorted(held, key=lambda roads: -held[roads])
    rank = {roads: number for number, roads in enumerate(ranked, start=1)}
    runs = [_Run(first, last, rank[roads]) for (first, roads), last in zip(changes, lasts)]
    return _Routes(runs, ranked, [held[roads] for roads in ranked])


def _how_asked(every: int, bottom: int) -> str:
    seconds = "each second" if every == 1 else f"corners and each {duration(every)}"
    axis = f"; the axis begins at {duration(bottom)}, not at 0" if bottom else ""
    return f"exact at each second; a colour for each route, asked at {seconds}{axis}"


def _description(curve: _Curve, routes: _Routes) -> str:
    text = f"Travel time over departure, at each second of the day: {curve.extremes()}. "
    if len(routes.roads) == 1:
        return f"{text}One route is the best all day: {routes.name(1)}."
    changes = plural(len(routes.runs) - 1, "time")
    runs = [f" From {moment(run.first)} {routes.name(run.rank)}." for run in routes.runs[:_MOST_RUNS]]
    more = " And so on." if len(routes.runs) > _MOST_RUNS else ""
    return f"{text}The route changes {changes}, among {len(routes.roads)} routes.{''.join(runs)}{more}"


def _colour(rank: int) -> str:
    """Routes that the legend doesn't name are grey."""
    return colour(rank) if rank <= MOST_NAMED else OTHERS


class _Plot:
    """The axes: travel times from `bottom` to `top`, from nought, or from a mark below the least where all are far from
    nought."""

    def __init__(self, curve: _Curve) -> None:
        least, greatest = curve.least[1], curve.greatest[1]
        low = least * 2 - greatest if least > greatest * 0.7 and least != greatest else 0
        self._step = next((step for step in _STEPS if (greatest - low) / step <= _MOST_MARKS), _STEPS[-1])
        while (greatest - low) / self._step > _MOST_MARKS:
            self._step *= 2
        self.bottom = low // self._step * self._step
        self.top = (greatest // self._step + 1) * self._step
        self.left = max([_LEAST_LEFT, *(20 + text_width(duration(mark)) for mark in self._marks())])
        self.right = self.left + _PLOT_WIDTH

    def at(self, second: int, travel: int) -> tuple[float, float]:
        """Where a departure and its travel time are in the picture."""
        x = self.left + second * _PLOT_WIDTH / DAY
        return x, _TOP + _PLOT_HEIGHT * (self.top - travel) / (self.top - self.bottom)

    def draw_axes(self, picture: Picture) -> None:
        self._draw_travel(picture)
        self._draw_departure(picture)
        picture.line((self.left, _BASE), (self.right, _BASE), stroke=AXIS)
        picture.line((self.left, _TOP), (self.left, _BASE), stroke=AXIS)
        look: dict[str, Value] = {"fill": SOFT_INK, "text_anchor": "end"}
        picture.text(self.right, _BASE + 38, "departure", **look)
        picture.text(self.left - 8, _TOP - 12, "travel time", **look)

    def _marks(self) -> range:
        return range(self.bottom, self.top + 1, self._step)

    def _draw_travel(self, picture: Picture) -> None:
        with picture.group(id="travel", fill=SOFT_INK, text_anchor="end"):
            for mark in self._marks():
                _, y = self.at(0, mark)
                picture.line((self.left, y), (self.right, y), stroke=GRID)
                picture.text(self.left - 8, y + 4, duration(mark) if mark else "0")

    def _draw_departure(self, picture: Picture) -> None:
        with picture.group(id="departure", fill=SOFT_INK, text_anchor="middle"):
            for hour in range(25):
                x, _ = self.at(hour * 3600, 0)
                picture.line((x, _BASE), (x, _BASE + (3 if hour % 3 else 6)), stroke=AXIS)
                if hour % 3 == 0:
                    picture.text(x, _BASE + 20, f"{hour:02}:00")


def _draw_curve(picture: Picture, plot: _Plot, curve: _Curve, routes: _Routes) -> None:
    """The curve in the colours of its routes, and the areas below it where the axis begins at nought."""
    points = list(_points(plot, curve, routes))
    if plot.bottom == 0:
        with picture.group(id="areas", fill_opacity="0.13", stroke="none"):
            for run, line in zip(routes.runs, points):
                ends = [f"{place(plot.at(second, 0)[0])},{place(_BASE)}" for second in (run.first, _leads_to(run))]
                picture.tag("polygon", fill=_colour(run.rank), points=" ".join([ends[0], *line, ends[1]]))
    look = {"stroke_width": "2.5", "stroke_linejoin": "round", "stroke_linecap": "round"}
    with picture.group(id="curve", fill="none", **look):
        for run, line in zip(routes.runs, points):
            picture.tag("polyline", stroke=_colour(run.rank), points=" ".join(line))


def _leads_to(run: _Run) -> int:
    """A run's line leads on to the next run's first second, since the route changes in between."""
    return min(run.last + 1, DAY - 1)


def _points(plot: _Plot, curve: _Curve, routes: _Routes) -> Iterator[list[str]]:
    """The points of each run: its ends, and the bends in between; none twice in a row."""
    bends = curve.bends()
    passed = 0
    for run in routes.runs:
        last = _leads_to(run)
        while passed < len(bends) and bends[passed][0] <= run.first:
            passed += 1
        seconds = [(run.first, curve.travel(run.first))]
        at = passed
        while at < len(bends) and bends[at][0] < last:
            seconds.append(bends[at])
            at += 1
        seconds.append((last, curve.travel(last)))
        words = [",".join(map(place, plot.at(*each))) for each in seconds]
        yield [word for i, word in enumerate(words) if i == 0 or word != words[i - 1]]


def _draw_extremes(picture: Picture, plot: _Plot, curve: _Curve) -> None:
    with picture.group(id="marks"):
        _draw_mark(picture, plot, curve.greatest, -12, "always" if curve.is_flat else "greatest")
        if not curve.is_flat:
            is_low = plot.at(*curve.least)[1] > _BASE - 30
            _draw_mark(picture, plot, curve.least, -12 if is_low else 22, "least")


def _draw_mark(picture: Picture, plot: _Plot, corner: tuple[int, int], lower: float, words: str) -> None:
    second, travel = corner
    x, y = plot.at(second, travel)
    words = f"{words} {duration(travel)}" + ("" if words == "always" else f" at {moment(second)}")
    half = text_width(words) / 2
    anchor = "start" if x < plot.left + half else "end" if x > plot.right - half else "middle"
    picture.tag("circle", cx=x, cy=y, r=4.5, fill=PAPER, stroke=INK, stroke_width="1.5")
    # At a side the words keep off the axis.
    picture.label(x + (6 if anchor == "start" else 0), y + lower, words, text_anchor=anchor)


def _draw_entry(picture: Picture, left: float, line: float, stroke: str, words: str) -> None:
    picture.line((left, line - 4), (left + 26, line - 4), stroke=stroke, stroke_width=4)
    picture.text(left + 36, line, words)
