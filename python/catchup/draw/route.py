"""Draws the roads around routes, and the routes.

Up to MOST_ROUTES routes have a colour and a number each, and a line is the wider the more of them go there. More are drawn
together, without names, as roads that are the darker the more routes take them.
"""

from __future__ import annotations

from collections import Counter
from dataclasses import dataclass

from catchup.draw import legend
from catchup.draw.frame import Frame
from catchup.draw.marks import Candidate, Directions, Marks
from catchup.draw.replies import Answers, Route
from catchup.draw.svg import CLOSED_ROAD, PAPER, ROAD, ROAD_ALONE, Picture, Value, colour, place
from catchup.draw.tables import Nodes, Roads
from catchup.draw.times import draw_times, take_waits
from catchup.draw.trails import Trails, grain_of
from catchup.draw.words import plural

MOST_ROUTES = 20
MOST_ENTRIES = 60
LEVELS = 5
# Candidates for a route's number.
_PLACES = 80


@dataclass(frozen=True, slots=True)
class _Map:
    """What is drawn: the tables, their part in the frame, and the replies."""

    nodes: Nodes
    roads: Roads
    answers: Answers
    frame: Frame
    grain: float
    road: str
    open: list[int]
    closed: list[int]


def draw_routes(nodes: Nodes, roads: Roads, answers: Answers, *, has_profiles: bool) -> str:
    """The picture: of the roads around the routes, or of all roads where there is no route."""
    used = {road for route in answers.routes for road in route.roads}
    shown = [end for road in used for end in (roads.tail[road], roads.head[road])] if used else range(len(nodes))
    frame = Frame(nodes, shown, 0.14 if used else 0.04)
    near = [road for road, ends in enumerate(zip(roads.tail, roads.head)) if frame.is_near(*ends)]
    open_roads = [road for road in near if road not in roads.closed]
    closed_roads = [road for road in near if road in roads.closed]
    # Roads are pale below routes, and dark where they are all that there is.
    road = ROAD if used else ROAD_ALONE
    seen = _Map(nodes, roads, answers, frame, grain_of(len(near)), road, open_roads, closed_roads)
    if _is_crowded(answers):
        return _draw_together(seen, has_profiles)
    return _draw_each(seen, has_profiles)


def _is_crowded(answers: Answers) -> bool:
    """Whether there are too many replies for a colour, a number and an entry each."""
    return len(answers.routes) > MOST_ROUTES or len(answers.entries) > MOST_ENTRIES


# ---- few routes ----


def _draw_each(seen: _Map, has_profiles: bool) -> str:
    answers, frame = seen.answers, seen.frame
    widths = _Widths(seen.roads, answers.routes)
    entries = legend.Entries(answers.entries, frame)
    words = [f"Reply {number}: {legend.words_of(entry)}." for number, entry in enumerate(answers.entries, start=1)]
    picture = _begin(seen, entries.right, entries.bottom, [_counts(seen, has_profiles), *words])
    with frame.clipped(picture):
        _draw_roads(picture, seen)
        _draw_lines(picture, seen, widths)
    _draw_marks(picture, seen, widths)
    legend.draw_key(picture, frame, _signs(seen, widths.most))
    entries.draw(picture)
    return picture.finish()


class _Widths:
    """How wide each route is along each street: wider by `rim` for each later one there, which is drawn over it, so that a
    line's width says how many routes go there, and each of them is seen."""

    def __init__(self, roads: Roads, routes: list[Route]) -> None:
        self._roads = roads
        self._later: dict[tuple[int, tuple[int, int]], int] = {}
        self._takers: Counter[tuple[int, int]] = Counter()
        for i in range(len(routes) - 1, -1, -1):
            for street in dict.fromkeys(_street(roads, road) for road in routes[i].roads):
                self._later[i, street] = self._takers[street]
                self._takers[street] += 1
        self.most = max(self._takers.values(), default=0)
        self._rim: float = 9 / (self.most - 1) if self.most > 4 else 3

    def width(self, i: int, road: int) -> float:
        """The width of the route of this place among the routes, along a road of it."""
        return 4 + self._rim * self._later[i, _street(self._roads, road)]

    def is_alone(self, road: int) -> bool:
        """Whether one route alone goes along a road."""
        return self._takers[_street(self._roads, road)] == 1


def _street(roads: Roads, road: int) -> tuple[int, int]:
    """A road's ends: those of the road back are the same."""
    tail, head = roads.tail[road], roads.head[road]
    return (tail, head) if tail < head else (head, tail)


def _draw_lines(picture: Picture, seen: _Map, widths: _Widths) -> None:
    with picture.group(id="routes", fill="none", stroke_linejoin="round", stroke_linecap="round"):
        for i, route in enumerate(seen.answers.routes):
            with picture.group(class_="route", stroke=colour(route.reply)):
                _draw_line(picture, seen, widths, i)


def _draw_line(picture: Picture, seen: _Map, widths: _Widths, i: int) -> None:
    """A route in pieces of one width each."""
    steps: list[str] = []
    width = 0.0
    for road in seen.answers.routes[i].roads:
        if not steps or widths.width(i, road) != width:
            if steps:
                picture.tag("path", stroke_width=width, d="".join(steps))
            width = widths.width(i, road)
            steps = [f"M{_spot(seen.frame, seen.roads.tail[road])}\n"]
        steps.append(f"L{_spot(seen.frame, seen.roads.head[road])}\n")
    picture.tag("path", stroke_width=width, d="".join(steps))


def _spot(frame: Frame, node: int) -> str:
    x, y = frame.at(node)
    return f"{place(x)} {place(y)}"


def _draw_marks(picture: Picture, seen: _Map, widths: _Widths) -> None:
    roads, routes = seen.roads, seen.answers.routes
    directions = Directions(seen.nodes)
    starts, ends = set(), set()
    for route in routes:
        start, end = roads.tail[route.roads[0]], roads.head[route.roads[-1]]
        directions.add(start, roads.head[route.roads[0]])
        directions.add(end, roads.tail[route.roads[-1]])
        starts.add(start)
        ends.add(end)
    marks = Marks(picture, seen.frame, directions)
    for node in sorted(starts | ends):
        if node in ends:
            marks.square(node)
        if node in starts:
            marks.ring(node)
        marks.take(node)
    take_waits(marks, roads, routes)
    for road in dict.fromkeys(road for route in routes for road in route.roads):
        marks.line(roads.tail[road], roads.head[road])
    for node in sorted(starts | ends):
        marks.name(node, f"node {node}")
    with picture.group(id="numbers"):
        for route in routes:
            _draw_number(marks, seen, widths, route)
    draw_times(picture, marks, seen.frame, seen.roads, directions, routes)


def _draw_number(marks: Marks, seen: _Map, widths: _Widths, route: Route) -> None:
    """The number of a route, in the middle of a road: where this route alone goes, and near the middle of it."""
    count = len(route.roads)
    places = []
    for k in range(0, count, count // _PLACES + 1):
        road = route.roads[k]
        (ax, ay), (bx, by) = seen.frame.at(seen.roads.tail[road]), seen.frame.at(seen.roads.head[road])
        off = abs((k + 1) / (count + 1) - 0.5)
        places.append(Candidate(((ax + bx) / 2, (ay + by) / 2), off, widths.is_alone(road)))
    marks.number(places, route.reply, colour(route.reply))


# ---- many routes ----


def _draw_together(seen: _Map, has_profiles: bool) -> str:
    answers, frame = seen.answers, seen.frame
    takers = _takers(seen)
    steps = _level_steps(max(takers.values(), default=0))
    trails = [Trails(seen.grain) for _ in range(LEVELS)]
    for (a, b), count in takers.items():
        level = next(level for level in range(LEVELS) if count <= steps[level] or level == LEVELS - 1)
        trails[level].join(trails[level].point(frame.at(a)), trails[level].point(frame.at(b)))
    lines = [list(each.lines()) for each in trails]
    shades = [legend.Shade(_level_words(steps, level), _opacity(level), bool(lines[level])) for level in range(LEVELS)]
    sums = legend.Sums(answers, shades, frame)
    picture = _begin(seen, sums.right, sums.bottom, [_counts(seen, has_profiles), *(f"{line}." for line in sums.lines)])
    with frame.clipped(picture):
        _draw_roads(picture, seen)
        look: dict[str, Value] = {"stroke": colour(1), "stroke_width": 1.6 / seen.grain, "stroke_linejoin": "round"}
        with picture.group(id="used", transform=f"scale({seen.grain:g})", fill="none", **look):
            for level in range(LEVELS):
                if lines[level]:
                    picture.path(lines[level], stroke_opacity=f"{_opacity(level):g}")
    legend.draw_key(picture, frame, _signs(seen, 0))
    sums.draw(picture)
    return picture.finish()


def _takers(seen: _Map) -> dict[tuple[int, int], int]:
    """How many times routes go along each street, both directions together, in the order of its first road."""
    times = Counter(road for route in seen.answers.routes for road in route.roads)
    takers: Counter[tuple[int, int]] = Counter()
    for road in sorted(times):
        takers[_street(seen.roads, road)] += times[road]
    return takers


def _level_steps(most: int) -> list[int]:
    """The most takers of a street on each level: each level has as many times more than the one before."""
    steps = []
    count = 1
    for level in range(1, LEVELS):
        while (count + 1) ** LEVELS <= most**level:
            count += 1
        steps.append(count)
    return [*steps, most]


def _level_words(steps: list[int], level: int) -> str:
    first = 1 if level == 0 else steps[level - 1] + 1
    last = steps[level]
    return f"{first} to {last} routes" if first != last else "1 route" if first == 1 else f"{first} routes"


def _opacity(level: int) -> float:
    return 0.25 + 0.75 * level / (LEVELS - 1)


# ---- both ----


def _begin(seen: _Map, right: float, bottom: float, sentences: list[str]) -> Picture:
    """The picture with its head, right and low enough for the map and a legend that ends there."""
    timed = any(route.entered for route in seen.answers.routes) and not _is_crowded(seen.answers)
    title = "Routes on a map of roads" if seen.answers.routes else "A map of roads"
    picture = Picture(right, max(bottom, seen.frame.bottom + 44) + 20, title, " ".join(sentences))
    legend.draw_head(picture, title, legend.head_words(seen.answers, seen.nodes, seen.roads, timed))
    return picture


def _counts(seen: _Map, has_profiles: bool) -> str:
    closed = f" and {plural(len(seen.closed), 'closed road')}" if has_profiles else ""
    routes = plural(len(seen.answers.routes), "route")
    return f"The map shows {plural(len(seen.open), 'road')}{closed}, and {routes}."


def _signs(seen: _Map, most_takers: int) -> legend.Signs:
    routes = seen.answers.routes if most_takers else []
    return legend.Signs(
        road=seen.road,
        routes=bool(routes),
        closed=bool(seen.closed),
        shared=most_takers > 1,
        waits=any(route.waits for route in routes),
    )


def _draw_roads(picture: Picture, seen: _Map) -> None:
    """Open roads and closed ones. Widths are counted in the grain, as the trails are."""
    count = len(seen.open)
    width = 0.5 if count > 12_000 else 1 if count > 2_000 else 1.6
    with picture.group(id="roads", transform=f"scale({seen.grain:g})", fill="none", stroke_linejoin="round"):
        _draw_trails(picture, seen, seen.open, stroke=seen.road, stroke_width=width / seen.grain)
        if seen.road != ROAD:
            # The road back, which may be open, would be dark between the dashes.
            _draw_trails(picture, seen, seen.closed, stroke=PAPER, stroke_width=3 / seen.grain)
        look: dict[str, Value] = {"stroke_width": 2 / seen.grain, "stroke_dasharray": 5 / seen.grain}
        _draw_trails(picture, seen, seen.closed, id="closed", stroke=CLOSED_ROAD, **look)


def _draw_trails(picture: Picture, seen: _Map, roads: list[int], **look: Value) -> None:
    trails = Trails(seen.grain)
    points: dict[int, int] = {}

    def point(node: int) -> int:
        if node not in points:
            points[node] = trails.point(seen.frame.at(node))
        return points[node]

    for road in roads:
        trails.join(point(seen.roads.tail[road]), point(seen.roads.head[road]))
    lines = list(trails.lines())
    if lines:
        picture.path(lines, **look)
