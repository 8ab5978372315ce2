"""Times along routes whose replies say them: when each road is entered, and where one waits."""

from __future__ import annotations

from collections.abc import Iterator, Sequence

from catchup.draw.frame import Frame
from catchup.draw.marks import Directions, Marks, pause
from catchup.draw.replies import Route
from catchup.draw.svg import Picture, colour
from catchup.draw.tables import Roads
from catchup.draw.words import duration, moment

# Times tried along one route, spread over it.
_MOST_TIMES = 60
# How far a time keeps away from other marks: at the ends of a route less, since these times matter most.
_END_GAP, _GAP = 2, 12


def take_waits(marks: Marks, roads: Roads, routes: Sequence[Route]) -> None:
    """Keeps the places of waits free of names and numbers."""
    for node in {roads.tail[route.roads[k]] for route in routes for k, _ in route.waits}:
        marks.take(node)


def draw_times(
    picture: Picture, marks: Marks, frame: Frame, roads: Roads, directions: Directions, routes: Sequence[Route]
) -> None:
    """Marks each wait, and writes beside nodes when a route comes there, as far as there is room: waits first, then ends,
    then the nodes between, the middle ones first."""
    timed = [route for route in routes if route.entered]
    if not timed:
        return
    for route in timed:
        for k in range(1, len(route.roads)):
            node = roads.tail[route.roads[k]]
            directions.add(node, roads.tail[route.roads[k - 1]])
            directions.add(node, roads.head[route.roads[k]])
    waits: list[tuple[int, str, str]] = []
    with picture.group(id="waits"):
        for route in timed:
            for k, seconds in route.waits:
                node = roads.tail[route.roads[k]]
                pause(picture, frame.at(node), colour(route.reply))
                waits.append((node, f"waits {duration(seconds)}", colour(route.reply)))
    with picture.group(id="times", font_size="11"):
        for node, words, ink in waits:
            marks.time(node, words, ink)
        for number in range(_MOST_TIMES):
            for route in timed:
                _draw_time(marks, roads, route, number)


def _draw_time(marks: Marks, roads: Roads, route: Route, number: int) -> None:
    """Writes the time of this number in the order in which a route's times are written, if there are as many."""
    assert route.entered
    seconds = [*route.entered, route.arrives]
    nodes = [roads.tail[route.roads[0]], *(roads.head[road] for road in route.roads)]
    order = list(_spread(len(nodes)))
    if number < len(order):
        at = order[number]
        gap = _END_GAP if number < 2 else _GAP
        marks.time(nodes[at], moment(seconds[at]), colour(route.reply), gap)


def _spread(count: int) -> Iterator[int]:
    """The numbers below `count`, up to _MOST_TIMES of them: both ends, then what halves each gap, the widest first."""
    gaps = [(0, count - 1)]
    yield from (0, count - 1)
    taken = 2
    while gaps and taken < _MOST_TIMES:
        low, high = gaps.pop(0)
        if high - low < 2:
            continue
        middle = (low + high) // 2
        yield middle
        taken += 1
        gaps += [(low, middle), (middle, high)]
