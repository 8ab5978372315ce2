"""Draws roads in the colours of how soon their nodes are reached, by the reply to an `r` line."""

from __future__ import annotations

from collections import Counter
from collections.abc import Iterator, Sequence
from dataclasses import dataclass

from catchup import clock
from catchup.clock import DAY
from catchup.draw.bands import Bands
from catchup.draw.frame import LEFT, TOP, Frame
from catchup.draw.legend import draw_head
from catchup.draw.marks import Directions, Marks, ring
from catchup.draw.svg import INK, SOFT_INK, Picture, text_width
from catchup.draw.tables import Nodes, Roads
from catchup.draw.trails import Trails, grain_of
from catchup.draw.words import duration, plural
from catchup.errors import Failure

_TITLE = "How soon each node is reached"


@dataclass(frozen=True, slots=True)
class _Reach:
    """How soon each node is reached: the departure, the bands, each node's band, and how many nodes each has. `start` is
    the one node that is reached at once, where there is one such node."""

    leaves: int
    at_once: int
    start: int | None
    latest: int
    bands: Bands
    band_of: list[int]
    counts: Counter[int]

    @property
    def drawn(self) -> Iterator[int]:
        """The bands in the order in which they are drawn: what is reached early comes last, over the others."""
        return iter([0, *range(self.bands.count, 0, -1)])


def draw_reach(nodes: Nodes, roads: Roads, arrivals: Sequence[int | None]) -> str:
    """The picture. Raises Failure where the arrivals aren't a reach of this network."""
    reach = _read(nodes, arrivals)
    frame = Frame(nodes, range(len(nodes)), 0.07)
    grain = grain_of(len(roads))
    words = _head_words(reach, len(nodes))
    legend = _Legend(reach, frame, words)
    picture = Picture(legend.right, max(legend.bottom, frame.bottom + 44) + 12, _TITLE, _description(reach, words))
    draw_head(picture, _TITLE, words)
    with frame.clipped(picture):
        width = 1 if len(roads) > 12_000 else 2 if len(roads) > 2_000 else 3
        look = {"transform": f"scale({grain:g})", "fill": "none"}
        with picture.group(id="roads", **look, stroke_width=width / grain, stroke_linejoin="round"):
            _draw_roads(picture, reach, frame, roads, grain)
        width = 2 if len(nodes) > 20_000 else 3 if len(nodes) > 5_000 else 5 if len(nodes) > 800 else 9
        with picture.group(id="nodes", **look, stroke_width=width / grain, stroke_linecap="round"):
            _draw_nodes(picture, reach, frame, grain)
    if reach.start is not None:
        _draw_start(picture, frame, nodes, roads, reach.start)
    _draw_key(picture, frame, reach.start is not None)
    legend.draw(picture)
    return picture.finish()


def _read(nodes: Nodes, arrivals: Sequence[int | None]) -> _Reach:
    """The start is reached at once, so the least arrival is the departure, which is a second of the day."""
    if len(arrivals) != len(nodes):
        raise Failure(f"the reply is of {plural(len(arrivals), 'node')}, and the table has {len(nodes)}")
    reached = [arrival for arrival in arrivals if arrival is not None]
    if not reached:
        raise Failure("the reply reaches no node, not even its start")
    leaves, latest = min(reached), max(reached)
    if leaves >= DAY:
        raise Failure(f"the reply's least arrival must be a second of the day: {leaves}")
    at_once = reached.count(leaves)
    bands = Bands(arrival - leaves for arrival in reached)
    band_of = [bands.band(None if arrival is None else arrival - leaves) for arrival in arrivals]
    start = arrivals.index(leaves) if at_once == 1 else None
    return _Reach(leaves, at_once, start, latest, bands, band_of, Counter(band_of))


def _head_words(reach: _Reach, nodes: int) -> str:
    start = f"node {reach.start} " if reach.start is not None else ""
    at_once = f", {reach.at_once} nodes at once" if reach.at_once > 1 else ""
    reached = nodes - reach.counts[0]
    how_many = "all" if reached == nodes else f"{reached} of"
    return (
        f"leaving {start}at {clock.clock(reach.leaves)}{at_once}: {how_many} {plural(nodes, 'node')} reached,"
        f" the last after {duration(reach.latest - reach.leaves)}"
    )


def _description(reach: _Reach, words: str) -> str:
    bands = [band for band in [*range(1, reach.bands.count + 1), 0] if reach.counts[band]]
    lines = [f"{reach.bands.words(band)}: {plural(reach.counts[band], 'node')}." for band in bands]
    return " ".join([f"{words}.", *lines])


def _draw_roads(picture: Picture, reach: _Reach, frame: Frame, roads: Roads, grain: float) -> None:
    """Each road in its ends' colours, up to its middle."""
    of_band: dict[int, list[tuple[int, int]]] = {}
    for a, b in zip(roads.tail, roads.head):
        for band in {reach.band_of[a], reach.band_of[b]}:
            of_band.setdefault(band, []).append((a, b))
    for band in reach.drawn:
        trails = Trails(grain)
        for a, b in reversed(of_band.get(band, [])):
            at, to = frame.at(a), frame.at(b)
            if reach.band_of[a] == reach.band_of[b]:
                trails.join(trails.point(at), trails.point(to))
            else:
                middle = (at[0] + to[0]) / 2, (at[1] + to[1]) / 2
                trails.join(trails.point(at if reach.band_of[a] == band else to), trails.point(middle))
        lines = list(trails.lines())
        if lines:
            picture.path(lines, stroke=reach.bands.colour(band))


def _draw_nodes(picture: Picture, reach: _Reach, frame: Frame, grain: float) -> None:
    """A dot for each place with nodes of a band."""
    trails = {band: Trails(grain) for band in reach.drawn}
    for node, band in enumerate(reach.band_of):
        trails[band].point(frame.at(node))
    for band in reach.drawn:
        if reach.counts[band]:
            picture.path(trails[band].places(), stroke=reach.bands.colour(band))


def _draw_start(picture: Picture, frame: Frame, nodes: Nodes, roads: Roads, start: int) -> None:
    """The start, and its name away from its roads."""
    directions = Directions(nodes)
    for a, b in zip(roads.tail, roads.head):
        if a == start:
            directions.add(start, b)
        if b == start:
            directions.add(start, a)
    marks = Marks(picture, frame, directions)
    marks.ring(start)
    marks.take(start)
    marks.name(start, f"node {start}")


def _draw_key(picture: Picture, frame: Frame, has_start: bool) -> None:
    line = frame.bottom + 22
    with picture.group(id="key", fill=SOFT_INK):
        frame.draw_stretch(picture)
        if has_start:
            ring(picture, (LEFT + 6, line + 20))
            picture.text(LEFT + 18, line + 24, "start")


class _Legend:
    """A line for each band right of the map, and one for nodes that aren't reached."""

    def __init__(self, reach: _Reach, frame: Frame, head: str) -> None:
        self._reach = reach
        self._left = frame.right + 28
        bands = [band for band in range(reach.bands.count + 1) if band or reach.counts[0]]
        words = max(text_width(reach.bands.words(band)) for band in bands)
        counts = max(text_width(plural(reach.counts[band], "node")) for band in bands)
        self._counts_right = self._left + 36 + words + 16 + counts
        self.bottom = TOP + 24 * (reach.bands.count + 1) + (32 if reach.counts[0] else 0)
        self.right = max(self._counts_right + 20, LEFT + text_width(head) + 20)

    def draw(self, picture: Picture) -> None:
        line = TOP + 12
        with picture.group(id="legend", fill=INK):
            picture.text(self._left, line, "minutes to get there", font_weight="bold", font_size="13")
            for band in range(1, self._reach.bands.count + 1):
                line += 24
                self._draw_band(picture, line, band)
            if self._reach.counts[0]:
                self._draw_band(picture, line + 32, 0)

    def _draw_band(self, picture: Picture, line: float, band: int) -> None:
        bands, count = self._reach.bands, self._reach.counts[band]
        picture.tag("rect", x=self._left, y=line - 11, width=24, height=14, fill=bands.colour(band))
        picture.text(self._left + 36, line, bands.words(band))
        picture.text(self._counts_right, line, plural(count, "node"), fill=SOFT_INK, text_anchor="end")
