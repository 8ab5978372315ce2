"""Networks that look like roads: towns, villages, main roads between them, and rush hours on these.

Junctions gather in towns. Of their Delaunay triangulation the longest side of each triangle goes (what is left is
connected, planar, and has some 2.5 neighbours a junction); long links are chains of pieces. Main roads are the shortest
ways between the largest towns: quicker than others, and slow in two rush hours.
"""

from __future__ import annotations

from dataclasses import dataclass
from typing import Any, TypeAlias

import igraph
import numpy as np
import numpy.typing as npt
from shapely.geometry import MultiPoint
from shapely.ops import triangulate

from catchup.replies import Piece
from catchup.tables import Ints, Network, Nodes, ProfilePool, Profiles, Roads

Floats: TypeAlias = npt.NDArray[np.float64]

_JUNCTIONS = 0.65
_METRES_APART = 200.0
_IN_TOWNS = 0.7
# Metres a second.
_LOCAL, _MAIN = 9.0, 20.0
_PATTERNS = 64


@dataclass(frozen=True)
class _Links:
    """Streets between junctions, either way: their ends int64[k, 2], metres float64[k], and whether they are main."""

    ends: Ints
    metres: Floats
    is_main: npt.NDArray[np.bool_]


def make_network(size: int, seed: int = 1) -> Network:
    """A network of about `size` nodes (20 or more); the same for the same size and seed."""
    draw = np.random.default_rng([seed, size])
    places, towns = _places(max(12, round(size * _JUNCTIONS)), draw)
    ends = _streets(places)
    metres = np.hypot(*(places[ends[:, 0]] - places[ends[:, 1]]).T)
    links = _Links(ends, metres, _main(len(places), ends, metres, towns))
    places, tail, head, link = _chains(places, links, max(0, size - len(places)), draw)
    number = _by_place(places)
    place = np.empty_like(places)
    place[number] = places
    roads = _roads(places, tail, head, links.is_main[link], number, draw)
    return Network(Nodes(*np.round(place - place.min(axis=0)).astype(np.int64).T), *roads)


def _places(count: int, draw: np.random.Generator) -> tuple[Floats, Ints]:
    """Places of junctions in whole metres, float64[n, 2], rising, and the junction in the middle of each larger town."""
    side = _METRES_APART * np.sqrt(count)
    towns = max(4, count // 150)
    share = 1 / np.arange(1, towns + 1)
    sizes = np.maximum(2, share / share.sum() * count * _IN_TOWNS).astype(np.int64)
    centres = draw.random((towns, 2)) * side
    spread = np.sqrt(sizes)[:, None] * _METRES_APART / 5
    of_town = np.repeat(np.arange(towns), sizes)
    inside = centres[of_town] + draw.normal(size=(len(of_town), 2)) * spread[of_town]
    around = draw.random((max(0, count - len(inside)), 2)) * side
    least = min(0.0, float(inside.min()))
    both: Floats = np.concatenate([inside, around])
    places = np.unique(np.round(both - least), axis=0)
    hubs = max(3, round(np.sqrt(count) / 6))
    middle = [int(np.argmin(((places - centre) ** 2).sum(axis=1))) for centre in centres[:hubs] - least]
    return places, np.unique(middle)


def _streets(places: Floats) -> Ints:
    """The links: sides of the triangulation that are the longest of none of their triangles. int64[k, 2]."""
    triangles = np.array([triangle.exterior.coords[:3] for triangle in triangulate(MultiPoint(places))])
    corners = np.searchsorted(_keys(places), _keys(triangles))
    sides = np.stack([corners[:, [0, 1]], corners[:, [1, 2]], corners[:, [2, 0]]], axis=1)
    length = np.hypot(*(places[sides[..., 0]] - places[sides[..., 1]]).transpose(2, 0, 1))
    sides.sort(axis=2)
    keys = sides[..., 0] * len(places) + sides[..., 1]
    longest = keys[np.arange(len(keys)), length.argmax(axis=1)]
    left = np.setdiff1d(keys, longest)
    return np.stack([left // len(places), left % len(places)], axis=1)


def _keys(places: Floats) -> Floats:
    """A number for each place, float64[..] of float64[.., 2], which rises as places do."""
    return places[..., 0] * 2.0**26 + places[..., 1]


def _main(nodes: int, ends: Ints, metres: Floats, towns: Ints) -> npt.NDArray[np.bool_]:
    """Which links lie on the shortest ways from the towns to the three towns next to each."""
    graph = igraph.Graph(nodes, ends.tolist())
    away = np.array(graph.distances(towns.tolist(), towns.tolist(), weights=metres))
    is_main = np.zeros(len(ends), bool)
    for town, row in zip(towns.tolist(), away):
        nearest = towns[np.argsort(row)[1:4]].tolist()
        for links in graph.get_shortest_paths(town, nearest, weights=metres, output="epath"):
            is_main[links] = True
    return is_main


def _chains(places: Floats, links: _Links, more: int, draw: np.random.Generator) -> tuple[Floats, Ints, Ints, Ints]:
    """Cuts the longest links into pieces, so that there are about `more` nodes more. Returns all places, both ends of
    each piece, and its link."""
    low, high = 1.0, float(links.metres.max()) + 1
    for _ in range(40):
        step = (low + high) / 2
        low, high = (step, high) if np.floor(links.metres / step).sum() > more else (low, step)
    inner = np.floor(links.metres / high).astype(np.int64)
    link = np.repeat(np.arange(len(inner)), inner + 1)
    step = np.arange(len(link)) - np.repeat(np.cumsum(inner + 1) - inner - 1, inner + 1)
    begin, end = places[links.ends[link, 0]], places[links.ends[link, 1]]
    share = ((step + 1) / (inner[link] + 1))[:, None]
    bent = begin + (end - begin) * share + draw.normal(size=begin.shape) * (links.metres[link] / 40)[:, None]
    is_last = step == inner[link]
    node = len(places) + np.cumsum(~is_last) - 1
    head = np.where(is_last, links.ends[link, 1], node)
    tail = np.where(step == 0, links.ends[link, 0], np.append(0, node[:-1]))
    return np.concatenate([places, bent[~is_last]]), tail, head, link


def _by_place(places: Floats) -> Ints:
    """A number for each node, so that near nodes have near numbers: by squares of a kilometre."""
    square = np.floor(places / 1000)
    number = np.empty(len(places), np.int64)
    number[np.lexsort((places[:, 1], square[:, 1], square[:, 0]))] = np.arange(len(places))
    return number


def _roads(
    places: Floats, tail: Ints, head: Ints, is_main: npt.NDArray[np.bool_], number: Ints, draw: np.random.Generator
) -> tuple[Roads, Profiles]:
    """The roads, both ways of each piece, sorted by where they begin, and their profiles."""
    metres = np.hypot(*(places[tail] - places[head]).T)
    seconds = np.maximum(1, np.round(metres / np.where(is_main, _MAIN, _LOCAL))).astype(np.int64)
    pattern = np.where(is_main, draw.integers(1, _PATTERNS + 1, (2, len(tail))), 0)
    tails, heads = number[np.concatenate([tail, head])], number[np.concatenate([head, tail])]
    keys = np.concatenate([seconds, seconds]) * (_PATTERNS + 1) + pattern.ravel()
    shapes, profile = np.unique(keys, return_inverse=True)
    pool = ProfilePool()
    rush = _rush_hours(draw)
    numbers = np.array([pool.add(_pieces(*divmod(int(key), _PATTERNS + 1), rush)) for key in shapes])
    by_tail = np.lexsort((heads, tails))
    columns = (column[by_tail].astype(np.int32) for column in (tails, heads, numbers[profile]))
    return Roads(*columns), pool.profiles()


def _rush_hours(draw: np.random.Generator) -> npt.NDArray[np.float64]:
    """Of each pattern: when the morning's and the evening's rush begin and end, and by how much they slow."""
    morning = 22_800 + 300 * draw.integers(0, 16, _PATTERNS)
    evening = 55_800 + 300 * draw.integers(0, 16, _PATTERNS)
    tide = draw.random(_PATTERNS)
    noon = morning + 300 * draw.integers(12, 28, _PATTERNS)
    night = evening + 300 * draw.integers(16, 34, _PATTERNS)
    columns: list[npt.NDArray[Any]] = [morning, noon, 0.15 + tide, evening, night, 1.15 - tide]
    return np.stack(columns, axis=1)


def _pieces(seconds: int, pattern: int, rush: npt.NDArray[np.float64]) -> tuple[Piece, ...]:
    """The day of a road: the same all day, or with two rush hours, at whose ends who is late arrives with the first who
    isn't held up."""
    pieces = [Piece(0, "travel", seconds)]
    if pattern:
        row = rush[pattern - 1]
        for begin, end, slower in (row[:3], row[3:]):
            more = max(1, round(seconds * slower))
            pieces += [
                Piece(int(begin), "travel", seconds + more),
                Piece(int(end), "until", int(end) + seconds + more),
                Piece(int(end) + more, "travel", seconds),
            ]
    return tuple(pieces)
