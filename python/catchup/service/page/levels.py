"""Streets in levels: each has the streets of some zooms, cut into tiles, with the points that are told apart there."""

from __future__ import annotations

import struct
from dataclasses import dataclass
from typing import Final

import numpy as np

from catchup.service.page.sheet import ZOOM, Bools, Ints, Sheet, Shorts

TILE: Final = 512
"""Pixels of a tile's side."""
MOST_ZOOM: Final = 14
LEAST_ZOOM: Final = 2
MOST_SEGMENTS: Final = 12_000
"""Of a tile, on the average: a level below the last one leaves out the least roads until it has no more."""
MOST_COPIES: Final = 3
"""Tiles of a segment, on the average: a network of few long roads has no small tiles."""
_HEAD: Final = struct.Struct("<2I")
EMPTY: Final = _HEAD.pack(0, 0)


@dataclass(eq=False)
class Level:
    """The streets of a zoom in t tiles of p pieces: a piece is a part of a street that crosses a tile.

    keys: int64[t], rising: each tile's row times 2**32 and its column. pieces: int64[t + 1], where each tile's pieces
    begin. street: uint32[p]; size: uint16[p], its points; rank: uint8[p]; points: int64[p + 1], where they begin among
    places, int32[k, 2].
    """

    zoom: int
    keys: Ints
    pieces: Ints
    street: np.ndarray[tuple[int], np.dtype[np.uint32]]
    size: np.ndarray[tuple[int], np.dtype[np.uint16]]
    rank: np.ndarray[tuple[int], np.dtype[np.uint8]]
    points: Ints
    places: Shorts

    def tile(self, column: int, row: int) -> bytes:
        """A tile: how many points and pieces it has, its places, and the streets, sizes and ranks of its pieces."""
        key = (row << 32) + column
        at = int(np.searchsorted(self.keys, key))
        if at == len(self.keys) or self.keys[at] != key:
            return EMPTY
        low, high = int(self.pieces[at]), int(self.pieces[at + 1])
        places = self.places[self.points[low]:self.points[high]]
        return b"".join((_HEAD.pack(len(places), high - low), places.tobytes(), self.street[low:high].tobytes(),
                         self.size[low:high].tobytes(), self.rank[low:high].tobytes()))


def levels_of(sheet: Sheet) -> list[Level]:
    """The levels of a sheet, the one of the greatest zoom first, which has all."""
    zoom = last_zoom(sheet)
    found = [cut(sheet, zoom, np.ones(len(sheet.x), dtype=bool), np.ones(len(sheet), dtype=bool))]
    west, north, east, south = sheet.box
    while zoom > LEAST_ZOOM and max(east - west, south - north) >> (ZOOM - zoom) > TILE:
        zoom = max(zoom - 2, LEAST_ZOOM)
        found.append(cut(sheet, zoom, *told_apart(sheet, zoom)))
    return found


def last_zoom(sheet: Sheet) -> int:
    """The least zoom whose tiles have few segments."""
    x, y, is_segment = sheet.x, sheet.y, segments_of(sheet)
    at = np.flatnonzero(is_segment)
    for zoom in range(LEAST_ZOOM, MOST_ZOOM + 1):
        shift = ZOOM - zoom + 9
        tiles = len(np.unique((y[at].astype(np.int64) >> shift << 32) + (x[at] >> shift)))
        if len(at) <= MOST_SEGMENTS * tiles:
            break
    while zoom > LEAST_ZOOM and int(spans(sheet, at, ZOOM - zoom + 9)[0].sum()) > MOST_COPIES * len(at) + MOST_SEGMENTS:
        zoom -= 1
    return zoom


def segments_of(sheet: Sheet) -> Bools:
    """Which points begin a segment: all but the last ones of streets."""
    found = np.ones(len(sheet.x), dtype=bool)
    found[sheet.first[1:] - 1] = False
    return found


def told_apart(sheet: Sheet, zoom: int) -> tuple[Bools, Bools]:
    """Which points and which streets a zoom has: points more than half a pixel apart, and as many of the first streets
    as there is room for."""
    shift = ZOOM - zoom - 1
    cell = (sheet.y.astype(np.int64) >> shift << 32) + (sheet.x >> shift)
    first, last = sheet.first[:-1], sheet.first[1:] - 1
    is_kept = np.append(True, cell[1:] != cell[:-1])
    is_kept[first] = False
    moves = np.add.reduceat(is_kept, first) if len(first) else np.empty(0, dtype=np.int64)
    is_kept[first] = is_kept[last] = True
    there = moves > 0
    tiles = len(np.unique((sheet.y[first].astype(np.int64) >> shift + 10 << 32) + (sheet.x[first] >> shift + 10)))
    counts = np.bincount(sheet.rank[there], weights=moves[there], minlength=8).cumsum()
    most = max(int(np.searchsorted(counts, MOST_SEGMENTS * tiles, side="right")) - 1, int(sheet.rank.min(initial=7)))
    return is_kept, there & (sheet.rank <= most)


def spans(sheet: Sheet, at: Ints, shift: int, to: Ints | None = None) -> tuple[Ints, Ints, Ints, Ints]:
    """How many tiles the box of each segment touches, the first column and row, and how many columns."""
    to = at + 1 if to is None else to
    columns = np.sort(np.stack((sheet.x[at], sheet.x[to])).astype(np.int64) >> shift, axis=0)
    rows = np.sort(np.stack((sheet.y[at], sheet.y[to])).astype(np.int64) >> shift, axis=0)
    wide = columns[1] - columns[0] + 1
    return wide * (rows[1] - rows[0] + 1), columns[0], rows[0], wide


def cut(sheet: Sheet, zoom: int, is_kept: Bools, there: Bools) -> Level:
    """The level of a zoom, of the points and streets that it has."""
    street = np.repeat(np.arange(len(sheet), dtype=np.int64), np.diff(sheet.first))
    kept = np.flatnonzero(is_kept & there[street])
    is_segment = np.append(street[kept[1:]] == street[kept[:-1]], False) if len(kept) else np.empty(0, dtype=bool)
    at, to = kept[is_segment], kept[np.flatnonzero(is_segment) + 1] if len(kept) else kept
    count, column, row, wide = spans(sheet, at, ZOOM - zoom + 9, to)
    which = np.repeat(np.arange(len(at)), count)
    rank = np.arange(len(which)) - np.repeat(np.cumsum(count) - count, count)
    key = (row[which] + rank // wide[which] << 32) + column[which] + rank % wide[which]
    order = np.lexsort((which, key))
    key, which = key[order], which[order]
    begins = np.append(True, (key[1:] != key[:-1]) | (which[1:] != which[:-1] + 1) | (
        street[at[which[1:]]] != street[at[which[:-1]]])) if len(key) else np.empty(0, dtype=bool)
    piece = np.flatnonzero(begins)
    size = np.diff(np.append(piece, len(key))) + 1
    points = np.append(0, np.cumsum(size))
    place = np.empty(int(points[-1]), dtype=np.int64)
    place[np.arange(len(key)) + np.cumsum(begins) - 1] = at[which]
    place[points[1:] - 1] = to[which[np.append(piece[1:], len(key)) - 1]] if len(key) else 0
    keys, first = np.unique(key[piece], return_index=True)
    of = street[at[which[piece]]]
    return Level(zoom, keys, np.append(first, len(piece)), of.astype(np.uint32), size.astype(np.uint16), sheet.rank[of],
                 points, np.column_stack((sheet.x[place], sheet.y[place])))
