"""Drives as legs: each road's stretches with their names, times and coordinates."""

from __future__ import annotations

import numpy as np

from catchup.places.drives import Drive
from catchup.places.lines import Lines
from catchup.places.values import Leg, Piece


def leg_of(lines: Lines, drive: Drive) -> Leg:
    """A drive as a leg. Within a road time goes as metres do."""
    pieces: list[Piece] = []
    for part, entered, left in zip(drive.parts, drive.seconds, (*drive.seconds[1:], drive.arrive)):
        road, begin, end = part
        metres, kind, is_roundabout = float(lines.metres[road]), lines.kind(road), lines.is_roundabout(road)
        pace = (left - entered) / (end - begin)
        for name, ref, low, high, coordinates in lines.stretches(part):
            until = left if high == end else entered + (high - begin) * pace
            pieces.append(Piece(road, name, ref, kind, is_roundabout, (high - low) * metres,
                                entered + (low - begin) * pace,
                                until, coordinates))
    return Leg(drive.start, drive.end, drive.depart, drive.arrive, tuple(drive.roads), tuple(drive.seconds),
               tuple(pieces) or (_still(lines, drive),))


def _still(lines: Lines, drive: Drive) -> Piece:
    """The piece of a drive between two places that are one."""
    road = drive.start.roads[0][0]
    coordinates = np.array([drive.start.point, drive.end.point])
    return Piece(road, drive.start.name, drive.start.ref, lines.kind(road), lines.is_roundabout(road), 0.0,
                 float(drive.depart), float(drive.arrive), coordinates)
