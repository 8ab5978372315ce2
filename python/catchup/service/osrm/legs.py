"""Legs as they are told: the stretches between two places that end a leg, with the seconds at which they are
entered."""

from __future__ import annotations

from collections.abc import Sequence
from dataclasses import dataclass
from functools import cached_property
from typing import Final

import numpy as np

from catchup.places import Snap
from catchup.places.drives import Drive
from catchup.service.osrm.lines import Floats
from catchup.service.osrm.rows import Row, Rows
from catchup.service.osrm.stretches import Stretch

PLACE: Final = 16                       # bytes of a place


@dataclass(frozen=True, eq=False)
class Leg:
    """A leg: one drive, or several over places at which nothing is told. entered: when each stretch is, in seconds from
    the midnight before leaving, as depart and arrive."""

    start: Snap
    end: Snap
    depart: int
    arrive: int
    rows: list[Row]
    entered: Sequence[float]

    @cached_property
    def stretches(self) -> list[Stretch]:
        """Its stretches, one at least."""
        return [row.stretch for row in self.rows]

    @cached_property
    def far(self) -> list[float]:
        """The metres of each stretch."""
        return [row.metres for row in self.rows]

    @cached_property
    def metres(self) -> float:
        """How long it is."""
        return sum(self.far)

    def line(self) -> Floats:
        """Its places, float64[n, 2]."""
        first, *others = [stretch.drawn for stretch in self.stretches]
        return np.frombuffer(first + b"".join([drawn[PLACE:] for drawn in others])).reshape(-1, 2)


def legs_of(drives: Sequence[Drive], wanted: Sequence[int] | None, rows: Rows) -> list[Leg]:
    """The legs of drives between the places that are wanted, all of them where None is said."""
    driven = [rows.of_drive(drive) for drive in drives]
    if wanted is None:
        return [Leg(drive.start, drive.end, drive.depart, drive.arrive, *found) for drive, found in zip(drives, driven)]
    ends = sorted(set(wanted))
    return [joined(drives[begin:end], driven[begin:end], rows) for begin, end in zip(ends, ends[1:])]


def joined(drives: Sequence[Drive], driven: Sequence[tuple[list[Row], Sequence[float]]], rows: Rows) -> Leg:
    """One leg of several drives; those between places that are one are left out, where there are others."""
    moved = [each for drive, each in zip(drives, driven) if drive.roads] or driven[:1]
    found: list[Row] = []
    for each, _ in moved:
        found += [rows.joined(found[-1].stretch, each[0].stretch), *each[1:]] if found else each
    entered = [second for _, each in moved for second in each]
    return Leg(drives[0].start, drives[-1].end, drives[0].depart, drives[-1].arrive, found, entered)
