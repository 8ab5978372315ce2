"""What a place is on a network, and the drives between places."""

from __future__ import annotations

from collections.abc import Awaitable, Callable, Sequence
from dataclasses import dataclass
from typing import TYPE_CHECKING, TypeAlias

from catchup.errors import CatchupError

if TYPE_CHECKING:
    import numpy as np
    from numpy.typing import NDArray

    Floats: TypeAlias = NDArray[np.float64]

Place: TypeAlias = tuple[float, float]
"""Longitude and latitude, in degrees."""

Ask: TypeAlias = Callable[[Sequence[str]], Awaitable[Sequence[str]]]
"""Script lines that go to one process of the program in one write, and its replies in their order, without line
ends."""


class NoSegment(CatchupError):
    """No road is near enough to a place; `index` says to which of those that were asked for, from 0 on and 0 for a single
    one, and `place` where that is."""

    def __init__(self, index: int, place: Place) -> None:
        super().__init__(index, place)
        self.index = index
        self.place = place

    def __str__(self) -> str:
        return f"no road is near enough to place {self.index} ({told(self.place)})"


def told(place: Place) -> str:
    """A place in a message, as `9.52,47.14`."""
    return ",".join(f"{degrees:.10g}" for degrees in place)


class NoRoute(CatchupError):
    """No way leads from one place to the next; `index` is that of the leg, from 0 on."""

    def __init__(self, index: int) -> None:
        super().__init__(index)
        self.index = index

    def __str__(self) -> str:
        return f"no way leads along leg {self.index}"


class TooLate(NoRoute):
    """Whoever leaves at the first second of the day comes too late already."""

    def __str__(self) -> str:
        return f"leg {self.index} can't be driven in time"


@dataclass(frozen=True, slots=True)
class Snap:
    """Where a place meets the network: a point of a road.

    place: what was asked for. point: on the road. metres: from place to point. street: a number that names this point's
    stretch of street, the same for both directions and all copies; with `share` it is a hint by which `Places.hinted`
    finds the point again. share: how much of the stretch lies before the point, 0 to 1 of its metres, in the sense of
    its lowest road's number. roads: every road that may be driven through this point (both directions, copies, and at a
    junction all that meet there), each with the share, 0 to 1 of its metres, that lies before the point. name, ref: of
    the street there, "" where it has none.
    """

    place: Place
    point: Place
    metres: float
    street: int
    share: float
    roads: tuple[tuple[int, float], ...]
    name: str
    ref: str


@dataclass(frozen=True, slots=True, eq=False)
class Piece:
    """A stretch of a leg along one road under one name.

    kind: the map's class, as `residential`; where the map says `roundabout` so does the flag.
    metres: its length. entered, left: seconds from the first leg's midnight.
    coordinates: float64[k, 2], longitude and latitude in degrees, in the sense of the drive; k is 2 at least.
    """

    road: int
    name: str
    ref: str
    kind: str
    roundabout: bool
    metres: float
    entered: float
    left: float
    coordinates: Floats


@dataclass(frozen=True, slots=True, eq=False)
class Leg:
    """A drive from one place to the next, the best there is.

    depart, arrive: whole seconds from the first leg's midnight; `arrive` is the least arrival. roads: numbers in order,
    those at the ends that are driven in part included; seconds: when each is entered. pieces: what is driven, in order:
    one at least, and where nothing is driven (both ends are one point) one of 0 metres.
    """

    start: Snap
    end: Snap
    depart: int
    arrive: int
    roads: tuple[int, ...]
    seconds: tuple[int, ...]
    pieces: tuple[Piece, ...]
