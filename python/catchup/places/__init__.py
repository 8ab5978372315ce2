"""Places on a network: the nearest roads of coordinates, and drives, tables and reaches between them."""

from __future__ import annotations

from typing import TYPE_CHECKING

from catchup.places.values import Ask, Leg, NoRoute, NoSegment, Piece, Place, Snap, TooLate

if TYPE_CHECKING:
    from catchup.places.places import Places

__all__ = ["Ask", "Leg", "NoRoute", "NoSegment", "Piece", "Place", "Places", "Snap", "TooLate"]


def __getattr__(name: str) -> object:
    """What needs numpy is loaded when it is first asked for."""
    if name == "Places":
        from catchup.places import places

        return places.Places
    raise AttributeError(f"module {__name__!r} has no attribute {name!r}")
