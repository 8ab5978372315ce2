"""Tables, orders, a library and commands beside `catchup`, an exact route planner on time-dependent roads."""

from __future__ import annotations

from typing import TYPE_CHECKING

from catchup.errors import CatchupError, Damaged, Ended, Failure, NoMemory, Refused, TableError
from catchup.replies import Day, Piece, Reach, TooLate

if TYPE_CHECKING:
    from catchup.planner import AsyncPlanner, Matrix, Planner, Route

__version__ = "0.2.0"

__all__ = [
    "AsyncPlanner",
    "CatchupError",
    "Damaged",
    "Day",
    "Ended",
    "Failure",
    "Matrix",
    "NoMemory",
    "Piece",
    "Planner",
    "Reach",
    "Refused",
    "Route",
    "TableError",
    "TooLate",
]


def __getattr__(name: str) -> object:
    """The planner is loaded when it is first asked for: what draws or reads a reply needs no numpy."""
    if name in ("AsyncPlanner", "Matrix", "Planner", "Route"):
        from catchup import planner

        return getattr(planner, name)
    raise AttributeError(f"module {__name__!r} has no attribute {name!r}")
