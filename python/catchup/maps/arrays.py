"""Arrays of numbers, and the offsets and ranges that groups of them are kept by."""
from __future__ import annotations

from typing import Any

import numpy as np
from numpy.typing import NDArray

Ints = NDArray[np.int64]
Floats = NDArray[np.float64]
Bools = NDArray[np.bool_]


def offsets(sizes: NDArray[Any]) -> Ints:
    """Where each group begins, where groups of these sizes stand behind one another, and last where they end."""
    found = np.zeros(len(sizes) + 1, dtype=np.int64)
    np.cumsum(sizes, out=found[1:])
    return found


def ranges(starts: Ints, sizes: Ints) -> Ints:
    """The numbers from each start on, so many of each, behind one another."""
    first = offsets(sizes)
    found: Ints = np.arange(first[-1], dtype=np.int64)
    found += np.repeat(starts - first[:-1], sizes)
    return found


def changes(*columns: NDArray[Any]) -> Ints:
    """The rows at which one of the columns has another value than in the row before, the first row with them."""
    count = len(columns[0])
    other = np.ones(count, dtype=bool)
    if count:
        other[1:] = np.any([column[1:] != column[:-1] for column in columns], axis=0)
    return np.flatnonzero(other)


def pairs(one: NDArray[Any], other: NDArray[Any]) -> NDArray[Any]:
    """The values of both in turn: one[0], other[0], one[1], .."""
    found: NDArray[Any] = np.column_stack((one, other)).reshape(-1)
    return found
