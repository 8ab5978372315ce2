"""Things that follow one another, each at most one other: which chain each is in, and where in it."""
from __future__ import annotations

import numpy as np

from catchup.maps.arrays import Bools, Ints
from catchup.maps.graph import joined_parts


def positions(after: Ints) -> tuple[Ints, Ints, Bools]:
    """Of things i that are followed by after[i], or by nothing where that is -1, no two by the same: the first of each
    one's chain, how many are before it, and which are in rings, whose numbers then mean nothing. Takes as many rounds
    as the longest chain has binary digits."""
    n = len(after)
    before = np.full(n, -1, dtype=np.int64)
    linked = np.flatnonzero(after >= 0)
    before[after[linked]] = linked
    first = np.where(before >= 0, before, np.arange(n))
    rank = (before >= 0).astype(np.int64)
    unfinished, last = before[first] >= 0, -1
    while (count := int(unfinished.sum())) and count != last:
        last = count
        rank = rank + rank[first]
        first = first[first]
        unfinished = before[first] >= 0
    return first, rank, unfinished


def ring_starts(after: Ints, rings: Bools) -> Ints:
    """The least member of each ring."""
    members = np.flatnonzero(rings)
    if not len(members):
        return members
    number = np.full(len(after), -1, dtype=np.int64)
    number[members] = np.arange(len(members))
    labels = joined_parts(len(members), number[members], number[after[members]])
    return members[np.unique(labels, return_index=True)[1]]


def cut_rings(after: Ints) -> tuple[Ints, Ints]:
    """As `positions`, where each ring begins at its least member."""
    first, rank, rings = positions(after)
    if not rings.any():
        return first, rank
    after = after.copy()
    after[np.isin(after, ring_starts(after, rings))] = -1
    first, rank, _ = positions(after)
    return first, rank
