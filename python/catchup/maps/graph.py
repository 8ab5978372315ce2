"""Graphs of directed links between numbered nodes: what leaves and reaches each, and the largest part."""
from __future__ import annotations

import igraph
import numpy as np

from catchup.maps.arrays import Bools, Ints, offsets


class Groups:
    """Things grouped by a number each has: `groups[n]` are those with number n, in their order."""

    def __init__(self, numbers: Ints, things: Ints, count: int) -> None:
        self._things = things[np.argsort(numbers, kind="stable")]
        self._first = offsets(np.bincount(numbers, minlength=count))

    def __getitem__(self, number: int) -> list[int]:
        found: list[int] = self._things[self._first[number]:self._first[number + 1]].tolist()
        return found


def _graph(count: int, tail: Ints, head: Ints) -> igraph.Graph:
    # A list is taken in a third of the time that an array is.
    return igraph.Graph(n=count, edges=np.stack([tail, head], axis=1).tolist(), directed=True)


def _labels(graph: igraph.Graph, mode: str) -> Ints:
    """The number of each node's part: "strong" where each leads to each other, "weak" where links join them."""
    return np.array(graph.connected_components(mode=mode).membership, dtype=np.int64)


def largest_part(count: int, tail: Ints, head: Ints, of: Ints | None = None) -> tuple[Bools, int]:
    """The nodes of the largest part in which each leads to each other, and how many parts there are. Where `of` says
    what each node is a copy of, or -1, the part with copies of the most things is the largest, and among such the one
    with the most nodes."""
    if not count:
        return np.zeros(0, dtype=bool), 0
    label = _labels(_graph(count, tail, head), "strong")
    sizes = np.bincount(label)
    if of is not None:
        copies = np.flatnonzero(of >= 0)
        things = int(of.max(initial=0)) + 1
        kinds = np.unique(label[copies] * things + of[copies]) // things
        sizes = sizes + (count + 1) * np.bincount(kinds, minlength=len(sizes))
    # Of parts that are as large the one with the first node, however parts are numbered.
    node = int((sizes == sizes.max())[label].argmax())
    return label == label[node], len(sizes)


def reached_from(count: int, tail: Ints, head: Ints, starts: Bools) -> Bools:
    """The nodes that are reached from any of `starts`, those with them."""
    at = np.flatnonzero(starts)
    # One node more, that leads to each of them.
    graph = _graph(count + 1, np.append(tail, np.full(len(at), count)), np.append(head, at))
    found = np.zeros(count + 1, dtype=bool)
    found[graph.subcomponent(count, mode="out")] = True
    return found[:-1]


def joined_parts(count: int, tail: Ints, head: Ints) -> Ints:
    """A number for each node: those that links join, whichever way, have the same."""
    return _labels(_graph(count, tail, head), "weak")
