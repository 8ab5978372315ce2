"""Chains, groups, offsets and parts of graphs, beside plain ways to find them."""
from __future__ import annotations

import numpy as np
from hypothesis import given
from hypothesis import strategies as st

from catchup.maps.arrays import changes, offsets, pairs, ranges
from catchup.maps.chains import cut_rings, positions, ring_starts
from catchup.maps.graph import Groups, joined_parts, largest_part, reached_from


@st.composite
def followers(draw: st.DrawFn) -> list[int]:
    """For each of some things another that follows it, or none; none follows two."""
    count = draw(st.integers(0, 30))
    order = draw(st.permutations(range(count)))
    return [other if draw(st.booleans()) else -1 for other in order]


@given(followers())
def test_positions(after: list[int]) -> None:
    array = np.array(after, dtype=np.int64)
    first, rank, rings = positions(array)
    before = {other: thing for thing, other in enumerate(after) if other >= 0}
    for thing in range(len(after)):
        at, steps = thing, 0
        while at in before and steps <= len(after):
            at, steps = before[at], steps + 1
        assert bool(rings[thing]) == (steps > len(after))
        if not rings[thing]:
            assert (first[thing], rank[thing]) == (at, steps)


@given(followers())
def test_rings_are_cut_at_their_least(after: list[int]) -> None:
    array = np.array(after, dtype=np.int64)
    _, _, rings = positions(array)
    starts = set(ring_starts(array, rings).tolist())
    first, rank = cut_rings(array)
    for thing in np.flatnonzero(rings).tolist():
        ring, at = [thing], after[thing]
        while at != thing:
            ring.append(at)
            at = after[at]
        assert starts & set(ring) == {min(ring)}
    # What follows something is one behind it, but for whatever begins a ring's chain.
    for thing, other in enumerate(after):
        if other >= 0 and rank[other]:
            assert first[other] == first[thing] and rank[other] == rank[thing] + 1
    assert sorted(zip(first.tolist(), rank.tolist())) == sorted(set(zip(first.tolist(), rank.tolist())))


@given(st.lists(st.tuples(st.integers(0, 50), st.integers(0, 5)), max_size=20))
def test_ranges(parts: list[tuple[int, int]]) -> None:
    starts, sizes = (np.array([part[i] for part in parts], dtype=np.int64) for i in range(2))
    assert ranges(starts, sizes).tolist() == [start + i for start, size in parts for i in range(size)]
    assert offsets(sizes).tolist() == [sum(size for _, size in parts[:i]) for i in range(len(parts) + 1)]


def test_changes_and_pairs() -> None:
    assert changes(np.array([1, 1, 2, 2, 2]), np.array([5, 5, 5, 6, 6])).tolist() == [0, 2, 3] and changes(np.array([])).tolist() == []
    assert pairs(np.array([1, 2]), np.array([3, 4])).tolist() == [1, 3, 2, 4]


@given(st.lists(st.integers(0, 5), max_size=20))
def test_groups(numbers: list[int]) -> None:
    groups = Groups(np.array(numbers, dtype=np.int64), np.arange(len(numbers)), 6)
    assert [groups[number] for number in range(6)] == [[thing for thing, of in enumerate(numbers) if of == number] for number in range(6)]


@given(st.integers(1, 8), st.lists(st.tuples(st.integers(0, 7), st.integers(0, 7)), max_size=20), st.integers(0, 255))
def test_parts(count: int, links: list[tuple[int, int]], starts: int) -> None:
    links = [(a % count, b % count) for a, b in links]
    tail, head = (np.array([link[i] for link in links], dtype=np.int64) for i in range(2))

    def reach(start: int, both: bool = False) -> set[int]:
        found, work = {start}, [start]
        while work:
            node = work.pop()
            for a, b in links + [(b, a) for a, b in links if both]:
                if a == node and b not in found:
                    found.add(b)
                    work.append(b)
        return found

    parts = [{other for other in reach(node) if node in reach(other)} for node in range(count)]
    largest, number = largest_part(count, tail, head)
    found = set(np.flatnonzero(largest).tolist())
    assert found in parts and len(found) == max(map(len, parts)) and number == len({frozenset(part) for part in parts})
    begins = {node for node in range(count) if starts >> node & 1}
    met = reached_from(count, tail, head, np.isin(np.arange(count), sorted(begins)))
    assert set(np.flatnonzero(met).tolist()) == {other for node in begins for other in reach(node)}
    label = joined_parts(count, tail, head)
    assert all((label[a] == label[b]) == (b in reach(a, True)) for a in range(count) for b in range(count))
    of = np.full(count, -1, dtype=np.int64)
    of[count - 1] = 3
    chosen, _ = largest_part(count, tail, head, of)
    assert chosen[count - 1]
