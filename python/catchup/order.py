"""Orders of the nodes that keep the hierarchy small, by METIS' program ndmetis.

The order decides the speed and never an arrival; the program checks every order that it reads, so nothing here has to
be trusted. All is deterministic.
"""

from __future__ import annotations

import shutil
import subprocess
import tempfile
from dataclasses import dataclass
from pathlib import Path

import numpy as np
import numpy.typing as npt

from catchup.errors import Failure
from catchup.tables import Ints, Shorts, characters

# Of the settings tried on road-like networks these gave the fewest edges and triangles.
_TUNED = ("-ufactor=400", "-nseps=20", "-niter=20")
_FEW = 2
# ndmetis tries one separator alone where a part has less than some thousand nodes, and below 120 it looks at degrees and no
# longer at how long the ways up get. What is left behind the nodes of few neighbours comes to that three times as soon. So
# leaves hang on each node of it, which no separator takes: 8, or as many as there are this many nodes with them.
_MOST_LEAVES = 8
_WITH_LEAVES = 30_000


class MetisMissing(Failure):
    """ndmetis isn't installed."""

    def __str__(self) -> str:
        return (
            "ndmetis isn't installed: 'apt-get install metis' does it on Debian and Ubuntu;"
            " 'catchup order NODES ROADS PROFILES OUT' makes an order with nothing to install"
        )


@dataclass(frozen=True)
class Figures:
    """What an order makes of a network: edges and triangles of the closed graph, and how many edges lie on the way up
    from a node, on average and at most."""

    edges: int
    triangles: int
    mean_ahead: float
    most_ahead: int


def metis_order(nodes: int, tail: npt.ArrayLike, head: npt.ArrayLike, *, tuned: bool = True) -> Shorts:
    """The node at each rank, int32[nodes]: first the nodes with at most two neighbours, again and again, and then the
    rest as ndmetis orders it.

    tail, head: the ends of the roads, int[m]. `tuned` gives ndmetis the settings that suit roads. Raises MetisMissing,
    or Failure where ndmetis fails.
    """
    low, rest = _low_degree_first(nodes, _edges(nodes, tail, head))
    left = np.ones(nodes, bool)
    left[low] = False
    core = np.flatnonzero(left)
    leaves = min(_MOST_LEAVES, _WITH_LEAVES // len(core)) if tuned and len(core) else 0
    return np.asarray(np.concatenate([low, _dissected(core, rest, nodes, tuned, leaves)]), np.int32)


def order_by_ndmetis(nodes: int, tail: npt.ArrayLike, head: npt.ArrayLike, *, tuned: bool = True) -> Shorts:
    """The node at each rank, int32[nodes]: first the nodes that no road joins to another, then the rest as ndmetis orders
    it. Arguments and errors as of metis_order."""
    edges = _edges(nodes, tail, head)
    joined = np.zeros(nodes, bool)
    joined[edges.ravel()] = True
    alone = np.flatnonzero(~joined)
    return np.asarray(np.concatenate([alone, _dissected(np.flatnonzero(joined), edges, nodes, tuned)]), np.int32)


def figures(nodes: int, tail: npt.ArrayLike, head: npt.ArrayLike, order: npt.ArrayLike) -> Figures:
    """Counts the closed graph of an order, a rank at a time: some seconds for 250,000 nodes."""
    rank = np.empty(nodes, np.int64)
    rank[np.asarray(order)] = np.arange(nodes)
    ends = np.sort(rank[_edges(nodes, tail, head)], axis=1)
    by_lower = np.argsort(ends[:, 0], kind="stable")
    first = np.searchsorted(ends[by_lower, 0], np.arange(nodes + 1)).tolist()
    upper = ends[by_lower, 1].tolist()
    degree = np.zeros(nodes, np.int64)
    parent = np.full(nodes, -1, np.int64)
    ahead: list[set[int]] = [set() for _ in range(nodes)]
    for lower in range(nodes):
        above = ahead[lower]
        above.update(upper[first[lower] : first[lower + 1]])
        ahead[lower] = set()
        above.discard(lower)
        if above:
            least = min(above)
            degree[lower], parent[lower] = len(above), least
            # The smaller set goes into the larger one.
            if len(ahead[least]) < len(above):
                ahead[least], above = above, ahead[least]
            ahead[least] |= above
    total = degree.copy()
    for lower in np.flatnonzero(parent >= 0)[::-1].tolist():
        total[lower] += total[parent[lower]]
    return Figures(
        int(degree.sum()),
        int((degree * (degree - 1) // 2).sum()),
        float(total.mean()) if nodes else 0.0,
        int(total.max(initial=0)),
    )


def _edges(nodes: int, tail: npt.ArrayLike, head: npt.ArrayLike) -> Ints:
    """The pairs of nodes that some road joins, either way, each once, the lower number first: int64[e, 2], sorted."""
    tails, heads = np.asarray(tail, np.int64), np.asarray(head, np.int64)
    apart = tails != heads
    return _unique_pairs(nodes, tails[apart], heads[apart])


def _unique_pairs(nodes: int, one: Ints, other: Ints) -> Ints:
    keys = np.unique(np.minimum(one, other) * nodes + np.maximum(one, other))
    return np.stack([keys // nodes, keys % nodes], axis=1) if len(keys) else np.zeros((0, 2), np.int64)


def _low_degree_first(nodes: int, edges: Ints) -> tuple[Ints, Ints]:
    """Nodes with at most two neighbours in rounds, each of nodes that aren't neighbours; where one goes its two
    neighbours are joined. Returns them in their order, and the edges of the rest."""
    gone = np.zeros(nodes, bool)
    rounds: list[Ints] = []
    while True:
        degree = np.bincount(edges.ravel(), minlength=nodes)
        few = (degree <= _FEW) & ~gone
        if not few.any():
            return np.concatenate([np.zeros(0, np.int64), *rounds]), edges
        chosen = _independent(few, edges[few[edges].all(axis=1)], len(rounds))
        going = np.zeros(nodes, bool)
        going[chosen] = True
        gone |= going
        rounds.append(chosen)
        of_going = edges[going[edges].any(axis=1)]
        stay = edges[~going[edges].any(axis=1)]
        joined = _joined(going, of_going)
        edges = _unique_pairs(nodes, *np.concatenate([stay, joined]).T)


def _joined(going: npt.NDArray[np.bool_], edges: Ints) -> Ints:
    """The pairs of neighbours of those nodes that go and have two. Each edge has one end that goes."""
    first_goes = going[edges[:, 0]]
    goes = np.where(first_goes, edges[:, 0], edges[:, 1])
    stays = np.where(first_goes, edges[:, 1], edges[:, 0])
    by_node = np.argsort(goes, kind="stable")
    goes, stays = goes[by_node], stays[by_node]
    twice = np.flatnonzero(goes[1:] == goes[:-1])
    return np.stack([stays[twice], stays[twice + 1]], axis=1)


def _independent(few: npt.NDArray[np.bool_], edges: Ints, seed: int) -> Ints:
    """Nodes of the few, none beside another and none left out that could be in, rising. The edges join the few."""
    chosen = few.copy()
    chosen[edges.ravel()] = False
    lot = _lots(len(few), seed)
    while len(edges):
        one, other = edges.T
        # Who has the least lot among his neighbours is in, and his neighbours are out.
        loses = np.zeros(len(few), bool)
        first_wins = lot[one] < lot[other]
        loses[np.where(first_wins, other, one)] = True
        wins = np.zeros(len(few), bool)
        wins[edges.ravel()] = True
        wins &= ~loses
        chosen |= wins
        settled = wins.copy()
        settled[one[wins[other]]] = True
        settled[other[wins[one]]] = True
        left = edges[~settled[edges].any(axis=1)]
        # Whose neighbours all went is in too.
        lonely = np.zeros(len(few), bool)
        lonely[edges.ravel()] = True
        lonely[left.ravel()] = False
        chosen |= lonely & ~settled
        edges = left
    return np.flatnonzero(chosen)


def _lots(nodes: int, seed: int) -> npt.NDArray[np.uint64]:
    """A lot for each node that looks random and is always the same; no two nodes have the same one."""
    lot = np.arange(nodes, dtype=np.uint64) + np.uint64(seed << 32)
    for shift, factor in ((30, 0xBF58476D1CE4E5B9), (27, 0x94D049BB133111EB)):
        lot = (lot ^ (lot >> np.uint64(shift))) * np.uint64(factor)
    return lot ^ (lot >> np.uint64(31))


def _dissected(members: Ints, edges: Ints, nodes: int, tuned: bool, leaves: int = 0) -> Ints:
    """The members, which are the ends of the edges, rising, as ndmetis orders them with so many leaves on each."""
    if not len(edges):
        return members
    number = np.zeros(nodes, np.int64)
    number[members] = np.arange(len(members))
    stems = np.repeat(np.arange(len(members)), leaves)
    hung = np.stack([stems, len(members) + np.arange(len(stems))], axis=1)
    count = len(members) + len(stems)
    rank = _ndmetis(count, np.concatenate([number[edges], hung]), tuned)
    order = np.full(count, -1, np.int64)
    if len(rank) == count and rank.min() >= 0 and rank.max() < count:
        order[rank] = np.arange(count)
    if (order < 0).any():
        raise Failure("ndmetis wrote no ranks of the nodes: install METIS 5.1 or newer")
    found: Ints = members[order[order < len(members)]]
    return found


def _ndmetis(nodes: int, edges: Ints, tuned: bool) -> Ints:
    """The rank of each node of a graph in which each has an edge."""
    program = shutil.which("ndmetis")
    if program is None:
        raise MetisMissing()
    with tempfile.TemporaryDirectory(prefix="catchup-order-") as room:
        graph = Path(room) / "graph"
        try:
            graph.write_bytes(_graph_text(nodes, edges))
        except OSError as error:
            how = "set TMPDIR to a folder with room"
            raise Failure(f"no room for the graph that ndmetis reads ({error.strerror or error}): {how}") from None
        flags = _TUNED if tuned else ()
        run = subprocess.run([program, *flags, str(graph)], capture_output=True, text=True, errors="replace")
        last = ((run.stdout + run.stderr).strip().splitlines() or ["it says nothing"])[-1]
        if run.returncode:
            raise Failure(f"ndmetis failed: {last}")
        try:
            # Of a file by its name numpy asks in which folder one is, and that may be gone.
            with graph.with_name("graph.iperm").open() as written:
                ranks = np.loadtxt(written, dtype=np.int64, ndmin=1)
        except (OSError, ValueError):
            raise Failure(f"ndmetis wrote no ranks: {last}") from None
    return np.asarray(ranks, np.int64)


def _graph_text(nodes: int, edges: Ints) -> bytes:
    """The graph as METIS reads it: how many nodes and edges, and a line of neighbours for each node, numbered from 1."""
    ends = np.concatenate([edges, edges[:, ::-1]])
    ends = ends[np.lexsort((ends[:, 1], ends[:, 0]))]
    digits = characters(ends[:, 1] + 1)
    is_last = np.append(ends[1:, 0] != ends[:-1, 0], True)
    mark = np.where(is_last, ord("\n"), ord(" ")).astype(np.uint8)
    text = np.concatenate([digits, mark[:, None]], axis=1)
    return f"{nodes} {len(edges)}\n".encode() + bytes(text[text != 0].tobytes())
