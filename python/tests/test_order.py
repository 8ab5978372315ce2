"""Orders: nodes of few neighbours first, and METIS; bin/catchup-order and bin/order-by-metis."""

from __future__ import annotations

import os
import random
import shutil
import stat
import subprocess
from pathlib import Path

import numpy as np
import pytest
from commands import BIN, call, check_refused, interrupt, run, run_into_closed_pipe, without_tools
from hypothesis import given, settings
from hypothesis import strategies as st

from catchup.order import Figures, MetisMissing, _edges, _low_degree_first, figures, metis_order, order_by_ndmetis
from catchup.program import run_program

needs_metis = pytest.mark.skipif(shutil.which("ndmetis") is None, reason="ndmetis (Debian's package metis) isn't installed")

# Nodes 1 and 4 have no roads to others; there are a loop, parallel roads and a road back.
NODES = "node,x,y\n0,0,0\n1,90,90\n2,50,10\n3,100,0\n4,20,80\n"
ROADS = "arc,tail,head,profile\n0,0,2,0\n1,2,0,0\n2,0,2,1\n3,2,3,0\n4,4,4,0\n5,0,3,1\n6,3,0,2\n"
LOOPS = "arc,tail,head,profile\n0,4,4,0\n"
RANKS_ONE_LATER = """
sed 's/ *$//' "$1" >"$SEEN"
read -r nodes _ <"$1"
{ seq "$((nodes - 1))"; echo 0; } >"$1.iperm"
"""


@pytest.fixture
def tables(tmp_path: Path, monkeypatch: pytest.MonkeyPatch) -> Path:
    monkeypatch.chdir(tmp_path)
    monkeypatch.setenv("TMPDIR", str(tmp_path / "rests"))
    monkeypatch.setenv("SEEN", str(tmp_path / "graph"))
    (tmp_path / "rests").mkdir()
    for name, text in (("nodes", NODES), ("roads", ROADS), ("loops", LOOPS)):
        Path(name).write_text(text)
    return tmp_path


def stub(folder: Path, text: str, monkeypatch: pytest.MonkeyPatch) -> None:
    """Puts a program before the real ndmetis. Options stand before the graph's name, which is the last word."""
    path = folder / "stub" / "ndmetis"
    path.parent.mkdir(exist_ok=True)
    path.write_text('#!/bin/sh\necho "$@" >"$SEEN.words"\nwhile [ $# -gt 1 ]; do shift; done\n' + text)
    path.chmod(path.stat().st_mode | stat.S_IXUSR)
    monkeypatch.setenv("PATH", f"{path.parent}{os.pathsep}{os.environ['PATH']}")


def grid(side: int) -> tuple[int, np.ndarray, np.ndarray]:
    """The ends of the roads of a grid, both ways."""
    number = np.arange(side * side).reshape(side, side)
    pairs = np.concatenate([np.stack([number[:, :-1], number[:, 1:]], -1).reshape(-1, 2), np.stack([number[:-1], number[1:]], -1).reshape(-1, 2)])
    return side * side, np.concatenate([pairs[:, 0], pairs[:, 1]]), np.concatenate([pairs[:, 1], pairs[:, 0]])


def slow_figures(nodes: int, tail: list[int], head: list[int], order: list[int]) -> Figures:
    """The closed graph by its definition."""
    rank = {node: place for place, node in enumerate(order)}
    near: list[set[int]] = [set() for _ in range(nodes)]
    for one, other in zip(tail, head):
        if one != other:
            near[rank[one]].add(rank[other])
            near[rank[other]].add(rank[one])
    above = []
    for lower in range(nodes):
        above.append({other for other in near[lower] if other > lower})
        for one in above[-1]:
            near[one] |= above[-1] - {one}
    total = []
    for lower in range(nodes):
        path, at = 0, lower
        while above[at]:
            path, at = path + len(above[at]), min(above[at])
        total.append(path)
    triangles = sum(len(each) * (len(each) - 1) // 2 for each in above)
    return Figures(sum(map(len, above)), triangles, sum(total) / nodes if nodes else 0.0, max(total, default=0))


# ---- the library ----

NETWORKS = st.integers(1, 12).flatmap(
    lambda nodes: st.tuples(st.just(nodes), st.lists(st.tuples(st.integers(0, nodes - 1), st.integers(0, nodes - 1)), max_size=30))
)


def check_low_nodes(nodes: int, roads: list[tuple[int, int]]) -> None:
    tail, head = [road[0] for road in roads], [road[1] for road in roads]
    low, rest = _low_degree_first(nodes, _edges(nodes, tail, head))
    near: list[set[int]] = [set() for _ in range(nodes)]
    for one, other in roads:
        if one != other:
            near[one].add(other)
            near[other].add(one)
    gone: set[int] = set()
    for node in low.tolist():
        assert len(near[node]) <= 2 and node not in gone
        gone.add(node)
        for one in near[node]:
            near[one] = (near[one] | near[node]) - {one, node}
    left = {node for node in range(nodes) if node not in gone}
    assert all(len(near[node]) > 2 for node in left)
    assert sorted(map(tuple, rest.tolist())) == sorted((node, one) for node in left for one in near[node] if node < one)


@given(NETWORKS)
def test_low_nodes_have_few_neighbours_when_they_go(network: tuple[int, list[tuple[int, int]]]) -> None:
    check_low_nodes(*network)


@pytest.mark.parametrize("nodes, roads", [(10, 13), (30, 40), (60, 80), (200, 260), (200, 330)])
def test_low_nodes_of_larger_networks(nodes: int, roads: int) -> None:
    draw = random.Random(nodes + roads)
    for _ in range(10):
        check_low_nodes(nodes, [(draw.randrange(nodes), draw.randrange(nodes)) for _ in range(roads)])


@given(NETWORKS, st.randoms(use_true_random=False))
def test_figures_are_those_of_the_closed_graph(network: tuple[int, list[tuple[int, int]]], random: object) -> None:
    nodes, roads = network
    order = list(range(nodes))
    random.shuffle(order)  # type: ignore[attr-defined]
    tail, head = [road[0] for road in roads], [road[1] for road in roads]
    assert figures(nodes, tail, head, order) == slow_figures(nodes, tail, head, order)


@needs_metis
@settings(max_examples=30)
@given(NETWORKS)
def test_orders_have_each_node_once(network: tuple[int, list[tuple[int, int]]]) -> None:
    nodes, roads = network
    tail, head = [road[0] for road in roads], [road[1] for road in roads]
    for order in (metis_order(nodes, tail, head), order_by_ndmetis(nodes, tail, head)):
        assert order.dtype == np.int32 and sorted(order.tolist()) == list(range(nodes))


def test_a_long_path_and_a_tree_need_no_metis(monkeypatch: pytest.MonkeyPatch) -> None:
    monkeypatch.setenv("PATH", "/none/such")
    nodes = 100_000
    for tail in (np.arange(nodes - 1), np.arange(1, nodes) // 3):
        order = metis_order(nodes, tail, np.arange(1, nodes))
        found = figures(nodes, tail, np.arange(1, nodes), order)
        assert len(np.unique(order)) == nodes and found.edges < 2 * nodes and found.most_ahead < 120


def test_networks_without_nodes_or_roads(monkeypatch: pytest.MonkeyPatch) -> None:
    monkeypatch.setenv("PATH", "/none/such")
    for order in (metis_order, order_by_ndmetis):
        assert order(0, [], []).tolist() == [] and order(3, [], []).tolist() == [0, 1, 2]
        assert order(3, [1], [1]).tolist() == [0, 1, 2]


def test_metis_is_missing(monkeypatch: pytest.MonkeyPatch) -> None:
    monkeypatch.setenv("PATH", "/none/such")
    with pytest.raises(MetisMissing, match="apt-get install metis.*catchup order NODES ROADS PROFILES OUT"):
        metis_order(*grid(5))


@needs_metis
def test_orders_of_a_grid_are_good_and_always_the_same() -> None:
    nodes, tail, head = grid(24)
    plain = figures(nodes, tail, head, range(nodes)).edges
    for make in (metis_order, order_by_ndmetis):
        order = make(nodes, tail, head)
        assert figures(nodes, tail, head, order).edges * 2 <= plain
        assert (make(nodes, tail, head) == order).all()


@needs_metis
@pytest.mark.parametrize("size", [1_000, 5_000, pytest.param(20_000, marks=pytest.mark.long)])
def test_few_neighbours_first_is_better_on_roads(size: int) -> None:
    """Fewer edges and triangles than ndmetis makes of all nodes, and ways up that are no longer."""
    networks = pytest.importorskip("catchup.bench.networks", reason="the networks to measure on can't be made")
    network = networks.make_network(size)
    roads = len(network.nodes), network.roads.tail, network.roads.head
    few_first, all_nodes = (figures(*roads, make(*roads)) for make in (metis_order, order_by_ndmetis))
    assert few_first.edges < all_nodes.edges and few_first.triangles < all_nodes.triangles
    assert few_first.mean_ahead <= all_nodes.mean_ahead


# ---- the commands ----


def test_nodes_without_roads_go_first(tables: Path, monkeypatch: pytest.MonkeyPatch) -> None:
    stub(tables, RANKS_ONE_LATER, monkeypatch)
    assert run("order-by-metis", "nodes", "roads") == (0, "1\n4\n3\n0\n2\n", "")
    # The graph has neither loops nor parallel roads.
    assert Path("graph").read_text() == "3 3\n2 3\n1 3\n1 2\n"
    assert Path("graph.words").read_text().startswith("-ufactor=400 -nseps=20 -niter=20 /")
    assert run("catchup-order", "--plain", "nodes", "roads").output == "1\n4\n3\n0\n2\n"
    assert os.listdir("rests") == []


STUBS = [
    ('printf "0\\n0\\n1\\n" >"$1.iperm"', "ndmetis wrote no ranks of the nodes"),
    ('printf "0\\n1\\n3\\n" >"$1.iperm"', "ndmetis wrote no ranks of the nodes"),
    ('printf "0\\n1\\n" >"$1.iperm"', "ndmetis wrote no ranks of the nodes"),
    ('printf "0\\nx\\n1\\n" >"$1.iperm"', "ndmetis wrote no ranks: it says nothing"),
    ("echo no room", "ndmetis wrote no ranks: no room"),
    ('echo "out of memory"; exit 3', "ndmetis failed: out of memory"),
]


@pytest.mark.parametrize("text, said", STUBS)
def test_an_ndmetis_that_fails(tables: Path, monkeypatch: pytest.MonkeyPatch, text: str, said: str) -> None:
    stub(tables, text, monkeypatch)
    check_refused(call("order-by-metis", "nodes", "roads"), 1, f"order-by-metis: {said}")
    assert os.listdir("rests") == []


def test_no_room_for_the_graph(tables: Path, monkeypatch: pytest.MonkeyPatch) -> None:
    """Its text is what needs room, in the folder for temporary files."""
    stub(tables, "exit 0", monkeypatch)

    def fail(path: Path, text: bytes) -> None:
        raise OSError(28, "No space left on device")

    monkeypatch.setattr(Path, "write_bytes", fail)
    said = "order-by-metis: no room for the graph that ndmetis reads (No space left on device): set TMPDIR to a folder with room"
    check_refused(call("order-by-metis", "nodes", "roads"), 1, said)
    assert os.listdir("rests") == []


def test_without_ndmetis(tables: Path) -> None:
    env = without_tools(tables / "few")
    check_refused(run("order-by-metis", "nodes", "roads", env=env), 1, "apt-get install metis")
    check_refused(run("catchup-order", "--plain", "nodes", "roads", env=env), 1, "catchup order NODES ROADS PROFILES OUT")
    assert call("order-by-metis", "nodes", "loops", env=env) == (0, "0\n1\n2\n3\n4\n", "")
    assert run("catchup-order", "nodes", "roads", env=env).status == 0
    Path("none").write_text("node,x,y\n")
    Path("no_roads").write_text("arc,tail,head,profile\n")
    assert call("order-by-metis", "none", "no_roads", env=env) == (0, "", "")


BAD = [
    (["missing", "roads"], 1, "missing can't be read: No such file or directory"),
    (["nodes", "."], 1, ". can't be read: Is a directory"),
    (["roads", "roads"], 1, "roads, line 1: found 'arc,tail,head,profile', allowed: the header node,x,y"),
    (["nodes", "/dev/null"], 1, "/dev/null, line 1: found nothing, allowed: the header arc,tail,head,profile"),
    (["nodes", "other"], 1, "other, line 3, column head: found '5', allowed: nodes 0 to 4"),
    (["nodes", "word"], 1, "word, line 2, column tail: found 'x', allowed: a number of digits alone"),
    (["nodes"], 2, "Missing argument 'ROADS'"),
    (["nodes", "roads", "profiles", "more"], 2, "unexpected extra argument"),
    (["--none"], 2, "No such option"),
]


@pytest.mark.parametrize("name", ["catchup-order", "order-by-metis"])
@pytest.mark.parametrize("words, status, said", BAD)
def test_refusals(tables: Path, name: str, words: list[str], status: int, said: str) -> None:
    Path("other").write_text("arc,tail,head,profile\n0,0,1,0\n1,4,5,0\n")
    Path("word").write_text("arc,tail,head,profile\n0,x,1,0\n")
    check_refused(call(name, *words), status, f"{name}: {said}" if status == 1 else said)


def test_profiles_of_another_network(tables: Path) -> None:
    Path("profiles").write_text("profile,from,kind,value\n0,0,travel,5\n")
    check_refused(
        call("catchup-order", "nodes", "roads", "profiles"), 1, "roads, line 4, column profile: found '1', allowed: profiles 0 to 0"
    )


def test_a_closed_pipe_is_silent(tables: Path) -> None:
    for name in ("catchup-order", "order-by-metis"):
        assert run_into_closed_pipe(name, "nodes", "loops") == (141, "", "")


def test_an_interrupt_leaves_nothing(tables: Path, monkeypatch: pytest.MonkeyPatch) -> None:
    stub(tables, 'touch "$SEEN.started"; exec sleep 600', monkeypatch)
    process = subprocess.Popen(
        [BIN / "order-by-metis", "nodes", "roads"], stdout=subprocess.PIPE, stderr=subprocess.PIPE, start_new_session=True
    )
    assert interrupt(process, tables / "graph.started") == (130, b"")
    assert os.listdir("rests") == []


@needs_metis
def test_the_program_takes_the_orders(program: Path, tmp_path: Path) -> None:
    names = [tmp_path / name for name in ("nodes.csv", "roads.csv", "profiles.csv")]
    assert run_program(["make", "7", "30", "30", *names]).status == 0
    made = [run("catchup-order", *names, "--figures"), run("order-by-metis", *names[:2])]
    edges = []
    for ran in made:
        (tmp_path / "order").write_text(ran.output)
        build = run_program(["build", *names, tmp_path / "order", tmp_path / "grid.cu"])
        edges.append(build.output.split()[3])
    assert f"edges {edges[0]}, triangles " in made[0].error and made[1].error == ""


