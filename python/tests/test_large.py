"""Large and crowded inputs find memory where there is plenty: no clause says when memory may run out, so these tests do."""

from __future__ import annotations

from pathlib import Path

import pytest

from catchup.program import run_program

EXAMPLES = Path(__file__).resolve().parents[2] / "examples"
PROFILES = "profile,from,kind,value\n0,0,travel,60\n1,0,travel,61\n2,0,closed,0\n"


def write_tables(folder: Path, nodes: int, roads: list[tuple[int, int]], order: list[int] | None = None) -> list[Path]:
    """Writes tables of so many nodes and these roads (tail, head), all with profile 0 but the first with 1; and an order."""
    paths = [folder / name for name in ("nodes.csv", "roads.csv", "profiles.csv", "order.csv")]
    paths[0].write_text("node,x,y\n" + "".join(f"{node},{node},0\n" for node in range(nodes)))
    rows = (f"{arc},{tail},{head},{0 if arc else 1}\n" for arc, (tail, head) in enumerate(roads))
    paths[1].write_text("arc,tail,head,profile\n" + "".join(rows))
    paths[2].write_text(PROFILES)
    paths[3].write_text("".join(f"{node}\n" for node in (order or range(nodes))))
    return paths


def build(paths: list[Path], order: Path | str) -> Path:
    """The packed file of these tables."""
    packed = paths[0].parent / "packed.cu"
    run = run_program(["build", *paths[:3], order, packed], seconds=600)
    assert run.status == 0, run
    return packed


@pytest.fixture(scope="module")
def path_file(program: Path, tmp_path_factory: pytest.TempPathFactory) -> Path:
    """The packed file of a path of 110,000 nodes, driven in one direction."""
    count = 110_000
    paths = write_tables(tmp_path_factory.mktemp("path"), count, [(node, node + 1) for node in range(count - 1)])
    return build(paths, "dissect")


@pytest.fixture(scope="module")
def crowded_file(program: Path, tmp_path_factory: pytest.TempPathFactory) -> Path:
    """The packed file of 100 stars whose middles come first in the order, so that the graph has more than a million edges."""
    stars, leaves = 100, 150
    roads = [(stars + star * leaves + leaf, star) for star in range(stars) for leaf in range(leaves)]
    paths = write_tables(tmp_path_factory.mktemp("stars"), stars * (leaves + 1), roads)
    packed = build(paths, paths[3])
    edges = int.from_bytes(packed.read_bytes()[24:28], "little")
    assert edges > 1_000_000
    return packed


def edit(packed: Path, lines: str) -> list[str]:
    """The replies of `edit` to these lines, behind which the file is stored."""
    edits = packed.parent / "edits.txt"
    edits.write_text(lines)
    run = run_program(["edit", packed, edits, packed.parent / "edited.cu"], seconds=600)
    assert run.status == 0, run
    return run.output.splitlines()


def test_an_edit_of_a_hundred_thousand_nodes(path_file: Path) -> None:
    first, stored = edit(path_file, "a,0,0\n")
    assert first.startswith("done ") and stored.startswith("stored ")
    asked = run_program(["ask", path_file], input="a,0,0\nq,0,109999,0\nd,0,2\n", seconds=600)
    done, arrive, day = asked.output.splitlines()
    assert done == first and arrive.startswith(f"arrive={60 * 109_999} ") and day == "day 0,travel,120"


def test_a_file_of_a_million_edges_opens_and_is_edited(crowded_file: Path) -> None:
    first, _stored = edit(crowded_file, "s,1,0,travel,70\n")
    assert first.startswith("done ") and int(first.split()[1]) > 100
    asked = run_program(["ask", crowded_file], input="q,100,0,0\n", seconds=600)
    assert asked.output == "arrive=61 arcs=0\n"


def test_a_desk_begins_an_edit_of_more_than_a_thousand_edges(program: Path, tmp_path: Path) -> None:
    tables = [EXAMPLES / "town" / name for name in ("nodes.csv", "roads.csv", "profiles.csv")]
    assert run_program(["build", *tables, "identity", tmp_path / "town.cu"]).status == 0
    words = ["desk", tmp_path / "town.cu", tmp_path / "out.cu"]
    desk = run_program(words, input="7,s,0,0,travel,600\nstep\n7,x\n", seconds=600)
    begun, left, cancelled, stored = desk.output.splitlines()
    touched = int(begun.removeprefix("7 begun "))
    assert touched > 1_000 and left == f"left {touched - 1}" and cancelled == "7 cancelled" and stored.startswith("stored ")


def test_a_day_from_a_node_to_itself(town: Path) -> None:
    asked = run_program(["ask", town], input="d,1,1\nd,0,0\n", seconds=600)
    assert asked.output == "day 0,travel,0\n" * 2


def test_more_than_one_measured_point_a_minute(program: Path, tmp_path: Path) -> None:
    rows = "".join(f"0,{second},step,{60 + second % 7}\n" for second in range(0, 86_400, 30))
    (tmp_path / "measured.csv").write_text("profile,second,mode,travel\n" + rows)
    run = run_program(["measure", tmp_path / "measured.csv", tmp_path / "profiles.csv"], seconds=600)
    assert (run.status, run.output) == (0, "measured 1\n")
    assert len((tmp_path / "profiles.csv").read_text().splitlines()) > 2_880
