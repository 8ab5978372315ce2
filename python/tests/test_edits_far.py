"""Edits of a file some of whose ways take longer than a packed function can say: `edit` settles them as a desk does.

No built file is like this. Here each shortcut of a complete graph takes the middle below its lower end, in both halves,
so that a way has twice the roads of one a rank lower: 2^42 at the top.
"""

from __future__ import annotations

import hashlib
import random
import struct
from pathlib import Path
from typing import NamedTuple

import pytest

from catchup.program import run_program

NODES = 44
FAR = 1 << 60
TABLES = ("nodes.csv", "roads.csv", "profiles.csv")


def road(tail: int, head: int) -> int:
    """The number of the road from a node to another."""
    return tail * (NODES - 1) + head - (head > tail)


def complete_tables(folder: Path) -> list[Path]:
    """Tables of a road from each node to each other, with one of three profiles."""
    roads = [(i, j, (7 * i + j) % 3) for i in range(NODES) for j in range(NODES) if i != j]
    texts = (
        "node,x,y\n" + "".join(f"{node},{node},0\n" for node in range(NODES)),
        "arc,tail,head,profile\n" + "".join(f"{arc},{i},{j},{p}\n" for arc, (i, j, p) in enumerate(roads)),
        "profile,from,kind,value\n0,0,travel,600\n1,0,travel,900\n2,0,travel,70000\n",
    )
    paths = [folder / name for name in TABLES]
    for path, text in zip(paths, texts):
        path.write_text(text)
    return paths


class Lists(NamedTuple):
    """Where a packed file has its way lists, and the ends of its edges by their numbers."""

    starts: int
    entries: int
    bounds: int
    ends: list[tuple[int, int]]


def lists_of(data: bytes) -> Lists:
    """The lists of a packed file."""
    nodes, arcs, profiles, edges = struct.unpack_from("<4I", data, 12)
    pieces, entries, _length = struct.unpack_from("<3Q", data, 28)
    firsts = 52 + 8 * nodes + 12 * arcs + 8 * (profiles + 1) + 12 * pieces
    uppers = firsts + 4 * (nodes + 1)
    starts = uppers + 4 * edges
    behind = struct.unpack_from(f"<{nodes + 1}I", data, firsts)
    highs = struct.unpack_from(f"<{edges}I", data, uppers)
    ends = [(low, highs[i]) for low in range(nodes) for i in range(behind[low], behind[low + 1])]
    at = starts + 8 * (2 * edges + 1)
    return Lists(starts, at, at + 12 * entries, ends)


def forge(packed: Path, forged: Path) -> None:
    """Gives each edge whose lower end isn't 0 the middle below that end, at each second, with bounds to suit."""
    data = packed.read_bytes()
    lists = lists_of(data)
    count = 2 * len(lists.ends)
    number = {ends: edge for edge, ends in enumerate(lists.ends)}
    behind = struct.unpack_from(f"<{count + 1}Q", data, lists.starts)
    bounds = list(struct.unpack_from(f"<{count}Q", data, lists.bounds))
    entries = [data[lists.entries + 12 * behind[i] : lists.entries + 12 * behind[i + 1]] for i in range(count)]
    for edge, (low, high) in enumerate(lists.ends):
        if low == 0:
            continue
        to_low, to_high = number[low - 1, low], number[low - 1, high]
        entries[2 * edge] = entries[2 * edge + 1] = struct.pack("<3I", 0, 1, low - 1)
        bounds[2 * edge] = min(FAR, bounds[2 * to_low + 1] + bounds[2 * to_high])
        bounds[2 * edge + 1] = min(FAR, bounds[2 * to_high + 1] + bounds[2 * to_low])
    sums = [0]
    for entry in entries:
        sums.append(sums[-1] + len(entry) // 12)
    body = data[: lists.starts] + struct.pack(f"<{count + 1}Q", *sums) + b"".join(entries)
    body += struct.pack(f"<{count}Q", *bounds)
    body = body[:36] + struct.pack("<2Q", sums[-1], len(body) + 32) + body[52:]
    forged.write_bytes(body + hashlib.sha256(body).digest())


@pytest.fixture(scope="module")
def far(program: Path, tmp_path_factory: pytest.TempPathFactory) -> Path:
    """A packed file whose ways double from rank to rank."""
    folder = tmp_path_factory.mktemp("far")
    built = run_program(["build", *complete_tables(folder), "identity", folder / "built.cu"])
    assert built.status == 0, built
    forge(folder / "built.cu", folder / "far.cu")
    return folder / "far.cu"


def edit(packed: Path, lines: list[str], stored: Path) -> list[int]:
    """How many edges each line touched, once the edited file is stored."""
    edits = stored.with_suffix(".txt")
    edits.write_text("".join(f"{line}\n" for line in lines))
    run = run_program(["edit", packed, edits, stored])
    assert run.status == 0, run
    return [int(reply.removeprefix("done ")) for reply in run.output.splitlines()[:-1]]


def edit_at_desk(packed: Path, lines: list[str], touched: list[int], stored: Path) -> None:
    """The same lines as those of a client of a desk, each settled step by step."""
    script = "".join(f"1,{line}\n" + "step\n" * (count + 1) for line, count in zip(lines, touched))
    run = run_program(["desk", packed, stored], input=script)
    assert run.status == 0 and run.output.count("published 1\n") == len(lines), run


CASES = [
    [f"a,{road(30, 31)},0"],
    [f"a,{road(5, 6)},1", f"a,{road(41, 42)},0"],
    [f"a,{road(25, 40)},0", f"a,{road(39, 12)},2"],
    ["s,0,0,travel,700"],
]


def random_lines(seed: int) -> list[str]:
    """One to three roads of nodes from 10 on get a profile."""
    rng = random.Random(seed)
    pairs = [(rng.randrange(10, NODES), rng.randrange(NODES)) for _ in range(rng.randint(1, 3))]
    return [f"a,{road(tail, head)},{rng.randrange(3)}" for tail, head in pairs if tail != head]


@pytest.mark.parametrize("lines", [*CASES, *(random_lines(seed) for seed in range(6))])
def test_edit_settles_far_ways_as_a_desk_does(far: Path, tmp_path: Path, lines: list[str]) -> None:
    touched = edit(far, lines, tmp_path / "edited.cu")
    edit_at_desk(far, lines, touched, tmp_path / "desk.cu")
    assert (tmp_path / "edited.cu").read_bytes() == (tmp_path / "desk.cu").read_bytes()
