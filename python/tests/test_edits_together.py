"""The edits of a file are made together: its replies and the stored bytes are those of its lines in turn."""

from __future__ import annotations

import random
from pathlib import Path

import pytest

from catchup.program import run_program

CASES = 12
TABLES = ("nodes.csv", "roads.csv", "profiles.csv")


def packed_grid(folder: Path, rng: random.Random) -> tuple[Path, int, int]:
    """A packed file of a grid of at most 36 nodes; how many roads and profiles it has."""
    paths = [folder / name for name in TABLES]
    width, height = rng.randint(2, 6), rng.randint(2, 6)
    made = run_program(["make", str(rng.randrange(1000)), str(width), str(height), *paths])
    assert made.status == 0, made
    packed = folder / "packed.cu"
    built = run_program(["build", *paths, "dissect", packed])
    assert built.status == 0, built
    roads = len(paths[1].read_text().splitlines()) - 1
    profiles = 1 + int(paths[2].read_text().splitlines()[-1].split(",")[0])
    return packed, roads, profiles


def random_line(rng: random.Random, roads: int, profiles: int) -> str:
    """A line: few profiles are set again and again, roads come to them and leave them, and some lines are refused."""
    few = min(profiles, 4)
    return rng.choice(
        [
            f"a,{rng.randrange(roads)},{rng.randrange(few)}",
            f"a,{rng.randrange(roads + 1)},{rng.randrange(profiles)}",
            f"s,{rng.randrange(few)},0,travel,{rng.randint(1, 300)}",
            f"s,{rng.randrange(few)},0,travel,60,25200,travel,180,32400,until,32580,32520,travel,60",
            f"s,{rng.randrange(profiles)},0,closed,0",
            rng.choice(["", "q,0,0,0", "s,0", "a,1,"]),
        ]
    )


def edit(packed: Path, lines: list[str], stored: Path) -> list[str]:
    """The replies to lines of a file of edits, behind which the edited file is stored."""
    edits = stored.with_suffix(".txt")
    edits.write_text("".join(f"{line}\n" for line in lines))
    run = run_program(["edit", packed, edits, stored])
    assert run.status == 0, run
    return run.output.splitlines()[:-1]


@pytest.mark.parametrize("seed", range(CASES))
def test_lines_together_are_lines_in_turn(program: Path, tmp_path: Path, seed: int) -> None:
    rng = random.Random(seed)
    packed, roads, profiles = packed_grid(tmp_path, rng)
    lines = [random_line(rng, roads, profiles) for _ in range(rng.randint(1, 20))]
    together = edit(packed, lines, tmp_path / "together.cu")
    turned, turns = packed, []
    for index, line in enumerate(lines):
        after = tmp_path / f"turn-{index}.cu"
        turns += edit(turned, [line], after)
        turned = after
    assert together == turns
    assert (tmp_path / "together.cu").read_bytes() == turned.read_bytes()
