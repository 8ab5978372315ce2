"""Where memory is short: what makes queries faster leaves opening, edits and days what they need."""

from __future__ import annotations

import resource
import subprocess
from pathlib import Path

import pytest

from catchup.program import run_program

QUERY = "q,0,1500,28800\n"
SCRIPT = f"{QUERY}d,5,1300\na,17,3\nd,9,1250\nq,4,1590,30000\n"


def ask_within(program: Path, packed: Path, script: str, room: int) -> list[str] | None:
    """The replies of an `ask` that may have so many bytes; None where it has found too little before the first."""

    def limit() -> None:
        resource.setrlimit(resource.RLIMIT_AS, (room, room))

    done = subprocess.run(
        [str(program), "ask", str(packed)], input=script, capture_output=True, text=True, preexec_fn=limit
    )
    assert done.returncode in (0, 9), done.stderr
    return done.stdout.splitlines() if done.returncode == 0 else None


def grid(program: Path, folder: Path, side: int) -> Path:
    """The packed file of a grid."""
    names = [folder / name for name in ("nodes.csv", "roads.csv", "profiles.csv")]
    assert run_program(["make", "5", str(side), str(side), *names]).status == 0
    assert run_program(["build", *names, "dissect", folder / "grid.cu"]).status == 0
    return folder / "grid.cu"


def test_whoever_has_more_memory_opens_it_too(program: Path, tmp_path: Path) -> None:
    packed = grid(program, tmp_path, 64)
    size = packed.stat().st_size
    opens = [ask_within(program, packed, QUERY, room) is not None for room in range(2 * size, 4 * size, size // 24)]
    assert opens == sorted(opens) and not opens[0] and opens[-1]


def rooms(size: int) -> list[int]:
    """Limits from too little to plenty, for a file of so many bytes."""
    return [size * 9**power // 8**power for power in range(8, 40)]


def test_whoever_has_more_memory_gets_no_fewer_answers(program: Path, tmp_path: Path) -> None:
    packed = grid(program, tmp_path, 40)
    whole = ask_within(program, packed, SCRIPT, 1 << 32)
    assert whole is not None and "no memory" not in whole
    best: set[int] = set()
    for room in rooms(packed.stat().st_size):
        said = ask_within(program, packed, SCRIPT, room)
        assert said is not None or not best, room
        if said is not None:
            told = {at for at, line in enumerate(said) if line != "no memory"}
            assert best <= told, (room, said)
            # Lines before the first that found no memory are those of a network with the same edits.
            first = min(set(range(len(said))) - told, default=len(said))
            assert said[:first] == whole[:first]
            best = told
        if len(best) == len(whole):
            return
    pytest.fail(f"of {len(whole)} lines only {sorted(best)} found memory")
