"""Tables of few targets, which sweep over these and what is above them alone, have the arrivals that reaches have."""

from __future__ import annotations

import random
import subprocess
from pathlib import Path

import pytest

from catchup.bench.networks import make_network
from catchup.program import run_program
from catchup.tables import write_network

NODES = 1200
EDITS = ("", "a,17,3\n", "s,0,0,closed,0\n", "a,17,0\n")


@pytest.fixture(scope="module", params=["dissect", "identity"])
def packed(request: pytest.FixtureRequest, program: Path, tmp_path_factory: pytest.TempPathFactory) -> Path:
    """The packed file of a network that looks like roads, under an order."""
    folder = tmp_path_factory.mktemp(f"few-{request.param}")
    write_network(folder, make_network(NODES, 3))
    tables = [folder / name for name in ("nodes.csv", "roads.csv", "profiles.csv")]
    assert run_program(["build", *tables, request.param, folder / "roads.cu"]).status == 0
    return folder / "roads.cu"


def answered(program: Path, packed: Path, script: str) -> list[str]:
    done = subprocess.run([str(program), "ask", str(packed)], input=script, capture_output=True, text=True, check=True)
    return done.stdout.splitlines()


@pytest.mark.parametrize("count", [1, 2, 7, 60])
def test_they_are_parts_of_reaches(program: Path, packed: Path, count: int) -> None:
    """Between edits too; targets may be asked twice, and be sources."""
    rng = random.Random(count)
    nodes = int(answered(program, packed, "r,0,0\n")[0].count(" "))
    script, asked = "", []
    for edit in EDITS:
        script += edit
        for _ in range(6):
            second = rng.randrange(86400)
            sources = [rng.randrange(nodes) for _ in range(rng.randrange(1, 4))]
            targets = [*(rng.randrange(nodes) for _ in range(count)), sources[0]]
            script += f"t,{second},{len(sources)},{','.join(map(str, [*sources, *targets]))}\n"
            script += "".join(f"r,{source},{second}\n" for source in sources)
            asked.append((len(sources), targets))
    replies = iter([reply for reply in answered(program, packed, script) if not reply.startswith("done ")])
    for sources_asked, targets in asked:
        table = next(replies).split(" ")
        reaches = [next(replies).split(" ")[1:] for _ in range(sources_asked)]
        assert table == ["table", *(reach[target] for reach in reaches for target in targets)]
    assert not list(replies)
