"""An edit leaves out ways that take too long, and no others: the file that it stores is the one built of the edited tables."""

from __future__ import annotations

from pathlib import Path

import pytest

from catchup.program import run_program

NODES = "node,x,y\n0,0,0\n1,0,9\n2,9,0\n3,9,9\n"
# From node 2 to node 3 over node 0, over node 1, and beside both.
ROADS = "arc,tail,head,profile\n0,2,0,0\n1,0,3,1\n2,2,1,2\n3,1,3,3\n4,2,3,4\n"
HEAD = "profile,from,kind,value\n"
ALIKE = "0,0,travel,60\n1,0,travel,60\n"
# The way over node 1 takes ten minutes; or one, and in the morning as long as that over node 0, two.
FAR = ALIKE + "2,0,travel,300\n3,0,travel,300\n"
EVEN = ALIKE + "2,0,travel,30\n3,0,travel,30\n3,28800,travel,90\n3,35940,until,36030\n3,36000,travel,30\n"
ONE_MORE = ALIKE + "2,0,travel,30\n3,0,travel,91\n"


def build(program: Path, folder: Path, profiles: str, name: str) -> Path:
    for table, text in (("nodes", NODES), ("roads", ROADS), ("profiles", HEAD + profiles)):
        (folder / table).write_text(text)
    tables = [folder / table for table in ("nodes", "roads", "profiles")]
    ran = run_program(["build", *tables, "identity", folder / name])
    assert ran.status == 0, ran
    return folder / name


@pytest.mark.parametrize("others", [FAR, EVEN, ONE_MORE], ids=["far", "even", "one-more"])
@pytest.mark.parametrize("before", [250, 100, 120, 121])
@pytest.mark.parametrize("after", ["travel,500", "travel,120", "travel,90", "closed,0"])
def test_what_is_stored_is_what_is_built(program: Path, tmp_path: Path, others: str, before: int, after: str) -> None:
    packed = build(program, tmp_path, f"{others}4,0,travel,{before}\n", "before.cu")
    (tmp_path / "edits").write_text(f"s,4,0,{after}\n")
    ran = run_program(["edit", packed, tmp_path / "edits", tmp_path / "edited.cu"])
    assert ran.status == 0, ran
    wanted = build(program, tmp_path, f"{others}4,0,{after}\n", "wanted.cu")
    assert (tmp_path / "edited.cu").read_bytes() == wanted.read_bytes()
