"""CATCHUP_MEMORY bounds what the program keeps of shortcuts in memory, and changes nothing of what it says."""

from __future__ import annotations

import os
import re
import subprocess
from pathlib import Path

import pytest

from catchup.bench.networks import make_network
from catchup.program import run_program
from catchup.tables import write_network

NODES = 6000
MIB = 1 << 20
# As many queries as make most functions, with edits that forget some between.
QUERIES, TURNS = 1500, 4


@pytest.fixture(scope="module")
def packed(program: Path, tmp_path_factory: pytest.TempPathFactory) -> Path:
    """The packed file of a network that looks like roads."""
    folder = tmp_path_factory.mktemp("memory")
    write_network(folder, make_network(NODES, 5))
    tables = [folder / name for name in ("nodes.csv", "roads.csv", "profiles.csv")]
    assert run_program(["build", *tables, "dissect", folder / "roads.cu"]).status == 0
    return folder / "roads.cu"


def lines(turn: int) -> list[str]:
    """The lines of a turn: an edit, and queries with and without the seconds of their roads."""
    asked = [f"a,{turn * 101},{turn * 37 % 50}"] if turn else []
    for i in range(turn * QUERIES, (turn + 1) * QUERIES):
        word = "v" if i % 5 == 0 else "l" if i % 7 == 0 else "q"
        asked.append(f"{word},{i * 7919 % (NODES - 10)},{(i * 104729 + 11) % (NODES - 10)},{i * 2713 % 86400}")
    return asked


def answered(program: Path, words: list[str | Path], memory: str | None) -> tuple[list[str], int]:
    """The replies to all lines with CATCHUP_MEMORY as given, and the most bytes of memory that the process had."""
    env = {name: value for name, value in os.environ.items() if name not in ("CATCHUP_MEMORY", "GLIBC_TUNABLES")}
    if memory is not None:
        env["CATCHUP_MEMORY"] = memory
    replies: list[str] = []
    with subprocess.Popen(
        [program, *words], stdin=subprocess.PIPE, stdout=subprocess.PIPE, text=True, env=env
    ) as process:
        assert process.stdin and process.stdout
        for turn in range(TURNS):
            for line in lines(turn):
                process.stdin.write(line + "\n")
                process.stdin.flush()
                replies.append(process.stdout.readline())
        most = re.search(r"VmHWM:\s+(\d+) kB", Path(f"/proc/{process.pid}/status").read_text())
        process.stdin.close()
        rest = process.stdout.read()
    assert process.returncode == 0 and not rest and most
    return replies, int(most[1]) * 1024


@pytest.fixture(scope="module")
def without(program: Path, packed: Path) -> tuple[list[str], int]:
    return answered(program, ["ask", packed], "0")


@pytest.fixture(scope="module")
def as_ever(program: Path, packed: Path) -> tuple[list[str], int]:
    return answered(program, ["ask", packed], None)


def test_replies_are_the_same_without_any(without: tuple[list[str], int], as_ever: tuple[list[str], int]) -> None:
    assert without[0] == as_ever[0]
    assert sum(reply.startswith("arrive=") for reply in without[0]) > len(without[0]) / 2
    assert sum(reply.startswith("done ") for reply in without[0]) == TURNS - 1


def test_none_is_less_than_what_is_taken_else(without: tuple[list[str], int], as_ever: tuple[list[str], int]) -> None:
    assert without[1] + MIB < as_ever[1]


@pytest.mark.parametrize("count", [1, 3, 4])
def test_no_more_is_taken(program: Path, packed: Path, without: tuple[list[str], int], count: int) -> None:
    """Room to work in stands beside what is bounded: 2 MB at most."""
    replies, most = answered(program, ["ask", packed], str(count))
    assert replies == without[0]
    assert most <= without[1] + count * MIB + 2_000_000


@pytest.mark.parametrize("text", ["", "-1", "4 ", "99999999999999999999"])
def test_what_is_no_count_is_as_unset(program: Path, packed: Path, as_ever: tuple[list[str], int], text: str) -> None:
    replies, most = answered(program, ["ask", packed], text)
    assert replies == as_ever[0]
    assert abs(most - as_ever[1]) < MIB // 2


def test_a_desk_keeps_to_it(program: Path, packed: Path, without: tuple[list[str], int]) -> None:
    """Its lines have other words, so queries are its own; the file that it stores is the same."""
    stored = []
    for memory in ("0", "4", None):
        out = packed.parent / f"out-{memory}.cu"
        env = {name: value for name, value in os.environ.items() if name != "CATCHUP_MEMORY"}
        if memory is not None:
            env["CATCHUP_MEMORY"] = memory
        asked = "".join(f"0,{line}\n" for line in lines(0) if line.startswith("q"))
        run = subprocess.run([program, "desk", packed, out], input=asked, capture_output=True, text=True, env=env)
        assert run.returncode == 0, run
        stored.append((run.stdout, out.read_bytes()))
    assert stored[0] == stored[1] == stored[2]
