"""How much work answers are, in instructions as valgrind counts them: no clause says how many calls a query spares, so
these tests do. Counts hardly differ between machines, whatever else runs there."""

from __future__ import annotations

import os
import re
import shutil
import subprocess
from pathlib import Path

import pytest

from catchup.bench.networks import make_network
from catchup.program import run_program
from catchup.tables import write_network

# How far a count may rise before it is told.
MORE = 1.05
# The C library copies and compares as the processor does it best; the count is of what every processor has.
PLAIN = {"GLIBC_TUNABLES": "glibc.cpu.hwcaps=-AVX2,-AVX512F,-AVX512VL,-AVX512BW,-ERMS,-FSRM"}
SMALL, LARGE = 1500, 6000


class Opened:
    """The packed file of so many nodes that look like roads, and how many instructions `ask` takes to open it."""

    def __init__(self, program: Path, folder: Path, size: int) -> None:
        if shutil.which("valgrind") is None:
            pytest.skip("valgrind isn't installed (valgrind)")
        write_network(folder, make_network(size, 3))
        tables = [folder / name for name in ("nodes.csv", "roads.csv", "profiles.csv")]
        self.program, self.packed = program, folder / "counted.cu"
        assert run_program(["build", *tables, "dissect", self.packed]).status == 0
        self.opening = self.count([])

    def count(self, lines: list[str]) -> int:
        """How many instructions `ask` takes to open the file and to answer these lines."""
        log = self.packed.parent / "valgrind.log"
        words = ["valgrind", "--tool=callgrind", "--callgrind-out-file=/dev/null", f"--log-file={log}"]
        script = "".join(line + "\n" for line in lines)
        ran = subprocess.run(
            [*words, str(self.program), "ask", str(self.packed)],
            input=script,
            capture_output=True,
            text=True,
            check=True,
            env={**os.environ, **PLAIN},
        )
        assert ran.stdout.count("\n") == len(lines) and "refused" not in ran.stdout
        found = re.search(r"refs: +([\d,]+)", log.read_text())
        assert found, "valgrind counted nothing"
        return int(found[1].replace(",", ""))

    def count_a_line(self, lines: list[str]) -> float:
        return (self.count(lines) - self.opening) / len(lines)


@pytest.fixture(scope="module")
def small(program: Path, tmp_path_factory: pytest.TempPathFactory) -> Opened:
    return Opened(program, tmp_path_factory.mktemp("small"), SMALL)


@pytest.fixture(scope="module")
def large(program: Path, tmp_path_factory: pytest.TempPathFactory) -> Opened:
    return Opened(program, tmp_path_factory.mktemp("large"), LARGE)


def pair(i: int, nodes: int = 1400) -> tuple[int, int]:
    """The ends of a query, far and near ones."""
    return i * 7919 % nodes, (i * 104729 + 11) % nodes


def queries(count: int, nodes: int = 1400) -> list[str]:
    return [f"q,{pair(i, nodes)[0]},{pair(i, nodes)[1]},{i * 2713 % 86400}" for i in range(count)]


def days() -> list[str]:
    return [f"d,{pair(i)[0]},{pair(i)[1]}" for i in range(12)]


def reaches() -> list[str]:
    return [f"r,{node},{second}" for node in (3, 700) for second in range(0, 86400, 3600)]


def next_reaches() -> list[str]:
    """One a second, so that each finds most of what the one before has learned."""
    return [f"r,3,{28800 + second}" for second in range(24)]


@pytest.mark.parametrize(
    ("lines", "usual"),
    [
        (queries(400), 80_500),
        (days(), 2_090_700),
        (days() * 3, 1_542_900),
        (reaches(), 847_900),
        (next_reaches(), 675_600),
    ],
    ids=["queries", "days", "days-again", "reaches", "next-reaches"],
)
def test_answers_take_no_more(small: Opened, lines: list[str], usual: int) -> None:
    a_line = small.count_a_line(lines)
    assert a_line <= MORE * usual, f"{a_line:.0f} instructions a line"


def test_queries_take_less_once_functions_are_made(small: Opened) -> None:
    """Behind the first thousand queries lists become functions: after four thousand all are there."""
    many = queries(4000)
    a_line = (small.count(many + queries(400)) - small.count(many)) / 400
    assert a_line <= MORE * 58_900, f"{a_line:.0f} instructions a line"


def test_queries_take_little_more_while_functions_are_made(small: Opened) -> None:
    many = queries(3000)
    a_line = (small.count(many) - small.count(many[:1000])) / 2000
    assert a_line <= 1.5 * 80_500, f"{a_line:.0f} instructions a line"


def test_far_queries_take_no_more(large: Opened) -> None:
    """The further apart the ends are, the more a query spares that is led to its end."""
    a_line = large.count_a_line(queries(100, LARGE - 10))
    assert a_line <= MORE * 277_900, f"{a_line:.0f} instructions a line"
