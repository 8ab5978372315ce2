"""The programs in Python that docs/USING.md prints, run as they are."""

from __future__ import annotations

import itertools
import os
import re
import subprocess
import sys
from pathlib import Path

import pytest
from conftest import TOP

from catchup import Planner
from catchup.clock import parse_clock

# Each program, and what it prints where the page says so: the block behind it, with one line between.
BLOCK = re.compile(r"^```python\n(.*?)^```$(?:\n\n[^\n]*\n\n^```text\n(.*?)^```$)?", re.MULTILINE | re.DOTALL)
PROGRAMS = [(found[1], found[2]) for found in BLOCK.finditer((TOP / "docs/USING.md").read_text())]
ROUND = "PLACES = ["


def printed(code: str, town: Path) -> str:
    """What a program prints in the folder of the town."""
    env = {**os.environ, "PYTHONPATH": str(TOP / "python"), "PYTHONWARNINGS": "error"}
    done = subprocess.run([sys.executable, "-c", code], cwd=town.parent, env=env, capture_output=True, text=True, check=False)
    assert (done.returncode, done.stderr) == (0, ""), done
    return done.stdout


@pytest.mark.parametrize(("code", "said"), PROGRAMS, ids=[code.splitlines()[-1].strip()[:50] for code, _ in PROGRAMS])
def test_a_program_of_the_page(town: Path, code: str, said: str | None) -> None:
    found = printed(code, town)
    assert found == said if said is not None else found


def test_the_round_is_the_best_one(town: Path) -> None:
    """No other order of the stops, each driven to the second, is in time and back sooner."""
    [(code, said)] = [each for each in PROGRAMS if ROUND in each[0]]
    assert 20 <= len(code.splitlines()) <= 40 and said
    depot, *stops = eval(code[code.index(ROUND) + len("PLACES = "):code.index("]\n") + 1])
    with Planner(town) as planner:

        def back(order: tuple[tuple[int, str, str, int], ...]) -> int | None:
            here, leave = depot[0], parse_clock(depot[1])
            for there, opens, closes, stay in (*order, depot):
                drive = planner.route(here, there, leave)
                if drive is None or drive.arrive > parse_clock(closes):
                    return None
                here, leave = there, max(drive.arrive, parse_clock(opens)) + stay
            return drive.arrive if drive else None

        ends = {order: end for order in itertools.permutations(stops) if (end := back(order)) is not None}
    best = min(ends, key=ends.__getitem__)
    assert re.findall(" to ([0-9]+),", said) == [str(stop[0]) for stop in (*best, depot)] and len(ends) > 1


def test_a_round_that_no_order_makes_in_time(town: Path) -> None:
    [code] = [code for code, _ in PROGRAMS if ROUND in code]
    assert printed(code.replace('(20, "07:30", "08:00", 120)', '(20, "07:30", "07:30", 120)'), town) == ""


def test_a_window_that_a_drive_misses_is_told(town: Path) -> None:
    """Where the table has shorter times than the drives."""
    [code] = [code for code, _ in PROGRAMS if ROUND in code]
    short = code.replace("return max(float", "return 0 * max(float").replace('"07:30", "08:00", 120', '"07:30", "07:30:44", 120')
    assert printed(short, town).startswith("07:30:00 to 20, there at 07:30:45, too late\n")
