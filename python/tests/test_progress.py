"""Long work tells how far it is on standard error, and changes nothing of what is said on standard output."""

from __future__ import annotations

import os
import pty
import re
import shutil
import subprocess
from pathlib import Path

import pytest

ROOT = Path(__file__).resolve().parents[2]
TOWN = ROOT / "examples" / "town"


def words(command: str, folder: Path) -> list[str]:
    """The arguments of a command over the town, with what it stores in a folder."""
    tables = [str(TOWN / name) for name in ("nodes.csv", "roads.csv", "profiles.csv")]
    packed = str(folder / "town.cu")
    return {
        "build": ["build", *tables, "identity", packed],
        "serve": ["serve", *tables, "identity"],
        "order": ["order", *tables, str(folder / "order.csv")],
        "ask": ["ask", packed],
        "verify": ["verify", packed],
        "migrate": ["migrate", packed, str(folder / "out.cu")],
        "edit": ["edit", packed, str(folder / "edits.txt"), str(folder / "edited.cu")],
        "wait": ["wait", *tables[:2], str(folder / "measured.csv"), "dissect"],
        "measure": ["measure", str(folder / "measured.csv"), str(folder / "profiles.csv")],
    }[command]


STAGES = {
    "build": ["reading files", "finding shortcuts", "settling shortcuts", "packing", "storing"],
    "serve": ["reading files", "finding shortcuts", "settling shortcuts", "packing"],
    "order": ["reading files", "making an order", "storing"],
    "ask": ["reading files", "checking the packed file"],
    "verify": ["reading files", "checking the packed file", "settling shortcuts", "comparing"],
    "migrate": ["reading files", "checking the packed file", "storing"],
    "edit": [
        "reading files",
        "checking the packed file",
        "making edits",
        "settling shortcuts",
        "packing",
        "storing",
    ],
    "wait": [
        "reading files",
        "converting measured times",
        "making an order",
        "finding shortcuts",
        "settling shortcuts",
        "packing",
    ],
    "measure": ["reading files", "converting measured times", "packing", "storing"],
}


@pytest.fixture
def folder(program: Path, tmp_path: Path) -> Path:
    """A folder with a packed file of the town, a text of two edits and measured profiles."""
    subprocess.run([program, *words("build", tmp_path)], check=True, capture_output=True)
    (tmp_path / "edits.txt").write_text("s,0,0,travel,70\na,1,0\n")
    numbers = sorted({int(row.split(",")[0]) for row in (TOWN / "profiles.csv").read_text().splitlines()[1:]})
    rows = [f"{number},{second},line,{60 + number}" for number in numbers for second in (0, 28800)]
    (tmp_path / "measured.csv").write_text("\n".join(["profile,second,mode,travel", *rows, ""]))
    return tmp_path


def run(program: Path, command: str, folder: Path, progress: str | None) -> subprocess.CompletedProcess[str]:
    """Runs a command with CATCHUP_PROGRESS as given, and one query where it reads a script."""
    env = {name: value for name, value in os.environ.items() if name != "CATCHUP_PROGRESS"}
    if progress is not None:
        env["CATCHUP_PROGRESS"] = progress
    return subprocess.run(
        [program, *words(command, folder)], input="q,5,151,28800\n", capture_output=True, text=True, env=env, check=True
    )


@pytest.mark.parametrize("command", STAGES)
def test_a_line_a_stage_where_it_is_asked_for(program: Path, folder: Path, command: str) -> None:
    told = run(program, command, folder, "1")
    assert told.stderr.splitlines() == [f"catchup: {stage}" for stage in STAGES[command]]
    assert told.stdout == run(program, command, folder, None).stdout


@pytest.mark.parametrize("command", STAGES)
@pytest.mark.parametrize("progress", [None, "0", "2", ""])
def test_silent_where_standard_error_is_no_terminal(program: Path, folder: Path, command: str, progress: str | None) -> None:
    assert run(program, command, folder, progress).stderr == ""


def on_terminal(program: Path, arguments: list[str], env: dict[str, str]) -> tuple[str, str]:
    """What a command writes to a terminal as its standard error, and on standard output, which is a pipe."""
    ours, theirs = pty.openpty()
    child = subprocess.Popen([program, *arguments], stdin=subprocess.DEVNULL, stdout=subprocess.PIPE, stderr=theirs, env=env)
    os.close(theirs)
    shown = b""
    while True:
        try:
            piece = os.read(ours, 4096)
        except OSError:
            break
        if not piece:
            break
        shown += piece
    os.close(ours)
    assert child.stdout is not None
    output = child.stdout.read().decode()
    assert child.wait() == 0
    return shown.decode(), output


# In place of the system's clock, which hangs on how fast a machine is and what else it does: at each look so many
# milliseconds have gone by.
CLOCK = """
#include <stdlib.h>
#include <time.h>
static long long looks;
int clock_gettime(clockid_t which, struct timespec *now) {
  long long at = ++looks * atoll(getenv("MILLISECONDS_A_LOOK"));
  (void)which;
  now->tv_sec = at / 1000;
  now->tv_nsec = at % 1000 * 1000000;
  return 0;
}
"""


@pytest.fixture(scope="module")
def clock(tmp_path_factory: pytest.TempPathFactory) -> Path:
    """The clock, to be loaded before the program."""
    compiler = shutil.which("cc")
    if compiler is None:
        pytest.skip("a C compiler isn't installed (gcc)")
    folder = tmp_path_factory.mktemp("clock")
    (folder / "clock.c").write_text(CLOCK)
    subprocess.run([compiler, "-shared", "-fPIC", "-o", folder / "clock.so", folder / "clock.c"], check=True)
    return folder / "clock.so"


def by_clock(clock: Path, milliseconds: int) -> dict[str, str]:
    """The environment of a program at each of whose looks at the clock so much time has gone by."""
    env = {name: value for name, value in os.environ.items() if name != "CATCHUP_PROGRESS"}
    return env | {"LD_PRELOAD": str(clock), "MILLISECONDS_A_LOOK": str(milliseconds)}


@pytest.fixture(scope="module")
def grid(program: Path, tmp_path_factory: pytest.TempPathFactory) -> list[str]:
    """The tables of a grid of 1,600 nodes, whose shortcuts are thousands."""
    folder = tmp_path_factory.mktemp("grid")
    names = [str(folder / name) for name in ("nodes.csv", "roads.csv", "profiles.csv")]
    subprocess.run([program, "make", "7", "40", "40", *names], check=True, capture_output=True)
    return names


def settled(shown: str) -> list[int]:
    """How many of a hundred shortcuts were settled in each line, of which seconds are told."""
    return [int(one) for one in re.findall(r"settling shortcuts, (\d+) %, \d+ s left", shown)]


# A line stands for a tenth of a second: by each clock one of so many is written over.
STEPS = [(101, 1), (51, 2), (10, 10)]


def check_steps(told: list[list[int]]) -> None:
    """By the first clock each line that is told is shown, which is one for each percent at least."""
    for percents, (_, of) in zip(told, STEPS, strict=True):
        assert percents == sorted(percents) and percents[-1] <= 100
        assert abs(len(percents) * of - len(told[0])) <= of, [len(each) for each in told]
    assert set(range(1, 100)) <= set(told[0])


def test_one_line_written_over_on_a_terminal(program: Path, grid: list[str], clock: Path, tmp_path: Path) -> None:
    told = []
    for milliseconds, _ in STEPS:
        env = by_clock(clock, milliseconds)
        shown, output = on_terminal(program, ["build", *grid, "dissect", str(tmp_path / "grid.cu")], env)
        assert output.startswith("built 1600 ")
        assert "\n" not in shown and "built" not in shown
        assert shown.endswith("\r\x1b[K"), "the line is taken away before the last line is said"
        told.append(settled(shown))
        for stage in ("reading files", "making an order", "settling shortcuts", "packing"):
            lines = re.findall(rf"\rcatchup: {stage}, ([^\x1b]*)", shown)
            assert lines[0] == "0 %", "no seconds are left of what hasn't begun"
            assert all(re.fullmatch(r"\d+ %(, \d+ s left)?", line) for line in lines)
        assert "\rcatchup: storing\x1b[K" in shown
    check_steps(told)
    env["CATCHUP_PROGRESS"] = "0"
    assert on_terminal(program, words("order", tmp_path), env) == ("", "ordered 159\n")


def test_a_line_is_written_over_by_the_systems_clock_too(program: Path, grid: list[str], tmp_path: Path) -> None:
    env = {name: value for name, value in os.environ.items() if name != "CATCHUP_PROGRESS"}
    shown, output = on_terminal(program, ["build", *grid, "dissect", str(tmp_path / "grid.cu")], env)
    percents = settled(shown)
    assert output.startswith("built 1600 ") and "\rcatchup: settling shortcuts, 0 %\x1b[K" in shown
    assert percents == sorted(percents) and all(percent <= 100 for percent in percents)
    assert shown.endswith("\r\x1b[K")


def test_settled_shortcuts_of_edits_are_counted_on_a_terminal(
        program: Path, grid: list[str], clock: Path, tmp_path: Path) -> None:
    packed, edits = str(tmp_path / "grid.cu"), tmp_path / "edits.txt"
    subprocess.run([program, "build", *grid, "dissect", packed], check=True, capture_output=True)
    edits.write_text("".join(f"s,{profile},0,travel,{70 + profile}\n" for profile in range(64)))
    told = []
    for milliseconds, _ in STEPS:
        env = by_clock(clock, milliseconds)
        shown, output = on_terminal(program, ["edit", packed, str(edits), str(tmp_path / "edited.cu")], env)
        assert output.count("done ") == 64 and output.splitlines()[-1].startswith("stored ")
        assert shown.endswith("\r\x1b[K"), "the line is taken away before the last line is said"
        told.append(settled(shown))
    check_steps(told)


def test_a_refused_table_is_told_as_ever(program: Path, tmp_path: Path) -> None:
    (tmp_path / "nodes.csv").write_text("node,x\n")
    arguments = words("serve", tmp_path)
    arguments[1] = str(tmp_path / "nodes.csv")
    done = subprocess.run(
        [program, *arguments], stdin=subprocess.DEVNULL, capture_output=True, text=True, env={**os.environ, "CATCHUP_PROGRESS": "1"}
    )
    assert (done.returncode, done.stdout) == (4, "network: nodes header\n")
