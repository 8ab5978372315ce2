"""bin/catchup-bench: its networks, its Dijkstra, and its table."""

from __future__ import annotations

import os
import re
import shutil
import signal
import stat
import subprocess
from pathlib import Path

import igraph
import numpy as np
import pytest
from commands import BIN, call, check_refused, run, run_into_closed_pipe

from catchup.bench.measure import compile_dijkstra
from catchup.bench.networks import make_network
from catchup.program import run_program
from catchup.tables import write_network

needs_tools = pytest.mark.skipif(
    shutil.which("ndmetis") is None or shutil.which("cc") is None, reason="ndmetis or a C compiler isn't installed"
)


@pytest.mark.parametrize("size", [20, 300, 3000])
def test_networks_look_like_roads(program: Path, tmp_path: Path, size: int) -> None:
    network = make_network(size, 5)
    nodes, roads, profiles = network.nodes, network.roads, network.profiles
    assert abs(len(nodes) - size) <= 0.1 * size + 2 and 2.0 < len(roads) / len(nodes) < 3.0
    assert igraph.Graph(len(nodes), list(zip(roads.tail, roads.head)), directed=True).is_connected("strong")
    assert len(np.unique(roads.profile)) == len(profiles) and 1 in np.diff(profiles.first) and 7 in np.diff(profiles.first)
    write_network(tmp_path, network)
    tables = [tmp_path / name for name in ("nodes.csv", "roads.csv", "profiles.csv")]
    assert run_program(["build", *tables, "dissect", tmp_path / "made.cu"]).status == 0
    again = make_network(size, 5)
    assert (again.roads.head == roads.head).all() and (make_network(size, 6).nodes.x[:9] != nodes.x[:9]).any()


@needs_tools
def test_its_dijkstra_answers_as_the_program(program: Path, tmp_path: Path, rush_hour: Path) -> None:
    dijkstra = compile_dijkstra(tmp_path)
    assert dijkstra
    tables = [rush_hour / name for name in ("nodes.csv", "roads.csv", "profiles.csv")]
    lines = [f"q,{origin},{target},{second}" for origin in range(3) for target in range(3) for second in range(0, 86400, 500)]
    said = subprocess.run([dijkstra, *tables], input="\n".join(lines), capture_output=True, text=True)
    wanted = run_program(["serve", *tables, "identity"], input="\n".join(lines)).output.splitlines()
    arrivals = [reply.split()[0].removeprefix("arrive=").replace("unreachable", "-") for reply in wanted]
    assert said.stdout.splitlines() == arrivals


@needs_tools
def test_the_table(tmp_path: Path) -> None:
    ran = run("catchup-bench", "--sizes", "200,400", "--queries", "200", "--keep", tmp_path / "kept")
    assert ran.status == 0 and ran.error == "", ran
    header, *rows = ran.output.splitlines()
    assert header.split()[:3] == ["nodes", "roads", "edges"] and len(rows) == 2
    assert all(re.fullmatch(r"( +[0-9.]+){13}", row) and len(row) == len(header) for row in rows)
    assert sorted(os.listdir(tmp_path / "kept")) == ["200", "400"] and (tmp_path / "kept/200/map.cu").exists()


@needs_tools
def test_without_a_compiler(tmp_path: Path) -> None:
    for tool in ("ndmetis", "sh", "sed"):
        (tmp_path / tool).symlink_to(shutil.which(tool) or "")
    ran = run("catchup-bench", "--sizes", "100", "--queries", "100", env={"PATH": str(tmp_path), "CC": ""})
    assert ran.status == 0 and "no C compiler (cc) is installed" in ran.error
    assert ran.output.splitlines()[1].split()[-2:] == ["-", "-"]
    check_refused(run("catchup-bench", env={"PATH": str(tmp_path), "CC": "/bin/false"}), 1, "/bin/false can't compile")


LIAR = """#!/bin/sh
[ "$1" = ask ] && exec sed 's/.*/arrive=1 arcs=/'
exec "$REAL" "$@"
"""


@needs_tools
def test_arrivals_that_differ_are_told(program: Path, tmp_path: Path) -> None:
    liar = tmp_path / "liar"
    liar.write_text(LIAR)
    liar.chmod(liar.stat().st_mode | stat.S_IXUSR)
    ran = run("catchup-bench", "--sizes", "100", "--queries", "100", env={"CATCHUP": str(liar), "REAL": str(program)})
    assert ran.status == 1 and "catchup-bench: the arrivals differ: q," in ran.error and ran.error.count("\n") == 1


def test_refusals(tmp_path: Path) -> None:
    for words in (["--sizes", "5"], ["--sizes", "a,b"], ["--sizes", ""], ["--sizes", "262145"], ["--queries", "1"], ["more"]):
        check_refused(call("catchup-bench", *words), 2, "See: catchup-bench --help")
    (tmp_path / "file").write_text("")
    for folder, said in ((tmp_path / "file", "Not a directory"), (Path("/proc/none"), "No such file or directory")):
        check_refused(call("catchup-bench", "--sizes", "100", "--keep", folder), 1, f"{folder}/100 can't be made: {said}")


def test_a_closed_pipe_is_silent() -> None:
    ran = run_into_closed_pipe("catchup-bench", "--sizes", "30", "--queries", "100")
    assert ran.status == 141 and "Traceback" not in ran.error


def test_an_interrupt_leaves_nothing(tmp_path: Path) -> None:
    process = subprocess.Popen(
        [BIN / "catchup-bench", "--sizes", "20000"], stdout=subprocess.PIPE, env={**os.environ, "TMPDIR": str(tmp_path)}
    )
    assert process.stdout and process.stdout.readline()
    process.send_signal(signal.SIGINT)
    assert process.wait(600) == 130 and os.listdir(tmp_path) == []
