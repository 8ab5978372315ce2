"""Many processes over one packed file, by GNU parallel: on this machine, and over --sshlogin, where a stub stands for ssh
and runs all here."""

from __future__ import annotations

import os
import shutil
import subprocess
from pathlib import Path

import pytest
from scripts import Run, run
from stub_checkout import write_program

SSH = """#!/bin/sh
while [ "${1#-}" != "$1" ]; do shift; done
echo "$1" >>"$ROOM/hosts"
shift
[ "$1" != -- ] || shift
exec sh -c "$*"
"""


def is_gnu() -> bool:
    """Whether the program of that name is GNU parallel, and not another's."""
    found = shutil.which("parallel")
    return bool(found) and "GNU parallel" in run([found, "--version"]).out


@pytest.fixture
def room(program: Path, town: Path, tmp_path: Path) -> Path:
    """A folder with the packed town, a script of 20,000 queries, their replies, and a program that counts its starts."""
    if not is_gnu():
        pytest.skip("GNU parallel isn't installed (parallel)")
    shutil.copy(town, tmp_path)
    queries = (f"q,{i * 7919 % 159},{(i * 104729 + 11) % 159},{i * 31 % 86400}\n" for i in range(20000))
    (tmp_path / "script.txt").write_text("".join(queries))
    write_program(tmp_path / "program", f'#!/bin/sh\necho start >>"{tmp_path}/starts"\nexec "{program}" ask "$1"\n')
    write_program(tmp_path / "ssh", SSH)
    (tmp_path / "home").mkdir()
    (tmp_path / "home/will-cite").touch()
    with open(tmp_path / "script.txt", "rb") as script, open(tmp_path / "one.txt", "wb") as replies:
        subprocess.run([program, "ask", town], stdin=script, stdout=replies, check=True)
    return tmp_path


def parallel(room: Path, *words: str) -> Run:
    # Without SHELL parallel asks the shell that started it, which may be none: then it runs nothing, and says 0. Without
    # HOME it warns.
    env = {"PARALLEL_HOME": f"{room}/home", "PARALLEL_SSH": f"{room}/ssh", "ROOM": str(room)}
    env |= {"SHELL": "/bin/sh", "HOME": f"{room}/home"}
    cut = ["parallel", "--pipepart", "-a", "script.txt", "--block", "-1", "--keep-order"]
    return run([*cut, *words, "./program", "town.cu"], folder=room, env=env)


def starts(room: Path) -> int:
    return (room / "starts").read_text().count("\n")


def test_on_one_machine(room: Path) -> None:
    status, replies, err = parallel(room, "--jobs", "4")
    assert (status, err) == (0, "")
    assert replies.count("\n") == 20000 and replies == (room / "one.txt").read_text()
    assert starts(room) == 4, "each opens the file once"


def test_on_two_machines(room: Path) -> None:
    status, replies, err = parallel(room, "--sshlogin", "2/one,2/two", "--workdir", os.fspath(room))
    assert (status, err) == (0, "")
    assert replies == (room / "one.txt").read_text()
    assert starts(room) == 4, "two on each"
    hosts = (room / "hosts").read_text().split()
    assert hosts.count("one") >= 2 and hosts.count("two") >= 2
