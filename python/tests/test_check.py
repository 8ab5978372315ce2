"""bin/check: what it installs or says is missing, what it counts, and its last line."""

from __future__ import annotations

import os
from pathlib import Path

import pytest
from scripts import TOP, Run, plain_path, run
from stub_checkout import write_program

TESTS = TOP / "python/tests"
CONFTEST = f"""
import sys
sys.path.insert(0, {str(TESTS)!r})
from reporting import pytest_make_collect_report, pytest_runtest_makereport, pytest_terminal_summary
"""
PASSES = "def test_passes(): pass\n"
FAILS = "def test_fails(): assert False\n"
BREAKS = "import pytest\n\n@pytest.fixture\ndef thing(): raise OSError\n\ndef test_breaks(thing): pass\n"
SKIPS = "import pytest\n\ndef test_skips(): pytest.skip('there is no moon')\n"
MISSES = "import nosuchmodule\n\ndef test_never(): pass\n"
# Fail for what isn't installed: of the list, so that they are skipped, and of no list.
LACKS = """
import importlib.util, shutil

importlib.util.find_spec = shutil.which = lambda name: None

def test_module(): assert not "x: the Python module numpy isn't installed"
def test_tool(): raise FileNotFoundError(2, "No such file or directory", "git")
def test_other(): raise FileNotFoundError(2, "No such file or directory", "moon")
"""
WRONG = "import catchup.nosuchmodule\n"

# Tells every package but wrk as installed; what apt-get is asked is kept.
DPKG = """#!/bin/sh
sed -n 's/^\\([a-z][^ ]*\\) .*/installed \\1/p' "$NEEDS" | grep -v ' wrk$'
"""
APT = """#!/bin/sh
echo "$*" >>"$ROOM/asked"
case "$*" in *install*) echo 'E: Unable to fetch some archives'; exit 100 ;; esac
"""


class Machine:
    """A folder of tests, and of tools that stand before the system's."""

    def __init__(self, room: Path) -> None:
        self.room = room
        (room / "tests").mkdir()
        (room / "tests/conftest.py").write_text(CONFTEST)
        write_program(room / "tools/dpkg-query", DPKG)
        write_program(room / "tools/apt-get", APT)
        write_program(room / "tools/apt-cache", "#!/bin/sh\nexit ${KNOWN-0}\n")
        self.be(1000)

    def be(self, user: int) -> None:
        write_program(self.room / "tools/id", f"#!/bin/sh\necho {user}\n")

    def check(self, *texts: str, **env: str) -> Run:
        """Runs bin/check over files of tests with these texts."""
        for number, text in enumerate(texts):
            (self.room / f"tests/test_{number}.py").write_text(text)
        words = {"PATH": f"{self.room}/tools:{plain_path()}", "ROOM": str(self.room), "NEEDS": f"{TOP}/packaging/needs.txt"}
        # No plug-in of pytest is needed here, and to import them takes longer than all else.
        words["PYTEST_DISABLE_PLUGIN_AUTOLOAD"] = "1"
        return run([TOP / "bin/check", self.room / "tests"], folder=self.room, env=words | env)

    def asked(self) -> list[str]:
        place = self.room / "asked"
        return [line.split(" ")[-1] for line in place.read_text().splitlines()] if place.exists() else []


@pytest.fixture
def machine(tmp_path: Path) -> Machine:
    return Machine(tmp_path)


@pytest.mark.parametrize(
    ("texts", "status", "last"),
    [
        ([PASSES, FAILS, BREAKS], 1, "1 passed, 2 failed, 0 skipped"),
        ([PASSES, WRONG, "syntax error"], 1, "0 passed, 2 failed, 0 skipped"),
        ([], 1, "0 passed, 1 failed, 0 skipped"),
    ],
    ids=["a test and a fixture fail", "our own module isn't there, and no Python", "no tests"],
)
def test_counts(machine: Machine, texts: list[str], status: int, last: str) -> None:
    ran = machine.check(*texts)
    assert (ran.status, ran.out.splitlines()[-1]) == (status, last)


def test_names_what_is_skipped(machine: Machine) -> None:
    ran = machine.check(PASSES, SKIPS, MISSES)
    assert (ran.status, ran.out.splitlines()[-1]) == (0, "1 passed, 0 failed, 2 skipped")
    assert "test_1.py::test_skips: there is no moon\n" in ran.out
    assert "test_2.py: the Python module nosuchmodule isn't installed\n" in ran.out


def test_skips_what_fails_for_something_that_is_not_installed(machine: Machine) -> None:
    ran = machine.check(LACKS)
    assert (ran.status, ran.out.splitlines()[-1]) == (1, "0 passed, 1 failed, 2 skipped")
    assert "test_0.py::test_module: the Python module numpy isn't installed (python3-numpy)\n" in ran.out
    assert "test_0.py::test_tool: git isn't installed (git)\n" in ran.out


def test_says_what_is_missing_and_leaves_nothing_behind(machine: Machine) -> None:
    before = sorted(os.listdir(machine.room))
    ran = machine.check(PASSES, TMPDIR=str(machine.room))
    wanted = (
        "check: what needs one of these is skipped, as they aren't installed: wrk (a service under load)."
        " As root bin/check installs them\n"
    )
    assert ran.err == wanted and machine.asked() == []
    assert (ran.status, ran.out.splitlines()[-1]) == (0, "1 passed, 0 failed, 0 skipped")
    assert sorted(os.listdir(machine.room)) == before
    assert sorted(os.listdir(machine.room / "tests")) == ["conftest.py", "test_0.py"]


def test_installs_what_is_missing(machine: Machine) -> None:
    if os.getuid() != 0:
        pytest.skip("root alone may write the word by which no server is started")
    machine.be(0)
    policy = Path("/usr/sbin/policy-rc.d")
    before = policy.exists()
    ran = machine.check(PASSES)
    failed = "check: apt-get failed (E: Unable to fetch some archives), so the tests go on with what is there\n"
    assert ran.err == "check: installs by apt-get: wrk\n" + failed
    assert ran.out.endswith("1 passed, 0 failed, 0 skipped\n") and ran.status == 0
    assert machine.asked() == ["update", "wrk"]
    assert policy.exists() == before


def test_knows_no_such_package(machine: Machine) -> None:
    machine.be(0)
    ran = machine.check(PASSES, KNOWN="1")
    assert ran.err == "check: installs by apt-get: wrk\ncheck: apt-get knows no package wrk\n"
    assert ran.status == 0 and machine.asked() == ["update"]


def test_without_pytest(machine: Machine) -> None:
    (machine.room / "pytest.py").write_text("raise ImportError\n")
    ran = machine.check(PASSES, PYTHONPATH=str(machine.room))
    assert (ran.status, ran.out) == (1, "0 passed, 1 failed, 0 skipped\n")
    assert "no test can run: /usr/bin/python3 isn't Python 3.11 with pytest (python3-pytest)\n" in ran.err
