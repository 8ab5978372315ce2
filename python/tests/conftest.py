"""What the tests share: the program, the examples built, and which tests are long."""

from __future__ import annotations

import os
import shutil
import signal
import sys
import tempfile
import threading
from collections.abc import Iterator
from pathlib import Path
from typing import TYPE_CHECKING

# Hypothesis keeps tables of characters in a folder; it must not be one of the checkout.
os.environ.setdefault("HYPOTHESIS_STORAGE_DIRECTORY", os.path.join(tempfile.gettempdir(), "catchup-hypothesis"))
# What Python makes of the modules stays out of the checkout: bin/check names a folder for it.
sys.dont_write_bytecode = sys.pycache_prefix is None
# A shell that runs the tests in the background has interrupts ignored, and whatever a test starts would ignore them too.
if signal.getsignal(signal.SIGINT) is signal.SIG_IGN:
    signal.signal(signal.SIGINT, signal.default_int_handler)

import pytest  # noqa: E402
from reporting import pytest_make_collect_report, pytest_runtest_makereport, pytest_terminal_summary  # noqa: E402, F401
from scripts import let_through, make_clone, set_writable  # noqa: E402
from stub_checkout import Checkout  # noqa: E402

from catchup.errors import CatchupError, Ended  # noqa: E402
from catchup.program import Child, run_program  # noqa: E402

if TYPE_CHECKING:
    from browsing import Browser
    from serving import Service

TOP = Path(__file__).resolve().parents[2]
EXAMPLES = TOP / "examples"
# The status of a launcher that has no program.
NO_PROGRAM = 1

try:
    import hypothesis
except ModuleNotFoundError:
    # The tests that import it are skipped.
    pass
else:
    # The same examples each time, and no limit of time for one: these machines are shared.
    hypothesis.settings.register_profile("catchup", deadline=None, derandomize=True, database=None)
    hypothesis.settings.load_profile("catchup")


def pytest_addoption(parser: pytest.Parser) -> None:
    parser.addoption("--long", action="store_true", help="run the tests that are marked as long too")


def pytest_collection_modifyitems(config: pytest.Config, items: list[pytest.Item]) -> None:
    # At the end no process is to wait for what takes long.
    items.sort(key=lambda item: item.get_closest_marker("first") is None)
    if config.getoption("--long"):
        return
    for item in items:
        if item.get_closest_marker("long"):
            item.add_marker(pytest.mark.skip(reason="takes long: run with --long"))


@pytest.fixture(scope="session")
def program() -> Path:
    """The path of the program; skips where there is none, and fails where one is there that doesn't answer a line before
    the next comes. From then on the tests start it without the launcher, which looks at each source first."""
    tables = [EXAMPLES / "rush_hour" / name for name in ("nodes.csv", "roads.csv", "profiles.csv")]
    words: list[str | Path] = ["serve", *tables, "identity"]
    try:
        # The launcher may have to build it, however long that takes.
        run = run_program(words)
    except CatchupError as error:
        pytest.skip(f"the program doesn't run here: {error}")
    if run.status == NO_PROGRAM:
        pytest.skip(f"the program doesn't run here: {run.error.strip()}")
    with Child(words) as child:
        # A reply that stays in the program would be waited for without end.
        late = threading.Timer(600, child.kill)
        late.start()
        try:
            assert child.ask("q,0,2,0") == "arrive=160 arcs=0 1"
        except Ended as end:
            pytest.fail(f"a line got no reply: {end}")
        finally:
            late.cancel()
        found = Path(os.readlink(f"/proc/{child.pid}/exe"))
    os.environ["CATCHUP"] = str(found)
    return found


def build(folder: Path, out: Path, order: str = "dissect") -> Path:
    """Builds the packed file of a folder's three tables."""
    tables = [folder / name for name in ("nodes.csv", "roads.csv", "profiles.csv")]
    run = run_program(["build", *tables, order, out])
    assert run.status == 0, run
    return out


@pytest.fixture(scope="session")
def town(program: Path, tmp_path_factory: pytest.TempPathFactory) -> Path:
    """The packed file of examples/town: 159 nodes, 550 roads. Tests don't write it."""
    return build(EXAMPLES / "town", tmp_path_factory.mktemp("town") / "town.cu")


@pytest.fixture(scope="session")
def rush_hour() -> Path:
    """The folder of the tables of examples/rush_hour: 3 nodes, 3 roads, 3 profiles. Tests don't write it."""
    return EXAMPLES / "rush_hour"


@pytest.fixture
def file(town: Path, tmp_path: Path) -> Path:
    """A packed file of the town of a test's own, in a folder with nothing else."""
    folder = tmp_path / "served"
    folder.mkdir()
    path = folder / "town.cu"
    path.write_bytes(town.read_bytes())
    return path


@pytest.fixture(scope="module")
def rush_file(program: Path, rush_hour: Path, tmp_path_factory: pytest.TempPathFactory) -> Path:
    """Three roads with a profile each, profile 3 closed, and two spare ones."""
    folder = tmp_path_factory.mktemp("rush")
    for name in ("nodes.csv", "roads.csv"):
        (folder / name).write_text((rush_hour / name).read_text())
    more = "3,0,closed,0\n4,0,travel,1\n5,0,travel,1\n"
    (folder / "profiles.csv").write_text((rush_hour / "profiles.csv").read_text() + more)
    return build(folder, folder / "rush.cu", "identity")


@pytest.fixture(scope="module")
def browser(tmp_path_factory: pytest.TempPathFactory) -> Iterator[Browser]:
    """A browser of a module's own, of a laptop's size."""
    from browsing import Browser

    found = Browser(tmp_path_factory.mktemp("browser"))
    yield found
    found.close()


@pytest.fixture(scope="module")
def village_map(program: Path, tmp_path_factory: pytest.TempPathFactory) -> Path:
    """The folder of the village's map, with rush hours and profiles to spare. Tests don't write it."""
    from browsing import import_village

    return import_village(tmp_path_factory.mktemp("village") / "map")


@pytest.fixture(scope="module")
def village(village_map: Path) -> Iterator[Service]:
    """A service over the village's map."""
    from serving import Service

    with Service(village_map / "map.cu", "--tables", village_map, "--zone", "Europe/Zurich") as service:
        yield service


@pytest.fixture(scope="session")
def clone(tmp_path_factory: pytest.TempPathFactory) -> Path:
    """A clean clone of the checkout as it stands, in which tests write nothing that git would show.

    It has some thousand files, so there is one: tests that take it are marked by `xdist_group("clone")`.
    """
    if shutil.which("git") is None:
        pytest.skip("git isn't installed (git)")
    return make_clone(tmp_path_factory.mktemp("clean") / "clone")


@pytest.fixture
def checkout(tmp_path: Path) -> Iterator[Checkout]:
    """A checkout of stubs, of which nothing is built."""
    let_through(tmp_path)
    yield Checkout(tmp_path)
    set_writable(tmp_path, True)


@pytest.fixture
def built(checkout: Checkout) -> Checkout:
    """A checkout of stubs whose program is built, and which goes by times from now on."""
    assert checkout.launch() == (0, "one")
    checkout.date_word()
    return checkout


@pytest.fixture
def released(built: Checkout) -> Checkout:
    """A checkout of stubs with a released program and none that was built."""
    assert built.call("release").status == 0
    shutil.rmtree(built.out)
    return built
