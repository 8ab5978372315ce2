"""catchup-import as a stranger runs it: what it makes, prints and refuses, on made maps and on a real one."""
from __future__ import annotations

import os
import re
import resource
import shutil
import sqlite3
import subprocess
from pathlib import Path
from typing import Any

import numpy as np
import pytest
import scripts
from commands import BIN, Ran, call, check_refused, interrupt, run, run_into_closed_pipe
from osm_maps import Net, OsmMap
from scripts import let_through
from waiting import least_seconds

from catchup import tables
from catchup.errors import Failure
from catchup.mapfile import MapFile
from catchup.maps import importing
from catchup.maps.importing import Options, import_osm
from catchup.maps.report import listed
from catchup.maps.vehicles import VEHICLES
from catchup.program import Child, run_program

TOP = Path(__file__).resolve().parents[2]
REAL = "liechtenstein-2013-08-03.osm.pbf"
# What they share takes long to make.
ON_A_REAL_MAP = pytest.mark.xdist_group("real map")
FILES = ["map.gpkg", "nodes.csv", "order.csv", "profiles.csv", "report.txt", "roads.csv"]


@pytest.fixture(scope="session")
def real_map() -> Path:
    """A real map; skips where it isn't there."""
    folder = Path(os.environ.get("CATCHUP_MAPS", TOP.parent / "shared" / "maps"))
    if not (folder / REAL).is_file():
        pytest.skip(f"{folder / REAL} isn't there: set CATCHUP_MAPS to a folder that has it")
    return folder / REAL


@pytest.fixture(scope="session")
def real(real_map: Path, program: Path, tmp_path_factory: pytest.TempPathFactory) -> Path:
    """What is made of the real map. Tests don't write it."""
    folder = tmp_path_factory.mktemp("real") / "li"
    seconds, said = import_real(real_map, folder)
    (folder.parent / "seconds").write_text(str(seconds), encoding="utf-8")
    (folder.parent / "said").write_text(said, encoding="utf-8")
    return folder


def import_real(real_map: Path, folder: Path) -> tuple[float, str]:
    """Imports the real map by a process of its own: how many seconds of a processor that took, and what it said."""
    before = processor_seconds()
    ran = run("catchup-import", "osm", real_map, folder, "--build")
    assert ran.status == 0 and ran.error == "", ran
    return processor_seconds() - before, ran.output


@pytest.fixture
def small(tmp_path: Path) -> Path:
    """A map of two streets: 1 to 3 and 2 to 4."""
    made = OsmMap()
    made.row(3)
    made.node(4, 1000, 1000)
    made.way([1, 2, 3], highway="residential", name="Königsstraße")
    made.way([2, 4], highway="service", access="private")
    return made.write(tmp_path / "small.osm")


def imported(*words: str | Path, **how: Any) -> Ran:
    """Runs catchup-import osm in this process, as `call` does."""
    return call("catchup-import", "osm", *words, **how)


def processor_seconds() -> float:
    """Seconds of a processor that children which have ended have taken."""
    return sum(resource.getrusage(resource.RUSAGE_CHILDREN)[:2])


def left(folder: Path) -> list[str]:
    """What stands in a folder, hidden or not."""
    return sorted(path.name for path in folder.iterdir())


def test_what_is_made(small: Path, tmp_path: Path, program: Path) -> None:
    ran = run("catchup-import", "osm", small, tmp_path / "out")
    assert (ran.status, ran.error) == (0, "")
    assert left(tmp_path / "out") == FILES and left(tmp_path) == ["out", "small.osm"]
    lines = ran.output.splitlines()
    assert lines[0].startswith("small.osm: 4 junctions (0 of them copies), 6 roads, ")
    words = [line.split()[0] for line in lines[1:-1]]
    assert words == ["taken", "left", "lost", "barriers", "turns", "speeds", "names", "warnings", "made"]
    assert re.fullmatch(rf"made +{tmp_path}/out in [0-9.]+ s and [0-9,]+ MB", lines[-2])
    assert lines[-1].startswith(f"next      {BIN}/catchup build ")
    assert (tmp_path / "out" / "report.txt").read_text(encoding="utf-8").startswith("\n".join(lines[:-2]) + "\n")
    network = tables.read_network(tmp_path / "out")
    assert len(network.nodes) == 4 and len(network.roads) == 6
    assert sorted(tables.read_order(tmp_path / "out" / "order.csv", 4).tolist()) == [0, 1, 2, 3]
    # What it says is next can be run as it stands.
    done = subprocess.run(["sh", "-c", lines[-1].split(None, 1)[1]], cwd=tmp_path, capture_output=True, text=True)
    assert done.returncode == 0 and done.stdout.startswith("built 4 6 "), done


def test_the_packed_file_answers(small: Path, tmp_path: Path, program: Path) -> None:
    ran = run("catchup-import", "osm", small, tmp_path / "out", "--build")
    said = f"next      {BIN}/catchup-http {tmp_path}/out/map.cu --tables {tmp_path}/out"
    assert ran.status == 0 and ran.output.splitlines()[-1] == said
    # Found by its name, it calls others by theirs.
    again = subprocess.run(["catchup-import", "osm", small, "again", "--build"], cwd=tmp_path, capture_output=True,
                           text=True, env={**os.environ, "PATH": f"{BIN}:{os.environ['PATH']}"})
    assert again.stdout.splitlines()[-1] == "next      catchup-http again/map.cu --tables again"
    found = MapFile.open(tmp_path / "out" / "map.gpkg")
    nodes = {osm: node for node, osm in enumerate(found.node_osm.tolist())}
    with Child(["ask", tmp_path / "out" / "map.cu"]) as child:
        assert child.ask(f"q,{nodes[1]},{nodes[4]},28800").startswith(f"arrive={28800 + 144 + 240} arcs=")


def test_the_same_map_makes_the_same_bytes(small: Path, tmp_path: Path, program: Path) -> None:
    for name in ("one", "two"):
        assert run("catchup-import", "osm", small, tmp_path / name, "--build").status == 0
    for name in [*FILES, "map.cu"]:
        assert (tmp_path / "one" / name).read_bytes() == (tmp_path / "two" / name).read_bytes(), name


def test_an_empty_folder_is_taken(small: Path, tmp_path: Path, program: Path) -> None:
    (tmp_path / "out").mkdir()
    assert imported(small, "out", cwd=tmp_path).status == 0 and left(tmp_path / "out") == FILES


def test_a_folder_that_isnt_empty(small: Path, tmp_path: Path, program: Path) -> None:
    """Left alone, but for --force; and then what an import doesn't make stays. An old packed file goes."""
    out = tmp_path / "out"
    out.mkdir()
    (out / "mine.txt").write_text("mine", encoding="utf-8")
    (out / "roads.csv").write_text("old", encoding="utf-8")
    (out / "map.cu").write_text("old", encoding="utf-8")
    check_refused(imported(small, out), 1, "isn't empty; name another, or replace")
    assert left(out) == ["map.cu", "mine.txt", "roads.csv"] and (out / "roads.csv").read_text(encoding="utf-8") == "old"
    assert imported(small, out, "--force").status == 0
    assert left(out) == sorted([*FILES, "mine.txt"]) and (out / "mine.txt").read_text(encoding="utf-8") == "mine"
    assert (out / "roads.csv").read_text(encoding="utf-8") != "old" and left(tmp_path) == ["out", "small.osm"]


def test_the_folder_that_one_is_in(small: Path, tmp_path: Path, program: Path) -> None:
    """It stays the same folder, with its mode: who is in it sees what was made, and it may be a mounted one."""
    out = tmp_path / "out"
    out.mkdir(mode=0o750)
    before = out.stat()
    for more in ("", "--force --weekday su"):
        said = f"{BIN}/catchup-import osm ../small.osm . --build {more} && ls -A && {BIN}/catchup verify map.cu"
        ran = subprocess.run(["bash", "-c", said], cwd=out, capture_output=True, text=True, timeout=600)
        assert ran.returncode == 0 and ran.stdout.splitlines()[-8:] == [*sorted([*FILES, "map.cu"]), "same"], ran
        assert (out.stat().st_ino, out.stat().st_mode) == (before.st_ino, before.st_mode)
    assert left(tmp_path) == ["out", "small.osm"]


def test_what_a_killed_import_left_isnt_in_the_way(small: Path, tmp_path: Path, program: Path) -> None:
    """Nobody sees it, so to whoever looks the folder is empty."""
    out = tmp_path / "out"
    (out / ".catchup-import.0badcafe.part").mkdir(parents=True)
    assert imported(small, out).status == 0 and left(out) == [".catchup-import.0badcafe.part", *FILES]
    check_refused(imported(small, out), 1, "isn't empty")


def test_a_folder_that_cant_be_filled(small: Path, tmp_path: Path, monkeypatch: pytest.MonkeyPatch) -> None:
    """What it had of an import is there again."""
    out = tmp_path / "out"
    assert imported(small, out).status == 0
    (out / "mine.txt").write_text("mine", encoding="utf-8")
    before = {name: (out / name).read_bytes() for name in left(out)}
    rename = os.rename

    def fail(old: Path, new: Path) -> None:
        if Path(new) == out / "profiles.csv" and ".old" not in str(old):
            raise OSError(5, "Input/output error")
        rename(old, new)

    monkeypatch.setattr(os, "rename", fail)
    check_refused(imported(small, out, "--force", "--weekday", "su"), 1, f"{out} can't be written: Input/output error")
    assert {name: (out / name).read_bytes() for name in left(out)} == before


def test_a_full_disk_is_told_of_the_folder_that_was_named(small: Path, tmp_path: Path) -> None:
    """A limit on the size of files stands for the disk."""
    words = ["bash", "-c", 'ulimit -f 8; exec "$0" "$@"', BIN / "catchup-import", "osm", small, tmp_path / "out"]
    # What Python keeps of modules would be cut too.
    env = {**os.environ, "PYTHONDONTWRITEBYTECODE": "1"}
    ran = subprocess.run(words, capture_output=True, text=True, timeout=600, env=env)
    assert ran.returncode == 1 and ran.stderr.startswith(f"catchup-import: {tmp_path}/out/map.gpkg can't be written: "), ran
    assert left(tmp_path) == ["small.osm"]


NO_MAP = "this isn't a whole file of OpenStreetMap"
HISTORY = "this is a history or a file of changes"


@pytest.mark.parametrize("name, content, says", [
    ("none.osm.pbf", None, "there is no such file"),
    ("text.txt", "hello\n", f"{NO_MAP}: Could not detect file format"),
    ("text.osm", "hello\n", f"{NO_MAP}: XML parsing error"),
    ("text.osm.pbf", "hello\n", f"{NO_MAP}: PBF error"),
    ("text.osm.bz2", "hello\n", NO_MAP),
    ("empty.osm.pbf", "", NO_MAP),
    ("cut.osm", '<?xml version="1.0"?><osm version="0.6"><node id="1" lat="1"', f"{NO_MAP}: XML"),
    ("nowhere.osm", '<osm version="0.6"><node id="1" lat="x" lon="9"/><node id="2" lat="47" lon="9"/>'
     '<way id="1"><nd ref="1"/><nd ref="2"/><tag k="highway" v="primary"/></way></osm>',
     f"{NO_MAP}: wrong format for coordinate"),
    ("part.osm", '<osm version="0.6"><node id="1" lat="47" lon="9"/><remark> runtime error: Timed out\n</remark></osm>',
     "this isn't all that was asked for, as its server says: runtime error: Timed out"),
    ("page.osm", "<html><body>busy</body></html>", NO_MAP),
    ("bare.osm", '<?xml version="1.0"?><osm version="0.6"></osm>', "no way in it is a road for cars"),
    ("history.osh", '<?xml version="1.0"?><osm version="0.6"></osm>', HISTORY),
    ("change.osc", '<?xml version="1.0"?><osmChange version="0.6"></osmChange>', HISTORY)])
def test_files_that_are_no_map(tmp_path: Path, name: str, content: str | None, says: str) -> None:
    if content is not None:
        (tmp_path / name).write_text(content, encoding="utf-8")
    before = left(tmp_path)
    check_refused(imported(name, "out", cwd=tmp_path), 1, f"catchup-import: {name}: {says}")
    assert left(tmp_path) == before


def test_threads_that_cannot_be_started(tmp_path: Path, monkeypatch: pytest.MonkeyPatch) -> None:
    """The library that reads maps tells this alone, and the map has no fault."""
    def read(*_: object) -> None:
        raise RuntimeError("Resource temporarily unavailable")

    (tmp_path / "bare.osm").write_text('<?xml version="1.0"?><osm version="0.6"></osm>', encoding="utf-8")
    monkeypatch.setattr("osmium.io.Reader", read)
    said = "catchup-import: bare.osm: no thread can be started to read it: free some memory, or allow more processes"
    check_refused(imported("bare.osm", "out", cwd=tmp_path), 1, said)


@pytest.mark.parametrize("part", [0.1, 0.5, 0.99])
def test_a_map_that_is_cut(real_map: Path, tmp_path: Path, part: float) -> None:
    content = real_map.read_bytes()
    (tmp_path / "cut.osm.pbf").write_bytes(content[:int(len(content) * part)])
    check_refused(imported(tmp_path / "cut.osm.pbf", tmp_path / "out"), 1, NO_MAP)
    assert left(tmp_path) == ["cut.osm.pbf"]


def test_a_map_that_is_damaged(real_map: Path, tmp_path: Path) -> None:
    content = bytearray(real_map.read_bytes())
    content[len(content) // 2:len(content) // 2 + 50] = bytes(50)
    (tmp_path / "bad.osm.pbf").write_bytes(content)
    check_refused(imported(tmp_path / "bad.osm.pbf", tmp_path / "out"), 1, NO_MAP)
    assert left(tmp_path) == ["bad.osm.pbf"]


@pytest.mark.parametrize("name, words", [
    ("catchup-import", ["osm", "locked", "out"]), ("catchup-import", ["osm", "small.osm", "out", "--speeds", "locked"]),
    ("catchup-tables", ["locked", "small.osm"]), ("draw-reach", ["locked", "small.osm"]),
    ("draw-route", ["locked", "small.osm"])])
def test_a_file_that_isnt_readable(small: Path, tmp_path: Path, name: str, words: list[str]) -> None:
    """It is told as any other file that can't be read is, and not as wrong words."""
    shutil.copy(small, tmp_path / "locked")
    (tmp_path / "locked").chmod(0)
    let_through(tmp_path)
    ran = scripts.run([BIN / name, *words], folder=tmp_path, nobody=True)
    assert (ran.status, ran.out) == (1, "") and ran.err.startswith(f"{name}: locked"), ran
    assert "can't be read: Permission denied" in ran.err and ran.err.count("\n") == 1, ran


def test_folders_that_cant_be_made(small: Path, tmp_path: Path) -> None:
    check_refused(imported(small, small), 1, "this is a file, and no folder")
    check_refused(imported(small, tmp_path / "no" / "out"), 1, "there is no folder to make it in")
    check_refused(run("catchup-import", "osm", tmp_path, tmp_path / "out"), 1, "this isn't a file")


@pytest.mark.parametrize("words, says", [
    ([], "Missing argument 'DIR'"), (["out", "more"], "unexpected extra argument"),
    (["out", "--quickly"], "No such option"),
    (["out", "--vehicle", "tram"], "'tram' is not one of"), (["out", "--weekday", "monday"], "is not one of"),
    (["out", "--bbox", "1,2,3"], "write four numbers WEST,SOUTH,EAST,NORTH, as 9.4,47,9.7,47.3, and not '1,2,3'"), (["out", "--bbox", "9,47,8,48"], "west before east"),
    (["out", "--spare", "-1"], "write a whole number from 0 to 100000, and not '-1'"),
    (["out", "--signals", "-1"], "write seconds from 0 to 600, as 4.5, and not '-1'"),
    (["out", "--without", "nope"], "nope is no class of roads"),
    (["out", "--crossings", "long"], "write seconds from 0 to 600"), (["out", "--crossings", "nan"], "write seconds from 0 to 600"),
    (["out", "--signals", "NaN"], "write seconds from 0 to 600"), (["out", "--left", "1.5"], "write a whole number from 0 to 600"),
    (["out", "--right"], "requires an argument")])
def test_wrong_words(small: Path, tmp_path: Path, words: list[str], says: str) -> None:
    ran = imported(small, *words, cwd=tmp_path)
    check_refused(ran, 2, says)
    # The help of the command that has these options; what is no class of roads is told with all that are.
    assert ran.error.endswith(". See: catchup-import osm --help\n") or "--without" in words
    assert left(tmp_path) == ["small.osm"]


def test_wrong_words_are_told_before_a_folder_that_isnt_empty(small: Path, tmp_path: Path) -> None:
    check_refused(imported(small, tmp_path, "--without", "nope"), 2, "nope is no class of roads")


@pytest.mark.parametrize("words, says", [
    ([], "Missing command. Write: catchup-import osm .."), (["tram"], "No such command 'tram'. Write: catchup-import osm .."),
    (["--force"], "No such option: --force.")])
def test_no_command(words: list[str], says: str) -> None:
    check_refused(run("catchup-import", *words), 2, f"catchup-import: {says} See: catchup-import --help")


@pytest.mark.parametrize("words, said", [
    ([], {}), (["--weekday", "su"], {"weekday": "su"}), (["--rush"], {"rush": True}), (["--spare", "3"], {"spare": 3}),
    *((["--vehicle", vehicle], {"vehicle": vehicle}) for vehicle in VEHICLES),
    (["--signals", "20", "--crossings", "2.5"], {"signals": 20.0, "crossings": 2.5}),
    (["--left", "20", "--right", "5"], {"left": 20, "right": 5}),
    (["--without", "service, track"], {"without": frozenset(("service", "track"))}),
    (["--bbox", "9,47,9.5,47.5"], {"bbox": (9.0, 47.0, 9.5, 47.5)}),
    (["--no-private"], {"private": False}), (["--through"], {"through": True}), (["--turn-back"], {"turn_back": True}),
    (["--islands"], {"islands": True}), (["--speeds", "mine.toml"], {"speeds": Path("mine.toml")})])
def test_what_is_asked(small: Path, tmp_path: Path, monkeypatch: pytest.MonkeyPatch, words: list[str],
                       said: dict[str, Any]) -> None:
    asked: list[Options] = []

    def stop(path: Path, options: Options, tell: object) -> None:
        asked.append(options)
        raise Failure("that is enough")

    monkeypatch.setattr(importing, "import_osm", stop)
    # One of these names a file of speeds that isn't there.
    monkeypatch.setattr(importing, "vehicle_of", lambda options: None)
    check_refused(imported(small, tmp_path / "out", *words), 1, "that is enough")
    assert asked == [Options(**said)] and left(tmp_path) == ["small.osm"]


def test_speeds_of_ones_own(small: Path, tmp_path: Path, program: Path) -> None:
    (tmp_path / "fast.toml").write_text("[car.classes]\nresidential = 50\n", encoding="utf-8")
    words = ("--speeds", tmp_path / "fast.toml", "--without", "service")
    assert imported(small, tmp_path / "out", *words).status == 0
    assert MapFile.open(tmp_path / "out" / "map.gpkg").road_seconds.tolist() == [144, 144]
    ran = imported(small, tmp_path / "no", "--speeds", tmp_path / "none.toml")
    check_refused(ran, 1, "none.toml: there is no such file")


@pytest.mark.parametrize("content, says", [
    (b"car = 3", "mine.toml: car is a table, as [car]"),
    (b"foot = []\n[car]\nshare = 0.9", "mine.toml: foot is a table, as [foot]"),
    (b"[car]\nmost = " + b"9" * 5000, "mine.toml: this isn't TOML: "),
    (b"[car]\nmost = " + b"[" * 5000 + b"]" * 5000, "mine.toml: this isn't TOML that can be read: it is nested too deep"),
    (b"[car.classes]\nstra\xdfe = 5", "mine.toml: this isn't UTF-8: save it as UTF-8"),
    (None, "mine.toml: it can't be read: Is a directory")], ids=["car", "foot", "digits", "deep", "latin", "folder"])
def test_speeds_that_cant_be_read(small: Path, tmp_path: Path, content: bytes | None, says: str) -> None:
    if content is None:
        (tmp_path / "mine.toml").mkdir()
    else:
        (tmp_path / "mine.toml").write_bytes(content)
    check_refused(imported(small, "out", "--speeds", "mine.toml", cwd=tmp_path), 1, f"catchup-import: {says}")
    assert left(tmp_path) == ["mine.toml", "small.osm"]


def test_speeds_with_a_byte_order_mark(small: Path, tmp_path: Path, program: Path) -> None:
    (tmp_path / "mine.toml").write_bytes(b"\xef\xbb\xbf[car.classes]\r\nresidential = 50\r\n")
    assert imported(small, tmp_path / "out", "--speeds", tmp_path / "mine.toml", "--without", "service").status == 0
    assert MapFile.open(tmp_path / "out" / "map.gpkg").road_seconds.tolist() == [144, 144]


@pytest.mark.parametrize("tags", [
    {"highway": "residential", "maxspeed": "0.0000001"},
    {"highway": "residential", "maxspeed__conditional": "0.00001 mph @ (06:00-08:00)"},
    {"highway": "residential", "maxspeed": "0.0001", "access__conditional": "no @ (22:00-06:00)"},
    {"route": "ferry", "motor_vehicle": "yes"},
    {"route": "ferry", "motor_vehicle": "yes", "interval": "24:00", "opening_hours": "23:59-24:00"}],
    ids=["slow", "slow at hours", "slow and closed", "ferry", "ferry that departs"])
def test_no_road_takes_more_than_five_days(tmp_path: Path, program: Path, tags: dict[str, str]) -> None:
    """So the program takes what is made, whatever one way of a map says; the report tells of it."""
    made = OsmMap()
    made.row(3)
    made.node(4, 0, 1_900_000)
    made.way([1, 2, 3], highway="residential")
    made.way([3, 4], number=77, **tags)
    ran = imported(made.write(tmp_path / "far.osm"), tmp_path / "out", "--build")
    assert ran.status == 0 and ran.error == "", ran
    content = tables.read_network(tmp_path / "out").profiles
    assert content.value[content.kind == tables.TRAVEL].max(initial=0) <= 432_000
    report = (tmp_path / "out" / "report.txt").read_text(encoding="utf-8")
    slow = MapFile.open(tmp_path / "out" / "map.gpkg").road_seconds.max() == 432_000
    assert ("roads of more than five days, taken as five: 2 (77, 77)" in report) == slow
    assert slow != ("maxspeed__conditional" in tags)


def test_a_share_of_next_to_nothing(small: Path, tmp_path: Path, program: Path) -> None:
    (tmp_path / "slow.toml").write_text("[car]\nshare = 1e-300\n[car.classes]\nresidential = 1e-300\n", encoding="utf-8")
    ran = imported(small, tmp_path / "out", "--build", "--speeds", tmp_path / "slow.toml")
    assert ran.status == 0 and ran.error == "", ran


def test_a_map_whose_name_is_no_text(small: Path, tmp_path: Path) -> None:
    """libosmium takes names of UTF-8 alone. A folder may have any name."""
    other = os.fsencode(tmp_path) + b"/caf\xe9.osm"
    os.link(small, other)
    ran = subprocess.run([BIN / "catchup-import", "osm", other, tmp_path / "out"], capture_output=True, timeout=600)
    assert ran.returncode == 1 and ran.stderr.count(b"\n") == 1 and b"the name of this map isn't UTF-8: rename it" in ran.stderr
    folder = os.fsencode(tmp_path) + b"/caf\xe9"
    ran = subprocess.run([BIN / "catchup-import", "osm", small, folder], capture_output=True, timeout=600)
    assert ran.returncode == 0 and sorted(os.listdir(folder)) == [os.fsencode(name) for name in FILES]


def test_classes_that_there_are_none_of(small: Path, tmp_path: Path) -> None:
    ran = run("catchup-import", "osm", small, tmp_path / "out", "--without", "service,tracks,ferry")
    check_refused(ran, 2, "--without: tracks is no class of roads; there are bridleway, ")
    assert left(tmp_path) == ["small.osm"]


def test_without_metis(tmp_path: Path, program: Path) -> None:
    """The order is then that of a dissection, and that is said. Streets in a lattice, since a tree needs no METIS."""
    lattice = OsmMap()
    for row in range(5):
        nodes = [lattice.node(10 * row + column, 100 * column, 100 * row) for column in range(5)]
        lattice.way(nodes, highway="residential")
    for column in range(5):
        lattice.way([10 * row + column for row in range(5)], highway="residential")
    small = lattice.write(tmp_path / "lattice.osm")
    tools = tmp_path / "tools"
    tools.mkdir()
    for path in map(Path, ["/usr/bin", "/bin"]):
        for tool in path.iterdir():
            if "metis" not in tool.name and not (tools / tool.name).exists():
                (tools / tool.name).symlink_to(tool)
    ran = run("catchup-import", "osm", small, tmp_path / "out", "--build", env={"PATH": str(tools)})
    said = "catchup-import: metis isn't installed, so the order is that of a plain dissection"
    assert ran.status == 0 and ran.error.startswith(said)
    out = tmp_path / "out"
    made = [out / name for name in ("nodes.csv", "roads.csv", "profiles.csv")]
    assert run_program(["order", *made, tmp_path / "order"]).status == 0
    assert (out / "order.csv").read_bytes() == (tmp_path / "order").read_bytes()


def test_the_program_fails(small: Path, tmp_path: Path) -> None:
    fails = tmp_path / "catchup"
    fails.write_text("#!/bin/sh\necho too many shortcuts\nexit 11\n", encoding="utf-8")
    fails.chmod(0o755)
    ran = run("catchup-import", "osm", small, tmp_path / "out", "--build", env={"CATCHUP": str(fails)})
    check_refused(ran, 1, "catchup build ended with status 11: too many shortcuts")
    assert left(tmp_path) == ["catchup", "small.osm"]
    check_refused(imported(small, tmp_path / "out", "--build", env={"CATCHUP": "/none"}), 1, "CATCHUP names /none")


def test_interrupted(small: Path, tmp_path: Path) -> None:
    slow = tmp_path / "catchup"
    slow.write_text(f"#!/bin/sh\n: > {tmp_path}/begun\nexec sleep 600\n", encoding="utf-8")
    slow.chmod(0o755)
    words: list[str | Path] = [BIN / "catchup-import", "osm", small, tmp_path / "out", "--build"]
    process = subprocess.Popen(words, stdout=subprocess.PIPE, stderr=subprocess.PIPE,
                               env={**os.environ, "CATCHUP": str(slow)}, start_new_session=True)
    assert interrupt(process, tmp_path / "begun") == (130, b"")
    assert left(tmp_path) == ["begun", "catchup", "small.osm"]


def test_a_closed_pipe(small: Path, tmp_path: Path, program: Path) -> None:
    ran = run_into_closed_pipe("catchup-import", "osm", small, tmp_path / "out")
    assert ran.status == 141 and ran.error == "" and left(tmp_path / "out") == FILES


def test_progress_on_a_terminal_alone(small: Path, tmp_path: Path, program: Path) -> None:
    script = shutil.which("script")
    if script is None:
        pytest.skip("the command script isn't installed (bsdutils), which makes a terminal")
    words = f"{BIN / 'catchup-import'} osm {small} {tmp_path / 'out'} > {tmp_path / 'said'}"
    done = subprocess.run([script, "-qec", words, "/dev/null"], capture_output=True, text=True, timeout=600,
                          stdin=subprocess.DEVNULL, env={**os.environ, "TERM": "xterm"})
    assert done.returncode == 0 and "\x1b[" in done.stdout
    assert (tmp_path / "said").read_text(encoding="utf-8").startswith("small.osm: ")


def test_help() -> None:
    ran = run("catchup-import", "osm", "--help")
    options = ("--build", "--vehicle", "--weekday", "--speeds", "--rush", "--spare")
    assert ran.status == 0 and all(option in ran.output for option in options)


# ---- a real map ----


@ON_A_REAL_MAP
def test_the_real_map(real: Path) -> None:
    """Its report, as it was looked through by hand: 97 % of the kilometres are one part."""
    said = (real.parent / "said").read_text(encoding="utf-8")
    for text in (f"{REAL}: 2,281 junctions (57 of them copies), 5,392 roads, ", "599 names; 399 km",
                 "1,587 of 2,753 ways; 22 for destinations alone", "19 opened by a tag (track 19); 8 loops cut in two",
                 "16 barred (motorcar=no 8, motor_vehicle=no 6, access=no 2)", "8 km (2.1 %) in 56 junctions",
                 "32 whole ways (service 18, residential 10, unclassified 2, living_street 1, track 1)",
                 "12 block (bollard 10, cycle_barrier 2); 5 passed", "2 restrictions; made no 1", "warnings  none"):
        assert text in said


@ON_A_REAL_MAP
def test_the_real_map_is_a_geopackage(real: Path) -> None:
    """ogrinfo reads both layers, without a warning."""
    if shutil.which("ogrinfo") is None:
        pytest.skip("ogrinfo isn't installed (gdal-bin)")
    words: list[str | Path] = ["ogrinfo", "-so", "-al", "-ro", real / "map.gpkg"]
    done = subprocess.run(words, capture_output=True, text=True, timeout=600)
    assert done.returncode == 0 and done.stderr == "", done
    for text in ("Layer name: nodes\nGeometry: Point\nFeature Count: 2281",
                 "Layer name: roads\nGeometry: Line String\nFeature Count: 5392",
                 "Layer name: names", "FID Column = road", "osm_way: Integer64", "metres: Real", "class: String"):
        assert text in done.stdout
    words = ["ogrinfo", "-q", "-ro", "-where", "name = 'Landstrasse'", real / "map.gpkg", "roads"]
    done = subprocess.run(words, capture_output=True, text=True, timeout=600)
    assert "LINESTRING (9.5" in done.stdout


@ON_A_REAL_MAP
def test_the_real_maps_file_and_tables_agree(real: Path) -> None:
    found, network = MapFile.open(real / "map.gpkg"), tables.read_network(real)
    assert (found.road_tail == network.roads.tail).all() and (found.road_head == network.roads.head).all()
    assert (found.road_profile == network.roads.profile).all()
    static = [network.profiles.pieces(profile) for profile in network.roads.profile.tolist()]
    assert all(len(pieces) == 1 for pieces in static)
    assert [pieces[0].value for pieces in static] == found.road_seconds.tolist()
    # Each line leads from its tail's place to its head's, and is as long as it is said to be.
    first, last = found.road_first[:-1], found.road_first[1:] - 1
    for points, nodes in ((first, found.road_tail), (last, found.road_head)):
        assert (found.point_lon[points] == found.node_lon[nodes]).all()
        assert (found.point_lat[points] == found.node_lat[nodes]).all()
        assert (found.point_osm[points] == found.node_osm[nodes]).all()
    from catchup.geometry import along
    lengths = np.array([along(*found.line(road))[-1] for road in range(len(found))])
    assert np.abs(lengths - found.road_metres).max() < 0.02


@ON_A_REAL_MAP
def test_the_real_maps_seconds_are_shared_out(real: Path) -> None:
    """All roads of a class together: within 0.2 % of their metres at its speed."""
    found = MapFile.open(real / "map.gpkg")
    residential = found.road_class == found.classes.index("residential")
    with sqlite3.connect(real / "map.gpkg") as base:
        plain = base.execute("SELECT count(*) FROM roads WHERE class = 'residential'").fetchone()[0]
    seconds, metres = found.road_seconds[residential].sum(), found.road_metres[residential].sum()
    assert plain == residential.sum() and seconds == pytest.approx(metres * 3.6 / 25, rel=0.03)


@ON_A_REAL_MAP
def test_one_street_is_closed_alone(real: Path) -> None:
    """A spare profile closes a road half-way on a route: the route changes, and no other road is closed."""
    found, profiles = MapFile.open(real / "map.gpkg"), tables.read_profiles(real / "profiles.csv")
    spare = len(profiles) - int(found.properties["spare_profiles"])
    assert spare not in set(found.road_profile.tolist()) and profiles.pieces(spare)[0].kind == "closed"
    with Child(["ask", real / "map.cu"]) as child:
        before = child.ask("q,100,2000,28800")
        roads = list(map(int, before.split("arcs=")[1].split()))
        road = roads[len(roads) // 2]
        twins = np.flatnonzero((found.road_profile == found.road_profile[road]) & (np.arange(len(found)) != road))
        twin = int(twins[0])
        ask_twin = f"q,{found.road_tail[twin]},{found.road_head[twin]},28800"
        twin_before, edited, after, twin_after, _, again = child.ask_all([
            ask_twin, f"a,{road},{spare}", "q,100,2000,28800", ask_twin, f"a,{road},{found.road_profile[road]}",
            "q,100,2000,28800"])
        assert edited.startswith("done ") and str(road) not in after.split("arcs=")[1].split() and again == before
        assert int(after[7:].split()[0]) > int(before[7:].split()[0]) and twin_after == twin_before
        # Slowed instead of closed: it may be driven, and takes five minutes.
        slow = child.ask_all([f"s,{spare + 1},0,travel,300", f"a,{road},{spare + 1}",
                              f"q,{found.road_tail[road]},{found.road_head[road]},0"])
        assert slow[2].startswith("arrive=") and int(slow[2][7:].split()[0]) <= 300


def test_every_restriction_of_the_real_map(real_map: Path) -> None:
    """Read anew from its relations: no drive goes on as is forbidden, and one that comes from elsewhere does."""
    import osmium

    found: list[tuple[int, int, int]] = []

    class Relations(osmium.SimpleHandler):
        def relation(self, relation: osmium.osm.Relation) -> None:
            if relation.tags.get("type") == "restriction":
                of = {member.role: member.ref for member in relation.members}
                found.append((of["from"], of["via"], of["to"]))

    Relations().apply_file(str(real_map))
    made = import_osm(real_map, Options(), lambda text: None)
    net, ways, tried = Net(made), made.map.road_osm_way.tolist(), 0
    for source, via, target in found:
        come = [road for road, way in enumerate(ways) if way == source and net.osm[net.head[road]] == via]
        for road in come:
            copy, start = net.head[road], net.tail[road]
            on = {ways[other] for other in net.out[copy]}
            assert target not in on and net.copy[copy] > 0 and net.copy[start] == 0
            tried += 1
        others = [road for road in range(len(ways))
                  if net.osm[net.head[road]] == via and ways[road] not in (source, target)]
        assert not come or any(target in {ways[on] for on in net.out[net.head[road]]} for road in others)
    assert (len(found), tried) == (2, 1)


@pytest.mark.parametrize("vehicle, roads", [
    ("truck", (5000, 6000)), ("bicycle", (8000, 16000)), ("foot", (8000, 20000))])
def test_the_real_map_for_others(real_map: Path, tmp_path: Path, program: Path, vehicle: str,
                                 roads: tuple[int, int]) -> None:
    assert imported(real_map, tmp_path / "out", "--vehicle", vehicle).status == 0
    assert roads[0] < len(MapFile.open(tmp_path / "out" / "map.gpkg")) < roads[1]


def test_the_real_map_with_rush_hours(real_map: Path, tmp_path: Path, program: Path) -> None:
    """With the hours' factors a drive over main roads takes longer at 8 than at 12."""
    assert imported(real_map, tmp_path / "out", "--rush", "--build").status == 0
    with Child(["ask", tmp_path / "out" / "map.cu"]) as child:
        arrivals = [int(child.ask(f"q,100,2000,{second}")[7:].split()[0]) - second for second in (8 * 3600, 12 * 3600)]
    assert arrivals[0] > 1.2 * arrivals[1]


@ON_A_REAL_MAP
def test_quick_enough(real: Path, real_map: Path, tmp_path: Path) -> None:
    """Order and packed file with it, in four seconds of one processor."""
    first = float((real.parent / "seconds").read_text(encoding="utf-8"))

    def take() -> float:
        return import_real(real_map, tmp_path / str(len(left(tmp_path))))[0]

    assert first < 4 or least_seconds(take, 4) < 4


def test_listed() -> None:
    assert listed({"a": 1200, "b": 2}) == "a 1,200, b 2" and listed({}) == ""
    assert listed({str(n): n for n in range(8)}).endswith(", 5 5, ..")
