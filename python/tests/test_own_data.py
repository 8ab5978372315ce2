"""bin/catchup-tables: places and streets of one's own into the three tables."""

from __future__ import annotations

import csv
import math
import os
import random
import subprocess
from pathlib import Path

import numpy as np
import pytest
from commands import BIN, call, check_refused, run, run_into_closed_pipe
from conftest import EXAMPLES
from hypothesis import given, settings
from hypothesis import strategies as st
from waiting import least_seconds

from catchup.clock import DAY
from catchup.own_data import Stretch, pieces_of
from catchup.program import run_program
from catchup.replies import Piece
from catchup.tables import read_network

OWN = EXAMPLES / "own_data"
PLACES = "depot,8.5417,47.3769\nbridge,8.55,47.37\nport,8.56,47.38\n"
FILES = ["ids.csv", "nodes.csv", "profiles.csv", "roads.csv"]
HOURS = ",".join(map(str, range(24)))


@pytest.fixture
def folder(tmp_path: Path, monkeypatch: pytest.MonkeyPatch) -> Path:
    monkeypatch.chdir(tmp_path)
    return tmp_path


def tables(places: str, streets: str, *words: str) -> str:
    """Runs the command over such files; what it printed. The tables are in the folder `made`."""
    Path("places.csv").write_text(places, newline="")
    Path("streets.csv").write_text(streets, newline="")
    ran = call("catchup-tables", "places.csv", "streets.csv", "--out", "made", *words)
    assert ran.status == 0 and ran.error == "", ran
    return ran.output


def arrivals(pieces: tuple[Piece, ...]) -> list[int]:
    """When one arrives who leaves at each second of the day."""
    second = np.arange(DAY)
    piece = np.searchsorted([each.start for each in pieces], second, "right") - 1
    value = np.array([each.value for each in pieces])[piece]
    until = np.array([each.kind == "until" for each in pieces])[piece]
    return np.where(until, value, second + value).tolist()


def soonest(own: dict[int, int]) -> list[int]:
    """The earliest arrival of all who leave then or later, by the travel time at those seconds at which one may leave."""
    arrival = np.full(2 * DAY, 10 * DAY)
    second = np.array(list(own))
    arrival[second] = second + np.array(list(own.values()))
    arrival[second + DAY] = arrival[second] + DAY
    return np.minimum.accumulate(arrival[::-1])[::-1][:DAY].tolist()


def streets_of_hours(count: int) -> list[list[int]]:
    draw = random.Random(7)
    return [[draw.randrange(900 if street < 4 else 14400) for _ in range(24)] for street in range(count)]


# ---- the example ----


def test_the_example(program: Path, folder: Path) -> None:
    ran = run("catchup-tables", "--share", OWN / "places.csv", OWN / "streets.csv")
    assert ran == (
        0,
        "made 3 nodes, 3 roads, 2 profiles\nnext: catchup build nodes.csv roads.csv profiles.csv dissect map.cu\n",
        "",
    )
    assert Path("nodes.csv").read_text() == "node,x,y\n0,188541700,137376900\n1,188550000,137370000\n2,188560000,137380000\n"
    assert Path("roads.csv").read_text() == "arc,tail,head,profile\n0,0,1,0\n1,1,2,0\n2,0,2,1\n"
    assert Path("profiles.csv").read_text().splitlines()[3:7] == [
        "0,25200,travel,140", "0,28800,travel,150", "0,32360,until,32510", "0,32400,travel,110",
    ]  # fmt: skip
    assert Path("ids.csv").read_text() == "node,id\n0,depot\n1,bridge\n2,port\n"
    build = run_program(["build", *(folder / name for name in ("nodes.csv", "roads.csv", "profiles.csv")), "dissect", "map.cu"])
    assert build.output.startswith("built 3 3 ")


# ---- profiles ----


def test_arrivals_are_those_of_the_earliest_who_leave_then_or_later(program: Path, folder: Path) -> None:
    streets = streets_of_hours(12)
    tables("a,-179.5,0\nb,8,-89.999999\n", "".join(f"a,b,{','.join(map(str, street))}\n" for street in streets))
    network = read_network("made")
    assert network.nodes.x.tolist() == [500_000, 188_000_000] and network.nodes.y.tolist() == [90_000_000, 1]
    for number, street in enumerate(streets):
        own = {second: street[second // 3600] for second in range(DAY)}
        assert arrivals(network.profiles.pieces(number)) == soonest(own)
    paths = [folder / "made" / name for name in ("nodes.csv", "roads.csv", "profiles.csv")]
    assert run_program(["build", *paths, "identity", "own.cu"]).status == 0


SPECIAL = [
    ("", "06:00 18:30:15", [6 * 3600, 18 * 3600 + 1815]),
    ("", "0:00", [0]),
    ("", "86399 7200", [7200, 86399]),
    ("22:00-06:00", "", [*range(6 * 3600, 22 * 3600)]),
    ("12:00-13:30 22:00-24:00", "", [*range(12 * 3600), *range(48600, 79200)]),
    ("7:00-9:00 8:30-10:00", "", [*range(7 * 3600), *range(36000, DAY)]),
    ("22:00-06:00", "05:00 07:00 23:00", [7 * 3600]),
    ("no", "", [*range(DAY)]),
]


@pytest.mark.parametrize("closed, ferry, leaves", SPECIAL)
def test_closed_hours_and_ferries(program: Path, folder: Path, closed: str, ferry: str, leaves: list[int]) -> None:
    street = streets_of_hours(6)[5]
    row = f"a,b,{','.join(map(str, street))}"
    header = f"from,to,{HOURS},closed,ferry\n"
    tables("a,1,2\nb,3,4\n", f"{header}{row},,\n{row},{closed},{ferry}\n{row},,\n")
    profiles = read_network("made").profiles
    assert arrivals(profiles.pieces(1)) == soonest({second: street[second // 3600] for second in leaves})
    assert profiles.pieces(0) == profiles.pieces(2) and len(profiles) == 3
    paths = [folder / "made" / name for name in ("nodes.csv", "roads.csv", "profiles.csv")]
    assert run_program(["build", *paths, "identity", "own.cu"]).status == 0


@pytest.mark.parametrize("closed, ferry", [("yes", ""), ("YES", "06:00"), ("0:00-24:00", ""), ("5:00-7:00", "6:00")])
def test_a_street_that_is_never_open(folder: Path, closed: str, ferry: str) -> None:
    tables("a,1,2\n", f"from,to,seconds,closed,ferry\na,a,5,{closed},{ferry}\n")
    assert Path("made/profiles.csv").read_text() == "profile,from,kind,value\n0,0,closed,0\n"


@settings(max_examples=40)
@given(st.sets(st.integers(0, 30), min_size=2), st.data())
def test_pieces_of_any_stretches(cuts: set[int], data: st.DataObject) -> None:
    seconds = [cut * 2879 for cut in sorted(cuts)]
    stretches = [
        Stretch(begin, end, data.draw(st.integers(0, 9000)))
        for begin, end in zip(seconds, seconds[1:])
        if data.draw(st.booleans()) or end == seconds[-1]
    ]
    own = {second: each.travel for each in stretches for second in range(each.begin, each.end)}
    assert arrivals(pieces_of(stretches)) == soonest(own)


# ---- sharing, ids, places ----


def test_streets_share_only_where_they_are_told_to(folder: Path) -> None:
    streets = "from,to,seconds,closed\na,b,5,\nb,a,6,\na,a,5,\nb,b,6,yes\na,b,6,yes\n"
    assert tables("a,1,2\nb,3,4\n", streets).startswith("made 2 nodes, 5 roads, 5 profiles\n")
    assert read_network("made").roads.profile.tolist() == [0, 1, 2, 3, 4]
    assert tables("a,1,2\nb,3,4\n", streets, "--share").startswith("made 2 nodes, 5 roads, 3 profiles\n")
    assert read_network("made").roads.profile.tolist() == [0, 1, 0, 2, 2]
    assert Path("made/profiles.csv").read_text().splitlines()[1:] == ["0,0,travel,5", "1,0,travel,6", "2,0,closed,0"]


def test_ids_are_any_texts(folder: Path) -> None:
    tables('latitude,id,longitude\n1,"Main St, north",2\n1,Zürich,3\n1, 7,4\n', 'to,seconds,from\nZürich,5,"Main St, north"\n 7,5,Zürich\n')
    with open("made/ids.csv", newline="", encoding="utf-8") as file:
        assert list(csv.reader(file)) == [["node", "id"], ["0", "Main St, north"], ["1", "Zürich"], ["2", " 7"]]
    assert read_network("made").roads.tail.tolist() == [0, 1]


def test_other_line_ends_blank_lines_and_a_mark(folder: Path) -> None:
    streets = (OWN / "streets.csv").read_text()
    tables(PLACES, streets)
    before = [Path("made", name).read_bytes() for name in FILES]
    tables("\ufeff" + PLACES.replace("\n", "\r\n\r\n"), "\n" + streets.replace("\n", "\r\n"))
    assert [Path("made", name).read_bytes() for name in FILES] == before


def test_degrees_are_shrunk_by_the_latitude(folder: Path) -> None:
    tables(PLACES, "depot,port" + ",5" * 24, "--degrees")
    nodes = read_network("made").nodes
    scale = math.cos(math.radians((47.37 + 47.38) / 2))
    assert np.abs(nodes.x - np.array([0, 8300, 18300]) * scale).max() <= 1
    assert nodes.y.tolist() == [137376900, 137370000, 137380000]


def test_no_streets_and_no_places(folder: Path) -> None:
    tables("id,longitude,latitude\n", "from,to,seconds\n")
    assert [len(Path("made", name).read_text().splitlines()) for name in FILES] == [1, 1, 1, 1]


def test_many_streets_are_made_in_their_time(folder: Path) -> None:
    draw = np.random.default_rng(1)
    Path("places.csv").write_text("".join(f"p{number},8.{number:05},47\n" for number in range(6_000)))
    ends = draw.integers(0, 6_000, (12_000, 2)).tolist()
    rows = draw.integers(20, 300, (12_000, 24)).tolist()
    Path("streets.csv").write_text("".join(f"p{a},p{b},{','.join(map(str, row))}\n" for (a, b), row in zip(ends, rows)))

    def take() -> float:
        before = os.times()
        ran = run("catchup-tables", "places.csv", "streets.csv", "--out", "made")
        assert ran.status == 0
        assert "next: catchup-order made/nodes.csv made/roads.csv > made/order.csv && " in ran.output
        return os.times().children_user - before.children_user

    assert least_seconds(take, 10) < 10


# ---- refusals ----

GOOD = "depot,port" + ",5" * 24 + "\n"
HEADER = "from,to,seconds,closed,ferry\n"
BAD = [
    (None, GOOD, "places.csv can't be read: No such file or directory"),
    (PLACES, None, "streets.csv can't be read: No such file or directory"),
    ("", GOOD, "places.csv is empty: it needs a row id,longitude,latitude for each"),
    (PLACES, "\n\n", "streets.csv is empty: it needs a row from,to,0,..,23 for each"),
    (GOOD, PLACES, "places.csv, line 1: found 26 fields, allowed: 3: id,longitude,latitude"),
    (PLACES + "depot,1,2\n", GOOD, "places.csv, line 4, column id: found 'depot', allowed: each id once; line 1 has it already"),
    (PLACES + "\n,1,2\n", GOOD, "places.csv, line 5, column id: found '', allowed: an id"),
    ("depot,1,90.1\n", GOOD, "places.csv, line 1, column latitude: found '90.1', allowed: degrees from -90 to 90, with a point"),
    ("depot,1e2,0\n", GOOD, "line 1, column longitude: found '1e2', allowed: degrees from -180 to 180"),
    ("depot,nan,0\n", GOOD, "line 1, column longitude: found 'nan'"),
    ("id,lon,lat\na,1,2\n", GOOD, "places.csv, line 1: found the header id,lon,lat, allowed: id,longitude,latitude"),
    ("id,id,latitude\na,1,2\n", GOOD, "places.csv, line 1: found the header id,id,latitude"),
    (b"d\xe9p\xf4t,1,2\n", GOOD, "places.csv isn't UTF-8: save it as UTF-8"),
    (PLACES, GOOD + "depot,prt" + ",5" * 24, "streets.csv, line 2, column to: found 'prt', allowed: an id of places.csv"),
    (PLACES, GOOD + GOOD[:-3] + "\n", "streets.csv, line 2: found 25 fields, allowed: 26: from,to,0,..,23"),
    (PLACES, "depot,bridge,60\n", "line 1: found 3 fields, allowed: 26: from,to,0,..,23, or a header from,to,seconds above them"),
    (PLACES, "depot;bridge;60\n", "line 1: found no commas, allowed: fields with commas between"),
    (PLACES.replace(",", ";"), GOOD, "places.csv, line 1: found no commas, allowed: fields with commas between"),
    (PLACES, GOOD.replace(",5\n", ",6x\n"), "streets.csv, line 1, column 23: found '6x', allowed: whole seconds, 0 to 604800"),
    (PLACES, GOOD.replace(",5\n", ",604801\n"), "line 1, column 23: found '604801'"),
    (PLACES, GOOD.replace(",5\n", f",{'9' * 30}\n"), "line 1, column 23: found '999999999999999999999999999999'"),
    (PLACES, "from,to,minutes\n", "streets.csv, line 1: found the header from,to,minutes, allowed: from,to,0,..,23 or from,to,seconds, and any of closed,ferry"),
    (PLACES, HEADER + "depot,port,5,8:00,\n", "line 2, column closed: found '8:00', allowed: nothing, no, yes, or times as 22:00-06:00 12:00-13:00"),
    (PLACES, HEADER + "depot,port,5,8:00-8:00,\n", "line 2, column closed: found '8:00-8:00'"),
    (PLACES, HEADER + "depot,port,5,8:00-25:00,\n", "line 2, column closed: found '8:00-25:00'"),
    (PLACES, HEADER + "depot,port,5,,8.00\n", "line 2, column ferry: found '8.00', allowed: nothing, or departures as 06:00 07:30 18:15"),
    (PLACES, HEADER + "depot,port,604800,,8:00\n", "line 2, column ferry: found '8:00', allowed: who waits arrives within eight days (691200 s)"),
]  # fmt: skip


@pytest.mark.parametrize("places, streets, said", BAD)
def test_refusals(folder: Path, places: str | bytes | None, streets: str | None, said: str) -> None:
    for name, text in (("places.csv", places), ("streets.csv", streets)):
        if text is not None:
            Path(name).write_bytes(text if isinstance(text, bytes) else text.encode())
    before = sorted(os.listdir())
    check_refused(call("catchup-tables", "places.csv", "streets.csv"), 1, f"catchup-tables: {said}" if said[0] in "ps" else said)
    assert sorted(os.listdir()) == before


def test_words(folder: Path) -> None:
    for words in ([], ["places.csv"], ["a", "b", "c"], ["--none", "a", "b"], ["--out"]):
        check_refused(call("catchup-tables", *words), 2, "See: catchup-tables --help")


def test_a_folder_that_cannot_be_written(folder: Path) -> None:
    Path("file").write_text("")
    words = [OWN / "places.csv", OWN / "streets.csv", "--out"]
    check_refused(run("catchup-tables", *words, "file"), 1, "file can't be made")
    check_refused(call("catchup-tables", *words, "/proc/none"), 1, "/proc/none can't be made")
    check_refused(call("catchup-tables", *words, "/proc/self"), 1, "can't be written")


def test_where_one_file_cannot_be_written_none_is_changed(folder: Path) -> None:
    tables(PLACES, GOOD)
    before = {name: Path("made", name).read_bytes() for name in FILES}
    Path("made/ids.csv").unlink()
    Path("made/ids.csv").mkdir()
    ran = run("catchup-tables", OWN / "places.csv", OWN / "streets.csv", "--out", "made")
    check_refused(ran, 1, "made/ids.csv can't be written: Is a directory")
    assert sorted(os.listdir("made")) == FILES
    assert all(Path("made", name).read_bytes() == before[name] for name in FILES[1:])


def test_a_full_disk_changes_nothing(folder: Path) -> None:
    """A limit on the size of files stands for the disk: the places alone are too many for it."""
    tables(PLACES, GOOD)
    before = {name: Path("made", name).read_bytes() for name in FILES}
    Path("places.csv").write_text("".join(f"{number},1,2\n" for number in range(100)))
    Path("streets.csv").write_text("from,to,seconds\n0,1,5\n")
    for out in ("made", "new"):
        words = ["bash", "-c", 'ulimit -f 1; exec "$0" "$@"', BIN / "catchup-tables", "places.csv", "streets.csv", "--out", out]
        # What Python keeps of modules would be cut too.
        env = {**os.environ, "PYTHONDONTWRITEBYTECODE": "1"}
        ran = subprocess.run(words, capture_output=True, text=True, timeout=600, env=env)
        assert (ran.returncode, ran.stderr) == (1, f"catchup-tables: {out}/nodes.csv can't be written: File too large\n")
    assert {name: Path("made", name).read_bytes() for name in os.listdir("made")} == before and os.listdir("new") == []


@pytest.mark.parametrize("places, streets", [("nodes.csv", "streets.csv"), ("places.csv", "roads.csv"), ("link.csv", "ids.csv")])
def test_the_two_files_are_not_written_over(folder: Path, places: str, streets: str) -> None:
    Path("nodes.csv").write_text(PLACES)
    Path("link.csv").symlink_to("nodes.csv")
    Path("places.csv").write_text(PLACES)
    for name in ("streets.csv", "roads.csv", "ids.csv"):
        Path(name).write_text(GOOD)
    before = {name: Path(name).read_text() for name in os.listdir()}
    ran = call("catchup-tables", places, streets)
    check_refused(ran, 1, "is one of the two files that it is made of, and would be written over: name another folder by --out")
    assert {name: Path(name).read_text() for name in os.listdir()} == before
    assert call("catchup-tables", places, streets, "--out", "made").status == 0 and sorted(os.listdir("made")) == FILES


@pytest.mark.parametrize("name", ["my town", "it's", "a;b"])
def test_the_next_command_can_be_typed(program: Path, folder: Path, name: str) -> None:
    ran = run("catchup-tables", OWN / "places.csv", OWN / "streets.csv", "--out", name)
    said = ran.output.splitlines()[-1].removeprefix("next: ").replace("catchup", str(BIN / "catchup"), 1)
    done = subprocess.run(["bash", "-c", said], capture_output=True, text=True, timeout=600)
    assert done.returncode == 0 and Path(name, "map.cu").is_file(), done


def test_a_closed_pipe_is_silent(folder: Path) -> None:
    ran = run_into_closed_pipe("catchup-tables", OWN / "places.csv", OWN / "streets.csv")
    assert ran == (141, "", "") and sorted(os.listdir()) == FILES


def test_an_interrupt_leaves_nothing(folder: Path) -> None:
    os.mkfifo("streets.csv")
    process = subprocess.Popen([BIN / "catchup-tables", OWN / "places.csv", "streets.csv"], stderr=subprocess.PIPE)
    with open("streets.csv", "w"):
        process.send_signal(2)
        _, error = process.communicate(timeout=600)
    assert (process.returncode, error) == (130, b"") and os.listdir() == ["streets.csv"]
