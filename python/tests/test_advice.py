"""What the program says on standard error where it ends with a status from 2 on: over real files, for each row of both
tables of fault lines, each fault of a file, and each status; and that a store fails at once where the system can't tell
names."""

from __future__ import annotations

import hashlib
import os
import resource
import shutil
import struct
import subprocess
from collections.abc import Callable, Sequence
from pathlib import Path
from typing import NamedTuple

import pytest

TOP = Path(__file__).resolve().parents[2]
EXAMPLE = TOP / "examples" / "first_run"
TABLES = ("nodes.csv", "roads.csv", "profiles.csv")
SERVE = ("serve", *TABLES, "identity")
WAIT = ("wait", "nodes.csv", "roads.csv", "measured.csv", "identity")
MAKES_BUILD = "Build it again: catchup build .."
ANOTHER_FOLDER = "Name a file in a folder that is there and may be written"
HEADER = "profile,from,kind,value\n"


@pytest.fixture
def folder(tmp_path: Path) -> Path:
    """A folder with three tables that are accepted: 3 nodes, and the roads and profiles of the example."""
    for name in TABLES:
        shutil.copy(EXAMPLE / name, tmp_path)
    return tmp_path


class Ran(NamedTuple):
    """A run that has ended."""

    status: int
    output: bytes
    error: str


def run(program: Path, folder: Path, words: Sequence[str | bytes], script: bytes = b"") -> Ran:
    ended = subprocess.run([program, *words], cwd=folder, input=script, capture_output=True, timeout=600)
    return Ran(ended.returncode, ended.stdout, ended.stderr.decode())


def refused(program: Path, folder: Path, words: Sequence[str | bytes], status: int, line: str) -> str:
    """What is said on standard error by a run that has this status and this one line of output."""
    ran = run(program, folder, words)
    assert (ran.status, ran.output.decode()) == (status, line + "\n")
    lines = ran.error.splitlines()
    assert ran.error.endswith("\n") and 1 <= len(lines) <= 2
    assert all(said.startswith("catchup: ") for said in lines)
    return "\n".join(said.removeprefix("catchup: ") for said in lines)


# ---- words ----


@pytest.mark.parametrize(
    "words, said",
    [
        ("", "there is no command. See: catchup --help"),
        (
            "build a b c d",
            "build takes NODES ROADS PROFILES ORDER OUT (5 words), and there were 4. See: catchup --help",
        ),
        ("desk a", "desk takes HIERARCHY OUT (2 words), and there was 1. See: catchup --help"),
        ("biuld a b c d e", "biuld is no command; the nearest is build. See: catchup --help"),
        ("navigate", "navigate is no command. See: catchup --help"),
        ("make 7 513 1 a b c", "make: W is a whole number from 1 to 512, and here it is 513. See: catchup --help"),
        ("trial 1 2 2 x", "trial: K is a whole number from 0 to 1000000, and here it is x. See: catchup --help"),
    ],
)
def test_words(program: Path, folder: Path, words: str, said: str) -> None:
    assert refused(program, folder, words.split(), 2, "words") == said


def test_a_word_that_is_no_text(program: Path, folder: Path) -> None:
    said = "a word is no text in UTF-8. See: catchup --help"
    assert refused(program, folder, ["ask", b"\xff"], 2, "words") == said


# ---- files ----


@pytest.mark.parametrize(
    "words, line, said",
    [
        (
            ("serve", "nodes.csv", "road.csv", "profiles.csv", "identity"),
            "shelf: fault roads",
            "cannot read road.csv: No such file or directory",
        ),
        (
            ("serve", *TABLES, "identiy"),
            "shelf: fault order",
            "cannot read identiy: No such file or directory. For the built-in orders write identity or dissect",
        ),
        (("ask", "."), "shelf: fault hierarchy", "cannot read .: Is a directory. To make it: catchup build .."),
        (("measure", "nodes.csv/m", "out"), "shelf: fault profiles", "cannot read nodes.csv/m: Not a directory"),
        (
            ("order", *TABLES, "none/order"),
            "shelf: fault out",
            "cannot store none/order: No such file or directory. " + ANOTHER_FOLDER,
        ),
        (
            ("make", "7", "1", "1", "n.csv", ".", "p.csv"),
            "shelf: fault roads",
            "cannot store .: Is a directory. " + ANOTHER_FOLDER,
        ),
        (
            ("order", *TABLES, "/proc/order"),
            "shelf: fault out",
            "cannot store /proc/order: No such file or directory. " + ANOTHER_FOLDER,
        ),
    ],
)
def test_files(program: Path, folder: Path, words: Sequence[str], line: str, said: str) -> None:
    assert refused(program, folder, words, 3, line) == said


def test_edits_that_are_not_there(program: Path, packed: Path) -> None:
    said = "cannot read lines: No such file or directory"
    assert refused(program, packed.parent, ["edit", packed.name, "lines", "out"], 3, "shelf: fault edits") == said


def test_a_file_that_is_too_long(program: Path, folder: Path) -> None:
    with (folder / "long").open("wb") as file:
        file.truncate(2**32 + 1)
    said = "long has more than 4294967296 bytes (4 GiB), the most that is read. Is it the right file?"
    assert refused(program, folder, ["ask", "long"], 3, "shelf: long hierarchy") == said


# ---- tables and orders ----


class Table(NamedTuple):
    """A table in the place of an accepted one, the line that refuses it, and what is said."""

    name: str
    text: str
    line: str
    said: str


NODES = "node,x,y\n"
ROADS = "arc,tail,head,profile\n"
REFUSED = [
    Table(
        "nodes.csv",
        "node;x;y\n",
        "nodes header",
        "nodes.csv, line 1: the header is node;x;y, and has to be node,x,y",
    ),
    Table("nodes.csv", "", "nodes header", "nodes.csv: the first row has to be the header node,x,y"),
    Table("nodes.csv", NODES + "\n0,0\n", "nodes 0 fields", "nodes.csv, line 3: 2 fields, and a row has 3: node,x,y"),
    Table(
        "nodes.csv",
        NODES + "0,0,0\r\n1,1.5,0\r\n",
        "nodes 1 number",
        "nodes.csv, line 3: x is 1.5, and has to be a whole number from 0 to 1000000000",
    ),
    Table(
        "nodes.csv",
        NODES + "0,0,0\n2,0,0\n",
        "nodes 1 sequence",
        "nodes.csv, line 3: node is 2, and has to be 1: rows are numbered from 0 on, in their order",
    ),
    Table(
        "nodes.csv",
        NODES + "".join(f"{node},0,0\n" for node in range(262145)),
        "nodes 262144 count",
        "nodes.csv, line 262146: there are more than 262144 nodes, the most that catchup takes",
    ),
    Table(
        "roads.csv",
        NODES,
        "roads header",
        "roads.csv, line 1: the header is node,x,y, and has to be arc,tail,head,profile."
        " This is a table of nodes: are the words in their order?",
    ),
    Table(
        "roads.csv",
        ROADS + "0,0,1\n",
        "roads 0 fields",
        "roads.csv, line 2: 3 fields, and a row has 4: arc,tail,head,profile",
    ),
    Table(
        "roads.csv",
        ROADS + '"0",0,"\n1",0\n',
        "roads 0 number",
        "roads.csv, line 2: head is ?1, and has to be a whole number",
    ),
    Table(
        "roads.csv",
        ROADS + "1,0,1,0\n",
        "roads 0 sequence",
        "roads.csv, line 2: arc is 1, and has to be 0: rows are numbered from 0 on, in their order",
    ),
    Table(
        "roads.csv",
        ROADS + "".join(f"{arc},0,0,0\n" for arc in range(1048577)),
        "roads 1048576 count",
        "roads.csv, line 1048578: there are more than 1048576 roads, the most that catchup takes",
    ),
    Table(
        "roads.csv",
        "\ufeff" + ROADS + "0,0,1,0\n1,1,9,0\n",
        "roads 1 node",
        "roads.csv, line 3: arc 1 leads to node 9; nodes.csv has nodes 0 to 2",
    ),
    Table(
        "roads.csv",
        ROADS + "0,3,9,0\n",
        "roads 0 node",
        "roads.csv, line 2: arc 0 leaves from node 3; nodes.csv has nodes 0 to 2",
    ),
    Table(
        "roads.csv",
        ROADS + "0,0,1,7\n",
        "roads 0 profile",
        "roads.csv, line 2: arc 0 has profile 7; profiles.csv has profiles 0 to 2",
    ),
    Table(
        "profiles.csv",
        "profile,second,mode,travel\n",
        "profiles header",
        "profiles.csv, line 1: the header is profile,second,mode,travel, and has to be profile,from,kind,value."
        " Measured times: catchup measure, or catchup wait",
    ),
    Table(
        "profiles.csv",
        HEADER + "0,0\n",
        "profiles 0 fields",
        "profiles.csv, line 2: 2 fields, and a row has 4: profile,from,kind,value",
    ),
    Table(
        "profiles.csv",
        HEADER + "0,0,travel,a minute\n",
        "profiles 0 number",
        "profiles.csv, line 2: value is a minute, and has to be a whole number",
    ),
    Table(
        "profiles.csv",
        HEADER + "1,0,travel,1\n",
        "profiles 0 sequence",
        "profiles.csv, line 2: profile is 1, and has to be 0: profiles are numbered from 0 on",
    ),
    Table(
        "profiles.csv",
        HEADER + "0,0,travel,1\n2,0,travel,1\n",
        "profiles 1 sequence",
        "profiles.csv, line 3: profile is 2, and has to be 0 or 1 behind profile 0",
    ),
    Table(
        "profiles.csv",
        HEADER + "".join(f"{profile},0,travel,1\n" for profile in range(1048577)),
        "profiles 1048576 count",
        "profiles.csv, line 1048578: there are more than 1048576 profiles, the most that catchup takes",
    ),
    Table(
        "profiles.csv",
        HEADER + "0,0,walk,1\n",
        "profiles 0 kind",
        "profiles.csv, line 2: kind is walk, and has to be travel, until or closed",
    ),
    Table(
        "profiles.csv",
        HEADER + "0,0,travel,604801\n",
        "profiles 0 limit",
        "profiles.csv, line 2: value is 604801, and of travel it is at most 604800",
    ),
    Table(
        "profiles.csv",
        HEADER + "0,0,travel,1\n0,86400,travel,1\n",
        "profiles 1 limit",
        "profiles.csv, line 3: from is 86400, and a second of the day is at most 86399",
    ),
    Table(
        "profiles.csv",
        HEADER + "0,60,travel,1\n",
        "profiles 0 start",
        "profiles.csv, line 2: from is 60, and has to be 0 in the first row of profile 0",
    ),
    Table(
        "profiles.csv",
        HEADER + "0,0,travel,1\n0,9,travel,1\n0,9,travel,2\n",
        "profiles 2 rising",
        "profiles.csv, line 4: from is 9, and has to be later than 9, that of the row before of profile 0",
    ),
    Table(
        "profiles.csv",
        HEADER + "0,0,travel,1\n0,9,closed,0\n",
        "profiles 1 closed",
        "profiles.csv, line 3: profile 0 is closed here, and has other rows: a closed one has this row alone",
    ),
    Table(
        "profiles.csv",
        HEADER + "0,0,until,28799\n",
        "profiles 0 early 28800",
        "profiles.csv: profile 0 lets who departs at 08:00:00 arrive before that."
        " Let an until piece end by the second that it names\n"
        "profiles.csv, line 2: profile 0 begins here",
    ),
    Table(
        "profiles.csv",
        HEADER + "0,0,travel,1\n1,0,travel,100\n1,28800,travel,10\n",
        "profiles 1 fifo 28799",
        "profiles.csv: profile 1 lets who departs at 07:59:59 arrive later than who departs a second later."
        " Measured times that do so: catchup measure, or catchup wait\n"
        "profiles.csv, line 3: profile 1 begins here",
    ),
]


@pytest.mark.parametrize("table", REFUSED, ids=[table.line for table in REFUSED])
def test_tables(program: Path, folder: Path, table: Table) -> None:
    (folder / table.name).write_text(table.text, newline="")
    assert refused(program, folder, SERVE, 4, "network: " + table.line) == table.said


def test_a_pipe_is_not_read_again(program: Path, folder: Path) -> None:
    (folder / "roads.csv").write_text(ROADS + "0,0,9,0\n")
    os.mkfifo(folder / "pipe")
    with subprocess.Popen(["sh", "-c", "cat roads.csv > pipe"], cwd=folder):
        words = ("serve", "nodes.csv", "pipe", "profiles.csv", "identity")
        said = refused(program, folder, words, 4, "network: roads 0 node")
    assert said == "pipe, row 0 behind the header: the tail and the head of a road are nodes"


MEASURED = "profile,second,mode,travel\n"
MEASURES = [
    Table(
        "measured.csv",
        HEADER,
        "header",
        "measured.csv, line 1: the header is profile,from,kind,value, and has to be profile,second,mode,travel."
        " A table of profiles: catchup serve, or catchup build",
    ),
    Table(
        "measured.csv",
        MEASURED + "0,0,line\n",
        "0 fields",
        "measured.csv, line 2: 3 fields, and a row has 4: profile,second,mode,travel",
    ),
    Table(
        "measured.csv",
        MEASURED + "0,0,line,-5\n",
        "0 number",
        "measured.csv, line 2: travel is -5, and has to be a whole number",
    ),
    Table(
        "measured.csv",
        MEASURED + "0,0,line,5\n2,0,line,5\n",
        "1 sequence",
        "measured.csv, line 3: profile is 2, and has to be 0 or 1 behind profile 0",
    ),
    Table(
        "measured.csv",
        MEASURED + "".join(f"{profile},0,step,1\n" for profile in range(49711)),
        "49710 count",
        "measured.csv, line 49712: there are more than 49710 measured profiles, the most that catchup takes",
    ),
    Table(
        "measured.csv",
        MEASURED + "0,0,curve,5\n",
        "0 mode",
        "measured.csv, line 2: mode is curve, and has to be line or step",
    ),
    Table(
        "measured.csv",
        MEASURED + "0,0,step,604801\n",
        "0 limit",
        "measured.csv, line 2: travel is 604801, and is at most 604800",
    ),
    Table(
        "measured.csv",
        MEASURED + "0,5,step,1\n",
        "0 start",
        "measured.csv, line 2: second is 5, and has to be 0 in the first row of profile 0",
    ),
    Table(
        "measured.csv",
        MEASURED + "0,0,step,1\n0,0,step,1\n",
        "1 rising",
        "measured.csv, line 3: second is 0, and has to be later than 0, that of the row before of profile 0",
    ),
]


@pytest.mark.parametrize("table", MEASURES, ids=[table.line for table in MEASURES])
@pytest.mark.parametrize("words", [WAIT, ("measure", "measured.csv", "out")], ids=["wait", "measure"])
def test_measured(program: Path, folder: Path, words: Sequence[str], table: Table) -> None:
    (folder / table.name).write_text(table.text)
    assert refused(program, folder, words, 4, "measured: " + table.line) == table.said


@pytest.mark.parametrize(
    "text, line, said",
    [
        (
            "node\n0\n",
            "0 number",
            "order.txt, line 1: node is node, and has to be a whole number; an order has no header",
        ),
        ("0\n1,2\n", "1 number", "order.txt, line 2: 2 fields, and a row has one, the number of a node"),
        ("0\n\n3\n", "1 range", "order.txt, line 3: there is no node 3; nodes.csv has nodes 0 to 2"),
        ("0\n1\n0\n", "2 twice", "order.txt, line 3: node 0 stands in line 1 already, and each node stands once"),
        (
            "0\n1\n",
            "2 count",
            "order.txt has 2 rows, and nodes.csv has nodes 0 to 2: each node stands once."
            " To make an order: catchup order",
        ),
    ],
)
def test_orders(program: Path, folder: Path, text: str, line: str, said: str) -> None:
    (folder / "order.txt").write_text(text)
    assert refused(program, folder, ("serve", *TABLES, "order.txt"), 5, "order: " + line) == said


# ---- packed files ----

Change = Callable[[bytearray], bytes | bytearray]


@pytest.fixture
def packed(program: Path, folder: Path) -> Path:
    """The packed file of the tables."""
    ran = run(program, folder, ("build", *TABLES, "identity", "day.cu"))
    assert ran.status == 0, ran
    return folder / "day.cu"


def put(place: int, form: str, value: int) -> Change:
    """The change of one number, with a digest that is right again."""

    def change(file: bytearray) -> bytes:
        struct.pack_into("<" + form, file, place, value)
        return bytes(file[:-32]) + hashlib.sha256(file[:-32]).digest()

    return change


def unsealed(place: int, form: str, value: int) -> Change:
    """The change of one number, and no other."""

    def change(file: bytearray) -> bytearray:
        struct.pack_into("<" + form, file, place, value)
        return file

    return change


def counts(file: bytes) -> tuple[int, ...]:
    """The numbers of nodes, roads, profiles, edges, pieces and entries."""
    return struct.unpack_from("<4I2Q", file, 12)


def section(file: bytes, name: str) -> int:
    """Where a section begins."""
    n, a, p, e, q, w = counts(file)
    sizes = {
        "node at rank": 4 * n,
        "rank of node": 4 * n,
        "roads": 12 * a,
        "profile starts": 8 * (p + 1),
        "pieces": 12 * q,
        "edge starts": 4 * (n + 1),
        "uppers": 4 * e,
        "way starts": 8 * (2 * e + 1),
        "entries": 12 * w,
        "bounds": 16 * e,
    }
    place = 52
    for each, size in sizes.items():
        if each == name:
            return place
        place += size
    raise KeyError(name)


def at(name: str, form: str, value: int) -> Change:
    """The change of the first number of a section, sealed."""
    return lambda file: put(section(file, name), form, value)(file)


NOT_OURS = "day.cu has a right checksum, but catchup did not make it: "


@pytest.mark.parametrize(
    "change, line, said",
    [
        (
            lambda file: file[:83],
            "short",
            f"day.cu is no packed hierarchy, or a damaged one (it has fewer than 84 bytes). {MAKES_BUILD}",
        ),
        (
            unsealed(0, "B", 99),
            "magic",
            f"day.cu is no packed hierarchy, or a damaged one (it doesn't begin with CATCHUPH). {MAKES_BUILD}",
        ),
        (unsealed(8, "I", 3), "version 3", f"day.cu is of version 3, and versions 1 and 2 are read. {MAKES_BUILD}"),
        (
            unsealed(44, "Q", 99),
            "length 99 SIZE",
            f"day.cu is no packed hierarchy, or a damaged one (it should have 99 bytes and has SIZE). {MAKES_BUILD}",
        ),
        (
            unsealed(60, "B", 99),
            "digest",
            f"day.cu is no packed hierarchy, or a damaged one (its checksum does not match). {MAKES_BUILD}",
        ),
        (put(12, "I", 262145), "limit nodes", "day.cu has more than 262144 nodes, the most that catchup takes"),
        (put(16, "I", 1048577), "limit arcs", "day.cu has more than 1048576 roads, the most that catchup takes"),
        (put(20, "I", 1048577), "limit profiles", "day.cu has more than 1048576 profiles, the most that catchup takes"),
        (put(24, "I", 16777217), "limit edges", "day.cu has more than 16777216 shortcuts, the most that catchup takes"),
        (
            put(28, "Q", 90596966401),
            "limit pieces",
            "day.cu has more than 90596966400 pieces, the most that catchup takes",
        ),
        (
            put(36, "Q", 2899102924801),
            "limit entries",
            "day.cu has more than 2899102924800 entries, the most that catchup takes",
        ),
        (
            put(12, "I", 262144),
            "size 3146120 SIZE",
            "day.cu is no packed hierarchy, or a damaged one (what it counts takes 3146120 bytes and it has SIZE). "
            + MAKES_BUILD,
        ),
        (
            at("node at rank", "I", 9),
            "order 0",
            NOT_OURS + "no node has rank 0 as it should. Build it: catchup build ..",
        ),
        (
            at("roads", "I", 9),
            "arc 0",
            NOT_OURS + "road 0 has a node or a profile that isn't there. Build it: catchup build ..",
        ),
        (at("pieces", "I", 9), "profile 0", NOT_OURS + "profile 0 is none. Build it: catchup build .."),
        (
            at("uppers", "I", 0),
            "graph 0",
            NOT_OURS + "the shortcuts of rank 0 are not those of its roads. Build it: catchup build ..",
        ),
        (
            at("entries", "I", 9),
            "ways 0 up",
            NOT_OURS + "the ways of shortcut 0 up are not its own. Build it: catchup build ..",
        ),
        (
            at("bounds", "Q", 1),
            "bound 0 up",
            NOT_OURS + "the bound of shortcut 0 up is wrong. Build it: catchup build ..",
        ),
    ],
)
def test_packed_files(program: Path, packed: Path, change: Change, line: str, said: str) -> None:
    size = packed.stat().st_size
    counted = 52 + 32 + size - 84 + 12 * (262144 - counts(packed.read_bytes())[0])
    packed.write_bytes(change(bytearray(packed.read_bytes())))
    found = str(packed.stat().st_size)
    line, said = (text.replace("SIZE", found).replace("3146120", str(counted)) for text in (line, said))
    assert refused(program, packed.parent, ["ask", "day.cu"], 6, "file: " + line) == said


# ---- other endings ----


def test_nothing_is_said_where_all_is_done(program: Path, folder: Path) -> None:
    ran = run(program, folder, SERVE, b"q,0,2,28800\nq,9,9,9\nhello\n")
    assert (ran.status, ran.error) == (0, "") and ran.output.endswith(b"\nrefused: node\nrefused: line\n")


def test_an_input_that_fails(program: Path, folder: Path) -> None:
    directory = os.open(folder, os.O_RDONLY)
    try:
        ended = subprocess.run([program, *SERVE], cwd=folder, stdin=directory, capture_output=True, timeout=600)
    finally:
        os.close(directory)
    assert (ended.returncode, ended.stdout) == (7, b"")
    assert ended.stderr == (
        b"catchup: cannot read standard input: Is a directory."
        b" The replies so far stand; the lines behind them were not answered\n"
    )


def test_an_output_that_fails(program: Path, folder: Path) -> None:
    with open("/dev/full", "wb") as full:
        ended = subprocess.run(
            [program, *SERVE], cwd=folder, input=b"q,0,2,0\n", stdout=full, stderr=subprocess.PIPE, timeout=600
        )
    assert ended.returncode == 8
    assert ended.stderr == (
        b"catchup: cannot write standard output: No space left on device."
        b" What was written may end in the middle of a line\n"
    )


@pytest.mark.parametrize("words", [SERVE, ("navigate",)], ids=["replies", "words"])
def test_a_reader_that_has_gone_is_told_nothing(program: Path, folder: Path, words: Sequence[str]) -> None:
    reader, writer = os.pipe()
    os.close(reader)
    with os.fdopen(writer, "wb", closefd=True) as output:
        ended = subprocess.run(
            [program, *words], cwd=folder, input=b"q,0,2,0\n", stdout=output, stderr=subprocess.PIPE, timeout=600
        )
    assert (ended.returncode, ended.stderr) == (8, b"")


def test_want_of_memory(program: Path, folder: Path) -> None:
    limit = 512 * 2**20

    def confine() -> None:
        resource.setrlimit(resource.RLIMIT_AS, (limit, limit))

    words = ("trial", "1", "512", "512", "1")
    ended = subprocess.run([program, *words], cwd=folder, capture_output=True, timeout=600, preexec_fn=confine)
    assert (ended.returncode, ended.stdout) == (9, b"")
    said = ended.stderr.decode()
    assert said.startswith("catchup: out of memory in trial (limit 512 MiB, in use ") and said.count("\n") == 1


def test_a_file_that_no_build_makes(program: Path, folder: Path) -> None:
    """A file of version 1, which keeps no bounds, with another travel time in its first piece and the old ways."""
    (folder / "order.txt").write_text("1\n0\n2\n")
    assert run(program, folder, ("build", *TABLES, "order.txt", "day.cu")).status == 0
    file = bytearray((folder / "day.cu").read_bytes())
    old = file[: section(file, "bounds")]
    struct.pack_into("<I", old, 8, 1)
    struct.pack_into("<Q", old, 44, len(old) + 32)
    struct.pack_into("<I", old, section(file, "pieces") + 8, 6000)
    (folder / "day.cu").write_bytes(bytes(old) + hashlib.sha256(old).digest())
    ran = run(program, folder, ("verify", "day.cu"))
    assert (ran.status, ran.output) == (10, b"differs 2 up 0 via 0 road 2\n")
    assert ran.error == (
        "catchup: day.cu is not as a new build makes it: shortcut 2 up first differs at 00:00:00."
        " Build it again: catchup build ..\n"
    )


# ---- stores where the system tells nothing ----


@pytest.mark.parametrize("error", ["EIO", "ENOSYS"])
@pytest.mark.parametrize("call", ["3+", "4+", "5+", "6+", "69+", "70+", "71+"])
def test_a_store_fails_at_once_where_names_cannot_be_told(program: Path, folder: Path, call: str, error: str) -> None:
    """From one of its calls on, `statx` fails as no file system would: the store fails, and leaves nothing behind."""
    strace = shutil.which("strace")
    if strace is None:
        pytest.skip("strace isn't installed (strace)")
    traced = [strace, "-f", "-o", "/dev/null", "-e", f"inject=statx:error={error}:when={call}"]
    before = sorted(os.listdir(folder))
    ended = subprocess.run([*traced, program, "order", *TABLES, "out"], cwd=folder, capture_output=True, timeout=600)
    if b"ptrace" in ended.stderr:
        pytest.skip("strace may not trace here")
    after = sorted(os.listdir(folder))
    assert (ended.returncode, ended.stdout) in [(3, b"shelf: fault out\n"), (0, b"ordered 3\n")]
    assert after == (before if ended.returncode else sorted([*before, "out"]))
