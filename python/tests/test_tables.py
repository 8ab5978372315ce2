"""Tables and orders: read, written and refused, beside the program's own judgement."""

from __future__ import annotations

import os
import stat
from collections.abc import Callable
from pathlib import Path
from typing import Any

import numpy as np
import pytest
from hypothesis import given, settings
from hypothesis import strategies as st
from waiting import least_seconds

from catchup.errors import Failure, TableError
from catchup.program import run_program
from catchup.replies import Piece
from catchup.tables import (
    Network,
    Nodes,
    ProfilePool,
    Profiles,
    Roads,
    profiles_of,
    profiles_text,
    read_network,
    read_nodes,
    read_order,
    read_profiles,
    read_roads,
    write_network,
    write_nodes,
    write_order,
    write_profiles,
    write_roads,
    writing,
)

NODES = "node,x,y\n0,5,6\n1,7,8\n2,0,1000000000\n"
ROADS = "arc,tail,head,profile\n0,0,1,0\n1,2,2,1\n"
PROFILES = "profile,from,kind,value\n0,0,travel,5\n0,100,until,150\n0,145,travel,5\n1,0,closed,0\n2,0,until,90000\n"
ORDER = "2\n0\n1\n"


@pytest.fixture
def folder(tmp_path: Path, monkeypatch: pytest.MonkeyPatch) -> Path:
    monkeypatch.chdir(tmp_path)
    return tmp_path


def put(text: str | bytes) -> str:
    Path("table").write_bytes(text if isinstance(text, bytes) else text.encode())
    return "table"


# ---- reading ----


def test_what_is_read(folder: Path) -> None:
    nodes = read_nodes(put(NODES))
    assert (nodes.x.tolist(), nodes.y.tolist(), nodes.x.dtype, len(nodes)) == ([5, 7, 0], [6, 8, 10**9], np.int64, 3)
    roads = read_roads(put(ROADS), 3, 2)
    assert [column.tolist() for column in (roads.tail, roads.head, roads.profile)] == [[0, 2], [1, 2], [0, 1]]
    assert roads.tail.dtype == np.int32 and len(roads) == 2
    profiles = read_profiles(put(PROFILES))
    assert profiles.first.tolist() == [0, 3, 4, 5] and len(profiles) == 3
    assert profiles.pieces(0) == (Piece(0, "travel", 5), Piece(100, "until", 150), Piece(145, "travel", 5))
    assert profiles.pieces(1) == (Piece(0, "closed", 0),) and profiles.kind.tolist() == [0, 1, 0, 2, 1]
    assert [column.dtype for column in (profiles.start, profiles.kind, profiles.value)] == [np.int32, np.int8, np.int64]
    order = read_order(put(ORDER), 3)
    assert order.tolist() == [2, 0, 1] and order.dtype == np.int32


OTHER_SPELLINGS: list[Callable[[str], str]] = [
    lambda text: text.replace("\n", "\r\n"),
    lambda text: text.replace("\n", "\r"),
    lambda text: text.rstrip("\n"),
    lambda text: text + "\n\n",
    lambda text: text.replace("\n", "\n\n", 2),
    lambda text: "\ufeff" + text,
    lambda text: "\n".join(",".join(f'"{field}"' for field in line.split(",")) for line in text.splitlines()),
    lambda text: text.replace("\n0,", "\n000,"),
    lambda text: text.replace("\n0,", "\n" + "0" * 5000 + ","),
]


@pytest.mark.parametrize("spell", OTHER_SPELLINGS)
def test_other_spellings_say_the_same(program: Path, folder: Path, spell: Callable[[str], str]) -> None:
    for text, read in ((NODES, read_nodes), (ROADS, read_roads), (PROFILES, read_profiles), (ORDER, read_order)):
        wanted = vars(read(put(text))) if text != ORDER else {"order": read_order(put(text))}
        found = vars(read(put(spell(text)))) if text != ORDER else {"order": read_order(put(spell(text)))}
        for name, column in wanted.items():
            assert found[name].tolist() == column.tolist() and found[name].dtype == column.dtype
    # The program takes them too.
    for name, text in (("nodes", NODES), ("roads", ROADS), ("profiles", PROFILES), ("order", ORDER)):
        Path(name).write_bytes(spell(text).encode())
    assert run_program(["serve", "nodes", "roads", "profiles", "order"]) == (0, "", "")


def test_empty_tables(folder: Path) -> None:
    assert len(read_nodes(put("node,x,y\n"))) == 0
    assert len(read_roads(put("arc,tail,head,profile"))) == 0
    assert len(read_profiles(put("profile,from,kind,value\n\n"))) == 0
    assert len(read_order(put(""))) == 0


Read = Callable[[str], Any]
FAULTS: list[tuple[Read, str, int | None, str | None, str, str]] = [
    (read_nodes, "", 1, None, "nothing", "the header node,x,y"),
    (read_nodes, "node,x\n0,1\n", 1, None, "'node,x'", "the header node,x,y"),
    (read_nodes, "node,x,y \n", 1, None, "'node,x,y '", "the header node,x,y"),
    (read_nodes, "node,x,y\n0,1\n", 2, None, "2 fields", "3 fields"),
    (read_nodes, "node,x,y\n\n0,1,2\n\n1,1,2,3\n", 5, None, "4 fields", "3 fields"),
    (read_nodes, "node,x,y\n0,1,2\n2,1,2\n", 3, "node", "'2'", "1: rows are numbered from 0 on"),
    (read_nodes, "node,x,y\n0,,2\n", 2, "x", "''", "a number of digits alone"),
    (read_nodes, "node,x,y\n0,1,-2\n", 2, "y", "'-2'", "a number of digits alone"),
    (read_nodes, "node,x,y\n0,1,+2\n", 2, "y", "'+2'", "a number of digits alone"),
    (read_nodes, "node,x,y\n0,1, 2\n", 2, "y", "' 2'", "a number of digits alone"),
    (read_nodes, "node,x,y\n0,1,2.0\n", 2, "y", "'2.0'", "a number of digits alone"),
    (read_nodes, "node,x,y\n0,1,1_0\n", 2, "y", "'1_0'", "a number of digits alone"),
    (read_nodes, "node,x,y\n0,1,\u0662\n", 2, "y", "'\u0662'", "a number of digits alone"),
    (read_nodes, "node,x,y\n0,1,#2\n", 2, "y", "'#2'", "a number of digits alone"),
    (read_nodes, f"node,x,y\n0,{'9' * 60},2\n", 2, "x", f"'{'9' * 37}...'", "a number of at most 18 digits"),
    (read_nodes, "node,x,y\n0,1,1000000001\n", 2, "y", "'1000000001'", "0 to 1000000000"),
    (read_nodes, 'node,x,y\n0,1,2\n"1","\n7",2\n', 3, "x", "'\\n7'", "a number of digits alone"),
    (lambda path: read_roads(path, 3, 2), "arc,tail,head,profile\n0,0,3,0\n", 2, "head", "'3'", "nodes 0 to 2"),
    (lambda path: read_roads(path, 3, 2), "arc,tail,head,profile\n0,0,1,0\n1,3,0,0\n", 3, "tail", "'3'", "nodes 0 to 2"),
    (lambda path: read_roads(path, 3, 2), "arc,tail,head,profile\n0,0,0,2\n", 2, "profile", "'2'", "profiles 0 to 1"),
    (lambda path: read_roads(path, 0, 2), "arc,tail,head,profile\n0,0,0,1\n", 2, "tail", "'0'", "nodes nothing, since there are none"),
    (read_roads, "arc,tail,head,profile\n0,0,0,4194304\n", 2, "profile", "'4194304'", "profiles 0 to 4194303"),
    (read_profiles, "profile,from,kind,value\n1,0,travel,1\n", 2, "profile", "'1'", "the profile of the row before, or the next one; 0 first"),
    (read_profiles, "profile,from,kind,value\n0,0,travel,1\n2,0,travel,1\n", 3, "profile", "'2'", "the profile of the row before, or the next one; 0 first"),
    (read_profiles, "profile,from,kind,value\n0,0,travel,1\n1,0,travel,1\n0,5,travel,1\n", 4, "profile", "'0'", "the profile of the row before, or the next one; 0 first"),
    (read_profiles, "profile,from,kind,value\n0,0,flies,1\n", 2, "kind", "'flies'", "travel, until, closed"),
    (read_profiles, "profile,from,kind,value\n0,0,travels,1\n", 2, "kind", "'travels'", "travel, until, closed"),
    (read_profiles, "profile,from,kind,value\n0,0,travel,x\n", 2, "value", "'x'", "a number of digits alone"),
    (read_profiles, "profile,from,kind,value\n0,0,0,1\n", 2, "kind", "'0'", "travel, until, closed"),
    (read_profiles, "profile,from,kind,value\n0,86400,travel,1\n", 2, "from", "'86400'", "0 to 86399"),
    (read_profiles, "profile,from,kind,value\n0,0,travel,604801\n", 2, "value", "'604801'", "0 to 604800 of a piece that is travel"),
    (read_profiles, "profile,from,kind,value\n0,0,until,691201\n", 2, "value", "'691201'", "0 to 691200 of a piece that is until"),
    (read_profiles, "profile,from,kind,value\n0,0,closed,1\n", 2, "value", "'1'", "0 to 0 of a piece that is closed"),
    (read_profiles, "profile,from,kind,value\n0,5,travel,1\n", 2, "from", "'5'", "0, where a profile begins"),
    (read_profiles, "profile,from,kind,value\n0,0,travel,1\n0,7,travel,2\n0,7,travel,3\n", 4, "from", "'7'", "a later second than the piece before"),
    (read_profiles, "profile,from,kind,value\n0,0,closed,0\n0,7,travel,2\n", 2, "kind", "'closed'", "closed as the only piece of its profile"),
    (read_profiles, "profile,from,kind,value\n0,0,until,86398\n", 2, "value", "'86398'", "86399 or later, since one may leave as late as that"),
    (lambda path: read_order(path, 3), "0\n1\n3\n", 3, "node", "'3'", "nodes 0 to 2"),
    (lambda path: read_order(path, 3), "0\n1\n0\n", 3, "node", "'0'", "each node once"),
    (lambda path: read_order(path, 3), "0\n1\n", None, None, "2 lines", "3, one for each node"),
    (read_order, "0\n1\n\n2,3\n", 4, None, "2 fields", "1 fields"),
    (read_order, "0\nx\n", 2, "node", "'x'", "a number of digits alone"),
]  # fmt: skip


@pytest.mark.parametrize("read, text, line, column, found, allowed", FAULTS)
def test_faults(folder: Path, read: Read, text: str, line: int | None, column: str | None, found: str, allowed: str) -> None:
    with pytest.raises(TableError) as raised:
        read(put(text))
    error = raised.value
    assert (error.path, error.line, error.column, error.found, error.allowed) == ("table", line, column, found, allowed)
    where = "table" + (f", line {line}" if line else "") + (f", column {column}" if column else "")
    assert str(error) == f"{where}: found {found}, allowed: {allowed}"
    assert "\n" not in str(error) and error.status == 1


def test_fields_that_are_too_long(folder: Path) -> None:
    cases: list[tuple[Read, str, str]] = [
        (read_nodes, "node,x,y\n0,1,2\n1," + "0" * 200_000 + ",0\n", "table, line 3: found field larger than .* a row of node,x,y"),
        (read_order, '0\n"' + "1\n" * 100_000, "table, line 2: found field larger than .* a row of node"),
    ]
    for read, text, said in cases:
        with pytest.raises(TableError, match=said):
            read(put(text))


def test_who_leaves_later_must_not_arrive_earlier(folder: Path) -> None:
    read_profiles(put("profile,from,kind,value\n0,0,travel,10\n0,100,travel,9\n0,200,until,209\n0,203,travel,10\n"))
    cases = [
        ("0,0,travel,10\n0,100,travel,8\n0,200,travel,10\n", "line 3, .* '8', .* who leaves at 00:01:39, which is 00:01:49"),
        ("0,0,travel,10\n0,200,travel,12\n", r"line 2, .* '10', .* who leaves at 23:59:59, which is 00:00:11 \(\+1 day\)"),
        ("0,0,travel,300\n0,36000,travel,100\n", "line 3, .* '100', .* who leaves at 09:59:59, which is 10:04:59"),
        ("0,0,travel,10\n0,86300,travel,500\n", r"line 2, .* '10', .* who leaves at 23:59:59, which is 00:08:19 \(\+1 day\)"),
        ("0,0,until,90000\n0,5,until,86500\n1,0,travel,1\n", r"line 3, .* at 00:00:04, which is 01:00:00 \(\+1 day\)"),
    ]
    for rows, said in cases:
        with pytest.raises(TableError, match=said):
            read_profiles(put("profile,from,kind,value\n" + rows))


def test_bytes_that_are_no_text(folder: Path) -> None:
    with pytest.raises(TableError, match="line 2, column x: found .*allowed: a number of digits alone"):
        read_nodes(put(b"node,x,y\n0,\xff\xfe,2\n"))
    with pytest.raises(TableError, match="line 1"):
        read_nodes(put(b"\x00\x01\x02"))


def test_files_that_cannot_be_read(folder: Path) -> None:
    with pytest.raises(Failure, match="none.csv can't be read: No such file or directory"):
        read_nodes("none.csv")
    with pytest.raises(Failure, match="can't be read: Is a directory"):
        read_order(folder)
    with pytest.raises(Failure, match="nodes.csv can't be read"):
        read_network(folder)


# ---- beside the program ----

WORDS = st.sampled_from(["0", "1", "2", "00", "5", "86399", "86400", "604800", "691201", "90000", "x", "", "travel", "until", "closed", "-1", "1.0"])
ROWS = st.lists(
    st.tuples(st.sampled_from(["0", "1", "2"]), st.sampled_from(["0", "0", "5", "700", "86399", "86400"]), st.sampled_from(["travel", "until", "closed"]), WORDS | st.sampled_from(["0", "0", "3", "86399", "90000"])).map(",".join)
    | st.lists(WORDS, min_size=3, max_size=5).map(",".join),
    max_size=4,
)  # fmt: skip


@settings(max_examples=25)
@given(ROWS)
def test_the_program_and_the_reader_take_the_same_profiles(program: Path, tmp_path_factory: pytest.TempPathFactory, rows: list[str]) -> None:
    path = tmp_path_factory.getbasetemp() / "profiles.csv"
    path.write_text("profile,from,kind,value\n" + "".join(row + "\n" for row in rows))
    empty = [path.parent / "no_nodes", path.parent / "no_roads"]
    for name, text in zip(empty, ("node,x,y\n", "arc,tail,head,profile\n")):
        if not name.exists():
            name.write_text(text)
    run = run_program(["serve", *empty, path, "identity"])
    try:
        read_profiles(path)
    except TableError as error:
        assert run.status == 4, f"{error}, and the program takes it"
    else:
        assert run.status == 0, run.output


@st.composite
def networks(draw: st.DrawFn) -> Network:
    nodes = draw(st.lists(st.tuples(st.integers(0, 10**9), st.integers(0, 10**9)), min_size=1, max_size=9))
    pieces = st.one_of(
        st.integers(0, 604_800).map(lambda value: (Piece(0, "travel", value),)),
        st.just((Piece(0, "closed", 0),)),
        st.tuples(st.integers(1, 86_399), st.integers(0, 99)).map(lambda pair: (Piece(0, "until", sum(pair)), Piece(pair[0], "travel", pair[1]))),
    )
    profiles = draw(st.lists(pieces, min_size=1, max_size=5))
    ends = st.integers(0, len(nodes) - 1)
    roads = draw(st.lists(st.tuples(ends, ends, st.integers(0, len(profiles) - 1)), max_size=9))
    columns = [np.array(column, np.int64) for column in zip(*roads)] or [np.zeros(0, np.int64)] * 3
    return Network(Nodes(*(np.array(axis, np.int64) for axis in zip(*nodes))), Roads(*columns), profiles_of(profiles))


@settings(max_examples=25)
@given(networks(), st.randoms(use_true_random=False))
def test_what_is_written_is_read(tmp_path_factory: pytest.TempPathFactory, network: Network, random: Any) -> None:
    folder = tmp_path_factory.getbasetemp() / "written"
    write_network(folder, network)
    found = read_network(folder)
    for one, other in ((network.nodes, found.nodes), (network.roads, found.roads), (network.profiles, found.profiles)):
        for name, column in vars(one).items():
            assert getattr(other, name).tolist() == column.tolist()
    order = list(range(len(network.nodes)))
    random.shuffle(order)
    write_order(folder / "order.csv", order)
    assert read_order(folder / "order.csv", len(order)).tolist() == order


def test_the_examples_are_written_back_byte_for_byte(rush_hour: Path, folder: Path) -> None:
    for example in (rush_hour, rush_hour.parent / "town"):
        write_network(folder, read_network(example))
        for name in ("nodes.csv", "roads.csv", "profiles.csv"):
            assert (folder / name).read_bytes() == (example / name).read_bytes()


# ---- sharing ----


def test_profiles_are_shared_by_shape() -> None:
    pool = ProfilePool()
    shapes: list[list[Piece]] = [[Piece(0, "travel", 5)], [Piece(0, "travel", 6)], [Piece(0, "travel", 5)], [Piece(0, "closed", 0)]]
    assert [pool.add(shape) for shape in shapes] == [0, 1, 0, 2] and len(pool) == 3
    assert profiles_text(pool.profiles()) == b"profile,from,kind,value\n0,0,travel,5\n1,0,travel,6\n2,0,closed,0\n"
    assert profiles_text(profiles_of([])) == b"profile,from,kind,value\n"


# ---- writing ----


def test_a_file_is_replaced_when_it_is_whole(folder: Path) -> None:
    Path("out").write_text("old")
    os.chmod("out", 0o640)
    with pytest.raises(KeyboardInterrupt), writing("out") as file:
        file.write(b"half")
        raise KeyboardInterrupt
    assert Path("out").read_text() == "old" and os.listdir() == ["out"]
    with writing("out") as file:
        file.write(b"new")
        assert Path("out").read_text() == "old"
    assert Path("out").read_text() == "new" and os.listdir() == ["out"] and stat.S_IMODE(os.stat("out").st_mode) == 0o640
    Path("link").symlink_to("out")
    write_order("link", [1, 0])
    assert Path("link").is_symlink() and Path("out").read_text() == "1\n0\n"


def test_a_pipe_is_written_in_place(folder: Path) -> None:
    reader, writer = os.pipe()
    write_order(f"/dev/fd/{writer}", [1, 0])
    os.close(writer)
    with open(reader) as file:
        assert file.read() == "1\n0\n"


def test_what_cannot_be_written(folder: Path) -> None:
    network = Network(Nodes(np.zeros(1, np.int64), np.zeros(1, np.int64)), Roads(*[np.zeros(0, np.int32)] * 3), profiles_of([]))
    writes: list[Callable[[str], None]] = [
        lambda path: write_nodes(path, network.nodes),
        lambda path: write_roads(path, network.roads),
        lambda path: write_profiles(path, network.profiles),
        lambda path: write_order(path, [0]),
    ]
    for write in writes:
        for path in ("none/such", ".", "/proc/none", "/dev/full"):
            with pytest.raises(Failure, match="can't be written"):
                write(path)
        write("/dev/null")
    Path("file").write_text("")
    with pytest.raises(Failure, match="file can't be made"):
        write_network("file", network)
    assert os.listdir() == ["file"]
    with pytest.raises(ValueError):
        write_order("order", [-1])


def test_large_tables_are_read_and_written_in_their_time(folder: Path) -> None:
    count = 300_000
    roads = Roads(*(np.arange(count, dtype=np.int32) % 1000 for _ in range(3)))
    profiles = Profiles(np.arange(count + 1), np.zeros(count, np.int32), np.zeros(count, np.int8), np.arange(count) % 1000)

    def take() -> float:
        before = os.times().user
        write_roads("roads", roads)
        write_profiles("profiles", profiles)
        assert (read_roads("roads").head == roads.head).all()
        assert (read_profiles("profiles").value == profiles.value).all()
        return os.times().user - before

    assert least_seconds(take, 8) < 8
