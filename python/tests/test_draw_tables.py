"""catchup.draw.tables: what it takes, and how it refuses; and that it needs nothing past the standard library."""

from __future__ import annotations

import subprocess
import sys
from collections.abc import Callable
from pathlib import Path

import pytest
from conftest import EXAMPLES
from drawings import NODES_TEXT, PLACES, PROFILES_TEXT, ROADS_TEXT, small

from catchup.draw.tables import read_nodes, read_profiles, read_roads
from catchup.errors import Failure, TableError

FORMS: dict[str, Callable[[str], str]] = {
    "as it is": lambda text: text,
    "with other line ends": lambda text: text.replace("\n", "\r\n"),
    "with old line ends": lambda text: text.replace("\n", "\r"),
    "without the last line end": lambda text: text.removesuffix("\n"),
    "with blank lines": lambda text: "\n" + text.replace("\n", "\n\n"),
    "with quotes": lambda text: "\n".join(",".join(f'"{field}"' for field in line.split(",")) for line in text.split()) + "\n",
    "with a mark": lambda text: "\ufeff" + text,
}


@pytest.mark.parametrize("form", FORMS)
def test_tables_are_read(tmp_path: Path, form: str) -> None:
    for name, text in [("nodes", NODES_TEXT), ("roads", ROADS_TEXT), ("profiles", PROFILES_TEXT)]:
        (tmp_path / name).write_text(FORMS[form](text), newline="")
    nodes = read_nodes(tmp_path / "nodes")
    assert list(zip(nodes.x, nodes.y)) == PLACES
    closed = read_profiles(tmp_path / "profiles")
    assert closed == [False, False, True]
    assert read_roads(tmp_path / "roads", len(nodes), closed) == small()[1]


BAD_NODES = [
    ("", 1, None, "nothing", "the header node,x,y"),
    ("no table\n", 1, None, "'no table'", "the header node,x,y"),
    ("node,x,y\n0,0,0\n2,0,0\n", 3, "node", "'2'", "1: rows are numbered from 0 on"),
    ("node,x,y\n0,0,0\n\n1,0\n", 4, None, "2 fields", "3 fields"),
    ("node,x,y\n0,0,-1\n", 2, "y", "'-1'", "a number of digits alone"),
    ("node,x,y\n0,,1\n", 2, "x", "''", "a number of digits alone"),
    ("node,x,y\n0,1.5,1\n", 2, "x", "'1.5'", "a number of digits alone"),
    ("node,x,y\n0,٣,1\n", 2, "x", "'٣'", "a number of digits alone"),
    ("node,x,y\n0,1000000001,0\n", 2, "x", "'1000000001'", "0 to 1000000000"),
    ("node,x,y\n0," + "9" * 5000 + ",0\n", 2, "x", "'" + "9" * 37 + "...'", "0 to 1000000000"),
]
BAD_ROADS = [
    ("arc,tail,head\n", 1, None, "'arc,tail,head'", "the header arc,tail,head,profile"),
    ("arc,tail,head,profile\n0,0,5,0\n", 2, "head", "'5'", "nodes 0 to 4"),
    ("arc,tail,head,profile\n0,0,1,0\n0,1,0,0\n", 3, "arc", "'0'", "1: rows are numbered from 0 on"),
    ("arc,tail,head,profile\n0,0,1,3\n", 2, "profile", "'3'", "profiles 0 to 2"),
    ("arc,tail,head,profile\n0,0,1,x\n", 2, "profile", "'x'", "a number of digits alone"),
]
BAD_PROFILES = [
    ("profile,from,kind\n", 1, None, "'profile,from,kind'", "the header profile,from,kind,value"),
    ("profile,from,kind,value\n1,0,travel,5\n", 2, "profile", "'1'", "the profile of the row before, or the next one; 0 first"),
    ("profile,from,kind,value\n0,0,drive,5\n", 2, "kind", "'drive'", "travel, until, closed"),
    ("profile,from,kind,value\n0,86400,travel,5\n", 2, "from", "'86400'", "0 to 86399"),
    ("profile,from,kind,value\n0,0,until,691201\n", 2, "value", "'691201'", "0 to 691200"),
]


@pytest.mark.parametrize("text, line, column, found, allowed", BAD_NODES + BAD_ROADS + BAD_PROFILES)
def test_faults_have_line_and_column(
    tmp_path: Path, text: str, line: int, column: str | None, found: str, allowed: str
) -> None:
    path = tmp_path / "table"
    path.write_text(text)
    header = allowed.removeprefix("the header ") if allowed.startswith("the header") else text.split("\n")[0]
    with pytest.raises(TableError) as raised:
        if header.startswith("node"):
            read_nodes(path)
        elif header.startswith("arc"):
            read_roads(path, 5, [False, False, True])
        else:
            read_profiles(path)
    error = raised.value
    assert (error.line, error.column, error.found, error.allowed) == (line, column, found, allowed)
    assert str(error).startswith(f"{path}, line {line}")


def test_a_number_may_have_zeros_before_it(tmp_path: Path) -> None:
    path = tmp_path / "nodes"
    path.write_text("node,x,y\n00,01," + "0" * 6000 + "7\n")
    nodes = read_nodes(path)
    assert (nodes.x, nodes.y) == ([1], [7])


def test_a_road_needs_nodes(tmp_path: Path) -> None:
    path = tmp_path / "roads"
    path.write_text("arc,tail,head,profile\n0,0,0,0\n")
    with pytest.raises(TableError, match="nothing: there are no nodes"):
        read_roads(path, 0)


@pytest.mark.parametrize("name", ["missing", "."])
def test_what_cannot_be_read(tmp_path: Path, name: str) -> None:
    with pytest.raises(Failure, match="can't be read: "):
        read_nodes(tmp_path / name)


def test_reads_what_the_package_reads() -> None:
    tables = pytest.importorskip("catchup.tables")
    folder = EXAMPLES / "town"
    nodes, network = read_nodes(folder / "nodes.csv"), tables.read_network(folder)
    assert nodes.x == network.nodes.x.tolist() and nodes.y == network.nodes.y.tolist()
    closed = read_profiles(folder / "profiles.csv")
    roads = read_roads(folder / "roads.csv", len(nodes), closed)
    assert roads.tail == network.roads.tail.tolist() and roads.head == network.roads.head.tolist()
    kinds = network.profiles.kind[network.profiles.first[network.roads.profile]]
    assert sorted(roads.closed) == [road for road, kind in enumerate(kinds) if kind == 2] != []


def test_drawing_needs_the_standard_library_alone() -> None:
    code = (
        "import sys\n"
        f"sys.path.insert(0, {str(Path(__file__).parents[1])!r})\n"
        "from catchup.draw import asking, day, output, reach, route\n"
        "print(sorted({name.partition('.')[0] for name in sys.modules} - sys.stdlib_module_names - {'catchup', '__main__'}))\n"
    )
    done = subprocess.run([sys.executable, "-I", "-S", "-c", code], capture_output=True, text=True, timeout=600)
    assert (done.stdout, done.stderr) == ("[]\n", "")
