"""Bad input of every command: one line on standard error that begins with the command's name, status 1 (2 where the
arguments are wrong), and nothing written elsewhere."""

from __future__ import annotations

import os
import random
from pathlib import Path

import pytest
from commands import call
from scripts import TOP, Run, run

pytestmark = pytest.mark.usefixtures("program")

# Nodes 1 and 4 have no roads to others; there are a loop, parallel roads and a road back.
GOOD = {
    "nodes": "node,x,y\n0,0,0\n1,90,90\n2,50,10\n3,100,0\n4,20,80\n",
    "roads": "arc,tail,head,profile\n0,0,2,0\n1,2,0,0\n2,0,2,1\n3,2,3,0\n4,4,4,0\n5,0,3,1\n6,3,0,2\n",
    "profiles": "profile,from,kind,value\n0,0,travel,60\n1,0,travel,100\n2,0,closed,0\n",
    "line": "t,0,1,0,1\n",
}
BAD = {
    "blank": b"",
    "garbage": b"no table\n",
    "header": b"node,x,y\n0,1\n",
    "binary": random.Random(1).randbytes(5000),
}
REPLY, REACH, TABLE = "arrive=160 arcs=0 3\n", "reach 7 8 9 10 11\n", "table 60\n"

# Each command with a file that is bad (BAD) in one place, and its standard input.
PLACES = [
    ("draw-route BAD roads", REPLY),
    ("draw-route nodes BAD", REPLY),
    ("draw-route nodes roads BAD", REPLY),
    ("draw-route --script BAD nodes roads", REPLY),
    ("draw-reach BAD roads", REACH),
    ("draw-reach nodes BAD", REACH),
    ("table-csv BAD", TABLE),
    ("order-by-metis BAD roads", ""),
    ("order-by-metis nodes BAD", ""),
    ("draw-day BAD 0 3", ""),
    ("draw-day BAD roads profiles identity 0 3", ""),
]
# Each command whose standard input is bad. No replies at all are no routes, and a map without any is drawn.
READERS = ["draw-route nodes roads", "draw-reach nodes roads", "table-csv line"]
BAD_REPLIES = [(words, bad) for words in READERS for bad in BAD if (words, bad) != (READERS[0], "blank")]
FOR_ALL = ["draw-route", "draw-reach", "draw-day", "table-csv", "order-by-metis"]
OWN = ["package", "release", "check-release", "check", "count-definitions"]


@pytest.fixture
def room(tmp_path: Path) -> Path:
    """A folder with good tables and, under `bad`, files that are none."""
    for name, text in GOOD.items():
        (tmp_path / name).write_text(text)
    (tmp_path / "bad/folder").mkdir(parents=True)
    for name, content in BAD.items():
        (tmp_path / "bad" / name).write_bytes(content)
    (tmp_path / "rests").mkdir()
    return tmp_path


def everything(room: Path) -> list[str]:
    return sorted(str(place) for place in room.rglob("*"))


def try_badly(
    room: Path, words: list[str], statuses: tuple[int, ...] = (1,), input: str = "", here: bool = False, **env: str
) -> Run:
    """Runs a command, as a process of its own unless `here`, and looks at how it refuses."""
    before = everything(room)
    env = {"TMPDIR": f"{room}/rests"} | env
    if here:
        ran = Run(*call(*words, input=input, cwd=room, env=env))
    else:
        ran = run([TOP / "bin" / words[0], *words[1:]], folder=room, input=input, env=env)
    assert ran.status in statuses and ran.out == "", ran
    assert ran.err.startswith(f"{words[0]}: ") and ran.err.count("\n") == 1, ran
    assert everything(room) == before
    return ran


@pytest.mark.parametrize("bad", ["missing", "folder", *BAD])
@pytest.mark.parametrize(("words", "input"), PLACES)
def test_a_file(room: Path, words: str, input: str, bad: str) -> None:
    """Each place with one bad file by a process of its own, and with the others here, since to start takes the longest:
    likewise below."""
    try_badly(room, words.replace("BAD", f"bad/{bad}").split(), input=input, here=bad != "garbage")


@pytest.mark.parametrize(("words", "bad"), BAD_REPLIES)
def test_a_reply(room: Path, words: str, bad: str) -> None:
    try_badly(room, words.split(), input=BAD[bad].decode("latin-1"), here=bad != "garbage")


@pytest.mark.parametrize("words", [[], ["a", "b", "c", "d", "e", "f", "g"], ["--none", "such"]], ids=["none", "many", "unknown"])
@pytest.mark.parametrize("command", FOR_ALL)
def test_arguments(room: Path, command: str, words: list[str]) -> None:
    try_badly(room, [command, *words], statuses=(2,), here=words != [])


@pytest.mark.parametrize(
    "words",
    [
        "package", "package a b", "release --none", "release a b", "check-release a b", "check --none", "check --long --none",
        "count-definitions --none", "count-definitions a:b:c", "count-definitions cu_cli.specs.Runs:None", "package --none",
        "check-release --none",
    ],
)  # fmt: skip
def test_arguments_of_our_own(room: Path, words: str) -> None:
    try_badly(room, words.split(), statuses=(2,))


EMPTY = [
    ["draw-route", "", "roads"], ["draw-route", "nodes", "roads", ""], ["draw-route", "--script", "", "nodes", "roads"],
    ["draw-reach", "nodes", ""], ["table-csv", ""], ["draw-day", "", "0", "3"], ["order-by-metis", "nodes", ""],
    ["catchup-order", "", "roads"], ["catchup-tables", "nodes", "roads", "--out", ""], ["catchup-import", "osm", "map.osm", ""],
    ["catchup-bench", "--keep", ""], ["catchup-http", ""], ["catchup-http", "map.cu", "--token", ""], ["package", ""],
]  # fmt: skip


@pytest.mark.parametrize("words", EMPTY, ids=" ".join)
def test_an_empty_word_is_no_path(room: Path, words: list[str]) -> None:
    try_badly(room, words, statuses=(2,), here=words[0] != "package")


@pytest.mark.parametrize("command", FOR_ALL + OWN)
def test_help(room: Path, command: str) -> None:
    if command in OWN:
        ran = run([TOP / "bin" / command, "--help"], folder=room)
    else:
        ran = Run(*call(command, "--help", cwd=room))
    assert (ran.status, ran.err) == (0, "") and ran.out.lower().startswith(f"usage: {command}")


def test_no_program(room: Path) -> None:
    try_badly(room, "draw-day nodes roads profiles identity 0 3".split(), CATCHUP="/none/such")


@pytest.mark.parametrize("words", READERS)
def test_closed_input(room: Path, words: str) -> None:
    status, out, err = run(["sh", "-c", f"exec {TOP}/bin/{words} <&-"], folder=room, env={"TMPDIR": f"{room}/rests"})
    assert status == 1 and out == "" and err.count("\n") == 1 and os.listdir(room / "rests") == []


@pytest.mark.parametrize("words", READERS)
def test_a_folder_as_input(room: Path, words: str) -> None:
    ran = run(["sh", "-c", f"exec {TOP}/bin/{words} < bad/folder"], folder=room)
    what = "replies" if words.startswith("draw-route") else "reply"
    assert ran == (1, "", f"{words.split()[0]}: the {what} can't be read: standard input is closed, or a folder\n")


@pytest.mark.parametrize("words", READERS)
def test_wrong_words_and_help_whatever_the_input_is(room: Path, words: str) -> None:
    name = words.split()[0]
    for word, status in (("--none", 2), ("--help", 0)):
        ran = run(["sh", "-c", f"exec {TOP}/bin/{name} {word} < bad/folder"], folder=room)
        assert ran.status == status and ("--none" in ran.err or ran.out.startswith(f"Usage: {name} "))


OWN_DATA = TOP / "examples/own_data"
IN_ONES_FOLDER = [("catchup-tables", OWN_DATA / "places.csv", OWN_DATA / "streets.csv"), ("catchup-import", "osm", "map.osm", "town")]


@pytest.mark.parametrize(("name", "words"), [(name, words) for name, *words in IN_ONES_FOLDER])
def test_a_folder_that_is_gone(room: Path, name: str, words: list[str | Path]) -> None:
    (room / "gone").mkdir()
    ran = run(["sh", "-c", 'rmdir ../gone; exec "$@"', "sh", TOP / "bin" / name, *words], folder=room / "gone")
    said = f"{name}: the folder that it was called in is no longer there: go to another one\n"
    assert ran == (1, "", said)


@pytest.mark.parametrize("name", ["catchup-order", "order-by-metis"])
def test_an_order_is_made_in_a_folder_that_is_gone(room: Path, name: str) -> None:
    (room / "gone").mkdir()
    words = [TOP / "bin" / name, room / "nodes", room / "roads"]
    ran = run(["sh", "-c", 'rmdir ../gone; exec "$@"', "sh", *words], folder=room / "gone")
    assert ran == run(words) and ran.status == 0 and len(ran.out.split()) == 5
