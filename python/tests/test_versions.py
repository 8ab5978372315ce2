"""Packed files of version 1: made here of one of version 2, taken by each command, and migrated."""

from __future__ import annotations

import hashlib
import struct
from pathlib import Path

import pytest
from conftest import EXAMPLES, build

from catchup.program import Finished, run_program

DIGEST = 32
# Where the header of both versions has its numbers: the version, how many edges there are, and how long the file is.
VERSION, EDGES, LENGTH, ORDER = 8, 24, 44, 52


def sealed(body: bytes) -> bytes:
    """A file of these bytes: their digest stands behind them."""
    return body + hashlib.sha256(body).digest()


def as_first_version(second: bytes) -> bytes:
    """The same hierarchy in version 1: another version and length, no bounds (16 bytes an edge), another digest."""
    bounds = 16 * struct.unpack_from("<I", second, EDGES)[0]
    body = bytearray(second[: len(second) - bounds - DIGEST])
    struct.pack_into("<I", body, VERSION, 1)
    struct.pack_into("<Q", body, LENGTH, len(second) - bounds)
    return sealed(bytes(body))


def changed(file: bytes, place: int, value: int) -> bytes:
    """The file with another byte there, and the digest of that."""
    body = bytearray(file[:-DIGEST])
    body[place] = value
    return sealed(bytes(body))


def said(*words: str | Path, input: str = "") -> tuple[int, str]:
    """The status of a run, and what it printed."""
    run = run_program(words, input=input)
    assert run.error == ""
    return run.status, run.output


@pytest.fixture
def second(program: Path, tmp_path: Path) -> Path:
    """A packed file of version 2."""
    return build(EXAMPLES / "rush_hour", tmp_path / "second.cu", "identity")


@pytest.fixture
def first(second: Path) -> Path:
    """The same in version 1."""
    place = second.with_name("first.cu")
    place.write_bytes(as_first_version(second.read_bytes()))
    return place


def test_first_keeps_no_bounds(first: Path, second: Path) -> None:
    assert first.stat().st_size == second.stat().st_size - 48


def test_first_is_asked_and_verified(first: Path) -> None:
    day = "day 0,travel,160 28740,travel,250 35851,until,36100 35941,travel,160\n"
    assert said("ask", first, input="q,0,2,28800\nd,0,2\n") == (0, "arrive=29050 arcs=2\n" + day)
    assert said("verify", first) == (0, "same\n")


@pytest.mark.parametrize(("old", "out"), [("first.cu", "third.cu"), ("first.cu", "first.cu"), ("second.cu", "again.cu")])
def test_migrates_to_what_is_built(first: Path, second: Path, old: str, out: str) -> None:
    built = second.read_bytes()
    folder = first.parent
    assert said("migrate", folder / old, folder / out) == (0, f"migrated {len(built)}\n")
    assert (folder / out).read_bytes() == built


def test_an_edit_stores_the_second(first: Path, second: Path) -> None:
    folder = first.parent
    night = folder / "night.txt"
    night.write_text("s,2,0,closed,0\nd,0,2\n")
    stored = (0, f"done 2\nrefused: line\nstored {second.stat().st_size - 12}\n")
    assert said("edit", first, night, folder / "edited.cu") == stored
    assert said("verify", folder / "edited.cu") == (0, "same\n")
    assert said("edit", second, night, folder / "other.cu") == stored
    assert (folder / "edited.cu").read_bytes() == (folder / "other.cu").read_bytes()


@pytest.mark.parametrize(
    ("of", "place", "value", "line"),
    [
        ("second.cu", -DIGEST - 48, 255, "file: bound 0 up"),
        ("second.cu", VERSION, 3, "file: version 3"),
        ("first.cu", ORDER, 9, "file: order 0"),
    ],
    ids=["a wrong bound", "a version that isn't known", "the checks of the first"],
)
def test_refuses_a_file(first: Path, of: str, place: int, value: int, line: str) -> None:
    folder = first.parent
    good = (folder / of).read_bytes()
    bad = folder / "bad.cu"
    bad.write_bytes(changed(good, place % len(good), value))
    runs: list[Finished] = [run_program(words) for words in (["ask", bad], ["verify", bad], ["migrate", bad, folder / "none.cu"])]
    assert [(run.status, run.output) for run in runs] == [(6, line + "\n")] * 3
    assert not (folder / "none.cu").exists()
