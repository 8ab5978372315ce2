"""The tables NODES, ROADS and PROFILES and the order, read into arrays of numpy and written from them.

Reading is strict, as the program's: TableError has the file, the line as an editor counts (the header is line 1), the
column, what was found and what is allowed. A file that can't be read or written is a Failure. Writing goes to a file
beside, which takes the place of the old one when it is whole.
"""

from __future__ import annotations

import contextlib
import csv
import io
import os
import re
import secrets
import stat
from collections.abc import Callable, Iterator, Sequence
from dataclasses import dataclass
from pathlib import Path
from typing import Any, NoReturn, TypeAlias

import numpy as np
import numpy.typing as npt

from catchup.clock import DAY, clock
from catchup.errors import Failure, TableError
from catchup.replies import Kind, Piece

Ints: TypeAlias = npt.NDArray[np.int64]
Shorts: TypeAlias = npt.NDArray[np.int32]
Bytes: TypeAlias = npt.NDArray[np.int8]

NODES_FILE = "nodes.csv"
ROADS_FILE = "roads.csv"
PROFILES_FILE = "profiles.csv"

# What catchup takes; catchup-wide takes four times as many, and so do these readers.
MOST_NODES = 262_144
MOST_ROADS = 1_048_576
MOST_PROFILES = 1_048_576
_WIDE = 4

MOST_PLACE = 1_000_000_000
MOST_TRAVEL = 604_800
MOST_UNTIL = 691_200
TRAVEL, UNTIL, CLOSED = 0, 1, 2
KINDS: tuple[Kind, Kind, Kind] = ("travel", "until", "closed")

_MARK = "\ufeff"
# numpy would read such a number by way of a float.
_TOO_LONG = re.compile(r"[0-9]{19}", re.ASCII)


@dataclass(frozen=True)
class Nodes:
    """Places of the nodes by their numbers, 0 to 1,000,000,000 each. x, y: int64[n]."""

    x: Ints
    y: Ints

    def __len__(self) -> int:
        return len(self.x)


@dataclass(frozen=True)
class Roads:
    """The roads by their numbers: where each begins and ends, and its profile. int32[m] each."""

    tail: Shorts
    head: Shorts
    profile: Shorts

    def __len__(self) -> int:
        return len(self.tail)


@dataclass(frozen=True)
class Profiles:
    """The pieces of all profiles behind one another: profile p has those from first[p] up to first[p + 1].

    first: int64[p + 1]; start: int32[k], seconds of the day; kind: int8[k], 0 travel, 1 until, 2 closed; value: int64[k].
    """

    first: Ints
    start: Shorts
    kind: Bytes
    value: Ints

    def __len__(self) -> int:
        return len(self.first) - 1

    def pieces(self, profile: int) -> tuple[Piece, ...]:
        """The pieces of one profile."""
        span = slice(int(self.first[profile]), int(self.first[profile + 1]))
        rows = zip(self.start[span].tolist(), self.kind[span].tolist(), self.value[span].tolist())
        return tuple(Piece(start, KINDS[kind], value) for start, kind, value in rows)


@dataclass(frozen=True)
class Network:
    """What the three tables say."""

    nodes: Nodes
    roads: Roads
    profiles: Profiles


class ProfilePool:
    """Profiles under numbers of their own, each shape once."""

    def __init__(self) -> None:
        self._number: dict[tuple[Piece, ...], int] = {}

    def __len__(self) -> int:
        return len(self._number)

    def add(self, pieces: Sequence[Piece]) -> int:
        """The number of the profile with just these pieces: the one it has already, or the next."""
        return self._number.setdefault(tuple(pieces), len(self._number))

    def profiles(self) -> Profiles:
        """All of them, by their numbers."""
        return profiles_of(list(self._number))


def profiles_of(profiles: Sequence[Sequence[Piece]]) -> Profiles:
    """Profiles from their pieces."""
    pieces = [piece for profile in profiles for piece in profile]
    first = np.zeros(len(profiles) + 1, np.int64)
    np.cumsum([len(profile) for profile in profiles], out=first[1:])
    return Profiles(
        first,
        np.array([piece.start for piece in pieces], np.int32),
        np.array([KINDS.index(piece.kind) for piece in pieces], np.int8),
        np.array([piece.value for piece in pieces], np.int64),
    )


# ---- reading ----


def read_nodes(path: str | Path) -> Nodes:
    """The table node,x,y."""
    table = _Table.read(path, "node,x,y")
    table.check_count(MOST_NODES * _WIDE, "nodes")
    table.check_rising(0)
    for column in (1, 2):
        table.check_within(column, MOST_PLACE)
    return Nodes(table.columns[1], table.columns[2])


def read_roads(path: str | Path, nodes: int | None = None, profiles: int | None = None) -> Roads:
    """The table arc,tail,head,profile; with the numbers of nodes and profiles also that these are there."""
    table = _Table.read(path, "arc,tail,head,profile")
    table.check_count(MOST_ROADS * _WIDE, "roads")
    table.check_rising(0)
    for column in (1, 2):
        table.check_within(column, (MOST_NODES * _WIDE if nodes is None else nodes) - 1, "nodes")
    table.check_within(3, (MOST_PROFILES * _WIDE if profiles is None else profiles) - 1, "profiles")
    tail, head, profile = (column.astype(np.int32) for column in table.columns[1:])
    return Roads(tail, head, profile)


def read_profiles(path: str | Path) -> Profiles:
    """The table profile,from,kind,value. That nobody arrives before he leaves, and nobody who leaves later earlier, is
    checked here as well."""
    table = _Table.read(path, "profile,from,kind,value", words=KINDS)
    profile, start, kind, value = table.columns
    if not len(profile):
        return Profiles(np.zeros(1, np.int64), start.astype(np.int32), kind.astype(np.int8), value)
    begins = np.diff(profile, prepend=profile[0] - 1) != 0
    expected = np.concatenate([[0], profile[:-1] + 1])
    table.check((profile == expected) | (~begins & (profile == expected - 1)), 0, "the profile of the row before, or the next one; 0 first")
    table.check_within(0, MOST_PROFILES * _WIDE - 1)
    table.check_within(1, DAY - 1)
    most = np.array([MOST_TRAVEL, MOST_UNTIL, 0])[kind]
    table.check((value >= 0) & (value <= most), 3, lambda row: f"0 to {most[row]} of a piece that is {KINDS[kind[row]]}")
    table.check(~begins | (start == 0), 1, "0, where a profile begins")
    table.check(begins | (np.diff(start, prepend=-1) > 0), 1, "a later second than the piece before")
    first = np.append(np.flatnonzero(begins), len(profile)).astype(np.int64)
    alone = np.repeat(np.diff(first) == 1, np.diff(first))
    table.check((kind != CLOSED) | alone, 2, "closed as the only piece of its profile")
    _check_arrivals(table, first)
    return Profiles(first, start.astype(np.int32), kind.astype(np.int8), value)


def read_order(path: str | Path, nodes: int | None = None) -> Shorts:
    """The node at each rank, one number a line without a header; each node once. int32[n]."""
    table = _Table.read(path, "", columns=("node",))
    order = table.columns[0]
    count = len(order) if nodes is None else nodes
    table.check_within(0, count - 1, "nodes")
    where = np.full(count, -1, np.int64)
    where[order[::-1]] = np.arange(len(order))[::-1]
    table.check(where[order] == np.arange(len(order)), 0, "each node once")
    if len(order) != count:
        raise TableError(path, None, None, f"{len(order)} lines", f"{count}, one for each node")
    return order.astype(np.int32)


def read_network(folder: str | Path) -> Network:
    """nodes.csv, profiles.csv and roads.csv of a folder."""
    folder = Path(folder)
    nodes = read_nodes(folder / NODES_FILE)
    profiles = read_profiles(folder / PROFILES_FILE)
    return Network(nodes, read_roads(folder / ROADS_FILE, len(nodes), len(profiles)), profiles)


def _check_arrivals(table: _Table, first: Ints) -> None:
    """That no arrival is before its departure, and none of who leaves a second later earlier, midnight included."""
    _, start, kind, value = table.columns
    # The last second of each piece, and who leaves then or at its first arrives when.
    end = np.append(start[1:], DAY)
    end[first[1:] - 1] = DAY
    begin_arrival = np.where(kind == UNTIL, value, start + value)
    end_arrival = np.where(kind == UNTIL, value, end - 1 + value)
    table.check(end_arrival >= end - 1, 3, lambda row: f"{end[row] - 1} or later, since one may leave as late as that")
    following = np.append(begin_arrival[1:], 0)
    following[first[1:] - 1] = begin_arrival[first[:-1]] + DAY
    closed = kind == CLOSED
    overtaken = ~closed & (end_arrival > following)
    # The row that is named is the one whose arrivals come too early: the next piece, or at midnight the first.
    row = np.flatnonzero(overtaken)
    if len(row):
        late = int(row[0])
        profile = int(np.searchsorted(first, late, "right")) - 1
        early = late + 1 if late + 1 < first[profile + 1] else int(first[profile])
        left, arrives = clock(int(end[late]) - 1), clock(int(end_arrival[late]))
        table.fault(early, 3, f"no arrival before that of who leaves at {left}, which is {arrives}")


class _Table:
    """A table's columns as int64[rows] each, and where each row stands in the text. Words are numbers by their place."""

    def __init__(self, path: str | Path, text: str, names: Sequence[str], columns: list[Ints]) -> None:
        self._path = path
        self._text = text
        self._names = names
        self.columns = columns

    @classmethod
    def read(cls, path: str | Path, header: str, words: Sequence[str] = (), columns: Sequence[str] = ()) -> _Table:
        """Reads a table with this header, or one without a header and with these columns. The last column but one has
        one of the words where there are some."""
        text = _load(path)
        names = header.split(",") if header else columns
        body = text
        if header:
            line = text[: _end_of_line(text)]
            if line != header and line.replace('"', "") != header:
                found = _shown(line) if line else "nothing"
                raise TableError(path, 1, None, found, f"the header {header}")
            body = text[len(line) :]
        found_columns = _read_fast(body, names, words)
        table = cls(path, text, names, [])
        table.columns = table._read_slowly(words, header != "") if found_columns is None else found_columns
        return table

    def check_count(self, most: int, what: str) -> None:
        if len(self.columns[0]) > most:
            self.fault(most, 0, f"at most {most} {what}")

    def check_rising(self, column: int) -> None:
        numbers = np.arange(len(self.columns[column]))
        self.check(self.columns[column] == numbers, column, lambda row: f"{row}: rows are numbered from 0 on")

    def check_within(self, column: int, most: int, what: str = "") -> None:
        allowed = f"0 to {most}" if most >= 0 else "nothing, since there are none"
        self.check(self.columns[column] <= most, column, f"{what} {allowed}".strip())

    def check(self, right: npt.NDArray[np.bool_], column: int, allowed: str | Callable[[int], str]) -> None:
        """Raises TableError for the first row that isn't right."""
        if not right.all():
            row = int(np.argmin(right))
            self.fault(row, column, allowed if isinstance(allowed, str) else allowed(row))

    def fault(self, row: int, column: int, allowed: str) -> NoReturn:
        """Raises TableError for a field. The text is gone through once more, for the line."""
        header = len(self._names) > 1
        for number, (line, fields) in enumerate(self._rows(header)):
            if number == row:
                raise TableError(self._path, line, self._names[column], _shown(fields[column]), allowed)
        raise AssertionError("a fault is in a row that was read")

    def _rows(self, header: bool) -> Iterator[tuple[int, list[str]]]:
        """The rows behind the header, each with the line that it begins in; a blank line is no row."""
        reader = csv.reader(io.StringIO(self._text, newline=""))
        begins = 1
        skip = header
        try:
            for fields in reader:
                line, begins = begins, reader.line_num + 1
                if not fields:
                    continue
                if skip:
                    skip = False
                    continue
                yield line, fields
        except csv.Error as error:
            raise TableError(self._path, begins, None, str(error), f"a row of {','.join(self._names)}") from None

    def _read_slowly(self, words: Sequence[str], header: bool) -> list[Ints]:
        """What the fast reading leaves: quotes, blank lines between, and faults, which it finds."""
        values: list[list[int]] = []
        for line, fields in self._rows(header):
            if len(fields) != len(self._names):
                raise TableError(self._path, line, None, f"{len(fields)} fields", f"{len(self._names)} fields")
            values.append([self._value(line, column, field, words) for column, field in enumerate(fields)])
        array = np.array(values, np.int64).reshape(-1, len(self._names))
        return [np.ascontiguousarray(column) for column in array.T]

    def _value(self, line: int, column: int, field: str, words: Sequence[str]) -> int:
        name = self._names[column]
        if words and name == "kind":
            if field not in words:
                raise TableError(self._path, line, name, _shown(field), ", ".join(words))
            return words.index(field)
        if not (field.isascii() and field.isdigit()):
            raise TableError(self._path, line, name, _shown(field), "a number of digits alone")
        # Python takes no number of thousands of digits, be they zeros.
        digits = field.lstrip("0") or "0"
        if len(digits) > 18:
            raise TableError(self._path, line, name, _shown(field), "a number of at most 18 digits")
        return int(digits)


def _read_fast(body: str, names: Sequence[str], words: Sequence[str]) -> list[Ints] | None:
    """The columns of a plain table by numpy's reader, or None where there is anything that it might take otherwise."""
    allowed = "0123456789,\r\n" + ("abcdefghijklmnopqrstuvwxyz" if words else "")
    if body.translate(dict.fromkeys(map(ord, allowed))) or _TOO_LONG.search(body):
        return None
    if not body.strip("\r\n"):
        return [np.zeros(0, np.int64) for _ in names]
    longest = max(map(len, words), default=0) + 1
    form: list[tuple[str, Any]] = [(name, f"S{longest}" if words and name == "kind" else np.int64) for name in names]
    try:
        table = np.loadtxt(io.StringIO(body), dtype=form, delimiter=",", comments=None, ndmin=1)
    except (ValueError, OverflowError):
        return None
    columns = []
    for name in names:
        column = table[name]
        if column.dtype != np.int64:
            known = np.array([word.encode() for word in words])
            number = np.argmax(column[:, None] == known, axis=1)
            if not (known[number] == column).all():
                return None
            column = number
        columns.append(np.ascontiguousarray(column, np.int64))
    return columns


def _end_of_line(text: str) -> int:
    ends = [end for end in (text.find("\n"), text.find("\r")) if end >= 0]
    return min(ends, default=len(text))


def _load(path: str | Path) -> str:
    try:
        with open(path, "rb") as file:
            text = file.read().decode("utf-8", "surrogateescape")
    except OSError as error:
        raise Failure(f"{path} can't be read: {error.strerror or error}") from None
    return text.removeprefix(_MARK)


def _shown(field: str) -> str:
    return repr(field if len(field) <= 40 else field[:37] + "...")


# ---- writing ----


def nodes_text(nodes: Nodes) -> bytes:
    """The table node,x,y."""
    return b"node,x,y\n" + _lines([np.arange(len(nodes)), nodes.x, nodes.y])


def roads_text(roads: Roads) -> bytes:
    """The table arc,tail,head,profile."""
    return b"arc,tail,head,profile\n" + _lines([np.arange(len(roads)), roads.tail, roads.head, roads.profile])


def profiles_text(profiles: Profiles) -> bytes:
    """The table profile,from,kind,value."""
    number = np.repeat(np.arange(len(profiles)), np.diff(profiles.first))
    kinds = np.array([kind.encode() for kind in KINDS])[profiles.kind]
    return b"profile,from,kind,value\n" + _lines([number, profiles.start, kinds, profiles.value])


def order_text(order: npt.ArrayLike) -> bytes:
    """The node at each rank, one a line."""
    return _lines([np.asarray(order)])


def write_nodes(path: str | Path, nodes: Nodes) -> None:
    """Writes the table node,x,y."""
    _write(path, nodes_text(nodes))


def write_roads(path: str | Path, roads: Roads) -> None:
    """Writes the table arc,tail,head,profile."""
    _write(path, roads_text(roads))


def write_profiles(path: str | Path, profiles: Profiles) -> None:
    """Writes the table profile,from,kind,value."""
    _write(path, profiles_text(profiles))


def write_order(path: str | Path, order: npt.ArrayLike) -> None:
    """Writes the node at each rank, one a line."""
    _write(path, order_text(order))


def write_network(folder: str | Path, network: Network) -> None:
    """Writes nodes.csv, roads.csv and profiles.csv into a folder, which is made where it isn't there."""
    folder = Path(folder)
    try:
        folder.mkdir(parents=True, exist_ok=True)
    except OSError as error:
        raise Failure(f"{folder} can't be made: {error.strerror or error}") from None
    write_nodes(folder / NODES_FILE, network.nodes)
    write_roads(folder / ROADS_FILE, network.roads)
    write_profiles(folder / PROFILES_FILE, network.profiles)


def _write(path: str | Path, text: bytes) -> None:
    with writing(path) as file:
        file.write(text)


@contextlib.contextmanager
def writing(path: str | Path) -> Iterator[io.BufferedWriter]:
    """A file to write, which takes the place of `path` when the block has ended well, and else goes.

    A device or a pipe is written in place. Raises Failure where it can't be written.
    """
    target = Path(os.path.realpath(path))
    beside: Path | None = None
    try:
        if os.path.exists(path) and not os.path.isfile(path):
            with open(path, "wb") as file:
                yield file
            return
        beside = target.with_name(f".{target.name}.{os.getpid()}.{secrets.token_hex(4)}")
        with open(beside, "xb") as file:
            yield file
        if target.exists():
            os.chmod(beside, stat.S_IMODE(target.stat().st_mode))
        os.replace(beside, target)
    except OSError as error:
        raise Failure(f"{path} can't be written: {error.strerror or error}") from None
    finally:
        if beside is not None:
            with contextlib.suppress(OSError):
                os.unlink(beside)


def _lines(columns: Sequence[npt.NDArray[Any]]) -> bytes:
    """The rows of the columns as text, fields divided by commas: numbers from 0 on, or words of bytes."""
    rows = len(columns[0])
    if not rows:
        return b""
    parts = [characters(column) for column in columns]
    width = sum(part.shape[1] + 1 for part in parts)
    text = np.zeros((rows, width), np.uint8)
    at = 0
    for part in parts:
        text[:, at : at + part.shape[1]] = part
        at += part.shape[1]
        text[:, at] = ord(",")
        at += 1
    text[:, -1] = ord("\n")
    # A zero byte is a place that a shorter field leaves.
    return bytes(text[text != 0].tobytes())


def characters(column: npt.NDArray[Any]) -> npt.NDArray[np.uint8]:
    """The characters of each field, numbers from 0 on or words of bytes: uint8[rows, width], zero where there is none."""
    if column.dtype.kind == "S":
        return np.ascontiguousarray(column).view(np.uint8).reshape(len(column), -1)
    left = column.astype(np.int64)
    if left.min() < 0:
        raise ValueError("numbers of a table are from 0 on")
    digits = len(str(int(left.max())))
    text = np.zeros((len(column), digits), np.uint8)
    for place in range(digits - 1, -1, -1):
        text[:, place] = np.where((left > 0) | (place == digits - 1), left % 10 + ord("0"), 0)
        left //= 10
    return text
