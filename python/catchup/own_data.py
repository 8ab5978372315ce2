"""The three tables from two CSVs of one's own: places with ids, and streets with seconds for each hour of the day.

Who leaves later never arrives earlier: where an hour is quicker than one before it, a gate opens or a ferry leaves,
whoever would be overtaken arrives with the first who isn't.
"""

from __future__ import annotations

import contextlib
import csv
import io
import re
from collections.abc import Callable, Sequence
from dataclasses import dataclass
from pathlib import Path
from typing import Any, TypeAlias

import numpy as np
import numpy.typing as npt

from catchup.clock import DAY, parse_clock
from catchup.errors import Failure, TableError
from catchup.replies import Piece
from catchup.tables import (
    MOST_TRAVEL,
    MOST_UNTIL,
    NODES_FILE,
    PROFILES_FILE,
    ROADS_FILE,
    Ints,
    Network,
    Nodes,
    Profiles,
    Roads,
    nodes_text,
    profiles_of,
    profiles_text,
    roads_text,
    writing,
)

IDS_FILE = "ids.csv"
HOURS = 24
HOUR = 3600
_PLACES = ("id", "longitude", "latitude")
_STREETS = ("from", "to", *map(str, range(HOURS)))
_SAME_ALL_DAY = ("from", "to", "seconds")
_MORE = ("closed", "ferry")
_DEGREES = re.compile(r"-?[0-9]+(\.[0-9]*)?", re.ASCII)
_SPAN = re.compile(r"([0-9:]+)-([0-9:]+)", re.ASCII)

Rows: TypeAlias = list[tuple[int, list[str]]]


@dataclass(frozen=True)
class Sheet:
    """A CSV by its columns: their texts, and the line of each row as an editor counts."""

    path: Path
    lines: list[int]
    columns: dict[str, list[str]]

    def fault(self, row: int, column: str, allowed: str) -> TableError:
        """That a field isn't what is allowed."""
        return TableError(self.path, self.lines[row], column, repr(self.columns[column][row][:40]), allowed)

    def check(self, column: str, is_right: Callable[[str], object], allowed: str) -> None:
        """Raises TableError for the first field of a column that isn't right; each text is looked at once."""
        texts = self.columns[column]
        wrong = {text for text in set(texts) if not is_right(text)}
        if wrong:
            raise self.fault(next(row for row, text in enumerate(texts) if text in wrong), column, allowed)


@dataclass(frozen=True)
class Stretch:
    """Who leaves from `begin` on and before `end`, seconds of the day, takes `travel` seconds."""

    begin: int
    end: int
    travel: int


@dataclass(frozen=True)
class OwnNetwork:
    """The tables, and the id of each node."""

    network: Network
    ids: list[str]


def make_network(places: Path, streets: Path, *, share: bool = False, in_metres: bool = False) -> OwnNetwork:
    """The tables of two CSVs, numbered in their order.

    places: id, longitude and latitude in degrees, which become millionths of a degree counted from 180 W and 90 S;
    `in_metres` shrinks x so that a metre is as long both ways at the middle latitude. streets: from, to, and the seconds
    of each hour or of all hours; maybe `closed` and `ferry`. `share`: streets that take the same share one profile.
    Raises TableError and Failure.
    """
    where = _read_sheet(places, [_PLACES])
    numbers = _numbered(where)
    nodes = _nodes(where, in_metres)
    sheet = _read_sheet(streets, [_STREETS, _SAME_ALL_DAY], _MORE)
    tail, head = (_ends(sheet, column, numbers, places) for column in ("from", "to"))
    profile, profiles = _profiles(sheet, share)
    return OwnNetwork(Network(nodes, Roads(tail, head, profile), profiles), where.columns["id"])


def check_apart(folder: Path, *inputs: Path) -> None:
    """Failure where a file that `write_own` writes into a folder is one of these."""
    for name in (NODES_FILE, ROADS_FILE, PROFILES_FILE, IDS_FILE):
        made = folder / name
        if made.exists() and any(each.exists() and made.samefile(each) for each in inputs):
            how = "is one of the two files that it is made of, and would be written over: name another folder by --out"
            raise Failure(f"{made} {how}")


def write_own(made: OwnNetwork, folder: Path) -> None:
    """Writes the four files; where one can't be written, none is changed."""
    ids = io.StringIO(newline="")
    writer = csv.writer(ids, lineterminator="\n")
    writer.writerow(["node", "id"])
    writer.writerows(enumerate(made.ids))
    texts = {
        NODES_FILE: nodes_text(made.network.nodes),
        ROADS_FILE: roads_text(made.network.roads),
        PROFILES_FILE: profiles_text(made.network.profiles),
        IDS_FILE: ids.getvalue().encode(),
    }
    try:
        folder.mkdir(parents=True, exist_ok=True)
    except OSError as error:
        raise Failure(f"{folder} can't be made: {error.strerror or error}") from None
    with contextlib.ExitStack() as files:
        for name, text in texts.items():
            file = files.enter_context(writing(folder / name))
            file.write(text)
            # A full disk tells here, before any file has taken the place of an old one.
            file.flush()


# ---- CSV ----


def _read_sheet(path: Path, forms: Sequence[Sequence[str]], more: Sequence[str] = ()) -> Sheet:
    """A CSV with a header that has just the names of one of the forms, and any of `more`; or without a header, in the
    order of the first form."""
    rows = _load(path)
    if not rows:
        raise Failure(f"{path} is empty: it needs a row {','.join(_short(forms[0]))} for each")
    first = [field.strip().lower() for field in rows[0][1]]
    if forms[0][0] in first:
        names = _header(path, rows[0], first, forms, more)
        rows = rows[1:]
    else:
        names = list(forms[0])
    for line, fields in rows:
        if len(fields) != len(names):
            raise _miscounted(path, line, fields, names, [] if forms[0][0] in first else forms[1:])
    columns = list(zip(*(fields for _, fields in rows))) or [() for _ in names]
    return Sheet(path, [line for line, _ in rows], {name: list(column) for name, column in zip(names, columns)})


def _miscounted(
    path: Path, line: int, fields: Sequence[str], names: Sequence[str], others: Sequence[Sequence[str]]
) -> TableError:
    """That a row has more or fewer fields than these names; `others` are the forms of another count that a header may say."""
    if len(fields) == 1:
        return TableError(path, line, None, "no commas", f"fields with commas between: {','.join(_short(names))}")
    allowed = f"{len(names)}: {','.join(_short(names))}"
    headers = [f", or a header {','.join(_short(form))} above them" for form in others if len(form) == len(fields)]
    return TableError(path, line, None, f"{len(fields)} fields", "".join([allowed, *headers]))


def _header(
    path: Path, row: tuple[int, list[str]], names: list[str], forms: Sequence[Sequence[str]], more: Sequence[str]
) -> list[str]:
    base = sorted(name for name in names if name not in more)
    if len(set(names)) < len(names) or all(base != sorted(form) for form in forms):
        allowed = " or ".join(",".join(_short(form)) for form in forms) + (f", and any of {','.join(more)}" if more else "")
        raise TableError(path, row[0], None, f"the header {','.join(row[1])[:60]}", allowed)
    return names


def _load(path: Path) -> Rows:
    try:
        text = path.read_bytes().decode("utf-8-sig")
    except OSError as error:
        raise Failure(f"{path} can't be read: {error.strerror or error}") from None
    except UnicodeDecodeError:
        raise Failure(f"{path} isn't UTF-8: save it as UTF-8") from None
    reader = csv.reader(io.StringIO(text, newline=""))
    rows: Rows = []
    try:
        rows.extend((reader.line_num, fields) for fields in reader if fields)
    except csv.Error as error:
        raise TableError(path, reader.line_num, None, str(error), "comma-separated values") from None
    return rows


def _short(names: Sequence[str]) -> list[str]:
    """The names of a form, with the hours in short."""
    return [*names[:2], "0", "..", "23"] if len(names) >= 2 + HOURS else list(names)


# ---- places and ends ----


def _numbered(places: Sheet) -> dict[str, int]:
    ids = places.columns["id"]
    places.check("id", lambda text: text, "an id")
    number: dict[str, int] = {}
    for row, text in enumerate(ids):
        if number.setdefault(text, row) != row:
            raise places.fault(row, "id", f"each id once; line {places.lines[number[text]]} has it already")
    return number


def _nodes(places: Sheet, in_metres: bool) -> Nodes:
    degrees = {}
    for column, most in (("longitude", 180), ("latitude", 90)):

        def is_degrees(text: str, most: int = most) -> bool:
            return bool(_DEGREES.fullmatch(text)) and abs(float(text)) <= most

        places.check(column, is_degrees, f"degrees from -{most} to {most}, with a point")
        degrees[column] = np.array(places.columns[column], dtype="U").astype(np.float64)
    longitude, latitude = degrees["longitude"], degrees["latitude"]
    x = longitude + 180
    if in_metres and len(x):
        x = (longitude - longitude.min()) * np.cos(np.radians((latitude.min() + latitude.max()) / 2))
    return Nodes(_millionths(x), _millionths(latitude + 90))


def _millionths(degrees: npt.NDArray[np.float64]) -> Ints:
    return np.asarray(np.floor(degrees * 1_000_000 + 0.5), np.int64)


def _ends(streets: Sheet, column: str, number: dict[str, int], places: Path) -> npt.NDArray[np.int32]:
    streets.check(column, number.__contains__, f"an id of {places}")
    return np.array([number[text] for text in streets.columns[column]], np.int32)


# ---- profiles ----


def _profiles(streets: Sheet, share: bool) -> tuple[npt.NDArray[np.int32], Profiles]:
    """The profile of each street, and all profiles by their numbers."""
    travel = _seconds(streets)
    rows = number = np.arange(len(travel))
    if share and len(travel):
        more = [np.unique(streets.columns[name], return_inverse=True)[1] for name in _MORE if name in streets.columns]
        keys = np.concatenate([travel, *(codes[:, None] for codes in more)], axis=1)
        _, first, which = np.unique(keys, axis=0, return_index=True, return_inverse=True)
        by_first = np.argsort(first)
        rows, number = first[by_first], np.argsort(by_first)[which]
    special = {
        place: _special(streets, row, travel[row])
        for place, row in enumerate(rows.tolist())
        if any(streets.columns[name][row].strip() for name in _MORE if name in streets.columns)
    }
    return number.astype(np.int32), _replaced(_profiles_by_hours(travel[rows]), special)


def _replaced(profiles: Profiles, special: dict[int, tuple[Piece, ...]]) -> Profiles:
    """The profiles with these in the places of some."""
    if not special:
        return profiles
    put = profiles_of(list(special.values()))
    counts = np.diff(profiles.first)
    kept = np.ones(len(counts), bool)
    kept[list(special)] = False
    stay = np.repeat(kept, counts)
    counts[list(special)] = np.diff(put.first)
    first = np.append(0, np.cumsum(counts)).astype(np.int64)
    from_old = np.repeat(kept, counts)

    def merged(old: npt.NDArray[Any], new: npt.NDArray[Any]) -> npt.NDArray[Any]:
        column = np.empty(len(from_old), old.dtype)
        column[from_old], column[~from_old] = old[stay], new
        return column

    return Profiles(
        first, merged(profiles.start, put.start), merged(profiles.kind, put.kind), merged(profiles.value, put.value)
    )


def _seconds(streets: Sheet) -> Ints:
    """Each street's seconds in each hour: int64[m, 24]."""
    names = ["seconds"] if "seconds" in streets.columns else [str(hour) for hour in range(HOURS)]
    columns = []
    for name in names:

        def is_seconds(text: str) -> bool:
            return text.isascii() and text.isdigit() and len(text) < 19 and int(text) <= MOST_TRAVEL

        streets.check(name, is_seconds, f"whole seconds, 0 to {MOST_TRAVEL}")
        columns.append(np.array(streets.columns[name], dtype="U").astype(np.int64))
    hours = columns * HOURS if len(columns) == 1 else columns
    return np.stack(hours, axis=1)


def _profiles_by_hours(travel: Ints) -> Profiles:
    """A profile for each row of seconds by the hour: int64[m, 24]."""
    begin = np.arange(HOURS) * HOUR
    arrival = begin + travel
    # The earliest arrival of all who leave at the beginning of a later hour, up to the same hour of the next day.
    both = np.concatenate([arrival, arrival + DAY], axis=1)
    soonest = np.minimum.accumulate(both[:, ::-1], axis=1)[:, ::-1][:, 1 : HOURS + 1]
    wait = soonest - travel
    start = np.stack([np.broadcast_to(begin, wait.shape), np.maximum(wait, begin)], axis=2)
    value = np.stack([travel, soonest], axis=2)
    there = np.stack([wait > begin, wait < begin + HOUR], axis=2)
    kind = np.broadcast_to(np.array([0, 1], np.int8), there.shape)
    return _without_repeats(*(part.reshape(len(travel), 2 * HOURS) for part in (there, start, kind, value)))


def _without_repeats(there: npt.NDArray[Any], start: Ints, kind: npt.NDArray[Any], value: Ints) -> Profiles:
    """The pieces that are there, without those that go on as the piece before does: a row a profile."""
    row = np.broadcast_to(np.arange(len(there))[:, None], there.shape)[there]
    start, kind, value = start[there], kind[there], value[there]
    new = np.append(True, (np.diff(row) != 0) | (np.diff(kind) != 0) | (np.diff(value) != 0))[: len(row)]
    row, start, kind, value = row[new], start[new], kind[new], value[new]
    first = np.searchsorted(row, np.arange(len(there) + 1)).astype(np.int64)
    return Profiles(first, start.astype(np.int32), kind.astype(np.int8), value.astype(np.int64))


def _special(streets: Sheet, row: int, travel: Ints) -> tuple[Piece, ...]:
    """The pieces of a street with closed hours or a ferry."""
    closed, ferry = (streets.columns[name][row].strip() if name in streets.columns else "" for name in _MORE)
    if closed.lower() == "yes":
        return (Piece(0, "closed", 0),)
    shut = [] if closed.lower() == "no" else _spans(streets, row, closed)
    stretches = [Stretch(hour * HOUR, hour * HOUR + HOUR, int(travel[hour])) for hour in range(HOURS)]
    if ferry:
        leaves = _departures(streets, row, ferry)
        stretches = [Stretch(second, second + 1, int(travel[second // HOUR])) for second in leaves]
    for span in shut:
        stretches = [part for stretch in stretches for part in _outside(stretch, *span)]
    if not stretches:
        return (Piece(0, "closed", 0),)
    pieces = pieces_of(stretches)
    if any(piece.kind == "until" and piece.value > MOST_UNTIL for piece in pieces):
        raise streets.fault(row, "ferry" if ferry else "closed", f"who waits arrives within eight days ({MOST_UNTIL} s)")
    return pieces


def _spans(streets: Sheet, row: int, text: str) -> list[tuple[int, int]]:
    """The times of day at which a street is closed, as `22:00-06:00 12:00-13:00`: from one second on, up to another."""
    spans = []
    for word in text.split():
        found = _SPAN.fullmatch(word)
        try:
            begin, end = (parse_clock(found[1]), DAY if found[2] == "24:00" else parse_clock(found[2])) if found else (0, 0)
        except ValueError:
            begin = end = 0
        if begin == end:
            raise streets.fault(row, "closed", "nothing, no, yes, or times as 22:00-06:00 12:00-13:00")
        spans += [(begin, end)] if begin < end else [(begin, DAY), (0, end)]
    return spans


def _departures(streets: Sheet, row: int, text: str) -> list[int]:
    try:
        return sorted({parse_clock(word) for word in text.split()})
    except ValueError:
        raise streets.fault(row, "ferry", "nothing, or departures as 06:00 07:30 18:15") from None


def _outside(stretch: Stretch, begin: int, end: int) -> list[Stretch]:
    """What is left of a stretch outside a span."""
    if end <= stretch.begin or stretch.end <= begin:
        return [stretch]
    parts = [Stretch(stretch.begin, begin, stretch.travel), Stretch(end, stretch.end, stretch.travel)]
    return [part for part in parts if part.begin < part.end]


def pieces_of(stretches: Sequence[Stretch]) -> tuple[Piece, ...]:
    """The pieces by which everyone arrives as the earliest of all who leave then or later, in one of the stretches.

    The stretches rise and are apart; who comes between two of them waits. There is one at least.
    """
    arrivals = [stretch.begin + stretch.travel for stretch in stretches]
    pieces: list[Piece] = []

    def add(piece: Piece) -> None:
        if not pieces or (pieces[-1].kind, pieces[-1].value) != (piece.kind, piece.value):
            pieces.append(piece)

    if stretches[0].begin > 0:
        add(Piece(0, "until", min(arrivals)))
    for place, stretch in enumerate(stretches):
        soonest = min([*arrivals[place + 1 :], *(arrival + DAY for arrival in arrivals[: place + 1])])
        goes_on = stretches[place + 1].begin if place + 1 < len(stretches) else DAY
        wait = min(max(soonest - stretch.travel, stretch.begin), stretch.end)
        if wait > stretch.begin:
            add(Piece(stretch.begin, "travel", stretch.travel))
        if wait < goes_on:
            add(Piece(wait, "until", soonest))
    return tuple(pieces)
