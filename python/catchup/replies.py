"""Replies of the program as values: those of `serve`, `ask` and `wait`, and of the lines of `edit`.

`parse` takes a reply's line, without its line end, and is strict: what the program can't print raises NotAReply, and
`str` of what it returns is the very same line. Seconds are counted from the midnight before leaving.
"""

from __future__ import annotations

import re
from collections.abc import Callable
from dataclasses import dataclass
from typing import Literal, TypeAlias, Union, cast

from catchup import errors
from catchup.clock import DAY

Kind: TypeAlias = Literal["travel", "until", "closed"]
Direction: TypeAlias = Literal["up", "down"]

# No label of any packed file comes to this second.
_PAST_SECONDS = 2**61
_PAST_ROADS = 4_194_304
_PAST_EDGES = 16_777_216
_FEWEST_DIGITS = r"(?:0|[1-9][0-9]{0,18})"


class NotAReply(ValueError):
    """The line is none that the program prints; the text is one line."""


@dataclass(frozen=True, slots=True)
class Drive:
    """A drive: when it arrives and the roads in their order; of a `v` line also when each road is entered, and of `wait`
    when the place before it is left. `entered` and `left` are as long as `roads`; `left` of no roads is None."""

    arrive: int
    roads: tuple[int, ...]
    entered: tuple[int, ...] | None = None
    left: tuple[int, ...] | None = None

    def __post_init__(self) -> None:
        if self.entered is not None and len(self.entered) != len(self.roads):
            raise ValueError("a drive has a second for each road")
        if self.left is not None and (self.entered is None or len(self.left) != len(self.roads) or not self.roads):
            raise ValueError("a drive that waits has two seconds for each road, and one at least")

    def __str__(self) -> str:
        if self.entered is None:
            return f"arrive={self.arrive} arcs={_joined(self.roads)}"
        columns = [self.roads, self.entered] if self.left is None else [self.roads, self.entered, self.left]
        return f"arrive={self.arrive} drive=" + " ".join(",".join(map(str, row)) for row in zip(*columns))


@dataclass(frozen=True, slots=True)
class Piece:
    """From second `start` of the day on: `travel` arrives `value` seconds later, `until` at second `value`, `closed` lets
    nobody through (and `value` is 0)."""

    start: int
    kind: Kind
    value: int

    def __str__(self) -> str:
        return f"{self.start},{self.kind},{self.value}"


@dataclass(frozen=True, slots=True)
class Day:
    """The least arrival at each second of the day, in pieces; the first begins at second 0, and none is closed."""

    pieces: tuple[Piece, ...]

    def arrival(self, second: int) -> int:
        """When one arrives who leaves at this second of the day, 0 to 86,399."""
        if not 0 <= second < DAY:
            raise ValueError("a day has the seconds 0 to 86399")
        low, high = 0, len(self.pieces)
        while high - low > 1:
            middle = (low + high) // 2
            low, high = (middle, high) if self.pieces[middle].start <= second else (low, middle)
        piece = self.pieces[low]
        return piece.value if piece.kind == "until" else second + piece.value

    def __str__(self) -> str:
        return f"day {_joined(self.pieces)}"


@dataclass(frozen=True, slots=True)
class Reach:
    """The least arrival at each node, by its number; None where no way leads."""

    arrivals: tuple[int | None, ...]

    def __str__(self) -> str:
        return f"reach {_entries(self.arrivals)}"


@dataclass(frozen=True, slots=True)
class Damage:
    """A shortcut of a file that `build` didn't make leads nowhere."""

    edge: int
    dir: Direction
    second: int

    def __str__(self) -> str:
        return f"damaged {self.edge} {self.dir} {self.second}"


@dataclass(frozen=True, slots=True)
class Table:
    """For each source, for each target the least arrival, None where no way leads. Over a file that `build` didn't make
    it may end early, at a source whose search came upon `damaged`."""

    arrivals: tuple[int | None, ...]
    damaged: Damage | None = None

    def __str__(self) -> str:
        entries = f" {_entries(self.arrivals)}" if self.arrivals else ""
        return f"table{entries}" + (f" {self.damaged}" if self.damaged else "")


@dataclass(frozen=True, slots=True)
class Departure:
    """The latest second of the day to leave and be in time, and the drive then."""

    depart: int
    arrive: int
    roads: tuple[int, ...]

    def __str__(self) -> str:
        return f"depart={self.depart} arrive={self.arrive} arcs={_joined(self.roads)}"


@dataclass(frozen=True, slots=True)
class TooLate:
    """Who leaves at second 0 comes too late already."""

    def __str__(self) -> str:
        return "too late"


@dataclass(frozen=True, slots=True)
class Unreachable:
    """No way leads there."""

    def __str__(self) -> str:
        return "unreachable"


@dataclass(frozen=True, slots=True)
class Done:
    """The edit is made; it touches so many edges of the hierarchy."""

    edges: int

    def __str__(self) -> str:
        return f"done {self.edges}"


@dataclass(frozen=True, slots=True)
class NoMemoryReply:
    """There was no memory for the edit or the day, and nothing has changed."""

    def __str__(self) -> str:
        return "no memory"


@dataclass(frozen=True, slots=True)
class RefusedReply:
    """The line fails a check: its word, with a second behind `early` and `fifo`."""

    word: str

    def __str__(self) -> str:
        return f"refused: {self.word}"


Answer: TypeAlias = Union[Drive, Day, Reach, Table, Departure, TooLate, Unreachable, Done]
Reply: TypeAlias = Union[Answer, NoMemoryReply, RefusedReply, Damage]


def parse(line: str) -> Reply:
    """The value of a reply's line, which has no line end. Raises NotAReply."""
    first = line.partition(" ")[0].partition("=")[0]
    reader = _READERS.get(first)
    reply = reader(line) if reader else None
    if reply is None:
        raise NotAReply(f"this is no reply of the program: {line[:60]!r}")
    return reply


def value(reply: Reply) -> Answer:
    """The reply where it is an answer; else raises errors.Refused, errors.Damaged or errors.NoMemory."""
    if isinstance(reply, RefusedReply):
        raise errors.Refused(reply.word)
    if isinstance(reply, Damage):
        raise errors.Damaged(reply.edge, reply.dir, reply.second)
    if isinstance(reply, NoMemoryReply):
        raise errors.NoMemory()
    return reply


# ---- reading ----

_NUMBERS = rf"(?:{_FEWEST_DIGITS}(?: {_FEWEST_DIGITS})*)?"
_PAIR = rf"{_FEWEST_DIGITS},{_FEWEST_DIGITS}"
_PAIRS = rf"(?:{_PAIR}(?: {_PAIR})*)?"
_TRIPLES = rf"{_PAIR},{_FEWEST_DIGITS}(?: {_PAIR},{_FEWEST_DIGITS})*"
_PIECE = rf"{_FEWEST_DIGITS},(?:travel|until),{_FEWEST_DIGITS}"
_ENTRY = rf"(?:-|{_FEWEST_DIGITS})"
_DAMAGED = rf"damaged {_FEWEST_DIGITS} (?:up|down) {_FEWEST_DIGITS}"

_DRIVE = re.compile(rf"arrive=({_FEWEST_DIGITS}) (?:arcs=({_NUMBERS})|drive=({_PAIRS}|{_TRIPLES}))", re.ASCII)
_DAY = re.compile(rf"day ({_PIECE}(?: {_PIECE})*)", re.ASCII)
_REACH = re.compile(rf"reach ({_ENTRY}(?: {_ENTRY})*)", re.ASCII)
_TABLE = re.compile(rf"table((?: {_ENTRY})*)(?: ({_DAMAGED}))?", re.ASCII)
_DEPARTURE = re.compile(rf"depart=({_FEWEST_DIGITS}) arrive=({_FEWEST_DIGITS}) arcs=({_NUMBERS})", re.ASCII)
_DONE = re.compile(rf"done ({_FEWEST_DIGITS})", re.ASCII)
_DAMAGE = re.compile(rf"damaged ({_FEWEST_DIGITS}) (up|down) ({_FEWEST_DIGITS})", re.ASCII)
_REFUSED = re.compile(
    rf"refused: ((?:early|fifo) ({_FEWEST_DIGITS})|long|line|node|second|limit|profile|arc|kind|start|rising|closed)",
    re.ASCII,
)


def _read_drive(line: str) -> Reply | None:
    found = _DRIVE.fullmatch(line)
    if not found or int(found[1]) >= _PAST_SECONDS:
        return None
    if found[2] is not None:
        roads = _numbers(found[2])
        return Drive(int(found[1]), roads) if _below_all(roads, _PAST_ROADS) else None
    columns = tuple(zip(*(_numbers(row.replace(",", " ")) for row in found[3].split()))) or ((), ())
    if not _below_all(columns[0], _PAST_ROADS) or not all(_below_all(each, _PAST_SECONDS) for each in columns[1:]):
        return None
    return Drive(int(found[1]), *columns)


def _read_day(line: str) -> Reply | None:
    found = _DAY.fullmatch(line)
    if not found:
        return None
    pieces = tuple(_piece(word) for word in found[1].split(" "))
    starts = [piece.start for piece in pieces]
    if starts[0] != 0 or starts[-1] >= DAY or any(later <= start for start, later in zip(starts, starts[1:])):
        return None
    return Day(pieces) if _below_all(tuple(piece.value for piece in pieces), _PAST_SECONDS) else None


def _piece(word: str) -> Piece:
    start, kind, value_ = word.split(",")
    return Piece(int(start), cast(Kind, kind), int(value_))


def _read_reach(line: str) -> Reply | None:
    found = _REACH.fullmatch(line)
    arrivals = _arrivals(found[1]) if found else None
    return Reach(arrivals) if arrivals is not None else None


def _read_table(line: str) -> Reply | None:
    found = _TABLE.fullmatch(line)
    arrivals = _arrivals(found[1][1:]) if found else None
    if not found or arrivals is None:
        return None
    damaged = _damage(found[2]) if found[2] else None
    return Table(arrivals, damaged) if damaged or not found[2] else None


def _read_departure(line: str) -> Reply | None:
    found = _DEPARTURE.fullmatch(line)
    if not found or int(found[1]) >= DAY or int(found[2]) >= _PAST_SECONDS:
        return None
    roads = _numbers(found[3])
    return Departure(int(found[1]), int(found[2]), roads) if _below_all(roads, _PAST_ROADS) else None


def _read_done(line: str) -> Reply | None:
    found = _DONE.fullmatch(line)
    return Done(int(found[1])) if found and int(found[1]) <= _PAST_EDGES else None


def _read_refused(line: str) -> Reply | None:
    found = _REFUSED.fullmatch(line)
    return RefusedReply(found[1]) if found and (found[2] is None or int(found[2]) < DAY) else None


def _damage(line: str) -> Damage | None:
    found = _DAMAGE.fullmatch(line)
    if not found or int(found[1]) >= _PAST_EDGES or int(found[3]) >= _PAST_SECONDS:
        return None
    return Damage(int(found[1]), cast(Direction, found[2]), int(found[3]))


_FIXED: dict[str, Reply] = {"too late": TooLate(), "unreachable": Unreachable(), "no memory": NoMemoryReply()}

_READERS: dict[str, Callable[[str], Reply | None]] = {
    "arrive": _read_drive,
    "day": _read_day,
    "reach": _read_reach,
    "table": _read_table,
    "depart": _read_departure,
    "done": _read_done,
    "refused:": _read_refused,
    "damaged": _damage,
    "too": _FIXED.get,
    "unreachable": _FIXED.get,
    "no": _FIXED.get,
}


def _numbers(text: str) -> tuple[int, ...]:
    return tuple(map(int, text.split()))


def _arrivals(text: str) -> tuple[int | None, ...] | None:
    arrivals = tuple(None if word == "-" else int(word) for word in text.split())
    return arrivals if max((each for each in arrivals if each is not None), default=0) < _PAST_SECONDS else None


def _below_all(numbers: tuple[int, ...], past: int) -> bool:
    return max(numbers, default=0) < past


def _joined(values: tuple[object, ...]) -> str:
    return " ".join(map(str, values))


def _entries(arrivals: tuple[int | None, ...]) -> str:
    return " ".join("-" if each is None else str(each) for each in arrivals)
