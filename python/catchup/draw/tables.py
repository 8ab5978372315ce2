"""The tables NODES, ROADS and PROFILES as far as drawings need them, by the standard library alone.

Strict as catchup.tables, which needs numpy: TableError has the file, the line as an editor counts (the header is line 1),
the column, what was found and what is allowed. A file that can't be read is a Failure.
"""

from __future__ import annotations

import csv
from collections.abc import Iterator
from dataclasses import dataclass
from pathlib import Path
from typing import NoReturn

from catchup.errors import Failure, TableError

MOST_PLACE = 1_000_000_000
# What catchup-wide takes; catchup takes a quarter.
MOST_NODES = 1_048_576
MOST_ROADS = 4_194_304
_KINDS = ("travel", "until", "closed")


@dataclass(frozen=True, slots=True)
class Nodes:
    """Places of the nodes by their numbers, x to the right and y upwards, in any unit."""

    x: list[int]
    y: list[int]

    def __len__(self) -> int:
        return len(self.x)


@dataclass(frozen=True, slots=True)
class Roads:
    """The roads by their numbers: from which node to which, and which are closed all day."""

    tail: list[int]
    head: list[int]
    closed: frozenset[int]

    def __len__(self) -> int:
        return len(self.tail)


def read_nodes(path: Path) -> Nodes:
    """The table node,x,y."""
    x: list[int] = []
    y: list[int] = []
    table = _Table(path, "node,x,y")
    for fields in table.rows():
        table.check_number(0, fields, len(x), MOST_NODES)
        x.append(table.number(1, fields, MOST_PLACE))
        y.append(table.number(2, fields, MOST_PLACE))
    return Nodes(x, y)


def read_roads(path: Path, nodes: int, closed_profiles: list[bool] | None = None) -> Roads:
    """The table arc,tail,head,profile over so many nodes; with what `read_profiles` gave also which roads are closed."""
    tail: list[int] = []
    head: list[int] = []
    closed: list[int] = []
    most_profile = MOST_ROADS if closed_profiles is None else len(closed_profiles) - 1
    table = _Table(path, "arc,tail,head,profile")
    for fields in table.rows():
        table.check_number(0, fields, len(tail), MOST_ROADS)
        tail.append(table.number(1, fields, nodes - 1, "nodes "))
        head.append(table.number(2, fields, nodes - 1, "nodes "))
        profile = table.number(3, fields, most_profile, "profiles ")
        if closed_profiles and closed_profiles[profile]:
            closed.append(len(tail) - 1)
    return Roads(tail, head, frozenset(closed))


def read_profiles(path: Path) -> list[bool]:
    """Of each profile of the table profile,from,kind,value whether it is closed all day."""
    closed: list[bool] = []
    table = _Table(path, "profile,from,kind,value")
    for fields in table.rows():
        profile = table.number(0, fields, MOST_ROADS)
        if profile == len(closed):
            closed.append(False)
        elif profile != len(closed) - 1:
            table.fault(0, fields, "the profile of the row before, or the next one; 0 first")
        table.number(1, fields, 86_399)
        if fields[2] not in _KINDS:
            table.fault(2, fields, ", ".join(_KINDS))
        table.number(3, fields, 691_200)
        closed[-1] = closed[-1] or fields[2] == "closed"
    return closed


class _Table:
    """A table that is read row by row, and where it is now."""

    def __init__(self, path: Path, header: str) -> None:
        self._path = path
        self._header = header
        self._names = header.split(",")
        self._line = 1

    def rows(self) -> Iterator[list[str]]:
        """The rows behind the header, each with as many fields; blank lines are none."""
        try:
            with open(self._path, encoding="utf-8-sig", errors="surrogateescape", newline="") as file:
                yield from self._rows_of(file)
        except OSError as error:
            raise Failure(f"{self._path} can't be read: {error.strerror or error}") from None
        except csv.Error as error:
            raise TableError(self._path, self._line, None, str(error), f"a row of {self._header}") from None

    def _rows_of(self, file: Iterator[str]) -> Iterator[list[str]]:
        reader = csv.reader(file)
        first = next((fields for fields in reader if fields), None)
        if first != self._names:
            found = _shown(",".join(first)) if first else "nothing"
            raise TableError(self._path, reader.line_num or 1, None, found, f"the header {self._header}")
        columns = len(self._names)
        self._line = reader.line_num + 1
        for fields in reader:
            if len(fields) == columns:
                yield fields
            elif fields:
                raise TableError(self._path, self._line, None, f"{len(fields)} fields", f"{columns} fields")
            self._line = reader.line_num + 1

    def number(self, column: int, fields: list[str], most: int, what: str = "") -> int:
        """The number of a field. Raises TableError where it is none, or is past `most`."""
        field = fields[column]
        if not (field.isdecimal() and field.isascii()):
            self.fault(column, fields, "a number of digits alone")
        # Python reads no more than some thousand digits; leading zeros may be as many as they will.
        digits = field if len(field) <= 18 else field.lstrip("0") or "0"
        value = int(digits) if len(digits) <= 18 else most + 1
        if value > most:
            self.fault(column, fields, f"{what}0 to {most}" if most >= 0 else f"nothing: there are no {what}".strip())
        return value

    def check_number(self, column: int, fields: list[str], number: int, most: int) -> None:
        """That a row has its own number, and isn't one too many."""
        if number == most:
            self.fault(column, fields, f"at most {most} rows")
        if fields[column] != str(number) and self.number(column, fields, most) != number:
            self.fault(column, fields, f"{number}: rows are numbered from 0 on")

    def fault(self, column: int, fields: list[str], allowed: str) -> NoReturn:
        raise TableError(self._path, self._line, self._names[column], _shown(fields[column]), allowed)


def _shown(field: str) -> str:
    return repr(field if len(field) <= 40 else field[:37] + "...")
