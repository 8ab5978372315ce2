"""The steps of a drive: where each begins, and by which exits roundabouts are left."""

from __future__ import annotations

from collections.abc import Mapping, Sequence
from dataclasses import dataclass
from itertools import compress, pairwise

from catchup.service.osrm.rows import Row


@dataclass(frozen=True, slots=True)
class Ring:
    """What is told of a step into a roundabout, or out of it: OSRM's word for it, the number of the exit, and the row
    whose street is told; rotary: the roundabout's name where it has one of its own."""

    kind: str
    exit: int
    street: int
    rotary: str = ""


@dataclass(frozen=True, slots=True)
class Steps:
    """The steps of a leg, but for the arrival. begins: the first row of each step; the first one departs. rings: what
    is told of some steps, by their first rows."""

    begins: Sequence[int]
    rings: Mapping[int, Ring]


def steps_of(rows: Sequence[Row]) -> Steps:
    """The steps of a leg."""
    kinds = [row.kind for row in rows]
    kinds[0] = ""
    begins = [0, *compress(range(len(rows)), kinds)]
    if "new name" in kinds:
        begins = [0, *[at for before, at in pairwise(begins) if rows[before].called != rows[at].called
                       or not is_needless(rows[before], rows[at])]]
    return Steps(begins, rings_of(rows, begins) if "exit roundabout" in kinds else {})


def is_needless(before: Row, row: Row) -> bool:
    """Whether a step needn't begin behind another one on a street of the same name: one that has no name for a while is
    still the same behind that."""
    return row.kind == "new name" and bool(row.stretch.name) and row.stretch.name == before.stretch.name


def rings_of(rows: Sequence[Row], begins: Sequence[int]) -> dict[int, Ring]:
    """By which exit each roundabout is left, and where the street behind it leads."""
    found: dict[int, Ring] = {}
    for begin, left in pairwise(begins):
        if rows[left].kind != "exit roundabout":
            continue
        number = 1 + sum(row.has_others for row in rows[begin + 1:left])
        ring, names = rows[begin].stretch.name, (rows[max(begin - 1, 0)].stretch.name, rows[left].stretch.name)
        is_into = begin > 0 and rows[begin].kind == "roundabout"
        kind, rotary = ("rotary", ring) if is_into and ring and ring not in names else ("roundabout", "")
        found[left] = Ring(f"exit {kind}", number, left)
        if is_into:
            found[begin] = Ring(kind, number, left, rotary)
    return found
