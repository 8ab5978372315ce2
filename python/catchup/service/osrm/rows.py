"""The rows of drives: of each stretch what is told of it, and of the passage into it, with texts that are ready.

Most of a request's time would go into these, road by road, and drives share most of their roads. So the row of a whole
road behind another one is kept, and so are the texts of steps over several of them.
"""

from __future__ import annotations

from collections.abc import Sequence
from dataclasses import dataclass
from itertools import pairwise
from typing import Final

from catchup.kept import Kept
from catchup.places.drives import Drive
from catchup.places.lines import Part
from catchup.service.osrm.lines import FORMS
from catchup.service.osrm.stretches import Stretch, Stretches
from catchup.service.osrm.turns import NOTHING, Turn, Turns, turning_round

MOST_KEPT: Final = 131_072              # rows that are kept, in each form of lines
MOST_STEPS: Final = 32_768              # steps over several rows, in each form of lines
ROAD_BITS: Final = 32                   # of any road's number
UNSURE: Final = 1e-5                    # of a tenth of a metre: by how much sums of metres may be off


@dataclass(slots=True, eq=False)
class Row:
    """A stretch of a drive behind another one. Nobody changes one: it isn't frozen since that would take much of the
    time of making it.

    rest, metres, called: those of the stretch, of which so many are looked at that one step less counts. kind, passed,
    has_others, sides, intersection: those of the passage into it. told: where something is told, the text of a step
    that begins here; `head` of its letters go up to the first of its intersections. is_ready: whether the text of a
    step along this stretch alone stands there up to its seconds, and not its head alone. more: the rows of the other
    stretches of its road that are driven behind it.
    """

    stretch: Stretch
    rest: str
    metres: float
    called: str
    kind: str
    told: str
    head: int
    is_ready: bool
    passed: str
    has_others: bool
    sides: str
    intersection: str
    more: tuple[Row, ...] = ()


class Rows:
    """The rows of a network's drives in one form of lines; where no turns are given nothing is told of passages.

    steps: of some rows, behind one another, that one step leads along: its text up to its seconds, or up to its metres
    where these may be rounded in two ways; and whether that is so.
    """

    def __init__(self, stretches: Stretches, turns: Turns | None, form: str) -> None:
        self._stretches, self._turns, self._form = stretches, turns, form
        self._whole: Kept[int, Row] = Kept(MOST_KEPT // 2, self._made_whole)
        self.form = FORMS[form]
        self.steps: Kept[tuple[Row, ...], tuple[str, bool]] = Kept(MOST_STEPS // 2, self._step)

    def of_drive(self, drive: Drive) -> tuple[list[Row], Sequence[float]]:
        """The rows of a drive, one at least, and the seconds at which each stretch is entered; the last one is left as
        the drive arrives."""
        roads, stop, several = drive.roads, drive.stop, self._stretches.several
        if not roads:
            return [self.row(None, self._stretches.still(drive, self._form))], [drive.depart]
        rows = [self._made(None, (roads[0], drive.begin, stop if len(roads) == 1 else 1.0)),
                *map(self._whole.__getitem__, [before << ROAD_BITS | road for before, road in pairwise(roads)])]
        if stop < 1.0 and len(roads) > 1:
            rows[-1] = self._up_to(rows[-1], last_of(rows[-2]).stretch, stop)
        return (rows, drive.seconds) if several.isdisjoint(roads) else spread(rows, drive)

    def row(self, before: Stretch | None, stretch: Stretch) -> Row:
        """The row of a stretch behind another one, or as the first one."""
        turn = self._turns.into(before, stretch) if self._turns is not None and before is not None else NOTHING
        return self.row_of(turn, stretch)

    def joined(self, before: Stretch, stretch: Stretch) -> Row:
        """The row of the first stretch of a drive behind another one, which ends where it begins."""
        if self._turns is None or (before.high == 1.0 and stretch.low == 0.0):
            return self.row(before, stretch)
        return self.row_of(turning_round(before, stretch), stretch)

    def row_of(self, turn: Turn, stretch: Stretch) -> Row:
        """The row of a stretch into which a passage leads."""
        metres, told = stretch.metres, turn.head
        is_ready = bool(told) and stretch.is_whole and not is_unsure(metres)
        if is_ready:
            told = f"{self._line_told(told, stretch.line)}{far_told(metres)}"
        return Row(stretch, stretch.rest, metres, stretch.name or stretch.ref, turn.kind, told, len(turn.head),
                   is_ready, turn.passed, turn.has_others, turn.sides, turn.intersection)

    def begun(self, head: str, rows: Sequence[Row]) -> str:
        """The text of a step along some rows up to its metres, from that up to the first of its intersections."""
        passed, rest = "".join([row.passed for row in rows[1:]]), "".join([row.rest for row in rows[1:]])
        return self._line_told(head + passed, rows[0].stretch.line + rest)

    def _line_told(self, before: str, line: str) -> str:
        """The text of a step up to its metres, from that up to the last of its intersections."""
        form = self.form
        return f'{before}],"geometry":{form.opens}{line}{form.closes},"distance":'

    def _step(self, rows: tuple[Row, ...]) -> tuple[str, bool]:
        text, metres = self.begun(rows[0].told[:rows[0].head], rows), sum([row.metres for row in rows])
        return (text, True) if is_unsure(metres) else (text + far_told(metres), False)

    def _made_whole(self, roads: int) -> Row:
        """The row of a whole road behind another one, from a number of both."""
        before, road = divmod(roads, 1 << ROAD_BITS)
        return self._made(self._stretches.of_road(before, self._form)[-1], (road, 0.0, 1.0))

    def _made(self, before: Stretch | None, part: Part) -> Row:
        """The row of a part of a road."""
        stretches = self._stretches.of_part(part, self._form)
        row = self.row(before, stretches[0])
        if len(stretches) > 1:
            row.more = tuple([self.row(one, other) for one, other in pairwise(stretches)])
        return row

    def _up_to(self, whole: Row, before: Stretch, stop: float) -> Row:
        """The row of a road that is driven up to a share of its metres, from that of the whole road."""
        if whole.more:
            return self._made(before, (whole.stretch.road, 0.0, stop))
        stretch = self._stretches.cut(whole.stretch, 0.0, stop, self._form)
        return Row(stretch, stretch.rest, stretch.metres, whole.called, whole.kind, whole.told[:whole.head], whole.head,
                   False, whole.passed, whole.has_others, whole.sides, whole.intersection)


def is_unsure(metres: float) -> bool:
    """Whether metres are halfway between two tenths: a step is as long as a difference of sums says, which may be
    rounded otherwise than these then."""
    return abs(10 * metres % 1 - 0.5) <= UNSURE


def far_told(metres: float) -> str:
    """The text of a step from its metres on up to its seconds."""
    return f'{metres:.1f},"duration":'


def last_of(row: Row) -> Row:
    """The last row of a road."""
    return row.more[-1] if row.more else row


def spread(rows: list[Row], drive: Drive) -> tuple[list[Row], Sequence[float]]:
    """The rows of a drive, some of whose roads have several, and when each stretch is entered."""
    seconds: list[float] = [*drive.seconds, drive.arrive]
    # From the end on, so that what comes before stays in its place.
    for at in reversed([at for at, row in enumerate(rows) if row.more]):
        its = [rows[at], *rows[at].more]
        seconds[at:at + 1] = entered([row.stretch for row in its], seconds[at], seconds[at + 1])
        rows[at:at + 1] = its
    return rows, seconds[:-1]


def entered(stretches: Sequence[Stretch], second: float, left: float) -> Sequence[float]:
    """When each stretch of a road is entered, where the first is at a second, and the last is left at another one:
    within a road time goes as metres do."""
    low, high = stretches[0].low, stretches[-1].high
    return [second + (left - second) * (each.low - low) / (high - low) for each in stretches]
