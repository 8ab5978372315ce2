"""What a driver is told where one road goes on as another: nothing, or one of OSRM's maneuvers and the side it leads
to.

A street that goes on by itself is not spoken of, whatever meets it; where its name changes that is told. What is told
at a junction depends on the two roads alone.
"""

from __future__ import annotations

import functools
from collections.abc import Iterable, Mapping, Sequence
from dataclasses import dataclass
from typing import Final

from catchup.places.places import Ground
from catchup.service.osrm.courses import course, turned
from catchup.service.osrm.junctions import Junctions
from catchup.service.osrm.stretches import Stretch

STRAIGHT: Final = 20                    # degrees to either side that are straight on
SLIGHT, SHARP = 40, 120                 # degrees up to which a turn is slight, and from which it is sharp
FORK: Final = 45                        # degrees to either side in which roads lie that fork
SPREAD: Final = 40                      # degrees by which others must lie further off for a road to go on by itself
CROSSWISE: Final = range(50, 131)       # degrees to either side of the roads at a road's end
FAST: Final = frozenset(["motorway", "trunk"])
RAMPS: Final = frozenset(["motorway_link", "trunk_link"])
RANKS: Final = {
    "motorway": 0, "trunk": 1, "primary": 2, "secondary": 3, "tertiary": 4, "unclassified": 5, "residential": 5,
    "road": 5, "living_street": 6, "service": 8, "track": 9}
LOWEST: Final = 7                       # the rank of any other class
MINOR: Final = 2                        # ranks below another road's from which a road isn't mistaken for its way on


@dataclass(slots=True, eq=False)
class Turn:
    """The passage from one stretch to the next. Texts that nobody asks for are empty, since many are kept. Nobody
    changes one: it isn't frozen since that would take much of the time of making it.

    kind: OSRM's type of a maneuver, "" where nothing is told. head: where something is told, the text of a step that
    begins here, up to the first of its intersections. passed: where a step may go on over it, the intersection with a
    comma before it. has_others: whether another road could be taken, besides turning round. sides, intersection: of a
    roundabout, the parts that its head is made of once the exit is known.
    """

    kind: str
    head: str = ""
    passed: str = ""
    has_others: bool = False
    sides: str = ""
    intersection: str = ""


NOTHING: Final = Turn("")
RINGS: Final = frozenset(["roundabout", "exit roundabout"])


class Turns:
    """The passages of a network."""

    def __init__(self, ground: Ground) -> None:
        self._junctions = Junctions(ground)

    def into(self, before: Stretch, after: Stretch) -> Turn:
        """The passage from one stretch to another one that is driven behind it."""
        if before.road == after.road and after.low > 0.0:
            return renaming(before, after) if is_renamed(before, after) else NOTHING
        return self._at_junction(before, after)

    def _at_junction(self, before: Stretch, after: Stretch) -> Turn:
        """Decides what is told at a junction."""
        of = self._junctions
        crossing, arrived, leaves = of.at_end(before.road), of.reaches[before.road], of.leaves[after.road]
        came_by, goes_by = of.reaches_by[before.road], of.leaves_by[after.road]
        others = [(direction, kind) for arm, direction, kind in crossing.roads if arm != came_by and arm != goes_by]
        angle = turned(arrived, leaves)
        kind, modifier = "turn", "uturn" if came_by == goes_by else modifier_of(angle)
        if after.is_ring:
            kind = "" if before.is_ring else "roundabout"
        elif before.is_ring:
            kind = "exit roundabout"
        elif came_by == goes_by:
            kind = "continue" if is_same(before, after) and after.name else "turn"
        else:
            rank, ranks = rank_of(after.kind), [(direction, rank_of(kind)) for direction, kind in others]
            rivals = {turned(arrived, direction): rank - other < MINOR
                      for direction, other in ranks if other - rank < MINOR}
            kind, modifier = kind_on_streets(before, after, angle, rivals)
            if kind == "turn" and ends_at(crossing.arms, came_by, arrived):
                kind = "end of road"
        intersection = f'{{"in":{came_by},"out":{goes_by},{crossing.text}}}'
        return made(kind, intersection, sides_told(modifier, after.at, arrived, leaves), after, bool(others))


def ends_at(arms: Sequence[int], came_by: int, arrived: int) -> bool:
    """Whether a road that comes to a junction by one of its arms ends at one that leads across."""
    sides = [turned(arrived, direction) for arm, direction in enumerate(arms) if arm != came_by]
    return len(sides) == 2 and min(sides) < 0 < max(sides) and all(abs(side) in CROSSWISE for side in sides)


def turning_round(before: Stretch, after: Stretch) -> Turn:
    """The passage at a place in the middle of a road at which one turns round, or drives on."""
    if before.road == after.road:
        return renaming(before, after) if is_renamed(before, after) else NOTHING
    ahead = course(after.places)
    passage = f'{{"in":0,"out":0,"entry":[true],"bearings":[{ahead}],"location":{after.at}}}'
    return made("continue", passage, sides_told("uturn", after.at, (ahead + 180) % 360, ahead), after)


def is_renamed(before: Stretch, after: Stretch) -> bool:
    """Whether it is told that a street has another name from here on: not of a name that only ends."""
    return not after.is_ring and not is_same(before, after) and bool(after.name or after.ref)


def renaming(before: Stretch, after: Stretch) -> Turn:
    """The passage in the middle of a road, where its name changes."""
    ahead = course(after.places)
    arrived = course(before.places, at_end=True)
    back = (arrived + 180) % 360
    came, goes, entry = (0, 1, "false,true") if back < ahead else (1, 0, "true,false")
    bearings = f"{min(back, ahead)},{max(back, ahead)}"
    intersection = f'{{"in":{came},"out":{goes},"entry":[{entry}],"bearings":[{bearings}],"location":{after.at}}}'
    return made("new name", intersection, sides_told("straight", after.at, arrived, ahead), after)


def made(kind: str, intersection: str, sides: str, after: Stretch, has_others: bool = False) -> Turn:
    """A passage into a stretch."""
    passed = f",{intersection}" if kind in ("", "new name") else ""
    head = head_of(after.street, f'"type":"{kind}",{sides}', intersection) if kind else ""
    return Turn(kind, head, passed, has_others, *((sides, intersection) if kind in RINGS else ("", "")))


def head_of(street: str, maneuver: str, intersection: str) -> str:
    """The text of a step up to the first of its intersections."""
    return f'{{{street},"maneuver":{{{maneuver}}},"intersections":[{intersection}'


def sides_told(modifier: str, at: str, before: int, after: int) -> str:
    """The members of a maneuver that tell where it is and where it leads; none of the side where no modifier is
    said."""
    side = f'"modifier":"{modifier}",' if modifier else ""
    return f'{side}"location":{at},"bearing_before":{before},"bearing_after":{after}'


def kind_on_streets(before: Stretch, after: Stretch, angle: int, rivals: Mapping[int, bool]) -> tuple[str, str]:
    """What is told on streets, ramps and ferries, and to which side. rivals: the turns, in degrees, to other roads that
    could be taken for the way on, and whether they are hardly greater than the road that is taken."""
    modifier = modifier_of(angle)
    if after.kind in RAMPS and before.kind not in RAMPS:
        return "off ramp" if before.kind in FAST else "on ramp", parting(angle, rivals)
    if before.kind in RAMPS and after.kind in FAST:
        return "merge", modifier
    same = is_same(before, after)
    if goes_on(before, after, angle, rivals):
        boards = (before.kind == "ferry") != (after.kind == "ferry")
        return "new name" if boards or not same and (after.name or after.ref) else "", modifier
    beside = [side for side in rivals if abs(side) <= FORK]
    if abs(angle) <= FORK and len(beside) == 1 and not (same and after.name):
        return "fork" if rivals[beside[0]] else "turn", parted(angle, beside[0])
    return "continue" if same and after.name else "turn", modifier


def goes_on(before: Stretch, after: Stretch, angle: int, rivals: Iterable[int]) -> bool:
    """Whether a driver who is told nothing would take this road."""
    nearest = min((abs(side) for side in rivals), default=180 + SPREAD)
    if is_same(before, after) and after.name and abs(angle) <= STRAIGHT:
        return True
    return nearest - abs(angle) >= SPREAD or (abs(angle) <= STRAIGHT and nearest > FORK)


def parting(angle: int, rivals: Iterable[int]) -> str:
    """The side on which a ramp leaves, also where it goes nearly straight on beside the road."""
    nearest = min(rivals, key=abs, default=None)
    return modifier_of(angle) if nearest is None or abs(angle) > STRAIGHT else parted(angle, nearest)


def parted(angle: int, other: int) -> str:
    """The side of a road beside another one, both nearly straight on."""
    return "slight right" if angle > other else "slight left"


def is_same(before: Stretch, after: Stretch) -> bool:
    """Whether two stretches are of one street: by its name, or where neither has one by its number."""
    return before.name == after.name and (bool(after.name) or before.ref == after.ref)


@functools.cache
def rank_of(kind: str) -> int:
    """How great a road is by its class, 0 being the greatest."""
    return RANKS.get(kind.removesuffix("_link"), LOWEST)


def modifier_of(angle: int) -> str:
    """OSRM's word for a turn of some degrees."""
    size = abs(angle)
    if size <= STRAIGHT:
        return "straight"
    if size == 180:
        return "uturn"
    side = "right" if angle > 0 else "left"
    return f"slight {side}" if size <= SLIGHT else side if size <= SHARP else f"sharp {side}"
