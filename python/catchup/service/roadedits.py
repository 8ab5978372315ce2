"""Edits in JSON that name roads: checked as they come, and made edit lines by the file that they are of.

Roads share profiles. A road that gets times of its own takes a spare profile, one that no road has; the lowest closed
profile is kept for roads that are closed.
"""

from __future__ import annotations

import json
from array import array
from collections import Counter
from collections.abc import Callable
from dataclasses import dataclass
from typing import Any, Final

from catchup.service import packed
from catchup.service.errors import Refusal

KINDS: Final = ("travel", "until", "closed")
CLOSED: Final = 2
MOST_NAMED: Final = 100_000             # roads that the edits of one body may be of
FORM: Final = ('a body is {"edits": [..]}, each with "road" and "closed", "pieces" or "profile", '
               'or with "profile" and "pieces"')
# Roads of an outside name, or of a number as text.
Roads = Callable[[str], list[int]]


@dataclass(frozen=True, slots=True)
class Edit:
    """One edit: of roads or of a profile; what it sets is pieces (as the words of an edit line), a profile, or
    closed."""

    roads: tuple[int, ...] | None
    profile: int | None
    pieces: str | None
    is_closed: bool

    def entry(self) -> list[object]:
        """What is told to other machines, which may know other names: its fields."""
        return [self.roads, self.profile, self.pieces, self.is_closed]


def entry_of(edits: list[Edit]) -> bytes:
    """Edits as an entry of a stream tells them."""
    return json.dumps([edit.entry() for edit in edits], separators=(",", ":")).encode()


def edits_of_entry(entry: bytes) -> list[Edit]:
    """The edits of an entry; none where it isn't one."""
    try:
        return [Edit(None if roads is None else tuple(map(int, roads)), None if profile is None else int(profile),
                     None if pieces is None else str(pieces), bool(is_closed))
                for roads, profile, pieces, is_closed in json.loads(entry)]
    except (ValueError, TypeError):
        return []


def edits_of(body: bytes, roads: Roads) -> list[Edit]:
    """The edits of a body; a Refusal says what isn't as it must be."""
    try:
        # A byte-order mark before it is let go, as most readers of JSON do.
        found = json.loads(body.decode("utf-8-sig"), parse_constant=not_json, object_pairs_hook=once)
    except (ValueError, RecursionError):
        raise Refusal(400, "the body is no JSON", hint=FORM) from None
    if not isinstance(found, dict) or set(found) != {"edits"} or not isinstance(found["edits"], list):
        raise Refusal(400, FORM)
    if not found["edits"]:
        raise Refusal(400, "there is no edit in the body", hint=FORM)
    edits = [edit_of(each, number, roads) for number, each in enumerate(found["edits"], 1)]
    if sum(len(edit.roads or ()) for edit in edits) > MOST_NAMED:
        raise Refusal(400, f"the roads of a body are at most {MOST_NAMED}, those of names counted one by one")
    return edits


def not_json(word: str) -> object:
    raise ValueError(word)


def once(pairs: list[tuple[str, Any]]) -> dict[str, Any]:
    found = dict(pairs)
    if len(found) != len(pairs):
        raise ValueError("a name twice")
    return found


def edit_of(found: object, number: int, roads: Roads) -> Edit:
    """One edit of a body, the one of this number."""
    where = f"edit {number}"
    if not isinstance(found, dict):
        raise Refusal(400, f"{where} is no object", hint=FORM)
    names = set(found)
    if names == {"road", "closed"} and found["closed"] is True:
        return Edit(roads_of(found["road"], where, roads), None, None, True)
    if names == {"road", "pieces"}:
        return Edit(roads_of(found["road"], where, roads), None, pieces_of(found["pieces"], where), False)
    if names == {"road", "profile"}:
        return Edit(roads_of(found["road"], where, roads), whole(found["profile"], f"{where}: profile"), None, False)
    if names == {"profile", "pieces"}:
        return Edit(None, whole(found["profile"], f"{where}: profile"), pieces_of(found["pieces"], where), False)
    raise Refusal(400, f"{where} isn't one", hint=FORM)


def roads_of(found: object, where: str, roads: Roads) -> tuple[int, ...]:
    if isinstance(found, str):
        named = roads(found)
        if not named:
            raise Refusal(400, f"{where}: no road has this name",
                          hint="a road is its number, or a name of the served tables")
        return tuple(named)
    return (whole(found, f"{where}: road"),)


def whole(found: object, where: str) -> int:
    if isinstance(found, bool) or not isinstance(found, int) or found < 0:
        raise Refusal(400, f"{where} must be a whole number from 0 on")
    return found


def pieces_of(found: object, where: str) -> str:
    """Pieces as the words of an edit line."""
    if not isinstance(found, list) or not found:
        raise Refusal(400, f"{where}: pieces must be a list with at least one piece")
    words = []
    for piece in found:
        if not isinstance(piece, dict) or set(piece) != {"from", "kind", "value"} or piece["kind"] not in KINDS:
            raise Refusal(400, f"{where}: a piece has from, kind and value, its kind is travel, until or closed")
        words += [str(whole(piece["from"], f"{where}: from")), piece["kind"],
                  str(whole(piece["value"], f"{where}: value"))]
    return ",".join(words)


class Profiles:
    """The profiles of an open packed file: how many roads have each, and which are closed. Numbers are read without
    numpy, which takes its time and memory to load; where it found too little, no later edit of this process could use
    it."""

    def __init__(self, descriptor: int) -> None:
        header = packed.read_header(descriptor)
        self.of_road = packed.read_roads(descriptor, header)[2::3]
        starts, pieces = (array(kind, packed.read_exactly(descriptor, size, at)) for kind, size, at in (
            ("Q", 8 * (header.profiles + 1), header.starts_at), ("I", 12 * header.pieces, header.pieces_at)))
        self.count = Counter(self.of_road)
        self.is_closed = [pieces[3 * first + 1] == CLOSED for first in starts[:-1]]
        self.profiles = header.profiles

    def lowest_closed(self) -> int | None:
        """The profile that closed roads get."""
        return self.is_closed.index(True) if True in self.is_closed else None

    def spare(self) -> int:
        """The lowest profile that no road has and that isn't kept for closed roads."""
        closed = self.lowest_closed()
        for profile in range(self.profiles):
            if not self.count[profile] and profile != closed:
                return profile
        raise Refusal(409, "no spare profile",
                      hint="build the file from tables with more profiles that no road has")

    def own(self, roads: tuple[int, ...]) -> list[int]:
        """The profiles that none but these roads have, rising, without the one that is kept for closed roads."""
        found, closed = Counter(self.of_road[road] for road in set(roads)), self.lowest_closed()
        return sorted(profile for profile, count in found.items()
                      if count == self.count[profile] and profile != closed)

    def set_pieces(self, profile: int, pieces: str) -> str:
        """The line that gives a profile pieces. One that isn't there is refused by the program."""
        if profile < self.profiles:
            self.is_closed[profile] = ",closed," in f",{pieces},"
        return f"s,{profile},{pieces}"

    def set_profile(self, road: int, profile: int) -> str:
        """The line that gives a road a profile."""
        if road < len(self.of_road) and profile < self.profiles:
            self.count[self.of_road[road]] -= 1
            self.count[profile] += 1
            self.of_road[road] = profile
        return f"a,{road},{profile}"


def lines_of(edits: list[Edit], profiles: Profiles) -> tuple[list[str], list[int]]:
    """The edit lines of edits, and for each line which edit, counted from 1, it is of."""
    lines: list[str] = []
    of: list[int] = []
    for number, edit in enumerate(edits, 1):
        made = lines_of_edit(edit, profiles)
        lines += made
        of += [number] * len(made)
    return lines, of


def lines_of_edit(edit: Edit, profiles: Profiles) -> list[str]:
    if edit.roads is None:
        assert edit.profile is not None and edit.pieces is not None
        return [profiles.set_pieces(edit.profile, edit.pieces)]
    if edit.profile is not None:
        return [profiles.set_profile(road, edit.profile) for road in edit.roads]
    if not edit.is_closed:
        return own_pieces(edit.roads, edit.pieces or "", profiles)
    closed = profiles.lowest_closed()
    if closed is None:
        return own_pieces(edit.roads, "0,closed,0", profiles)
    return [profiles.set_profile(road, closed) for road in edit.roads]


def own_pieces(roads: tuple[int, ...], pieces: str, profiles: Profiles) -> list[str]:
    """The lines that give roads pieces: those profiles that only these roads have are used again, and the other
    roads get one spare profile together."""
    unknown = [road for road in roads if road >= len(profiles.of_road)]
    if unknown:
        # The program says what is wrong with it.
        return [profiles.set_profile(unknown[0], 0)]
    own = profiles.own(roads)
    lines = [profiles.set_pieces(profile, pieces) for profile in own]
    others = [road for road in roads if profiles.of_road[road] not in own]
    if others:
        profile = profiles.spare()
        lines.append(profiles.set_pieces(profile, pieces))
        lines += [profiles.set_profile(road, profile) for road in others]
    return lines
