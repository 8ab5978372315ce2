"""The places of a served network: what answers addresses with coordinates, of one version and by its children."""

from __future__ import annotations

import os
from collections.abc import Awaitable, Callable, Sequence
from dataclasses import dataclass
from pathlib import Path
from typing import TYPE_CHECKING

import numpy as np

from catchup.errors import Failure
from catchup.places import Ask, Places
from catchup.places.places import MAP_FILE
from catchup.places.travel import Travel
from catchup.service import packed
from catchup.service.answers import checked
from catchup.tables import Profiles

if TYPE_CHECKING:
    from catchup.service.versions import Version


@dataclass(frozen=True, slots=True)
class Placed:
    """The places of one version. `quick` asks the child for routes, `slow` the one for all that takes longer, and its
    helpers where lines are many; both raise the Refusal that a client gets where the program has no answer. Hold the
    version while several lines are asked."""

    version: Version
    places: Places
    quick: Ask
    slow: Ask


def placed(version: Version) -> Placed:
    """The places of a version that has started, and whose network has some."""
    assert version.placed is not None
    return version.placed


def placed_of(version: Version) -> Placed:
    """The places of a version whose children have started, with the times of its file."""
    assert version.ground is not None
    travel = travel_of(version.descriptor)
    travel.prepare()
    places = version.ground.over(travel, "v" if version.has_seconds else "q")
    # Which child is asked anew each time, since one that ends is started again.
    return Placed(version, places, ask_of(lambda lines: version.quick.ask_all(lines)),
                  ask_of(lambda lines: version.helpers.ask_all(version.slow, lines)))


def ask_of(ask_all: Callable[[Sequence[bytes]], Awaitable[Sequence[bytes]]]) -> Ask:
    """Asks the program, in text."""

    async def ask(lines: Sequence[str]) -> Sequence[str]:
        replies = await ask_all("\n".join(lines).encode("ascii").split(b"\n"))
        return [checked(reply).decode("ascii") for reply in replies]

    return ask


def travel_of(descriptor: int) -> Travel:
    """The travel functions of an open packed file's roads."""
    return Travel(roads_of(descriptor)[:, 2].astype(np.int32), profiles_of(descriptor))


def profiles_of(descriptor: int) -> Profiles:
    """The profiles of an open packed file."""
    header = packed.read_header(descriptor)
    first = np.frombuffer(packed.read_exactly(descriptor, 8 * (header.profiles + 1), header.starts_at), "<u8")
    pieces = np.frombuffer(packed.read_exactly(descriptor, 12 * header.pieces, header.pieces_at), "<u4").reshape(-1, 3)
    start, kind, value = (pieces[:, column] for column in range(3))
    return Profiles(first.astype(np.int64), start.astype(np.int32), kind.astype(np.int8), value.astype(np.int64))


def roads_of(descriptor: int) -> np.ndarray[tuple[int, int], np.dtype[np.uint32]]:
    """Tail, head and profile of an open packed file's roads, uint32[m, 3]."""
    header = packed.read_header(descriptor)
    data = packed.read_exactly(descriptor, 12 * header.roads, header.roads_at)
    return np.frombuffer(data, "<u4").reshape(-1, 3)


def read_places(folder: Path) -> Places:
    """The places of the folder of an import."""
    return Places.open(folder)


def checked_places(places: Places, path: Path, folder: Path) -> Places:
    """The places of a folder, which have to be those of a packed file."""
    try:
        descriptor = os.open(path, os.O_RDONLY)
        try:
            nodes, roads = packed.read_header(descriptor).nodes, roads_of(descriptor)
        finally:
            os.close(descriptor)
    except OSError as problem:
        raise Failure(f"{path} can't be read: {problem.strerror}") from None
    except packed.NotPacked:
        raise Failure(f"{path} is no packed file") from None
    ends = places.ground.ends
    if nodes != len(ends.copy) or not np.array_equal(roads[:, :2], np.column_stack((ends.tail, ends.head))):
        raise Failure(
            f"{folder / MAP_FILE} isn't the map of {path}: both come of one import, by catchup-import --build")
    return places
