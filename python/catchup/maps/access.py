"""Who may go on a way or past a barrier, by its tags: open to all, for destinations alone, or barred."""
from __future__ import annotations

from dataclasses import dataclass
from typing import Callable, Literal, Mapping

from catchup.maps.hours import over_day
from catchup.maps.vehicles import Vehicle

Said = Literal["open", "ends", "barred"]
Tags = Mapping[str, str]


@dataclass(frozen=True)
class Access:
    """What the tags of access say over a day: from each second on, open, ends, barred, or None where they say
    nothing."""
    steps: tuple[tuple[int, Said | None], ...]
    key: str | None
    """The tag that decides where no condition holds."""
    unknown: bool
    """Whether there are conditions that aren't understood."""

    @property
    def said(self) -> set[Said | None]:
        """All that is said in the day."""
        return {said for _, said in self.steps}


def words_of(value: str) -> set[str]:
    """The words of a value, which may be a list."""
    return {word.strip() for word in value.lower().split(";")}


def meaning(value: str, vehicle: Vehicle) -> Said:
    """What a value says: the most open of its words decides."""
    words = words_of(value)
    if words & vehicle.open_words:
        return "open"
    return "ends" if words & vehicle.ends_words else "barred"


def _over_day(tags: Tags, vehicle: Vehicle, weekday: int, say: Callable[[Tags], Said | None]) -> Access:
    """What is said over a day of the week; `say` is given the tags of access as they hold at a second."""
    day, all_used = over_day(tags, vehicle.keys, weekday)
    steps: list[tuple[int, Said | None]] = []
    for second, then in day:
        said = say({key: then[key] for key in vehicle.keys if key in then})
        if not steps or steps[-1][1] != said:
            steps.append((second, said))
    return Access(tuple(steps), next((key for key in vehicle.keys if key in tags), None), not all_used)


def read_access(tags: Tags, vehicle: Vehicle, weekday: int, otherwise: Said | None = None) -> Access:
    """What the tags say of a vehicle on a day of the week (0 is Monday). The most special one that is there decides;
    where there is none, `otherwise` holds."""
    def say(held: Tags) -> Said | None:
        return meaning(next(iter(held.values())), vehicle) if held else otherwise

    return _over_day(tags, vehicle, weekday, say)


def read_opening(tags: Tags, vehicle: Vehicle, weekday: int, by_access: bool) -> Access:
    """What they say of a class that isn't for the vehicle: it is barred but where one of the vehicle's own tags lets it
    in, and with `by_access` where `access` does."""
    def say(held: Tags) -> Said | None:
        decides = next(iter(held), "")
        lets = any(meaning(held[key], vehicle) != "barred" for key in vehicle.own if key in held)
        lets |= by_access and decides == "access" and "private" not in words_of(held["access"])
        return meaning(held[decides], vehicle) if lets else "barred"

    return _over_day(tags, vehicle, weekday, say)
