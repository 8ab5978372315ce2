"""The words of an address, each read strictly: numbers are ASCII digits, and each name stands once."""

from __future__ import annotations

import re
import urllib.parse
from collections.abc import Callable, Mapping, Sequence
from dataclasses import dataclass
from typing import Any, Final

from catchup.service.errors import Refusal, told_briefly
from catchup.service.limits import MOST_ENTRIES, MOST_PLACES

DAY: Final = 86_400
TOO_LARGE: Final = 10**15               # stands for each number that is too long to matter: the program refuses it
MOST_BANDS: Final = 12
NUMBER: Final = re.compile(r"[0-9]+")
TIME: Final = re.compile(r"([01]?[0-9]|2[0-3]):([0-5][0-9])(?::([0-5][0-9]))?")
# Short ones with one sign between, as most lists are.
NUMBERS: Final = re.compile(r"[0-9]{1,15}(?:(?:,[0-9]{1,15})*|(?:;[0-9]{1,15})*)")
NODES: Final = re.compile(r"[0-9]+(?:,[0-9]+)*")
OSM: Final = re.compile(r"osm:(-?[0-9]{1,18})")
PLACE: Final = re.compile(r"(-?[0-9]{1,3}(?:\.[0-9]{1,17})?),(-?[0-9]{1,3}(?:\.[0-9]{1,17})?)")
PROFILE: Final = re.compile(r"[A-Za-z0-9_.-]{1,64}")
# An address of a route as most are: its words in this order, and nothing to be read with care.
PLAIN_ROUTE: Final = re.compile(
    rb"from=([0-9]{1,9})&to=([0-9]{1,9})&depart="
    rb"(?:([0-9]{1,9})|([01]?[0-9]|2[0-3])(?::|%3A)([0-5][0-9])(?:(?::|%3A)([0-5][0-9]))?)")


def number_of(word: str) -> int:
    """A number of ASCII digits; ValueError where it is none."""
    if not NUMBER.fullmatch(word):
        raise ValueError(word)
    short = word.lstrip("0")
    return int(short or 0) if len(short) <= 15 else TOO_LARGE


def second_of(word: str) -> int:
    """A second, from a number or from a time of day as 08:00 or 08:00:00."""
    at = TIME.fullmatch(word)
    if at is None:
        return number_of(word)
    hours, minutes, seconds = at.groups(default="0")
    return int(hours) * 3600 + int(minutes) * 60 + int(seconds)


@dataclass(frozen=True, slots=True)
class Stop:
    """A place as it is asked for: a node, a node by its number in OpenStreetMap, or a longitude and a latitude in
    degrees."""

    node: int | None = None
    osm: int | None = None
    place: tuple[float, float] | None = None

    def told(self) -> object:
        """What an answer says of it."""
        if self.place is not None:
            return list(self.place)
        return self.node if self.osm is None else f"osm:{self.osm}"


def stop_of(word: str) -> Stop:
    """A place, from `17`, `node:17`, `osm:1234` or `9.52,47.14`."""
    if (place := PLACE.fullmatch(word)) is not None:
        return Stop(place=(float(place[1]), float(place[2])))
    if (osm := OSM.fullmatch(word)) is not None:
        return Stop(osm=int(osm[1]))
    return Stop(node=number_of(word.removeprefix("node:")))


def stops_of(word: str) -> list[Stop]:
    """Places with semicolons between. Without a semicolon numbers with commas between are nodes."""
    if NUMBERS.fullmatch(word):
        return [Stop(node) for node in map(int, word.replace(";", ",").split(","))]
    if ";" not in word and not NODES.fullmatch(word) and PLACE.fullmatch(word):
        return [stop_of(word)]
    parts = word.split(";" if ";" in word else ",", MOST_ENTRIES + 1)
    return [stop_of(part) for part in parts]


def via_of(word: str) -> list[Stop]:
    """The places between a route's ends."""
    stops = stops_of(word)
    if len(stops) > MOST_PLACES:
        raise Refusal(400, f"via has at most {MOST_PLACES} places")
    return stops


def geometry_of(word: str) -> str:
    """In which form lines are answered."""
    if word not in ("geojson", "polyline6", "none", "gpx"):
        raise ValueError(word)
    return word


def format_of(word: str) -> str:
    """The format of an answer."""
    if word not in ("json", "geojson", "gpx"):
        raise ValueError(word)
    return word


def within_of(word: str) -> int:
    """A time that a reach takes, in seconds: a day at most."""
    seconds = second_of(word)
    if not 1 <= seconds <= DAY:
        raise ValueError(word)
    return seconds


def bands_of(word: str) -> int:
    """In how many parts a reach's time is shown."""
    count = number_of(word)
    if count > MOST_BANDS:
        raise ValueError(word)
    return count


def profile_of(word: str) -> str:
    """The name of a served file."""
    if not PROFILE.fullmatch(word):
        raise ValueError(word)
    return word


Kind = Callable[[str], Any]
FORMS: Final[Mapping[Kind, str]] = {
    number_of: "a number",
    second_of: "a second, or a time as 08:00 or 08:00:00",
    stop_of: "a number",
    stops_of: "numbers with commas between",
    via_of: "numbers with semicolons between",
    geometry_of: "geojson, polyline6, none or gpx",
    format_of: "json, geojson or gpx",
    within_of: "seconds, from 1 to 86400",
    bands_of: f"a number up to {MOST_BANDS}",
    profile_of: "the name of a profile",
}
HINTS: Final[Mapping[Kind, str]] = dict.fromkeys(
    (stop_of, stops_of, via_of),
    "a place is 17, node:17, and with a map osm:1234 or lon,lat in degrees; with semicolons between")


def words_of(query: bytes) -> dict[str, str]:
    """The names of an address with their values, as text."""
    if not query:
        return {}
    try:
        pairs = urllib.parse.parse_qsl(
            query.decode("ascii"), keep_blank_values=True, strict_parsing=True, errors="strict")
    except UnicodeDecodeError:
        raise Refusal(400, "the address has bytes that are no text") from None
    except ValueError:
        raise Refusal(400, "each word of an address has a name of its own and a value") from None
    words = dict(pairs)
    if len(words) != len(pairs):
        raise Refusal(400, "each word of an address has a name of its own and a value")
    return words


def take(query: bytes, needed: Mapping[str, Kind], optional: Mapping[str, Kind] | None = None) -> dict[str, Any]:
    """The values of an address's words, each read by its kind; optional ones are there where they were said."""
    words = words_of(query)
    kinds = {**needed, **(optional or {}), "profile": profile_of}
    if unknown := [name for name in words if name not in kinds]:
        raise Refusal(400, f"{told_briefly(unknown[0])} isn't known here", hint=f"known are {', '.join(kinds)}")
    if missing := [name for name in needed if name not in words]:
        raise Refusal(400, f"{missing[0]} is missing")
    return {name: read(name, words[name], kind) for name, kind in kinds.items() if name in words}


def read(name: str, word: str, kind: Kind) -> Any:
    """One word's value."""
    try:
        return kind(word)
    except ValueError:
        raise Refusal(400, f"{name} must be {FORMS.get(kind, 'as the documents say')}", hint=HINTS.get(kind)) from None


def exclusive(values: Mapping[str, object], names: Sequence[str]) -> str:
    """That of some names which is there, where it is just one."""
    there = [name for name in names if name in values]
    if not there:
        raise Refusal(400, f"{names[0]} is missing")
    if len(there) > 1:
        raise Refusal(400, f"of {' and '.join(names)} one is enough")
    return there[0]
