"""OSRM's addresses, version 1, read strictly: `/{service}/v1/{profile}/{coordinates}[.json][?name=value&..]`.

What OSRM refuses is refused with OSRM's code: an address that is none (InvalidUrl), another service or version,
coordinates or names of options that can't be read (InvalidQuery), values that aren't allowed (InvalidOptions,
InvalidValue), too many (TooBig). Beside OSRM's options there are `depart=` and `arrive=`.
"""

from __future__ import annotations

import functools
import math
import re
import urllib.parse
from collections.abc import Callable, Mapping
from dataclasses import dataclass
from typing import Any, Final

from catchup.clock import parse_clock, parse_second
from catchup.service.errors import told_briefly
from catchup.service.osrm.faults import Fault

Place = tuple[float, float]
Bearing = tuple[int, int]

SERVICES: Final = ("nearest", "route", "table")
UNANSWERED: Final = ("match", "tile", "trip")
MOST_PLACES: Final = 500                # of a route
MOST_ENTRIES: Final = 1_048_576         # of a table
MOST_NEAREST: Final = 100
MOST_FACTOR: Final = 1_000_000          # of durations, and of metres a second; the least is its inverse
KINDS: Final = ("duration", "nodes", "distance", "weight", "datasources", "speed")
_NUMBER: Final = r"[+-]?(?:[0-9]{1,40}(?:\.[0-9]{0,40})?|\.[0-9]{1,40})(?:[eE][+-]?[0-9]{1,3})?"
_PLACE: Final = re.compile(rf"({_NUMBER}),({_NUMBER})", re.ASCII)
_FLOAT: Final = re.compile(_NUMBER, re.ASCII)
_COUNT: Final = re.compile(r"[0-9]{1,9}", re.ASCII)
_LINE: Final = re.compile(r"polyline(6?)\(([?-~]+)\)", re.ASCII)
_SERVICE: Final = re.compile(r"[A-Za-z0-9]{1,64}", re.ASCII)
_PROFILE: Final = re.compile(r"[A-Za-z0-9_.~-]{1,64}", re.ASCII)
_VERSION: Final = re.compile(r"v[0-9]{1,9}", re.ASCII)
_CLASS: Final = re.compile(r"[A-Za-z0-9]+(?:,[A-Za-z0-9]+)*", re.ASCII)
SHORT: Final = 256                      # letters of options whose values are kept
_FORM: Final = "/{service}/v1/{profile}/{longitude},{latitude};..?{option}={value}&.."


@dataclass(slots=True, kw_only=True)
class Asked:
    """What each service is asked. Lists have an entry for each place; None in it, or in place of it, is OSRM's default.

    radiuses: metres, inf where there is no limit. bearings: a direction and how much another may differ, in degrees.
    approaches: whether the place must lie on the side of the street that is driven. depart: a second of the day; where
    it isn't there, now is meant.
    """

    profile: str
    places: list[Place]
    bearings: list[Bearing | None] | None = None
    radiuses: list[float | None] | None = None
    hints: list[str | None] | None = None
    approaches: list[bool] | None = None
    generate_hints: bool = True
    skip_waypoints: bool = False
    depart: int | None = None


@dataclass(slots=True, kw_only=True)
class AskedNearest(Asked):
    """The nearest streets of one place."""

    number: int = 1


@dataclass(slots=True, kw_only=True)
class AskedRoute(Asked):
    """A route over places. waypoints: those that end a leg, as indices of places. arrive: in place of depart, a second
    that is counted from the midnight before leaving."""

    steps: bool = False
    annotations: frozenset[str] = frozenset()
    geometries: str = "polyline"
    overview: str = "simplified"
    waypoints: list[int] | None = None
    arrive: int | None = None


@dataclass(slots=True, kw_only=True)
class AskedTable(Asked):
    """A table between places, by their indices. fallback_speed: metres a second as the crow flies where no way
    leads."""

    annotations: frozenset[str] = frozenset(["duration"])
    sources: list[int] | None = None
    destinations: list[int] | None = None
    fallback_speed: float | None = None
    fallback_coordinate: str = "input"
    scale_factor: float = 1.0


def parse(path: bytes, query: bytes) -> AskedNearest | AskedRoute | AskedTable:
    """What the path and the query of an address ask, both as they came. Raises Fault."""
    words = path.decode("latin-1").split("/", 4)
    service = checked_head(words)
    if len(words) < 5 or not words[4]:
        raise Fault("InvalidUrl", f"the address has no coordinates: write {_FORM}")
    profile = decoded(words[3])
    if not _PROFILE.fullmatch(profile):
        raise Fault("InvalidUrl", f"{told_briefly(profile)!r} is no name of a profile: write {_FORM}")
    rest = decoded(words[4] + (f"?{query.decode('latin-1')}" if query else ""))
    coordinates, options = parted(rest)
    places = places_of(coordinates, MOST_PLACES if service == "route" else MOST_ENTRIES)
    if len(options) <= SHORT:
        values = kept_values(options, service, len(places))
    else:
        values = values_of(options, service, len(places))
    found: AskedNearest | AskedRoute | AskedTable = _CHECKS[service](profile, places, values)
    return found


def checked_head(words: list[str]) -> str:
    """The service of an address's first words; a Fault where it or the version isn't one."""
    if len(words) < 3 or not _SERVICE.fullmatch(words[1]) or not _VERSION.fullmatch(words[2]):
        raise Fault("InvalidUrl", f"this is no address of OSRM's: write {_FORM}")
    service = words[1]
    if service in UNANSWERED:
        raise Fault("InvalidService", f"{service} isn't answered here: {', '.join(SERVICES)} are")
    if service not in SERVICES:
        raise Fault("InvalidService", f"there is no service {told_briefly(service)}: {', '.join(SERVICES)} are there")
    if words[2] != "v1":
        raise Fault("InvalidVersion", f"{service} is answered in version v1: write /{service}/v1/{{profile}}/..")
    return service


def decoded(text: str) -> str:
    """A part of an address, without percent signs."""
    if "%" not in text:
        return text
    try:
        return urllib.parse.unquote(text, errors="strict")
    except UnicodeDecodeError:
        raise Fault("InvalidUrl", "the address has bytes that are no text: write places and options in ASCII") from None


def parted(text: str) -> tuple[str, str]:
    """The coordinates and the options of an address's end. A polyline may have a question mark in it."""
    end = text.find(")") + 1 if text.startswith("polyline") else 0
    coordinates, _, options = text[end:].partition("?")
    name, dot, kind = coordinates.rpartition(".")
    if kind == "flatbuffers" and dot:
        raise Fault("NotImplemented", "answers are in JSON alone: leave out .flatbuffers")
    return text[:end] + (name if dot and kind == "json" else coordinates), options


def places_of(text: str, most: int) -> list[Place]:
    """The places of `lon,lat;lon,lat`, `polyline(..)` or `polyline6(..)`, in degrees."""
    if text.startswith("polyline"):
        places = line_of(text)
    else:
        if text.count(";") >= most:
            raise Fault("TooBig", f"{text.count(';') + 1} places are more than {most}: ask for them in parts")
        found = [_PLACE.fullmatch(part) for part in text.split(";")]
        if None in found:
            at = found.index(None)
            part = told_briefly(text.split(";")[at])
            raise Fault("InvalidQuery", f"place {at} is {part!r}: write {{longitude}},{{latitude}} in degrees, with "
                        "semicolons between places")
        places = [(float(place[1]), float(place[2])) for place in found if place is not None]
    if len(places) > most:
        raise Fault("TooBig", f"{len(places)} places are more than {most}: ask for them in parts")
    for at, (lon, lat) in enumerate(places):
        if not (-180 <= lon <= 180 and -90 <= lat <= 90):
            swapped = ": longitude comes first, so they may be swapped" if abs(lon) <= 90 and abs(lat) <= 180 else ""
            raise Fault("InvalidValue", f"place {at} is none: {lon:.10g},{lat:.10g}; longitudes are from -180 to 180, "
                        f"latitudes from -90 to 90{swapped}")
    return places


def line_of(text: str) -> list[Place]:
    """The places of an encoded line."""
    line = _LINE.fullmatch(text)
    if line is None:
        raise Fault("InvalidQuery", "the line isn't one: write polyline(..) or polyline6(..), percent-encoded")
    # Only these addresses need what places need.
    from catchup.geometry import decode_polyline

    try:
        lon, lat = decode_polyline(line[2], 6 if line[1] else 5)
    except (ValueError, OverflowError):
        raise Fault("InvalidQuery", "the line isn't whole: write polyline(..) percent-encoded") from None
    return list(zip(lon.tolist(), lat.tolist()))


def options_of(text: str, service: str, known: Mapping[str, object]) -> list[tuple[str, str]]:
    """The names and values of an address's options, each name once."""
    # Some clients begin with an ampersand.
    pairs = [(name, value) for name, _, value in (part.partition("=") for part in text.split("&") if part)]
    names = [name for name, _ in pairs]
    for name in names:
        if name not in known:
            raise Fault("InvalidQuery", f"{service} has no option {told_briefly(name)!r}: it has {', '.join(known)}")
    for name in set(names):
        if names.count(name) > 1:
            raise Fault("InvalidOptions", f"{name} stands there {names.count(name)} times: write it once")
    return pairs


# ---- the values of options ----


def wrong(name: str, value: str, wanted: str) -> Fault:
    """The fault of an option's value."""
    return Fault("InvalidOptions", f"{name}={told_briefly(value)} isn't allowed: {wanted}")


def of_places(name: str, each: Callable[[str], Any], wanted: str) -> Callable[[str, int], list[Any]]:
    """An option with a value for each place, semicolons between; an empty one is None."""
    def read(text: str, count: int) -> list[Any]:
        parts = text.split(";", count)
        if len(parts) != count or ";" in parts[-1]:
            raise Fault("InvalidOptions", f"{name} has another number of values than the {count} places: write one for "
                        "each, with semicolons between; it may be empty")
        try:
            return [each(part) if part else None for part in parts]
        except ValueError:
            raise wrong(name, text, wanted) from None
    return read


def one_of(name: str, values: Mapping[str, Any]) -> Callable[[str, int], Any]:
    """An option with one of some words."""
    def read(text: str, _: int) -> Any:
        if text not in values:
            raise wrong(name, text, f"it is {' or '.join(values)}")
        return values[text]
    return read


def count_of(text: str) -> int:
    """A whole number."""
    if not _COUNT.fullmatch(text):
        raise ValueError(text)
    return int(text)


def float_of(text: str) -> float:
    """A number that is finite."""
    if not _FLOAT.fullmatch(text) or not math.isfinite(value := float(text)):
        raise ValueError(text)
    return value


def bearing_of(text: str) -> Bearing:
    """`direction,deviation` in degrees."""
    direction, _, deviation = text.partition(",")
    found = count_of(direction), count_of(deviation)
    if found[0] > 360 or found[1] > 180:
        raise ValueError(text)
    return found


def radius_of(text: str) -> float:
    """Metres, or `unlimited`."""
    value = math.inf if text == "unlimited" else float_of(text)
    if value < 0:
        raise ValueError(text)
    return value


def approach_of(text: str) -> bool:
    """Whether the place must lie on the side of the road that is driven."""
    if text not in ("curb", "unrestricted"):
        raise ValueError(text)
    return text == "curb"


def indices_of(name: str) -> Callable[[str, int], list[int] | None]:
    """Indices of places with semicolons between, or `all`."""
    def read(text: str, count: int) -> list[int] | None:
        if text == "all" and name != "waypoints":
            return None
        parts = text.split(";")
        if len(parts) > count:
            raise wrong(name, text, f"there are {count} places, so it has {count} numbers at most")
        try:
            found = [count_of(part) for part in parts]
        except ValueError:
            found = [count]
        if max(found) >= count:
            raise wrong(name, text, f"it has numbers of places from 0 to {count - 1}, with semicolons between")
        return found
    return read


def above_zero(name: str) -> Callable[[str, int], float]:
    """A number above 0, neither so small nor so large that durations would be no numbers any more."""
    def read(text: str, _: int) -> float:
        try:
            value = float_of(text)
        except ValueError:
            value = 0.0
        if not 1 / MOST_FACTOR <= value <= MOST_FACTOR:
            raise wrong(name, text, f"it is a number above 0, from {1 / MOST_FACTOR:f} to {MOST_FACTOR}")
        return value
    return read


def number_of(text: str, _: int) -> int:
    """How many streets are wanted."""
    try:
        value = count_of(text)
    except ValueError:
        value = 0
    if value < 1:
        raise wrong("number", text, f"it is a number from 1 to {MOST_NEAREST}")
    if value > MOST_NEAREST:
        raise Fault("TooBig", f"number={value} is more than {MOST_NEAREST}")
    return value


def annotations_of_route(text: str, _: int) -> frozenset[str]:
    """The kinds of annotations that are wanted."""
    if text in ("true", "false"):
        return frozenset(KINDS) if text == "true" else frozenset()
    found = text.split(",")
    if not set(found) <= set(KINDS):
        raise wrong("annotations", text, f"it is true, false, or of {', '.join(KINDS)}, with commas between")
    return frozenset(found)


def annotations_of_table(text: str, _: int) -> frozenset[str]:
    """The kinds of entries that are wanted."""
    found = text.split(",")
    if not set(found) <= {"duration", "distance"}:
        raise wrong("annotations", text, "it is duration, distance, or duration,distance")
    return frozenset(found)


def exclude_of(text: str, _: int) -> None:
    """No class of roads can be left out of a network that has been built."""
    if not _CLASS.fullmatch(text):
        raise wrong("exclude", text, "it is classes with commas between")
    raise Fault("InvalidValue", f"this network has no class {told_briefly(text)} that could be left out: serve one "
                "that is made without it, under a name of its own")


def alternatives_of(text: str, _: int) -> None:
    """How many others are wanted besides the best: there are none."""
    if text not in ("true", "false") and not _COUNT.fullmatch(text):
        raise wrong("alternatives", text, "it is true, false or a number")


def second_of(name: str, kind: Callable[[str], int]) -> Callable[[str, int], int]:
    """A time of day, or a second."""
    def read(text: str, _: int) -> int:
        try:
            return kind(text)
        except ValueError as problem:
            raise Fault("InvalidOptions", f"{name}: {problem}") from None
    return read


Read = Callable[[str, int], Any]
BOOL: Final = {"true": True, "false": False}
GENERAL: Final[Mapping[str, Read]] = {
    "bearings": of_places("bearings", bearing_of, "each is {direction, 0 to 360},{deviation, 0 to 180} in degrees"),
    "radiuses": of_places("radiuses", radius_of, "each is metres, or unlimited"),
    "generate_hints": one_of("generate_hints", BOOL),
    "hints": of_places("hints", str, ""),
    "approaches": of_places("approaches", approach_of, "each is curb or unrestricted"),
    "exclude": exclude_of,
    "snapping": one_of("snapping", {"default": None, "any": None}),
    "skip_waypoints": one_of("skip_waypoints", BOOL),
    "depart": second_of("depart", parse_clock),
}
OWN: Final[Mapping[str, Mapping[str, Read]]] = {
    "nearest": {"number": number_of},
    "route": {
        "alternatives": alternatives_of,
        "steps": one_of("steps", BOOL),
        "annotations": annotations_of_route,
        "geometries": one_of("geometries", {name: name for name in ("polyline", "polyline6", "geojson")}),
        "overview": one_of("overview", {name: name for name in ("simplified", "full", "false")}),
        "continue_straight": one_of("continue_straight", {**BOOL, "default": None}),
        "waypoints": indices_of("waypoints"),
        "arrive": second_of("arrive", parse_second),
    },
    "table": {
        "annotations": annotations_of_table,
        "sources": indices_of("sources"),
        "destinations": indices_of("destinations"),
        "fallback_speed": above_zero("fallback_speed"),
        "fallback_coordinate": one_of("fallback_coordinate", {"input": "input", "snapped": "snapped"}),
        "scale_factor": above_zero("scale_factor"),
    },
}
READ: Final = {service: {**GENERAL, **own} for service, own in OWN.items()}
# These are looked through, and change nothing.
UNUSED: Final = ("exclude", "snapping", "alternatives", "continue_straight")


def checked_nearest(profile: str, places: list[Place], values: dict[str, Any]) -> AskedNearest:
    """A whole request of /nearest."""
    if len(places) != 1:
        raise Fault("InvalidOptions", f"nearest takes one place, and here are {len(places)}")
    return AskedNearest(profile=profile, places=places, **values)


def checked_route(profile: str, places: list[Place], values: dict[str, Any]) -> AskedRoute:
    """A whole request of /route."""
    if len(places) < 2:
        raise Fault("InvalidOptions", "a route takes two places at least, with a semicolon between")
    if "depart" in values and "arrive" in values:
        raise Fault("InvalidOptions", "of depart and arrive one is enough")
    if values.get("waypoints") is not None and not {0, len(places) - 1} <= set(values["waypoints"]):
        raise Fault("InvalidOptions", f"waypoints leaves out an end: 0 and {len(places) - 1} must be among them")
    return AskedRoute(profile=profile, places=places, **values)


def checked_table(profile: str, places: list[Place], values: dict[str, Any]) -> AskedTable:
    """A whole request of /table."""
    if len(places) < 2:
        raise Fault("InvalidOptions", "a table takes two places at least")
    asked = AskedTable(profile=profile, places=places, **values)
    entries = len(asked.sources or places) * len(asked.destinations or places)
    if entries > MOST_ENTRIES:
        raise Fault("TooBig", f"a table of {entries} entries is larger than {MOST_ENTRIES}: ask for it in parts, by "
                    "sources and destinations")
    return asked


def values_of(options: str, service: str, count: int) -> dict[str, Any]:
    """The values of a service's options, for some number of places. They may be kept, so nobody changes them."""
    read = READ[service]
    values = {name: read[name](value, count) for name, value in options_of(options, service, read)}
    return {name: value for name, value in values.items() if name not in UNUSED}


kept_values = functools.lru_cache(maxsize=1_024)(values_of)
"""The same for short options, which clients mostly ask alike each time."""

_CHECKS: Final[Mapping[str, Callable[[str, list[Place], dict[str, Any]], Any]]] = {
    "nearest": checked_nearest, "route": checked_route, "table": checked_table}
