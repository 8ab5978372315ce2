"""What each kind of vehicle may use and how fast it goes: the package's data, with a file of speeds of one's own."""
from __future__ import annotations

import tomllib
from dataclasses import dataclass
from importlib import resources
from pathlib import Path
from typing import Any, Literal, Mapping

from catchup.errors import Failure, WrongWords

VEHICLES = ("car", "truck", "bicycle", "foot")


@dataclass(frozen=True)
class Vehicle:
    """Which tags say where one kind of vehicle may go, and how fast it does."""
    name: str
    keys: tuple[str, ...]
    own: frozenset[str]
    oneway: tuple[str, ...]
    maxspeed: tuple[str, ...]
    restriction: tuple[str, ...]
    excepted: frozenset[str]
    one_way: bool
    walks: bool
    passes: frozenset[str]
    open_words: frozenset[str]
    ends_words: frozenset[str]
    speeds: "Speeds"


@dataclass(frozen=True)
class Speeds:
    """Speeds in km/h; the fields are said in speeds.toml."""
    share: float
    most: float
    limits: Literal["speed", "cap"]
    ferry: float
    let_in_by_access: frozenset[str]
    classes: Mapping[str, float]
    let_in: Mapping[str, float]
    rough: Mapping[str, Mapping[str, float]]
    zones: Mapping[str, float]


def _data(name: str) -> dict[str, Any]:
    return tomllib.loads(resources.files("catchup.maps").joinpath(name).read_text(encoding="utf-8"))


def _own_speeds(path: Path) -> dict[str, Any]:
    """A file of speeds of one's own; Failure where it isn't one."""
    try:
        return tomllib.loads(path.read_bytes().decode("utf-8-sig"))
    except FileNotFoundError as fault:
        raise Failure(f"{path}: there is no such file") from fault
    except OSError as fault:
        raise Failure(f"{path}: it can't be read: {fault.strerror or fault}") from fault
    except UnicodeDecodeError as fault:
        raise Failure(f"{path}: this isn't UTF-8: save it as UTF-8") from fault
    except RecursionError as fault:
        raise Failure(f"{path}: this isn't TOML that can be read: it is nested too deep") from fault
    except ValueError as fault:
        # Of a number of thousands of digits Python says so itself.
        raise Failure(f"{path}: this isn't TOML: {fault}") from fault


def _is_speed(value: Any, zero: bool = False) -> bool:
    if isinstance(value, bool) or not isinstance(value, (int, float)):
        return False
    return 0 < value <= 1000 or zero and value == 0


def _checked(where: str, name: str, known: Any, value: Any) -> Any:
    """A value of one's own in the place of a known one, which says its kind."""
    if isinstance(known, dict):
        rough = name in ("surface", "tracktype", "smoothness")
        if not isinstance(value, dict) or not all(_is_speed(v, rough) for v in value.values()):
            raise Failure(f"{where}: {name} is a table of speeds in km/h, above 0 and up to 1000")
        return {**known, **value}
    if isinstance(known, list):
        if not isinstance(value, list) or not all(isinstance(v, str) for v in value):
            raise Failure(f"{where}: {name} is a list of classes")
        return value
    if name == "limits":
        if value not in ("speed", "cap"):
            raise Failure(f'{where}: limits is "speed" or "cap"')
        return value
    if not _is_speed(value):
        raise Failure(f"{where}: {name} is a number above 0 and up to 1000")
    return value


def read_speeds(vehicle: str, path: Path | None = None) -> Speeds:
    """The speeds of a vehicle: the package's, with those of a file of one's own in their place."""
    table = _data("speeds.toml")
    words: dict[str, Any] = table[vehicle]
    if path is not None:
        own = _own_speeds(path)
        for name, value in own.items():
            if name not in table:
                raise Failure(f"{path}: [{name}] is no vehicle; they are {', '.join(VEHICLES)}")
            if not isinstance(value, dict):
                raise Failure(f"{path}: {name} is a table, as [{name}]")
        for name, value in own.get(vehicle, {}).items():
            if name not in words:
                raise Failure(f"{path}: {vehicle}.{name} isn't known; known are {', '.join(words)}")
            words[name] = _checked(f"{path}: {vehicle}", name, words[name], value)
    rough = {key: words[key] for key in ("surface", "tracktype", "smoothness")}
    return Speeds(float(words["share"]), float(words["most"]), words["limits"], float(words["ferry"]),
                  frozenset(words["let_in_by_access"]), words["classes"], words["let_in"], rough, words["zones"])


def check_classes(classes: frozenset[str], vehicle: Vehicle) -> None:
    """WrongWords where one of these is no class of roads for anybody."""
    known = {"ferry", *vehicle.speeds.classes, *vehicle.speeds.let_in}
    for words in _data("speeds.toml").values():
        known.update(words["classes"], words["let_in"])
    unknown = sorted(classes - known)
    if unknown:
        raise WrongWords(f"--without: {', '.join(unknown)} is no class of roads; there are {', '.join(sorted(known))}")


def read_vehicle(name: str, speeds: Path | None = None, private: bool = True) -> Vehicle:
    """What is known of a vehicle; with `private` false, private roads are barred instead of open to those who live
    there."""
    table = _data("vehicles.toml")
    words, of = table["words"], table[name]
    ends = frozenset(words["ends"] + (words["private"] if private else []))
    return Vehicle(name, tuple(of["keys"]), frozenset(of["own"]), tuple(of["oneway"]), tuple(of["maxspeed"]),
                   tuple(of["restriction"]), frozenset(of["except"]), of["one_way"], of["walks"],
                   frozenset(of["passes"]), frozenset(words["open"]), ends, read_speeds(name, speeds))


@dataclass(frozen=True)
class Rush:
    """Factors of travel times by class of road: seconds of the day at which each begins, and the factor."""
    steps: Mapping[str, tuple[tuple[int, float], ...]]


def read_rush(weekday: str) -> Rush:
    """The factors of a day of the week, `mo` to `su`."""
    steps: dict[str, tuple[tuple[int, float], ...]] = {}
    for day in _data("rush.toml").values():
        if weekday in day["days"]:
            for group in day.values():
                if isinstance(group, dict):
                    starts = (int(text[:2]) * 3600 + int(text[3:]) * 60 for text in group["from"])
                    of = tuple(zip(starts, (float(f) for f in group["factor"])))
                    steps.update(dict.fromkeys(group["classes"], of))
    return Rush(steps)
