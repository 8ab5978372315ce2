"""What the tags of a way say of it: in which directions one may go, how fast, when, and whether to its end alone."""
from __future__ import annotations

from collections.abc import Callable, Iterable
from dataclasses import dataclass, replace

from catchup.maps.access import Access, Tags, read_access, read_opening
from catchup.maps.hours import open_spans, over_day, starts
from catchup.maps.timing import NEVER, Timing, combined, open_in, timing
from catchup.maps.values import DAY, IMPLICIT, duration, kmh
from catchup.maps.vehicles import Vehicle

LONGEST = 5 * DAY
"""No ferry says that it takes longer, and no road does, in seconds."""

_YES, _BACK = ("yes", "true", "1"), ("-1", "reverse")
_NO = ("no", "false", "0")
_RINGS = ("roundabout", "circular")
_SIDES = ("maxspeed:forward", "maxspeed:backward")
_ZONES = ("zone:maxspeed", "maxspeed:type", "source:maxspeed", "zone:traffic")
_OTHER = ("highway", "route", "junction", "area", "abandoned", "disused", "impassable", "duration", "interval",
          "opening_hours", "foot", "bicycle", "motorroad", "cycleway", "surface", "tracktype", "smoothness", *_ZONES)


@dataclass(frozen=True)
class Side:
    """One direction of a way: its speed in km/h where nothing else is said, and what of it changes over the day."""
    kmh: float
    timing: Timing | None = None


@dataclass(frozen=True)
class Rule:
    """What the tags of a way say. Where `out` is said, the way isn't taken, and that is why."""
    kind: str = ""
    out: str | None = None
    forth: Side | None = None
    back: Side | None = None
    ends: bool = False
    """For destinations alone."""
    too: "Rule | None" = None
    """Where the way is open to all at some hours and for destinations alone at others: the way once more, as one that
    is for destinations alone at all the hours at which anybody may enter it."""
    ferry: bool = False
    ring: bool = False
    """Part of a roundabout."""
    seconds: int | None = None
    """How long the ferry takes, where that is said."""
    notes: tuple[str, ...] = ()
    """What the report counts for each of its ways."""


def relevant_tags(vehicle: Vehicle) -> frozenset[str]:
    """The tags that a rule is made of."""
    timed = vehicle.keys + vehicle.oneway + vehicle.maxspeed + _SIDES
    return frozenset(timed + tuple(key + ":conditional" for key in timed) + _OTHER)


def read_rule(tags: Tags, vehicle: Vehicle, weekday: int, without: frozenset[str] = frozenset()) -> Rule | None:
    """The rule of a way; None where it is no way that anybody goes."""
    ferry = tags.get("route") == "ferry"
    kind = "ferry" if ferry else tags.get("highway")
    if kind is None:
        return None
    access = read_access(tags, vehicle, weekday, "barred" if _for_others(tags, kind, vehicle) else None)
    base = vehicle.speeds.ferry if ferry else vehicle.speeds.classes.get(kind)
    notes: list[str] = []
    if base is None and kind in vehicle.speeds.let_in:
        access = read_opening(tags, vehicle, weekday, kind in vehicle.speeds.let_in_by_access)
        if access.said != {"barred"}:
            base = vehicle.speeds.let_in[kind]
            notes.append(f"opened: {kind}")
    out = f"class: {kind}" if base is None else _left_out(tags, kind, vehicle, access, without)
    if base is None or out is not None:
        return Rule(kind=kind, out=out)
    rule, too = _by_access(Rule(kind=kind, ferry=ferry, ring=tags.get("junction") in _RINGS, notes=tuple(notes)),
                           access)
    done = _directed(rule, tags, vehicle, weekday, base)
    if too is not None:
        done = replace(done, too=_directed(too, tags, vehicle, weekday, base))
    return Rule(kind=kind, out="closed all day") if _shut(done) and (done.too is None or _shut(done.too)) else done


def _shut(rule: Rule) -> bool:
    """Whether nobody may enter a way at any hour, in whichever direction."""
    return rule.forth is None and rule.back is None


def _for_others(tags: Tags, kind: str, vehicle: Vehicle) -> str | None:
    """Why a way isn't for the vehicle where no tag of access says so; None where it is."""
    if vehicle.name in ("bicycle", "foot") and tags.get("motorroad") == "yes":
        return "barred: motorroad=yes"
    if kind == "ferry" and not vehicle.walks and ("foot" in tags or "bicycle" in tags):
        return "ferries that name walkers or bicycles and no others"
    return None


def _left_out(tags: Tags, kind: str, vehicle: Vehicle, access: Access, without: frozenset[str]) -> str | None:
    """Why a way of a class that is for the vehicle isn't taken; None where it is."""
    if kind in without:
        return f"asked to be left out: {kind}"
    if tags.get("area") == "yes":
        return "areas"
    if access.said == {"barred"}:
        said = f"barred: {access.key}={tags[access.key]}" if access.key else _for_others(tags, kind, vehicle)
        return said or "barred: at all hours"
    if any(tags.get(key) == "yes" for key in ("abandoned", "disused", "impassable")):
        return "abandoned, disused or impassable"
    if any(of.get(tags.get(key, "")) == 0 for key, of in vehicle.speeds.rough.items()):
        return "abandoned, disused or impassable"
    if _oneway(tags, vehicle) == "reversible" and not _changes(tags, vehicle.oneway):
        return "reversible"
    return None


def _changes(tags: Tags, keys: Iterable[str]) -> bool:
    """Whether one of these tags has conditions."""
    return any(key + ":conditional" in tags for key in keys)


def _by_access(rule: Rule, access: Access) -> tuple[Rule, Rule | None]:
    """The rule with what access says over the day; and that of the way once more, where both are needed."""
    notes = rule.notes + ("conditions not used: access",) * access.unknown
    if len(access.steps) == 1:
        ends = access.said == {"ends"}
        return replace(rule, ends=ends, notes=notes + ("for destinations alone",) * ends), None
    notes += ("open at some hours alone",)
    entered = timing([(second, None if said == "barred" else 1.0) for second, said in access.steps])
    if not access.said & {"open", None}:
        return _timed(replace(rule, ends=True, notes=notes + ("for destinations alone",)), entered), None
    through = timing([(second, 1.0 if said in ("open", None) else None) for second, said in access.steps])
    too = _timed(replace(rule, ends=True), entered) if "ends" in access.said else None
    return _timed(replace(rule, notes=notes), through), too


def _timed(rule: Rule, of: Timing) -> Rule:
    """A rule with a timing kept in both its sides; speeds come later."""
    side = Side(0.0, None if of.plain else of)
    return replace(rule, forth=side, back=side)


def _oneway(tags: Tags, vehicle: Vehicle) -> str | None:
    """What the most special tag of direction says; where none does, roundabouts and motorways are one-way."""
    said = next((tags[key] for key in vehicle.oneway if key in tags), None)
    if vehicle.name == "bicycle" and said in _YES and tags.get("cycleway", "").startswith("opposite"):
        return "no"
    if said is None and vehicle.one_way and (tags.get("junction") in _RINGS or tags.get("highway") == "motorway"):
        return "yes"
    return said


def _directed(rule: Rule, tags: Tags, vehicle: Vehicle, weekday: int, base: float) -> Rule:
    """The rule with its directions, their speeds and timings."""
    notes = list(rule.notes)
    oneway = _oneway(tags, vehicle)
    if oneway == "alternating":
        notes.append("alternating, taken as open both ways without a wait")
    elif oneway not in (None, "reversible") + _YES + _NO + _BACK:
        notes.append(f"oneway not understood, taken as both ways: {oneway}")
    limits = _limits(tags, vehicle, notes)
    by_hour = _changes(tags, vehicle.oneway)
    sides: list[Side | None] = []
    for forth in (True, False):
        if not by_hour and oneway in (_BACK if forth else _YES):
            sides.append(None)
            continue
        speed = _speed(limits[forth], tags, vehicle, base, notes)
        held = rule.forth.timing if rule.forth is not None else None
        if not rule.ferry:
            held = combined(held, _limits_by_hour(tags, vehicle, weekday, _speeds(forth, vehicle, base), notes))
        held = combined(held, _oneway_by_hour(tags, vehicle, weekday, forth, notes))
        sides.append(None if held == NEVER else Side(speed, held))
    if rule.ferry:
        return _sailing(replace(rule, notes=tuple(notes)), sides, tags, weekday)
    hours = _open_hours(tags, weekday, notes)
    forth_side, back_side = (_within(side, hours) for side in sides)
    return replace(rule, forth=forth_side, back=back_side, notes=tuple(dict.fromkeys(notes)))


def _within(side: Side | None, of: Timing | None) -> Side | None:
    """A direction at these hours alone; none where that leaves nothing of the day, so that it joins nothing either."""
    if side is None:
        return None
    held = combined(side.timing, of)
    return None if held == NEVER else Side(side.kmh, held)


def _limits(tags: Tags, vehicle: Vehicle, notes: list[str]) -> dict[bool, float | None]:
    """The limit along the way (True) and against it in km/h, where one is known."""
    def said(key: str) -> float | None:
        value = kmh(tags[key], vehicle.speeds.zones) if key in tags else None
        if key in tags and value is None and tags[key] not in IMPLICIT:
            notes.append(f"maxspeed not understood: {tags[key]}")
        return value

    if not vehicle.maxspeed:
        return {True: None, False: None}
    own = next((value for value in map(said, vehicle.maxspeed) if value), None)
    zone = None
    if own is None and tags.get("highway") in vehicle.speeds.classes:
        limits = (kmh(tags[key], vehicle.speeds.zones) for key in _ZONES if key in tags)
        zone = next((value for value in limits if value), None)
    if zone:
        notes.append("limits by zone or type of maxspeed")
    return {forth: said(key) or own or zone for forth, key in zip((True, False), _SIDES)}


def _speed(limit: float | None, tags: Tags, vehicle: Vehicle, base: float, notes: list[str]) -> float:
    """The speed of a direction whose limit is known or not."""
    speeds = vehicle.speeds
    speed = base if limit is None else speeds.share * limit if speeds.limits == "speed" else min(base, limit)
    cap = min((of[tags[key]] for key, of in speeds.rough.items() if tags.get(key) in of), default=speeds.most)
    if speed > cap:
        notes.append("slowed by surface, tracktype or smoothness")
    return min(speed, cap, speeds.most)


def _speeds(forth: bool, vehicle: Vehicle, base: float) -> Callable[[Tags], float]:
    """The speed of a direction by the tags of its way."""
    return lambda tags: _speed(_limits(tags, vehicle, [])[forth], tags, vehicle, base, [])


def _limits_by_hour(tags: Tags, vehicle: Vehicle, weekday: int, speed_of: Callable[[Tags], float],
                    notes: list[str]) -> Timing | None:
    """How limits that hold at some hours change the seconds of a direction, whose speed by its tags `speed_of` says."""
    keys = (*vehicle.maxspeed, *_SIDES) if vehicle.maxspeed else ()
    day, all_used = over_day(tags, keys, weekday, lambda value: kmh(value, vehicle.speeds.zones) is not None)
    if not all_used:
        notes.append("conditions not used: maxspeed")
    of = timing([(second, speed_of(tags) / speed_of(then)) for second, then in day])
    if of.plain:
        return None
    notes.append("limits at some hours")
    return of


def _oneway_by_hour(tags: Tags, vehicle: Vehicle, weekday: int, forth: bool, notes: list[str]) -> Timing | None:
    """When a direction is closed because the way is one-way then, or reversible."""
    day, all_used = over_day(tags, vehicle.oneway, weekday)
    if not all_used:
        notes.append("conditions not used: oneway")
    shut = (_BACK if forth else _YES) + ("reversible",)
    of = timing([(second, None if _oneway(then, vehicle) in shut else 1.0) for second, then in day])
    return None if of.plain else of


def _open_hours(tags: Tags, weekday: int, notes: list[str]) -> Timing | None:
    """When a way has opening hours."""
    text = tags.get("opening_hours")
    if text is None:
        return None
    spans = open_spans(text, weekday)
    if spans is None:
        notes.append("opening hours not understood, taken as all day")
        return None
    of = open_in(spans)
    if not of.plain:
        notes.append("open at some hours alone")
    return None if of.plain else of


def _sailing(rule: Rule, sides: list[Side | None], tags: Tags, weekday: int) -> Rule:
    """The rule of a ferry: its duration and its departures."""
    notes = list(rule.notes)
    takes, every = (duration(tags[key]) if key in tags else None for key in ("duration", "interval"))
    if "duration" in tags and (takes is None or takes > LONGEST):
        notes.append(f"durations not understood: {tags['duration']}")
        takes = None
    if "interval" in tags and every is None:
        notes.append(f"intervals not understood, taken as none: {tags['interval']}")
    if not every:
        goes = _open_hours(tags, weekday, notes)
        forth, back = (None if side is None else Side(side.kmh, combined(side.timing, goes)) for side in sides)
        return replace(rule, forth=forth, back=back, seconds=takes, notes=tuple(dict.fromkeys(notes)))
    departures = starts(tags.get("opening_hours", "24/7"), every, weekday)
    if departures is None:
        notes.append("opening hours not understood, taken as all day")
        departures = tuple(range(0, DAY, every))
    notes.append("ferries with departures")
    forth, back = (None if side is None else Side(side.kmh, _leaving(departures, side.timing)) for side in sides)
    return replace(rule, forth=forth, back=back, seconds=takes, notes=tuple(dict.fromkeys(notes)))


def _leaving(departures: tuple[int, ...], of: Timing | None) -> Timing:
    """The timing of a ferry with these departures, without those at which its way is closed."""
    goes = tuple(second for second in departures if of is None or of.at(second) is not None)
    return Timing(departures=goes) if goes else NEVER
