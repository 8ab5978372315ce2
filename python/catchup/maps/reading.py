"""A file of OpenStreetMap, read twice: its ways and turn restrictions, and then the nodes that those use.

Twice, so that the file's order is of no matter, and nodes of buildings and forests take no room.
"""
from __future__ import annotations

import errno
import os
import re
from array import array
from dataclasses import dataclass, field
from pathlib import Path
from typing import Any

import numpy as np
import osmium
from numpy.typing import NDArray

from catchup.errors import Failure
from catchup.maps.arrays import Floats, Ints
from catchup.maps.access import read_access
from catchup.maps.counts import Counts
from catchup.maps.hours import Spans, conditions, open_spans, turning_points, value_at
from catchup.maps.rules import Rule, read_rule, relevant_tags
from catchup.maps.timing import ALWAYS, NEVER, Timing, combined, open_in, timing
from catchup.maps.values import DAY
from catchup.maps.vehicles import Vehicle


_FIXED = 1e-7
_NOWHERE = 2_147_483_647
REMARK = 2_000
"""A remark stands within so many bytes of a file's end."""


@dataclass(frozen=True)
class Restriction:
    """A turn restriction: the ways from which, the node or the ways over which, and the ways to which."""
    number: int
    kind: str
    sources: frozenset[int]
    node: int | None
    ways: frozenset[int]
    targets: frozenset[int]
    spans: Spans = ALWAYS
    """When it holds."""


@dataclass(frozen=True)
class Barrier:
    """A barrier that isn't simply passed: blocked, for destinations alone, or open at some hours."""
    blocked: bool = False
    ends: bool = False
    timing: Timing | None = None


@dataclass
class RawMap:
    """What was read. Way w has the nodes refs[first[w]:first[w + 1]], as numbers of OpenStreetMap."""
    rules: list[Rule]
    names: list[tuple[str, str]]
    """Each name and reference number that a way has; the first is empty."""
    way_ids: Ints
    way_rule: NDArray[np.int32]
    way_name: NDArray[np.int32]
    first: Ints
    refs: Ints
    placed: Ints
    """Nodes whose places stand in their ways: number, and place in ten-millionths of a degree, a column each."""
    restrictions: list[Restriction]
    node_ids: Ints = field(default_factory=lambda: np.empty(0, dtype=np.int64))
    """The nodes that ways use and that are there, by rising number."""
    lon: Floats = field(default_factory=lambda: np.empty(0))
    lat: Floats = field(default_factory=lambda: np.empty(0))
    barriers: dict[int, Barrier] = field(default_factory=dict)
    delays: dict[int, tuple[float, float]] = field(default_factory=dict)
    """Nodes with a delay, in seconds: of who drives onto them along the way, and of who does against it."""


@dataclass(frozen=True)
class Wanted:
    """What is asked of a map."""
    vehicle: Vehicle
    weekday: int = 0
    without: frozenset[str] = frozenset()
    bbox: tuple[float, float, float, float] | None = None
    """West, south, east and north in degrees."""
    signals: float = 0.0
    crossings: float = 0.0
    """Seconds at each traffic signal, and at each crossing without."""


class _Ways(osmium.SimpleHandler):
    """Ways and restrictions."""

    def __init__(self, wanted: Wanted, counts: Counts, has_places: bool) -> None:
        """`has_places` says that ways have the places of their nodes; else the first one that has them does."""
        super().__init__()
        self.wanted, self.counts = wanted, counts
        self.relevant = relevant_tags(wanted.vehicle)
        self.rules: list[Rule] = []
        self.known: dict[tuple[tuple[str, str], ...], int] = {}
        self.names: dict[tuple[str, str], int] = {("", ""): 0}
        self.versions: dict[int, int] = {}
        self.ids, self.rule_of, self.name_of = array("q"), array("i"), array("i")
        self.first, self.refs = array("q", [0]), array("q")
        self.placed, self.has_places = array("q"), has_places
        self.left_out: dict[int, list[int]] = {}
        self.restrictions: list[Restriction] = []
        self.relations: set[int] = set()

    def way(self, way: Any) -> None:
        tags = way.tags
        if "highway" not in tags and tags.get("route") != "ferry":
            return
        if way.deleted:
            return self.counts.add("left out: deleted in this file", way.id)
        number: int = way.id
        if number in self.versions:
            if self.versions[number] != way.version:
                raise Failure("ways have several versions in it, so it's a history: make a map of it by "
                              "'osmium time-filter'")
            return self.counts.add("left out: the same number again", number)
        self.versions[number] = way.version
        key = tuple((tag.k, tag.v) for tag in tags if tag.k in self.relevant)
        rule = self.known.get(key)
        if rule is None:
            rule = self.known[key] = self._rule(dict(key))
        self.counts.add("ways")
        if self.rules[rule].out is not None:
            self.left_out.setdefault(rule, []).append(number)
            return
        self.ids.append(number)
        self.rule_of.append(rule)
        self.name_of.append(self.names.setdefault((tags.get("name", ""), tags.get("ref", "")), len(self.names)))
        nodes = way.nodes
        self.refs.extend([node.ref for node in nodes])
        self.first.append(len(self.refs))
        if self.has_places or len(nodes) and nodes[0].x != _NOWHERE:
            self.has_places = True
            for node in nodes:
                self.placed.extend((node.ref, node.x, node.y))

    def _rule(self, tags: dict[str, str]) -> int:
        """The number of a new rule."""
        rule = read_rule(tags, self.wanted.vehicle, self.wanted.weekday, self.wanted.without)
        self.rules.append(Rule(out="class: none") if rule is None else rule)
        return len(self.rules) - 1

    def relation(self, relation: Any) -> None:
        tags = relation.tags
        if relation.deleted or not tags.get("type", "").startswith("restriction") or relation.id in self.relations:
            return
        self.relations.add(relation.id)
        members = [(member.role, member.type, member.ref) for member in relation.members]
        said = {tag.k: tag.v for tag in tags}
        read_restriction(relation.id, said, members, self.wanted, self.counts, self.restrictions)


def read_restriction(number: int, tags: dict[str, str], members: list[tuple[str, str, int]], wanted: Wanted,
                     counts: Counts, to: list[Restriction]) -> None:
    """Appends what a relation of type restriction restricts of the vehicle, or counts why nothing."""
    vehicle = wanted.vehicle
    own = {key.removeprefix("restriction:") for key in vehicle.restriction if ":" in key}
    kind_of = tags["type"].removeprefix("restriction").removeprefix(":")
    if kind_of and kind_of not in own or not kind_of and not _keys(tags, vehicle):
        return counts.add("restrictions: for others", number)
    if vehicle.excepted & {word.strip() for word in tags.get("except", "").replace(" ", ";").split(";")}:
        return counts.add("restrictions: they except it", number)
    if any(key in tags for key in ("day_on", "hour_on", "day_off", "hour_off")):
        return counts.add("restrictions: at times that aren't understood", number)
    of = {role: frozenset(ref for r, kind, ref in members if r == role and kind == "w")
          for role in ("from", "via", "to")}
    nodes = [ref for role, kind, ref in members if role == "via" and kind == "n"]
    if not of["from"] or not of["to"] or len(nodes) + bool(of["via"]) != 1:
        return counts.add("restrictions: members missing or too many", number)
    found = _kinds(tags, wanted)
    if not found:
        timed = any(key.endswith(":conditional") for key in tags)
        what = "at times that aren't understood" if timed else "not understood"
        return counts.add(f"restrictions: {what}", number)
    for kind, spans in found.items():
        if spans:
            to.append(Restriction(number, kind, of["from"], nodes[0] if nodes else None, of["via"], of["to"], spans))


def _keys(tags: dict[str, str], vehicle: Vehicle) -> list[str]:
    """The tags of a restriction that are about a vehicle, the most special first."""
    return [key for key in vehicle.restriction if key in tags or key + ":conditional" in tags]


def _kinds(tags: dict[str, str], wanted: Wanted) -> dict[str, Spans]:
    """What is restricted, and when; empty where that isn't understood."""
    keys = _keys(tags, wanted.vehicle) or [key for key in ("restriction",) if key in tags]
    if not keys:
        return {}
    known, unknown = conditions(tags.get(keys[0] + ":conditional", ""), wanted.weekday)
    plain = tags.get(keys[0])
    if unknown and plain is None:
        return {}
    points = turning_points(known) + [DAY]
    found: dict[str, list[tuple[int, int]]] = {}
    for begin, end in zip(points, points[1:]):
        kind = value_at(known, begin) or plain
        if kind is not None and kind.startswith(("no_", "only_")):
            found.setdefault(kind, []).append((begin, end))
    if known and not found:
        return {"none": ()} if all(value.startswith(("no_", "only_", "none")) for value, _ in known) else {}
    return {kind: tuple(spans) for kind, spans in found.items()}


class _Nodes(osmium.SimpleHandler):
    """The nodes of ways."""

    def __init__(self, ids: set[int], wanted: Wanted, counts: Counts) -> None:
        super().__init__()
        self.wanted_ids, self.wanted, self.counts = ids, wanted, counts
        self.ids, self.x, self.y = array("q"), array("i"), array("i")
        self.barriers: dict[int, Barrier] = {}
        self.delays: dict[int, tuple[float, float]] = {}

    def node(self, node: Any) -> None:
        if node.id not in self.wanted_ids or node.deleted:
            return
        place = node.location
        self.ids.append(node.id)
        self.x.append(place.x)
        self.y.append(place.y)
        if len(node.tags):
            tags = {tag.k: tag.v for tag in node.tags}
            if "barrier" in tags and node.id not in self.barriers:
                self._barrier(node.id, tags)
            if "highway" in tags or "railway" in tags:
                self._delay(node.id, tags)

    def _barrier(self, number: int, tags: dict[str, str]) -> None:
        barrier, notes = read_barrier(tags, self.wanted)
        for note in notes:
            self.counts.add(note, number)
        if barrier is not None:
            self.barriers[number] = barrier

    def _delay(self, number: int, tags: dict[str, str]) -> None:
        signals = "traffic_signals" in (tags.get("highway"), tags.get("crossing"))
        crossing = tags.get("highway") == "crossing" or tags.get("railway") == "level_crossing"
        if signals:
            self.counts.add("signals", number)
        elif crossing:
            self.counts.add("crossings", number)
        seconds = self.wanted.signals if signals else self.wanted.crossings if crossing else 0.0
        side = tags.get("traffic_signals:direction", "both")
        if seconds:
            self.delays[number] = seconds * (side != "backward"), seconds * (side != "forward")


def read_barrier(tags: dict[str, str], wanted: Wanted) -> tuple[Barrier | None, list[str]]:
    """What a barrier is, None where it is simply passed, and what the report counts of it."""
    passed = tags["barrier"] in wanted.vehicle.passes and tags.get("locked") != "yes"
    access = read_access(tags, wanted.vehicle, wanted.weekday, "open" if passed else "barred")
    steps = [(second, None if said == "barred" else 1.0) for second, said in access.steps]
    spans = open_spans(tags["opening_hours"], wanted.weekday) if "opening_hours" in tags else None
    held = combined(timing(steps), None if spans is None else open_in(spans))
    notes = ["conditions not used: access"] * access.unknown
    notes += ["opening hours not understood, taken as all day"] * ("opening_hours" in tags and spans is None)
    if held == NEVER:
        return Barrier(blocked=True), [f"barriers: {tags['barrier']}", *notes]
    of = Barrier(ends="ends" in access.said, timing=None if held is None or held.plain else held)
    if of == Barrier():
        return None, [f"passed: {tags['barrier']}", *notes]
    kind = "gates for destinations alone" if of.timing is None else "gates at some hours"
    return of, [f"{kind}: {tags['barrier']}", *notes]


def _apply(handler: osmium.SimpleHandler, path: Path) -> None:
    """Reads the file; Failure where it isn't a whole file of OpenStreetMap."""
    try:
        handler.apply_file(str(path))
    except Failure as fault:
        raise Failure(f"{path}: {fault}") from fault
    except (RuntimeError, ValueError, osmium.InvalidLocationError) as fault:
        raise _unread(path, fault) from fault


def _unread(path: Path, fault: Exception) -> Failure:
    """Why the library can't read a file. That it can start no threads it tells as this error of the system, without more."""
    if str(fault) == os.strerror(errno.EAGAIN):
        return Failure(f"{path}: no thread can be started to read it: free some memory, or allow more processes (ulimit -u)")
    return Failure(f"{path}: this isn't a whole file of OpenStreetMap: {fault}")


def _header(path: Path) -> Any:
    return osmium.io.Reader(str(path), osmium.osm.osm_entity_bits.NOTHING).header()


def check_file(path: Path) -> None:
    """Failure where there is no file, or one of a history or of changes."""
    if not path.exists():
        raise Failure(f"{path}: there is no such file")
    if not path.is_file():
        raise Failure(f"{path}: this isn't a file")
    if str(path).encode("utf-8", "ignore").decode() != str(path):
        raise Failure(f"{path}: the name of this map isn't UTF-8: rename it")
    try:
        path.open("rb").close()
    except OSError as fault:
        raise Failure(f"{path}: it can't be read: {fault.strerror or fault}") from fault
    try:
        several = osmium.io.File(str(path)).has_multiple_object_versions
        header = _header(path)
    except RuntimeError as fault:
        raise _unread(path, fault) from fault
    if several or header.has_multiple_object_versions:
        raise Failure(f"{path}: this is a history or a file of changes; make a map of it by 'osmium time-filter' or "
                      "'osmium apply-changes'")
    _check_remark(path)


def _check_remark(path: Path) -> None:
    """Failure where the server that made a file in XML says at its end that it broke off."""
    with path.open("rb") as file:
        file.seek(max(0, path.stat().st_size - REMARK))
        found = re.search(rb"<remark>\s*(runtime error[^<]*)", file.read())
    if found:
        text = " ".join(found[1].decode("utf-8", "replace").split())
        raise Failure(f"{path}: this isn't all that was asked for, as its server says: {text}")


def read_ways(path: Path, wanted: Wanted, counts: Counts) -> RawMap:
    """The ways that the vehicle may use and the turn restrictions on it."""
    header = _header(path)
    features = [header.get(f"pbf_optional_feature_{number}") for number in range(9)]
    handler = _Ways(wanted, counts, "LocationsOnWays" in features)
    _apply(handler, path)
    for number, ways in handler.left_out.items():
        counts.add_all(f"left out: {handler.rules[number].out}", ways)
    if not handler.ids:
        raise Failure(f"{path}: no way in it is a road for {_whom(wanted.vehicle.name)}")
    raw = RawMap(handler.rules, list(handler.names), _ints(handler.ids), _ints(handler.rule_of).astype(np.int32),
                 _ints(handler.name_of).astype(np.int32), _ints(handler.first), _ints(handler.refs),
                 _ints(handler.placed).reshape(-1, 3), handler.restrictions)
    _count_notes(raw, counts)
    return raw


def read_nodes(path: Path, raw: RawMap, wanted: Wanted, counts: Counts) -> None:
    """Adds the places of the ways' nodes, their barriers and delays."""
    handler = _Nodes(set(np.unique(raw.refs).tolist()), wanted, counts)
    _apply(handler, path)
    there = np.column_stack((_ints(handler.ids), _ints(handler.x), _ints(handler.y)))
    ids, x, y = np.concatenate((there, raw.placed[raw.placed[:, 1] != _NOWHERE])).T
    ids, rows = np.unique(ids, return_index=True)
    lon, lat = x[rows] * _FIXED, y[rows] * _FIXED
    good = (np.abs(lon) <= 180.0) & (np.abs(lat) <= 90.0) & (x[rows] != _NOWHERE)
    if wanted.bbox is not None:
        west, south, east, north = wanted.bbox
        good &= (lon >= west) & (lon <= east) & (lat >= south) & (lat <= north)
    raw.node_ids, raw.lon, raw.lat = ids[good], lon[good], lat[good]
    raw.barriers, raw.delays = handler.barriers, handler.delays
    if not len(raw.node_ids):
        raise Failure(f"{path}: none of the nodes of its roads is in the "
                      f"{'file' if wanted.bbox is None else 'file and inside --bbox'}")


def _count_notes(raw: RawMap, counts: Counts) -> None:
    """Counts what the rules note, once for each of their ways."""
    order = np.argsort(raw.way_rule, kind="stable")
    bounds = np.searchsorted(raw.way_rule[order], np.arange(len(raw.rules) + 1))
    for number, rule in enumerate(raw.rules):
        ways = raw.way_ids[order[bounds[number]:bounds[number + 1]]]
        if len(ways):
            for note in rule.notes:
                counts.add_all(note, ways.tolist())


def _whom(vehicle: str) -> str:
    return {"car": "cars", "truck": "trucks", "bicycle": "bicycles", "foot": "walkers"}[vehicle]


def _ints(values: "array[int]") -> Ints:
    return np.array(values, dtype=np.int64)
