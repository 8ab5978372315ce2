"""A map of OpenStreetMap made into a network: the steps, one after the other."""
from __future__ import annotations

from collections.abc import Callable
from dataclasses import dataclass, field
from pathlib import Path

import numpy as np
from numpy.typing import NDArray

from catchup import geometry, tables
from catchup.errors import Failure
from catchup.mapfile import MapFile, RoadNames
from catchup.maps import report
from catchup.maps.arrays import Bools, Ints, offsets
from catchup.maps.counts import Counts
from catchup.maps.directed import Directed, directed_of
from catchup.maps.hours import WEEKDAYS
from catchup.maps.labels import Labels
from catchup.maps.parts import Lost, largest, lost_of
from catchup.maps.pockets import mark_gates, spread, through_streets
from catchup.maps.profiles import Shapes, rush_timings, shapes_of, time_streets
from catchup.maps.reading import RawMap, Wanted, check_file, read_nodes, read_ways
from catchup.maps.rules import LONGEST
from catchup.maps.seconds import WholeSeconds, exact_seconds, step_seconds
from catchup.maps.sides import slow_turns
from catchup.maps.states import Network, network_of
from catchup.maps.streets import block, segments_of, streets_of
from catchup.maps.turns import forbidden, kept_nodes
from catchup.maps.vehicles import Vehicle, check_classes, read_rush, read_vehicle

Tell = Callable[[str], None]


@dataclass(frozen=True)
class Options:
    """What is asked of an import."""
    vehicle: str = "car"
    weekday: str = "mo"
    speeds: Path | None = None
    rush: bool = False
    spare: int = 16
    signals: float = 0.0
    crossings: float = 0.0
    left: int = 0
    right: int = 0
    """Seconds for each turn to that side."""
    without: frozenset[str] = frozenset()
    bbox: tuple[float, float, float, float] | None = None
    private: bool = True
    """Whether private roads are roads for destinations; else they are barred."""
    through: bool = False
    """Whether roads for destinations alone may be driven through."""
    turn_back: bool = False
    """Whether one may turn back behind a restricted turn."""
    islands: bool = False
    """Whether parts that aren't joined with the largest are kept."""


@dataclass
class Made:
    """A network, what it is outside, and the report."""
    network: tables.Network
    map: MapFile
    names: RoadNames
    point_osm: Ints
    lines: list[str]
    report: str
    counts: Counts = field(repr=False)


def vehicle_of(options: Options) -> Vehicle:
    """The vehicle of the options. Failure where its speeds can't be read, WrongWords where a class to leave out isn't
    known."""
    vehicle = read_vehicle(options.vehicle, options.speeds, options.private)
    check_classes(options.without, vehicle)
    return vehicle


def import_osm(path: Path, options: Options, tell: Tell) -> Made:
    """Makes a network of a map; `tell` hears what is done next. Failure where it can't be made."""
    vehicle = vehicle_of(options)
    wanted = Wanted(vehicle, WEEKDAYS.index(options.weekday), options.without, options.bbox, options.signals,
                    options.crossings)
    counts = Counts()
    check_file(path)
    tell("reading its ways")
    raw = read_ways(path, wanted, counts)
    tell("reading their nodes")
    read_nodes(path, raw, wanted, counts)
    tell("joining them to streets")
    directed = _streets(path, raw, counts)
    tell("turns and roads for destinations alone")
    network, behind = _network(directed, options, counts)
    if not len(network.street):
        raise Failure(f"{path}: none of its roads can be entered at any hour of that day: name another by --weekday")
    labels = Labels(directed)
    kept = network.kept(largest(network, counts, options.islands))
    metres_behind = labels.metres[_used(directed, kept) & behind].sum()
    counts.add("metres behind roads for destinations alone", number=float(metres_behind))
    _check_size(path, kept, labels)
    tell("times and names")
    return _made(path, labels, kept, lost_of(directed, labels, kept, network), options, counts)


def _streets(path: Path, raw: RawMap, counts: Counts) -> Directed:
    """The streets of a map."""
    segments = segments_of(raw, counts)
    if not len(segments.way):
        raise Failure(f"{path}: no two nodes of a road follow each other in the file")
    counts.add("ways taken", number=len(np.unique(segments.way)))
    block(segments, raw, counts)
    return directed_of(segments, raw, streets_of(segments, raw, kept_nodes(raw, segments), counts))


def _network(directed: Directed, options: Options, counts: Counts) -> tuple[Network, Bools]:
    """The roads between nodes and their copies, and the open streets that are joined by roads for destinations
    alone."""
    time_streets(directed)
    mark_gates(directed)
    if options.through:
        directed.ends[:] = False
    behind = spread(directed, counts)
    chains = forbidden(directed, directed.raw.restrictions, counts, options.turn_back)
    restricted = {int(node) for chain in chains for d in chain for node in (directed.tail[d], directed.head[d])}
    slow = slow_turns(directed, options.left, options.right)
    return network_of(directed, directed.ends & ~through_streets(directed, restricted), chains, slow), behind


def _used(directed: Directed, network: Network) -> Bools:
    """The streets that a network has."""
    used = np.zeros(len(directed.streets), dtype=bool)
    used[network.street >> 1] = True
    return used


def _check_size(path: Path, network: Network, labels: Labels) -> None:
    """Failure where the network is larger than the program takes, with what would help."""
    nodes, roads = len(network.node), len(network.street)
    if not roads:
        raise Failure(f"{path}: none of its roads leads anywhere and back; --islands keeps them")
    if nodes <= tables.MOST_NODES and roads <= tables.MOST_ROADS:
        return
    by_class = np.bincount(labels.kind[network.street >> 1], minlength=len(labels.classes))
    small = [kind for kind in ("service", "track", "residential", "living_street") if kind in labels.classes]
    shares = ", ".join(f"{kind} {by_class[labels.classes.index(kind)]:,}" for kind in small)
    copies = int((network.copy > 0).sum())
    fewer = f" ({copies:,} of them copies: --turn-back and --through need fewer)" if copies else ""
    raise Failure(f"{path}: {nodes:,} junctions{fewer} and {roads:,} roads are more than the {tables.MOST_NODES:,} and "
                  f"{tables.MOST_ROADS:,} that catchup takes; leave out small roads by --without service,track (roads "
                  f"of these: {shares or 'none'}), or take a part of the map by --bbox WEST,SOUTH,EAST,NORTH")


def _made(path: Path, labels: Labels, network: Network, lost: Lost, options: Options, counts: Counts) -> Made:
    """The tables and the map's file of a network."""
    directed = labels.of
    rush = rush_timings(labels, read_rush(options.weekday) if options.rush else None)
    exact = exact_seconds(directed, step_seconds(directed.segments, directed.raw))
    slow = network.street[exact[network.street] > LONGEST]
    counts.add_all("roads of more than five days, taken as five", labels.way[slow >> 1].tolist())
    seconds = WholeSeconds(directed, exact)
    shapes = shapes_of(network, directed, seconds, rush, options.spare)
    content = tables.Network(_places(directed, network), tables.Roads(
        *(values.astype(np.int32) for values in (network.tail, network.head, shapes.profile))),
        tables.profiles_of(shapes.pieces))
    map_file, point_osm = _map(path, labels, network, shapes, options)
    names = _names(labels, network)
    sizes = report.Sizes(len(network.node), int((network.copy > 0).sum()), len(network.street), len(shapes.pieces),
                         len(names.texts), int((np.diff(names.first) > 1).sum()), options.spare)
    lines = report.summary(path.name, sizes, counts, lost)
    return Made(content, map_file, names, point_osm, lines, report.full(lines, counts, lost), counts)


def _places(directed: Directed, network: Network) -> tables.Nodes:
    """The places of the nodes: tenths of a metre east and north of the map's south-western corner."""
    lon, lat = directed.segments.lon[network.node], directed.segments.lat[network.node]
    middle = (lat.min() + lat.max()) / 2
    x, y = geometry.plane(lon, lat, float(middle), float(lon.min()), float(lat.min()))
    return tables.Nodes(np.rint(x * 10).astype(np.int64), np.rint(y * 10).astype(np.int64))


def _map(path: Path, labels: Labels, network: Network, shapes: Shapes, options: Options) -> tuple[MapFile, Ints]:
    """What the network is outside."""
    directed, segments, street = labels.of, labels.of.segments, network.street
    first, points = labels.points(street)
    properties = {"source": path.name, "vehicle": options.vehicle, "weekday": options.weekday,
                  "closed_profile": "0", "spare_profiles": str(options.spare),
                  "attribution": "© OpenStreetMap contributors, Open Database License 1.0"}
    osm = segments.osm
    content = MapFile(
        segments.lon[network.node], segments.lat[network.node], osm[network.node], _small(network.copy),
        _small(network.tail), _small(network.head), _small(shapes.profile), labels.metres[street >> 1],
        _small(shapes.seconds),
        labels.way[street >> 1], osm[directed.tail[street]], osm[directed.head[street]],
        _small(labels.kind[street >> 1]), first,
        segments.lon[points], segments.lat[points], labels.classes, properties,
        road_ring=labels.ring[street >> 1].astype(bool))
    return content, osm[points]


def _small(values: Ints) -> NDArray[np.int32]:
    return values.astype(np.int32)


def _names(labels: Labels, network: Network) -> RoadNames:
    """The named parts of the roads."""
    spans = labels.spans(network.street)
    named = spans.name > 0
    sums = offsets(named)
    used, text = np.unique(spans.name[named], return_inverse=True)
    texts = [labels.of.raw.names[number] for number in used.tolist()]
    return RoadNames(sums[spans.first], spans.begin[named], spans.end[named], text.astype(np.int32), texts)
