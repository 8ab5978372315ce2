"""What OSRM tells of each segment of a leg: its metres, its seconds, and the numbers of its ends in OpenStreetMap."""

from __future__ import annotations

import json
from collections.abc import Collection, Sequence
from typing import Final

import numpy as np

from catchup.geometry import metres
from catchup.service.osrm.guide import Guide
from catchup.service.osrm.legs import Leg
from catchup.service.osrm.lines import Floats
from catchup.service.osrm.stretches import Stretch

SOURCE: Final = "map"                   # whence all times are


def annotation(leg: Leg, guide: Guide, kinds: Collection[str]) -> str:
    """The annotation of a leg as JSON: lists with an entry for each segment; of nodes with one for each place."""
    far, takes = segments(leg)
    told: dict[str, str] = {}
    if "distance" in kinds:
        told["distance"] = listed(far, 2)
    for kind in {"duration", "weight"} & set(kinds):
        told[kind] = listed(takes, 2)
    if "speed" in kinds:
        told["speed"] = listed(np.divide(far, takes, out=np.zeros(len(far)), where=takes > 0), 1)
    if "datasources" in kinds:
        told["datasources"] = json.dumps([0] * len(far), separators=(",", ":"))
        told["metadata"] = json.dumps({"datasource_names": [SOURCE]})
    if "nodes" in kinds:
        told["nodes"] = json.dumps(nodes(leg, guide), separators=(",", ":"))
    return "{" + ",".join([f'"{name}":{value}' for name, value in sorted(told.items())]) + "}"


def listed(values: Floats, decimals: int) -> str:
    """Numbers as JSON."""
    return json.dumps(np.round(values, decimals).tolist(), separators=(",", ":"))


def segments(leg: Leg) -> tuple[Floats, Floats]:
    """The metres and the seconds of each segment of a leg: each takes its share of its stretch's time."""
    sizes = np.array([len(stretch.places) - 1 for stretch in leg.stretches])
    line = leg.line()
    far = metres(line[:-1, 0], line[:-1, 1], line[1:, 0], line[1:, 1])
    whole = np.repeat(np.add.reduceat(far, np.cumsum(sizes) - sizes), sizes)
    takes = np.repeat(np.diff([*leg.entered, leg.arrive]), sizes)
    return far, takes * np.where(whole > 0, far / np.where(whole > 0, whole, 1.0), 1.0 / np.repeat(sizes, sizes))


def nodes(leg: Leg, guide: Guide) -> list[int]:
    """The numbers in OpenStreetMap of a leg's places. The first is that of the node before the start, the last that of
    the node behind the end."""
    found = [nodes_of(stretch, guide) for stretch in leg.stretches]
    told = [*found[0], *[number for each in found[1:] for number in each[1:]]]
    first, last = leg.stretches[0], leg.stretches[-1]
    told[0] = around(first.road, first.low, guide)[0]
    told[-1] = around(last.road, last.high, guide)[1]
    return told


def nodes_of(stretch: Stretch, guide: Guide) -> Sequence[int]:
    """The number of the road's node that is nearest to each place of a stretch."""
    line = guide.ground.streets.line(stretch.road)
    numbers = guide.nodes.of(stretch.road, len(line))
    if len(line) == len(stretch.places):
        return numbers
    away = np.abs(np.array(stretch.places)[:, None, :] - line).sum(axis=2)
    return [numbers[at] for at in np.argmin(away, axis=1).tolist()]


def nodes_beside(road: int, share: float, guide: Guide) -> Sequence[int]:
    """The numbers in OpenStreetMap of both ends of the segment of a road that has a point."""
    behind, count = guide.ground.streets.behind(road, share)
    return guide.nodes.of(road, count)[behind - 1:behind + 1]


def around(road: int, share: float, guide: Guide) -> tuple[int, int]:
    """The numbers in OpenStreetMap of the nodes before and behind a point of a road: twice that of a node at the
    point."""
    shares = guide.ground.streets.shares(road)
    numbers = guide.nodes.of(road, len(shares))
    before, behind = np.searchsorted(shares, share, "right") - 1, np.searchsorted(shares, share, "left")
    return numbers[int(before)], numbers[int(behind)]
