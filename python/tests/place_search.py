"""Drives between places by a plain search over map.gpkg and profiles.csv. It shares no code with the package."""

from __future__ import annotations

import csv
import heapq
import math
import sqlite3
import struct
from bisect import bisect_right
from collections import defaultdict
from pathlib import Path

import numpy as np

DAY = 86_400
RADIUS = 6_371_008.8
Near = list[tuple[int, float]]


class Search:
    """A network, with every road's line."""

    def __init__(self, folder: Path) -> None:
        base = sqlite3.connect(folder / "map.gpkg")
        self.copy = [copy for copy, in base.execute("SELECT copy FROM nodes ORDER BY node")]
        self.tail, self.head, self.profile, self.lines = [], [], [], []
        self.leaving = defaultdict(list)
        rows = base.execute("SELECT road, tail, head, profile, geom FROM roads ORDER BY road")
        for road, tail, head, profile, blob in rows:
            self.tail.append(tail)
            self.head.append(head)
            self.profile.append(profile)
            self.lines.append(struct.unpack(f"<{(len(blob) - 17) // 8}d", blob[17:]))
            self.leaving[tail].append(road)
        base.close()
        self.pieces = defaultdict(lambda: ([], [], []))
        with open(folder / "profiles.csv", newline="") as file:
            for row in csv.DictReader(file):
                for column, value in zip(self.pieces[int(row["profile"])],
                                         (int(row["from"]), row["kind"], int(row["value"]))):
                    column.append(value)
        ends = [(road, k, line[2 * k:2 * k + 4]) for road, line in enumerate(self.lines)
                for k in range(len(line) // 2 - 1)]
        self.segment_road = np.array([end[0] for end in ends])
        self.segments = np.array([end[2] for end in ends]).reshape(-1, 2, 2)
        self.before = self._metres_before()

    def _metres_before(self) -> tuple[np.ndarray, np.ndarray]:
        """How many metres of its road lie before each segment, and how long each road is."""
        a, b = np.radians(self.segments[:, 0]), np.radians(self.segments[:, 1])
        x = (b[:, 0] - a[:, 0]) * np.cos((a[:, 1] + b[:, 1]) / 2)
        self.steps = RADIUS * np.hypot(x, b[:, 1] - a[:, 1])
        so_far = np.cumsum(self.steps) - self.steps
        first = np.searchsorted(self.segment_road, np.arange(len(self.tail)))
        return so_far - so_far[first][self.segment_road], np.bincount(self.segment_road, self.steps, len(self.tail))

    def near(self, lon: float, lat: float) -> tuple[float, Near]:
        """How far the nearest road is, and all roads as near (a thousandth of a millimetre more or less), with the
        share of each that lies before its nearest point."""
        away = np.radians(self.segments - (lon, lat))
        away[..., 0] *= np.cos(np.radians((self.segments[..., 1] + lat) / 2))
        start, step = RADIUS * away[:, 0], RADIUS * (away[:, 1] - away[:, 0])
        part = np.clip(-(start * step).sum(1) / np.maximum((step * step).sum(1), 1e-12), 0, 1)
        metres = np.hypot(*(start + part[:, None] * step).T)
        before, length = self.before
        shares: dict[int, float] = {}
        near = np.flatnonzero(metres <= metres.min() + 1e-6)
        for row in near[np.argsort(metres[near], kind="stable")].tolist():
            road = int(self.segment_road[row])
            shares.setdefault(road, float((before[row] + part[row] * self.steps[row]) / max(length[road], 1e-9)))
        return float(metres.min()), sorted(shares.items())

    def arrive(self, road: int, time: float) -> float | None:
        """When one leaves a road; None where it is closed."""
        starts, kinds, values = self.pieces[self.profile[road]]
        day, now = divmod(time, DAY)
        at = bisect_right(starts, now) - 1
        if kinds[at] == "closed":
            return None
        return time + values[at] if kinds[at] == "travel" else max(time, day * DAY + values[at])

    def drive(self, start: Near, end: Near, depart: float) -> float | None:
        """The least arrival; None where no way leads."""
        best, queue = math.inf, []
        goals = defaultdict(list)
        for road, share in end:
            goals[self.tail[road]].append((road, share))
        for road, share in start:
            left = self.arrive(road, depart)
            if left is None or self.copy[self.tail[road]]:
                continue
            heapq.heappush(queue, (depart + (1 - share) * (left - depart), self.head[road]))
            best = min([best, *(depart + (ahead - share) * (left - depart)
                                for other, ahead in end if other == road and ahead >= share)])
        done = set()
        while queue and queue[0][0] < best:
            time, node = heapq.heappop(queue)
            if node in done:
                continue
            done.add(node)
            for road, share in goals[node]:
                if (left := self.arrive(road, time)) is not None:
                    best = min(best, time + share * (left - time))
            for road in self.leaving[node]:
                if (left := self.arrive(road, time)) is not None and self.head[road] not in done:
                    heapq.heappush(queue, (left, self.head[road]))
        return None if math.isinf(best) else best
