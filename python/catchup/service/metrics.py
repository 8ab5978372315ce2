"""What operators count, of all workers together.

Each worker counts in its part of memory that all share. So no disk has to have room for it, and what a worker has
counted stays where it ends.
"""

from __future__ import annotations

import mmap
import re
from bisect import bisect_left
from collections.abc import Iterable, Iterator
from http import HTTPStatus
from typing import Any, Final

from prometheus_client import CollectorRegistry, generate_latest
from prometheus_client.core import CounterMetricFamily, GaugeMetricFamily, HistogramMetricFamily, Metric
from prometheus_client.registry import Collector

from catchup.service.accepting import SLOTS

OTHER: Final = "other"                  # paths that aren't known count together
PATHS: Final = (
    "/", "/route", "/day", "/best", "/reach", "/table", "/latest", "/network", "/edits", "/edits/ID", "/edit",
    "/health", "/metrics", "/openapi.json", "/docs", "/page", "/nearest/v1", "/route/v1", "/table/v1", OTHER)
PATH_AT: Final = {path: at for at, path in enumerate(PATHS)}
OF_MANY: Final = re.compile(r"/edits/|(/page|/(?:nearest|route|table)/v1)/")
STATUSES: Final = tuple(int(status) for status in HTTPStatus)
STATUS_AT: Final = {status: at for at, status in enumerate(STATUSES)}
BOUNDS: Final = (0.001, 0.002, 0.005, 0.01, 0.02, 0.05, 0.1, 0.2, 0.5, 1, 2, 5, 10, 30)

# The numbers of a worker's part, one after the other.
IS_USED: Final = 0
CHILDREN: Final = 1
SECONDS: Final = 2                      # their sum
BUCKETS: Final = 3                      # answers by seconds, up to each bound and above all
REQUESTS: Final = BUCKETS + len(BOUNDS) + 1     # answers by path and status
NUMBERS: Final = REQUESTS + len(PATHS) * len(STATUSES)
MOST_KNOWN: Final = 1_000               # addresses whose place among the numbers is kept in mind


class Figures:
    """The numbers of all workers, in memory that forked processes share."""

    def __init__(self) -> None:
        # A view of floats, of which the type knows nothing.
        self.cells: Any = memoryview(mmap.mmap(-1, 8 * NUMBERS * SLOTS)).cast("d")

    def part(self, slot: int) -> Any:
        """A worker's numbers, as a view."""
        part = self.cells[slot * NUMBERS:(slot + 1) * NUMBERS]
        part[IS_USED] = 1
        return part

    def leave(self, slot: int) -> None:
        """A worker is gone, and its children with it. What it counted stays."""
        self.cells[slot * NUMBERS + CHILDREN] = 0

    def sums(self) -> list[float]:
        """The numbers of all workers together."""
        parts = [self.cells[slot * NUMBERS:(slot + 1) * NUMBERS].tolist()
                 for slot in range(SLOTS) if self.cells[slot * NUMBERS + IS_USED]]
        return [sum(each) for each in zip(*parts)]


class Metrics:
    """What one worker counts, and tells of all."""

    def __init__(self, figures: Figures, slot: int) -> None:
        self.figures = figures
        self.part = figures.part(slot)
        self.known: dict[tuple[str, int], int] = {}

    def told(self, path: str, status: int, seconds: float) -> None:
        """Counts an answer."""
        at = self.known.get((path, status))
        if at is None:
            at = self.find(path, status)
        part = self.part
        part[at] += 1
        part[BUCKETS + bisect_left(BOUNDS, seconds)] += 1
        part[SECONDS] += seconds

    def find(self, path: str, status: int) -> int:
        """Where the answers of a path and a status are counted."""
        found = OF_MANY.match(path)
        name = path if found is None else found[1] or "/edits/ID"
        at = REQUESTS + PATH_AT.get(name, PATH_AT[OTHER]) * len(STATUSES) + STATUS_AT[status]
        if path in PATH_AT and len(self.known) < MOST_KNOWN:
            self.known[path, status] = at
        return at

    def tell_children(self, many: int) -> None:
        """So many children of this worker answer."""
        self.part[CHILDREN] = many

    def text(self, versions: Iterable[tuple[str, str]], jobs: dict[str, int]) -> bytes:
        """All counts, as Prometheus reads them. `versions` are profiles with what is served of each."""
        registry = CollectorRegistry()
        registry.register(Told([*families_of(self.figures.sums()), *states_of(versions, jobs)]))
        return bytes(generate_latest(registry))


class Told(Collector):
    """Metrics that are there already."""

    def __init__(self, families: list[Metric]) -> None:
        self.families = families

    def collect(self) -> Iterable[Metric]:
        """All of them."""
        return self.families


def families_of(sums: list[float]) -> Iterator[Metric]:
    """The metrics of all workers' numbers."""
    requests = CounterMetricFamily("catchup_requests", "Requests that were answered", labels=["path", "status"])
    counts = iter(sums[REQUESTS:])
    for path in PATHS:
        for status in STATUSES:
            if count := next(counts):
                requests.add_metric([path, str(status)], count)
    yield requests
    buckets: list[tuple[str, float]] = []
    total = 0.0
    for bound, count in zip([*map(float, BOUNDS), "+Inf"], sums[BUCKETS:REQUESTS]):
        total += count
        buckets.append((str(bound), total))
    yield HistogramMetricFamily("catchup_request_seconds", "Seconds from a request's head to its answer",
                                buckets=buckets, sum_value=sums[SECONDS])
    yield GaugeMetricFamily("catchup_children", "Children that answer", sums[CHILDREN])


def states_of(versions: Iterable[tuple[str, str]], jobs: dict[str, int]) -> Iterator[Metric]:
    """The metrics of what is served, and of jobs."""
    served = GaugeMetricFamily("catchup_version_info", "The version that is served", labels=["version", "profile"])
    for profile, version in versions:
        served.add_metric([version, profile], 1)
    yield served
    states = GaugeMetricFamily("catchup_jobs", "Edits that are kept in mind", labels=["state"])
    for state, count in jobs.items():
        states.add_metric([state], count)
    yield states
