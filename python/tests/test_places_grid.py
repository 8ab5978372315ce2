"""Points near a place, by the grid's cells, beside a look at all of them."""

from __future__ import annotations

import numpy as np
import pytest

from catchup.places.grid import Floats, Grid
from catchup.places.index import on_ball

# West, east, south and north: a country, both sides of 180 degrees, around a pole, the earth, a line, one spot.
BOXES = [(9.4, 9.7, 47.0, 47.3), (179.9, 180.1, -1.0, 1.0), (0.0, 360.0, 89.9, 90.0), (0.0, 360.0, -90.0, 90.0),
         (5.0, 6.0, 3.0, 3.0), (5.0, 5.0, 3.0, 3.0)]


def near(grid: Grid, at: Floats, radius: float) -> list[int]:
    """The points near another one."""
    x, y, z = at.tolist()
    return [point for begin, end in grid.near((x, y, z), radius) for point in grid.order[begin:end].tolist()]


@pytest.mark.parametrize("box", BOXES, ids=str)
def test_all_near_points_are_found(box: tuple[float, float, float, float]) -> None:
    draw = np.random.default_rng(1)
    lon = (draw.uniform(box[0], box[1], 2_000) + 180.0) % 360.0 - 180.0
    lat = draw.uniform(box[2], box[3], 2_000)
    points = on_ball(np.column_stack((lon, lat)))
    grid = Grid(points)
    for row in draw.integers(len(points), size=60).tolist():
        at = on_ball(np.array([lon[row], min(max(lat[row] + draw.normal() * 0.01, -90.0), 90.0)]))
        radius = 10.0 ** draw.uniform(0.0, 7.2)
        found = near(grid, at, radius)
        away = np.sqrt(np.square(points - at).sum(axis=1))
        assert set(np.flatnonzero(away <= radius).tolist()) <= set(found)
        assert len(found) == len(set(found))


def test_few_of_the_others_are() -> None:
    draw = np.random.default_rng(2)
    points = on_ball(np.column_stack((draw.uniform(9.0, 10.0, 50_000), draw.uniform(46.5, 47.5, 50_000))))
    grid = Grid(points)
    for radius in (100.0, 2_000.0):
        found = [len(near(grid, at, radius)) for at in points[:200]]
        # A square around the circle, and cells that it cuts.
        area = (2 * radius + 2 * 100.0) ** 2
        assert np.mean(found) <= 1.2 * 50_000 * area / (111_195.0 * 76_000.0) + 1


def test_a_grid_of_nothing() -> None:
    assert not near(Grid(np.empty((0, 3))), on_ball(np.array([9.0, 47.0])), 1e7)
