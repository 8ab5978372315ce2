"""Places in an order in which neighbours come behind one another."""

from __future__ import annotations

import numpy as np
import pytest
from hypothesis import given
from hypothesis import strategies as some

from catchup.places import curve
from catchup.places.curve import along

PLACES = some.lists(some.tuples(some.floats(-180.0, 180.0), some.floats(-90.0, 90.0)), max_size=40)


@given(PLACES)
def test_each_place_comes_once(places: list[tuple[float, float]]) -> None:
    assert sorted(along(places).tolist()) == list(range(len(places)))


def test_the_curve_goes_from_each_cell_to_one_beside_it(monkeypatch: pytest.MonkeyPatch) -> None:
    monkeypatch.setattr(curve, "LEVELS", 4)
    places = [(float(x), float(y)) for y in range(16) for x in range(16)]
    order = along([(x * 16 / 15, y * 16 / 15) for x, y in places])
    way = np.array([places[at] for at in order.tolist()])
    assert (np.abs(np.diff(way, axis=0)).sum(axis=1) == 1).all()


def test_places_of_one_cell_come_as_they_are_given() -> None:
    assert along([(9.5, 47.1)] * 5).tolist() == [0, 1, 2, 3, 4]
    assert along([(9.0, 47.0), (9.9, 47.9), (9.0, 47.0), (9.9, 47.9)]).tolist() == [0, 2, 1, 3]
