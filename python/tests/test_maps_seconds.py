"""Whole seconds of the roads along a way: near each road's own, and near those of each stretch."""
from __future__ import annotations

from math import floor

import numpy as np
import pytest
from hypothesis import given
from hypothesis import strategies as st

from catchup.maps.seconds import SHARE, SPARE, rounded_along

exact_seconds = st.one_of(st.floats(0, 12), st.sampled_from([0.0, 0.4, 0.5, 1.44, 2.5, 2.6]))
ways = st.lists(st.one_of(st.lists(exact_seconds, min_size=1, max_size=40), st.builds(lambda one, count: [one] * count, exact_seconds, st.integers(1, 90))),
                min_size=1, max_size=6)


def along(*ways: list[float]) -> list[list[int]]:
    whole = rounded_along(np.concatenate([np.array(way) for way in ways]), np.array([len(way) for way in ways])).tolist()
    return [[whole.pop(0) for _ in way] for way in ways]


@given(ways)
def test_no_road_and_no_stretch_is_far_off(ways: list[list[float]]) -> None:
    """A road is off by half a second at most, or by less than one where a stretch that ends with it would be too far off."""
    for exact, whole in zip(ways, along(*ways)):
        off = [w - e for w, e in zip(whole, exact)]
        for k, error in enumerate(off):
            stretches = [(sum(off[i:k]), sum(exact[i:k + 1])) for i in range(k + 1)]
            assert all(abs(before + error) <= SPARE + SHARE * seconds + 1e-9 for before, seconds in stretches)
            near = floor(exact[k] + 0.5) - exact[k]
            assert error == near or abs(error) < 1 and any(abs(before + near) > SPARE + SHARE * seconds - 1e-9 for before, seconds in stretches)


@pytest.mark.parametrize("seconds, count, near", [(0.4, 100, 40), (1.44, 100, 144), (2.5, 60, 150), (3.49, 20, 70), (1.5, 20, 30), (0.0, 50, 0)])
def test_a_long_way_of_short_roads_is_within_a_tenth(seconds: float, count: int, near: int) -> None:
    [whole] = along([seconds] * count)
    assert abs(sum(whole) - near) <= near / 10 and max(whole) - min(whole) <= 1


def test_roads_of_ten_seconds_are_all_the_nearest() -> None:
    assert along([10.5] * 200, [12.49] * 200, [99.5]) == [[11] * 200, [12] * 200, [100]]


def test_half_a_second_a_road_and_a_tenth_of_a_way_cant_both_be() -> None:
    """A road of 0.4 s is within half a second of 0 alone. A hundred of them are 40 s."""
    assert [whole for whole in range(3) if abs(whole - 0.4) <= 0.5] == [0] and sum(along([0.4] * 100)[0]) == 37
