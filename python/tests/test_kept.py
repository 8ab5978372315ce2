"""What is kept as long as there is room."""

from __future__ import annotations

import random

from catchup.kept import Kept


def test_what_was_looked_up_last_is_there() -> None:
    made: list[int] = []

    def make(key: int) -> str:
        made.append(key)
        return str(key)

    kept: Kept[int, str] = Kept(8, make)
    draw = random.Random(1)
    recent: list[int] = []
    for _ in range(2_000):
        key = draw.choice(recent) if recent and draw.random() < 0.5 else draw.randrange(100)
        before = len(made)
        assert kept[key] == str(key) and len(kept) <= 8
        assert len(made) == before or key not in recent
        recent = [*(each for each in recent if each != key), key][-8:]
        assert key in kept


def test_no_more_than_two_halves_are_there() -> None:
    made: list[int] = []
    kept: Kept[int, None] = Kept(8, made.append)
    for key in range(1_000):
        assert kept[key] is None
    assert made == [*range(1_000)]
    for key in range(992, 1_000):
        assert kept[key] is None
    assert len(made) == 1_000
    for key in range(1_000 - 16):
        assert kept[key] is None
    assert made == [*range(1_000), *range(1_000 - 16)]


def test_many_are_looked_up_at_once() -> None:
    kept: Kept[int, int] = Kept(4, lambda key: key * key)
    assert [*map(kept.__getitem__, range(20))] == [key * key for key in range(20)]
