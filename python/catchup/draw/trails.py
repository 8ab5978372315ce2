"""Roads as trails: steps of a path, which go along roads as far as there are new ones, so that a road takes few bytes."""

from __future__ import annotations

from collections.abc import Iterator

# Roads of a trail at most, so that a line of the picture stays short.
_LONGEST = 200


def grain_of(roads: int) -> float:
    """The unit of trails in the picture's: where roads are many they are drawn more coarsely."""
    return 1 if roads > 400_000 else 0.5 if roads > 12_000 else 0.1


class Trails:
    """Places and the roads between them, each once: the road back, and roads beside it, are the same line.

    Places are counted in `grain` units of the picture.
    """

    def __init__(self, grain: float) -> None:
        self._grain = grain
        self._number: dict[tuple[int, int], int] = {}
        self._places: list[tuple[int, int]] = []
        # At each place the other ends of its roads.
        self._joined: list[list[int]] = []
        self._seen: set[tuple[int, int]] = set()

    def point(self, at: tuple[float, float]) -> int:
        """The number of the place next to this one."""
        key = _rounded(at[0] / self._grain), _rounded(at[1] / self._grain)
        number = self._number.setdefault(key, len(self._places))
        if number == len(self._places):
            self._places.append(key)
            self._joined.append([])
        return number

    def join(self, a: int, b: int) -> None:
        """A road between two places."""
        key = (a, b) if a < b else (b, a)
        if a == b or key in self._seen:
            return
        self._seen.add(key)
        self._joined[a].append(b)
        self._joined[b].append(a)

    def places(self) -> Iterator[str]:
        """A dot for each place: a line of no length."""
        return (f"M{x} {y}h0" for x, y in self._places)

    def lines(self) -> Iterator[str]:
        """The trails; none is left behind."""
        for start in range(len(self._places)):
            while trail := self._trail(start):
                yield trail

    def _trail(self, at: int) -> str:
        steps: list[str] = []
        begin_x, begin_y = here_x, here_y = self._places[at]
        while len(steps) < _LONGEST and (other := self._next(at)) is not None:
            x, y = self._places[other]
            steps.append(f"{x - here_x} {y - here_y} ")
            at, here_x, here_y = other, x, y
        return f"M{begin_x} {begin_y}l" + "".join(steps) if steps else ""

    def _next(self, at: int) -> int | None:
        """The other end of a road here that no trail has yet, which it has from now on."""
        ends = self._joined[at]
        while ends:
            other = ends.pop()
            key = (at, other) if at < other else (other, at)
            if key in self._seen:
                self._seen.remove(key)
                return other
        return None


def _rounded(value: float) -> int:
    return int(value + (-0.5 if value < 0 else 0.5))
