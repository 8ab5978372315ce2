"""Small networks of all shapes: every kind of line, by `serve` and by `build` and `ask`, beside plain Dijkstra."""

from __future__ import annotations

import heapq
import random
from pathlib import Path

import numpy as np
import numpy.typing as npt
import pytest

from catchup.program import run_program
from catchup.replies import (
    Day,
    Departure,
    Done,
    Drive,
    Piece,
    Reach,
    Reply,
    Table,
    TooLate,
    Unreachable,
    parse,
)
from catchup.tables import Network, Nodes, Roads, profiles_of, write_network, write_order

DAY = 86_400
NETWORKS = 200
NEVER = 10**15

Pieces = tuple[Piece, ...]


# ---- the independent answer ----


def drive(pieces: Pieces, second: int) -> int:
    """When one arrives who enters a road of this profile at an absolute second."""
    day, of_day = divmod(second, DAY)
    piece = max((each for each in pieces if each.start <= of_day), key=lambda each: each.start)
    if piece.kind == "closed":
        return NEVER
    return day * DAY + piece.value if piece.kind == "until" else second + piece.value


class Plain:
    """A network as edited so far, answered by time-dependent Dijkstra."""

    def __init__(self, nodes: int, roads: list[list[int]], profiles: list[Pieces]) -> None:
        self.nodes, self.roads, self.profiles = nodes, roads, profiles

    def reach(self, origin: int, second: int) -> list[int]:
        least = [NEVER] * self.nodes
        least[origin] = second
        heap = [(second, origin)]
        while heap:
            now, node = heapq.heappop(heap)
            if now > least[node]:
                continue
            for tail, head, profile in self.roads:
                if tail == node and (then := drive(self.profiles[profile], now)) < least[head]:
                    least[head] = then
                    heapq.heappush(heap, (then, head))
        return least

    def driven(self, origin: int, roads: tuple[int, ...], second: int) -> tuple[int, int]:
        """Where one is who drives these roads, and when."""
        for road in roads:
            tail, head, profile = self.roads[road]
            assert tail == origin, "the roads don't join"
            origin, second = head, drive(self.profiles[profile], second)
        return origin, second

    def latest(self, origin: int, target: int, by: int) -> int | None:
        """The greatest second of the day from which one is in time; None where there is none."""
        if self.reach(origin, 0)[target] > by:
            return None
        low, high = 0, DAY
        while high - low > 1:
            middle = (low + high) // 2
            low, high = (middle, high) if self.reach(origin, middle)[target] <= by else (low, middle)
        return low


# ---- networks and scripts ----


def draw_profile(draw: random.Random) -> Pieces:
    """A profile that lets nobody overtake: constant, closed, a gate, or a rush hour that ends by waiting."""
    travel = draw.choice([0, 1, draw.randrange(5000), draw.randrange(5000)])
    shape = draw.randrange(8)
    if shape == 0:
        return (Piece(0, "closed", 0),)
    if shape == 1:
        opens = draw.randrange(1, DAY)
        return (Piece(0, "until", opens + travel), Piece(opens, "travel", travel))
    if shape == 2:
        return (Piece(0, "until", DAY + draw.randrange(DAY)),)
    if shape < 5:
        begin, more = draw.randrange(1, 40_000), draw.randrange(1, 4000)
        end = begin + draw.randrange(1, 30_000)
        rush = [Piece(0, "travel", travel), Piece(begin, "travel", travel + more)]
        return (*rush, Piece(end, "until", end + travel + more), Piece(end + more, "travel", travel))
    return (Piece(0, "travel", travel),)


def draw_network(draw: random.Random) -> Plain:
    nodes = draw.randrange(1, 9)
    profiles = [draw_profile(draw) for _ in range(draw.randrange(1, 6))]
    count = draw.randrange(0, 3 * nodes + 1)
    roads = [[draw.randrange(nodes), draw.randrange(nodes), draw.randrange(len(profiles))] for _ in range(count)]
    return Plain(nodes, roads, profiles)


def write(plain: Plain, folder: Path, draw: random.Random) -> None:
    places = [draw.randrange(1000) for _ in range(2 * plain.nodes)]
    columns = zip(*plain.roads) if plain.roads else ((), (), ())
    nodes = Nodes(*(array(part) for part in (places[::2], places[1::2])))
    write_network(folder, Network(nodes, Roads(*(array(column) for column in columns)), profiles_of(plain.profiles)))
    order = list(range(plain.nodes))
    draw.shuffle(order)
    write_order(folder / "order.csv", array(order))


def array(values: object) -> npt.NDArray[np.int64]:
    return np.array(values, np.int64)


def draw_script(plain: Plain, draw: random.Random) -> list[str]:
    def node() -> int:
        return draw.randrange(plain.nodes)

    lines = []
    for _ in range(14):
        second = draw.choice([0, DAY - 1, draw.randrange(DAY), draw.randrange(DAY)])
        kind = draw.choice("qqqdrtlsa")
        if kind == "q":
            lines.append(f"q,{node()},{node()},{second}")
        elif kind == "d":
            lines.append(f"d,{node()},{node()}")
        elif kind == "r":
            lines.append(f"r,{node()},{second}")
        elif kind == "t":
            sources = [node() for _ in range(draw.randrange(4))]
            targets = [node() for _ in range(draw.randrange(4))]
            lines.append(",".join(map(str, ["t", second, len(sources), *sources, *targets])))
        elif kind == "l":
            lines.append(f"l,{node()},{node()},{draw.randrange(2 * DAY)}")
        elif kind == "s":
            pieces = draw_profile(draw)
            lines.append(f"s,{draw.randrange(len(plain.profiles))},{','.join(map(str, pieces))}")
        elif plain.roads:
            lines.append(f"a,{draw.randrange(len(plain.roads))},{draw.randrange(len(plain.profiles))}")
    return lines


# ---- comparing ----


def entry(arrival: int) -> int | None:
    return None if arrival >= NEVER else arrival


def check(plain: Plain, line: str, reply: Reply) -> None:
    """That the reply is right over the network so far; an edit is made in it."""
    kind, *words = line.split(",")
    if kind == "s":
        assert isinstance(reply, Done)
        pieces = [Piece(int(a), b, int(c)) for a, b, c in zip(words[1::3], words[2::3], words[3::3])]  # type: ignore[arg-type]
        plain.profiles[int(words[0])] = tuple(pieces)
        return
    numbers = tuple(map(int, words))
    if kind == "a":
        assert isinstance(reply, Done)
        plain.roads[numbers[0]][2] = numbers[1]
    elif kind == "q":
        origin, target, second = numbers
        check_drive(plain, origin, target, second, reply)
    elif kind == "r":
        assert reply == Reach(tuple(map(entry, plain.reach(*numbers))))
    elif kind == "t":
        second, count, *nodes = numbers
        rows = [plain.reach(source, second) for source in nodes[:count]]
        assert reply == Table(tuple(entry(row[target]) for row in rows for target in nodes[count:]))
    elif kind == "d":
        check_day(plain, *numbers, reply)
    else:
        check_latest(plain, *numbers, reply)


def check_drive(plain: Plain, origin: int, target: int, second: int, reply: Reply) -> None:
    least = plain.reach(origin, second)[target]
    if least >= NEVER:
        assert reply == Unreachable()
    else:
        assert isinstance(reply, Drive) and reply.arrive == least
        assert plain.driven(origin, reply.roads, second) == (target, least)


def check_day(plain: Plain, origin: int, target: int, reply: Reply) -> None:
    if isinstance(reply, Unreachable):
        assert plain.reach(origin, 0)[target] >= NEVER
        return
    assert isinstance(reply, Day)
    corners = {second for piece in reply.pieces for second in (piece.start - 1, piece.start, piece.start + 1)}
    corners |= {piece.value for piece in reply.pieces if piece.kind == "until"} | set(range(0, DAY, 9973))
    for second in sorted(corner for corner in corners if 0 <= corner < DAY):
        assert reply.arrival(second) == plain.reach(origin, second)[target]


def check_latest(plain: Plain, origin: int, target: int, by: int, reply: Reply) -> None:
    if isinstance(reply, Unreachable):
        assert plain.reach(origin, 0)[target] >= NEVER
        return
    depart = plain.latest(origin, target, by)
    if depart is None:
        assert reply == TooLate()
    else:
        assert isinstance(reply, Departure) and reply.depart == depart
        assert reply.arrive == plain.reach(origin, depart)[target]
        assert plain.driven(origin, reply.roads, depart) == (target, reply.arrive)


@pytest.mark.parametrize("start", range(0, NETWORKS, 20))
def test_no_reply_differs(program: Path, tmp_path: Path, start: int) -> None:
    for seed in range(start, start + 20):
        draw = random.Random(seed)
        plain = draw_network(draw)
        write(plain, tmp_path, draw)
        script = draw_script(plain, draw)
        tables = [tmp_path / name for name in ("nodes.csv", "roads.csv", "profiles.csv")]
        order = draw.choice([tmp_path / "order.csv", "identity", "dissect"])
        said = "\n".join(script)
        served = run_program(["serve", *tables, order], input=said)
        build = run_program(["build", *tables, order, tmp_path / "made.cu"])
        assert build.status == 0, (seed, build)
        asked = run_program(["ask", tmp_path / "made.cu"], input=said)
        assert (served.status, served.error) == (asked.status, asked.error) == (0, ""), seed
        # Of equal walks either may be named, so replies are compared with what is right and not with one another.
        for replies in (served.output.splitlines(), asked.output.splitlines()):
            now = Plain(plain.nodes, [list(road) for road in plain.roads], list(plain.profiles))
            assert len(replies) == len(script)
            for line, reply in zip(script, replies):
                try:
                    check(now, line, parse(reply))
                except AssertionError as error:
                    raise AssertionError(f"network {seed}, line {line}, reply {reply}") from error
