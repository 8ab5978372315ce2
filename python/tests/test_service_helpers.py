"""Helpers of a child: lines of one question that several processes answer."""

from __future__ import annotations

import asyncio
import os
from collections.abc import Awaitable, Callable, Sequence
from pathlib import Path
from typing import Any

import pytest
from conftest import EXAMPLES
from waiting import SECONDS

from catchup.program import find_program, run_program

uvicorn = pytest.importorskip("uvicorn", reason="python3-uvicorn isn't installed")

from catchup.service import helpers  # noqa: E402
from catchup.service.children import NotOpened  # noqa: E402
from catchup.service.errors import Refusal  # noqa: E402
from catchup.service.helpers import Helpers, Work, helpers_for  # noqa: E402
from catchup.service.versions import Version  # noqa: E402

LINES = [b"%d" % number for number in range(100)]


class Made:
    """A child that isn't a process: it answers each line by itself, in some seconds."""

    def __init__(self, seconds: float, fails_at: bytes | None = None, fails_from: bytes = b"a") -> None:
        self.seconds, self.fails_at, self.fails_from = seconds, fails_at, fails_from
        self.loop = asyncio.get_running_loop()
        self.answered: list[bytes] = []
        self.is_lost = self.is_killed = self.is_closed = self.is_overdue = self.is_slow = False
        self.on_gone: Callable[[Any], None] | None = None

    async def ask_all(self, lines: Sequence[bytes]) -> list[bytes]:
        for line in lines:
            await asyncio.sleep(self.seconds)
            if line == self.fails_at or line >= self.fails_from:
                raise Refusal(503, "the program has ended")
            self.answered.append(line)
        return [b"answer " + line for line in lines]

    def is_late(self, now: float) -> bool:
        return self.is_slow

    def kill(self) -> None:
        self.is_killed = True

    def close(self) -> None:
        self.is_closed = True


def run(test: Callable[[], Awaitable[None]], monkeypatch: pytest.MonkeyPatch, patience: float = 0.02) -> None:
    monkeypatch.setattr(helpers, "PATIENCE_SECONDS", patience)
    asyncio.run(asyncio.wait_for(test(), SECONDS))  # type: ignore[arg-type]


def helpers_of(made: list[Made], most: int, **of: Any) -> Helpers:
    async def start() -> Any:
        made.append(Made(0.002, **of))
        return made[-1]

    return Helpers(start, most)


def test_all_help_and_replies_have_their_order(monkeypatch: pytest.MonkeyPatch) -> None:
    async def test() -> None:
        made: list[Made] = []
        group, child = helpers_of(made, 3), Made(0.002)
        for _ in range(2):
            assert await group.ask_all(child, LINES) == [b"answer " + line for line in LINES]  # type: ignore[arg-type]
        assert len(made) == 3 and all(each.answered for each in made)
        assert sorted(line for each in (child, *made) for line in each.answered) == sorted(2 * LINES)

    run(test, monkeypatch)


def test_quick_lines_are_one_childs(monkeypatch: pytest.MonkeyPatch) -> None:
    async def test() -> None:
        made: list[Made] = []
        group, child = helpers_of(made, 3), Made(0.0)
        await group.ask_all(child, LINES)  # type: ignore[arg-type]
        assert not made and len(child.answered) == len(LINES)

    run(test, monkeypatch, patience=SECONDS)


def test_few_lines_are_one_childs_however_long_they_take(monkeypatch: pytest.MonkeyPatch) -> None:
    async def test() -> None:
        made: list[Made] = []
        group, child = helpers_of(made, 3), Made(0.005)
        await group.ask_all(child, LINES[:helpers.MANY - 1])  # type: ignore[arg-type]
        await helpers_of(made, 0).ask_all(child, LINES)  # type: ignore[arg-type]
        assert not made and len(child.answered) == len(LINES) + helpers.MANY - 1
        # With one line more they would have been called.
        await group.ask_all(child, LINES[:helpers.MANY])  # type: ignore[arg-type]
        assert made

    run(test, monkeypatch, patience=0.0)


@pytest.mark.parametrize("count", [1, 15, 16, 17, 100, 1000])
def test_shares_are_ever_fewer_lines_and_each_line_is_in_one(count: int) -> None:
    work = Work([b"%d" % number for number in range(count)])
    shares = []
    while work.left:
        shares.append(work.take())
    assert [number for share in shares for number in share] == list(range(count))
    sizes = [len(share) for share in shares]
    assert sizes == sorted(sizes, reverse=True) and sizes[0] == -(-count // helpers.SHARES) and sizes[-1] == 1


def test_a_share_that_came_back_is_taken_again() -> None:
    work = Work([b""] * 100)
    first = work.take()
    work.left.append(first)
    taken = []
    while work.left:
        taken += work.take()
    assert sorted(taken) == list(range(100))


def test_where_the_child_ends_whoever_asks_is_told(monkeypatch: pytest.MonkeyPatch) -> None:
    async def test() -> None:
        group = helpers_of([], 2)
        with pytest.raises(Refusal, match="the program has ended"):
            await group.ask_all(Made(0.002, fails_at=b"90"), LINES)  # type: ignore[arg-type]
        assert not group.works

    run(test, monkeypatch, patience=50.0)


@pytest.mark.parametrize("patience", [0.0, 0.02])
def test_what_a_helper_leaves_that_ends_is_done(patience: float, monkeypatch: pytest.MonkeyPatch) -> None:
    async def test() -> None:
        made: list[Made] = []
        # Each helper ends at the first line that it has of these.
        group, child = helpers_of(made, 2, fails_from=b"50"), Made(0.004)
        for _ in range(2):
            assert await group.ask_all(child, LINES) == [b"answer " + line for line in LINES]  # type: ignore[arg-type]
        assert len(made) == 2 and not group.works

    run(test, monkeypatch, patience)


def test_one_that_cannot_be_started_is_not_needed(monkeypatch: pytest.MonkeyPatch) -> None:
    async def test() -> None:
        async def start() -> Any:
            raise NotOpened("ended with status 9")

        group, child = Helpers(start, 2), Made(0.002)
        assert len(await group.ask_all(child, LINES)) == len(LINES)  # type: ignore[arg-type]
        assert child.answered == LINES and not group.children

    run(test, monkeypatch)


def test_they_end_when_unused_late_or_over(monkeypatch: pytest.MonkeyPatch) -> None:
    async def test() -> None:
        made: list[Made] = []
        group, child = helpers_of(made, 2), Made(0.002)
        await group.ask_all(child, LINES)  # type: ignore[arg-type]
        now = asyncio.get_running_loop().time()
        group.look(now)
        assert len(group.children) == 2 and not any(each.is_closed for each in made)
        made[0].is_slow = True
        group.look(now)
        assert made[0].is_killed and made[0].is_overdue
        assert made[0].on_gone is not None
        made[0].on_gone(made[0])
        group.look(now + helpers.UNUSED_SECONDS + 1)
        assert made[1].is_closed and not group.children
        await group.ask_all(child, LINES)  # type: ignore[arg-type]
        group.end()
        assert len(made) == 4 and all(each.is_killed for each in made[2:]) and not group.children

    run(test, monkeypatch)


def test_one_that_comes_when_all_is_over_ends(monkeypatch: pytest.MonkeyPatch) -> None:
    async def test() -> None:
        made: list[Made] = []
        go = asyncio.Event()

        async def start() -> Any:
            await go.wait()
            made.append(Made(0.0))
            return made[-1]

        group = Helpers(start, 1)
        await group.ask_all(Made(0.002), LINES)  # type: ignore[arg-type]
        group.end()
        go.set()
        while group.coming:
            await asyncio.sleep(0)
        assert made[0].is_killed and not group.children

    run(test, monkeypatch)


def test_how_many_there_may_be(monkeypatch: pytest.MonkeyPatch) -> None:
    monkeypatch.setattr(helpers.os, "sched_getaffinity", lambda _: set(range(4)))
    assert [helpers_for(workers) for workers in (1, 2, 3, 4, 9)] == [3, 1, 0, 0, 0]
    monkeypatch.setattr(helpers.os, "sched_getaffinity", lambda _: set(range(64)))
    assert helpers_for(1) == helpers.MOST


def test_a_versions_helpers_say_what_it_says_and_end_with_it(
        program: Path, tmp_path: Path, monkeypatch: pytest.MonkeyPatch) -> None:
    tables = [EXAMPLES / "town" / name for name in ("nodes.csv", "roads.csv", "profiles.csv")]
    assert run_program(["build", *tables, "dissect", tmp_path / "town.cu"]).status == 0
    lines = [b"t,%d,1,%d,%s" % (25_000 + 20 * number, number % 159, b",".join(b"%d" % node for node in range(150)))
             for number in range(300)]

    async def test() -> None:
        version = Version(os.open(tmp_path / "town.cu", os.O_RDONLY), str(find_program()), None, 2)
        await version.start()
        with version.held():
            said = await version.helpers.ask_all(version.slow, lines)
            while version.helpers.coming:
                await asyncio.sleep(0.01)
            children = list(version.helpers.children)
            assert len(children) == 2
            assert said == await version.helpers.ask_all(version.slow, lines) == await version.slow.ask_all(lines)
            version.retire()
            assert all(child.process.poll() is None for child in children)
        for child in (*children, version.quick, version.slow):
            await child.gone.wait()

    run(test, monkeypatch, patience=0.0)
