"""Threads that share the processes of a planner have them in turn, as the calls of asyncio do; and what an interrupt leaves."""

from __future__ import annotations

import asyncio
import signal
import subprocess
import sys
import threading
from collections.abc import Callable, Iterator, Sequence
from contextlib import contextmanager
from pathlib import Path

import pytest
from planners import in_threads, stub
from waiting import wait_for

import catchup
from catchup import AsyncPlanner, Ended, Planner, Route
from catchup.pool import Turn

# A program whose reply to each line is how many it had before.
COUNTS = 'n=0; while read -r line; do echo "arrive=$n arcs="; n=$((n + 1)); done'
ASKERS = 8
# Of all together: some seconds.
CALLS = 8_000


@contextmanager
def taken(planner: Planner) -> Iterator[None]:
    """Has one of the processes."""
    turn = Turn()
    assert planner._pool.wait(turn)
    yield
    planner._pool.end(turn)


def start_in_order(planner: Planner, works: Sequence[Callable[[], object]]) -> list[threading.Thread]:
    """Starts threads that ask, each once the one before has asked or waits for that."""
    threads = [threading.Thread(target=work) for work in works]
    for number, thread in enumerate(threads, len(planner._pool._turns) + 1):
        thread.start()
        assert wait_for(lambda: len(planner._pool._turns), lambda found: found == number) == number
    return threads


def arrival(route: Route | None) -> int:
    assert route
    return route.arrive


def test_busy_threads_have_about_as_many_calls_each(town: Path) -> None:
    calls = [0] * ASKERS
    barrier = threading.Barrier(ASKERS)

    def ask(number: int) -> None:
        barrier.wait(600)
        while sum(calls) < CALLS:
            planner.route(5, 151, calls[number])
            calls[number] += 1

    with Planner(town, processes=2) as planner:
        assert in_threads(ASKERS, ask) == []
    assert min(calls) >= CALLS / ASKERS / 2, calls


def test_busy_calls_of_asyncio_have_about_as_many_each(town: Path) -> None:
    calls = [0] * ASKERS

    async def ask(planner: AsyncPlanner, number: int) -> None:
        while sum(calls) < CALLS:
            await planner.route(5, 151, calls[number])
            calls[number] += 1

    async def ask_all() -> None:
        async with await AsyncPlanner.start(town, processes=2) as planner:
            await asyncio.gather(*(ask(planner, number) for number in range(ASKERS)))

    asyncio.run(ask_all())
    assert min(calls) >= CALLS / ASKERS / 2, calls


def test_threads_are_answered_in_the_order_in_which_they_came(tmp_path: Path, monkeypatch: pytest.MonkeyPatch) -> None:
    stub(tmp_path, COUNTS, monkeypatch)
    found: dict[int, int] = {}

    def asking(number: int) -> Callable[[], object]:
        return lambda: found.update({number: arrival(planner.route(0, 0, 0))})

    with Planner("a.cu") as planner:
        with taken(planner):
            threads = start_in_order(planner, [asking(number) for number in range(20)])
        for thread in threads:
            thread.join(600)
        assert found == {number: number for number in range(20)}
        assert arrival(planner.route(0, 0, 0)) == 20


def test_calls_of_asyncio_are_answered_in_the_order_in_which_they_came(tmp_path: Path, monkeypatch: pytest.MonkeyPatch) -> None:
    stub(tmp_path, COUNTS, monkeypatch)
    ended: list[int] = []

    async def ask(planner: AsyncPlanner) -> int:
        found = arrival(await planner.route(0, 0, 0))
        ended.append(found)
        return found

    async def ask_all() -> list[int]:
        async with await AsyncPlanner.start("a.cu") as planner:
            return await asyncio.gather(*(ask(planner) for _ in range(20)))

    assert asyncio.run(ask_all()) == ended == list(range(20))


def test_closing_wakes_who_waits_and_waits_for_who_asks(tmp_path: Path, monkeypatch: pytest.MonkeyPatch) -> None:
    stub(tmp_path, COUNTS, monkeypatch)
    said: list[str] = []

    def ask() -> None:
        with pytest.raises(Ended) as raised:
            planner.route(0, 0, 0)
        said.append(str(raised.value))

    planner = Planner("a.cu", processes=2)
    closing = threading.Thread(target=planner.close)
    with taken(planner):
        with taken(planner):
            threads = start_in_order(planner, [ask] * 5)
            closing.start()
            for thread in threads:
                thread.join(600)
            ask()
            assert said == ["the program has ended with status 0: the planner is closed"] * 6
        assert closing.is_alive() and planner._all[0].ask("q,0,0,0") == "arrive=0 arcs="
    closing.join(600)
    assert not closing.is_alive()
    assert [child._process and child._process.returncode for child in planner._all] == [0, 0]


def run_script(code: str, *words: str | Path) -> subprocess.Popen[str]:
    """Starts Python over the package, with its output to be read."""
    folder = Path(catchup.__file__).parents[1]
    pipe = subprocess.PIPE
    return subprocess.Popen([sys.executable, "-c", code, *words], text=True, stdout=pipe, stderr=pipe, cwd=folder)


WAITING = """
import threading, time
from catchup import Planner
from catchup.pool import Turn

def wait_for_turns(count):
    while len(planner._pool._turns) < count:
        time.sleep(0.01)

def ask():
    found.append(planner.route(0, 0, 0).arrive)

def go_before_and_behind():
    before.start()
    wait_for_turns(2)
    ready.set()
    wait_for_turns(3)
    behind.start()
    wait_for_turns(4)
    print("waiting", flush=True)

planner, turn, found, ready = Planner("a.cu"), Turn(), [], threading.Event()
before, behind = threading.Thread(target=ask), threading.Thread(target=ask)
planner._pool.wait(turn)
threading.Thread(target=go_before_and_behind).start()
ready.wait()
try:
    planner.route(0, 0, 0)
except KeyboardInterrupt:
    print(len(planner._pool._turns), "turns")
planner._pool.end(turn)
before.join()
behind.join()
ask()
planner.close()
print(found)
"""


def test_an_interrupt_of_who_waits_leaves_the_row_as_if_he_had_not_come(tmp_path: Path, monkeypatch: pytest.MonkeyPatch) -> None:
    stub(tmp_path, COUNTS, monkeypatch)
    process = run_script(WAITING)
    assert process.stdout and process.stdout.readline() == "waiting\n"
    process.send_signal(signal.SIGINT)
    assert (*process.communicate(timeout=600), process.returncode) == ("3 turns\n[0, 1, 2]\n", "", 0)


ANY_MOMENT = """
import gc, random, signal
import catchup.planner

class Child:
    '''Answers at once, so that nearly each moment is one of the planner's own.'''
    def __init__(self, words): pass
    def ask(self, line): return "unreachable"
    def kill(self): pass
    def close(self): return 0

def interrupt(*_):
    raise KeyboardInterrupt

def ask_on(planner):
    while True:
        planner.route(0, 0, 0)

catchup.planner.Child = Child
signal.signal(signal.SIGALRM, interrupt)
# An interrupt while Python ends an object is passed over, and no other would come.
gc.disable()
planners, draw = [], random.Random(1)
for _ in range(3000):
    planners.append(planner := catchup.Planner("a.cu"))
    try:
        signal.setitimer(signal.ITIMER_REAL, draw.uniform(1e-6, 1e-4))
        ask_on(planner)
    except KeyboardInterrupt:
        pass
    assert not planner._pool._turns
    planner.close()
print("closed")
"""


def test_an_interrupt_at_any_moment_loses_no_process() -> None:
    process = run_script(ANY_MOMENT)
    assert (*process.communicate(timeout=600), process.returncode) == ("closed\n", "", 0)
