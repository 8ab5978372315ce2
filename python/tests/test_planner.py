"""The library: values, errors, threads, pools, edits in every process, closing; plain and for asyncio."""

from __future__ import annotations

import asyncio
import copy
import gc
import inspect
import os
import pickle
import random
import signal
import subprocess
import sys
import threading
import warnings
from collections.abc import Callable, Coroutine
from pathlib import Path
from typing import Any

import pytest
from planners import in_threads, stub
from waiting import wait_for

import catchup
from catchup import AsyncPlanner, Damaged, Day, Ended, Failure, Matrix, NoMemory, Piece, Planner, Reach, Refused, Route, TooLate
from catchup.planner import Order, reach_question, table_question
from catchup.pool import Turn
from catchup.program import run_program
from catchup.tables import read_order

ROADS_SHUT = [(0, "closed", 0)]


@pytest.fixture(params=["plain", "asyncio"])
def call(request: pytest.FixtureRequest, rush_hour: Path) -> Callable[[Callable[[Any], Any]], Any]:
    """Runs a function of a planner over examples/rush_hour, of either kind; results may be awaitable."""

    async def in_loop(use: Callable[[Any], Any]) -> Any:
        async with await AsyncPlanner.from_tables(rush_hour, order="identity", processes=2) as planner:
            result = use(planner)
            return await result if inspect.isawaitable(result) else result

    def run(use: Callable[[Any], Any]) -> Any:
        if request.param == "asyncio":
            return asyncio.run(in_loop(use))
        with Planner.from_tables(rush_hour, order="identity", processes=2) as planner:
            return use(planner)

    return run


# ---- values ----

VALUES: list[tuple[str, Callable[[Any], Any], Any]] = [
    ("route", lambda p: p.route(0, 2, "08:00"), Route(0, 2, 28800, 29050, (2,))),
    ("route at a second", lambda p: p.route(0, 2, 0), Route(0, 2, 0, 160, (0, 1))),
    ("route to where one is", lambda p: p.route(1, 1, "0:05"), Route(1, 1, 300, 300, ())),
    ("no route", lambda p: p.route(2, 0, 0), None),
    ("day", lambda p: p.day(1, 2), Day((Piece(0, "travel", 100), Piece(28800, "travel", 300), Piece(35801, "until", 36100), Piece(36001, "travel", 100)))),
    ("no day", lambda p: p.day(2, 0), None),
    ("reach", lambda p: p.reach(1, "08:00"), Reach((None, 28800, 29100))),
    ("table", lambda p: p.table([0, 1], [2, 0], "08:00"), Matrix((0, 1), (2, 0), 28800, ((29050, 28800), (29100, None)))),
    ("table without targets", lambda p: p.table([0, 1], [], 0), Matrix((0, 1), (), 0, ((), ()))),
    ("table without sources", lambda p: p.table([], [1], 0), Matrix((), (1,), 0, ())),
    ("latest", lambda p: p.latest(0, 2, "10:01:40"), Route(0, 2, 35940, 36100, (0, 1))),
    ("latest on a later day", lambda p: p.latest(0, 2, 90000), Route(0, 2, 86399, 86559, (0, 1))),
    ("too late", lambda p: p.latest(0, 2, 159), TooLate()),
    ("no latest", lambda p: p.latest(2, 0, 50), None),
    ("edit of a profile", lambda p: p.edit_profile(2, ROADS_SHUT), 2),
    ("edit of a road", lambda p: p.edit_road(2, 1), 2),
]  # fmt: skip


@pytest.mark.parametrize("use, value", [row[1:] for row in VALUES], ids=[row[0] for row in VALUES])
def test_values(program: Path, call: Callable[[Any], Any], use: Callable[[Any], Any], value: Any) -> None:
    found = call(use)
    if isinstance(value, int):
        assert isinstance(found, int) and found >= 1
    else:
        assert found == value


def test_a_route_tells_its_times() -> None:
    route = Route(0, 2, 86000, 87000, (1,))
    assert (route.seconds, route.departure, route.arrival) == (1000, "23:53:20", "00:10:00 (+1 day)")
    assert route.duration == "16 min 40 s"


WRONG: list[tuple[Callable[[Any], Any], type[Exception], str]] = [
    (lambda p: p.route(0, 3, 0), Refused, "node"),
    (lambda p: p.route(0, 2, 86400), Refused, "second"),
    (lambda p: p.route(-1, 2, 0), Refused, "line"),
    (lambda p: p.route(0, 2, "8 o'clock"), ValueError, "no time of day"),
    (lambda p: p.route("0", 2, 0), TypeError, ""),
    (lambda p: p.route(0, 2.5, 0), TypeError, ""),
    (lambda p: p.edit_profile(9, ROADS_SHUT), Refused, "profile"),
    (lambda p: p.edit_profile(0, [(0, "travel", 5), ("10:00", "travel", 1)]), Refused, "fifo 35999"),
    (lambda p: p.edit_profile(0, [(0, "until", "09:00")]), Refused, "early 32401"),
    (lambda p: p.edit_profile(0, []), Refused, "line"),
    (lambda p: p.edit_profile(0, [(0, "flies,0", 5)]), ValueError, "a piece is travel, until or closed"),
    (lambda p: p.edit_road(3, 0), Refused, "arc"),
    (lambda p: p.table([0] * 1025, [1] * 1024, 0), Refused, "limit"),
]


@pytest.mark.parametrize("use, error, said", WRONG)
def test_what_is_refused_is_raised_and_nothing_is_lost(
    program: Path, call: Callable[[Any], Any], use: Callable[[Any], Any], error: type[Exception], said: str
) -> None:
    def wrong(planner: Any) -> Any:
        return use(planner)

    with pytest.raises(error, match=said):
        call(wrong)


def test_entered_seconds_where_the_program_knows_them(program: Path, call: Callable[[Any], Any]) -> None:
    try:
        route = call(lambda p: p.route(0, 2, 0, entered=True))
    except Refused as refused:
        assert refused.word == "line"
        pytest.skip("this program answers no v lines")
    assert route == Route(0, 2, 0, 160, (0, 1), (0, 60))


REPLIES: list[tuple[str, Callable[[Any], Any], type[Exception]]] = [
    ("damaged 5 up 7", lambda p: p.route(0, 1, 0), Damaged),
    ("table 5 damaged 5 up 7", lambda p: p.table([0], [1, 2], 0), Damaged),
    ("no memory", lambda p: p.day(0, 1), NoMemory),
    ("no memory", lambda p: p.edit_road(0, 1), NoMemory),
    ("table 5", lambda p: p.table([0], [1, 2], 0), ValueError),
    ("unreachable", lambda p: p.reach(0, 0), catchup.CatchupError),
    ("what?", lambda p: p.route(0, 1, 0), ValueError),
    ("file: digest", lambda p: p.route(0, 1, 0), Ended),
]


@pytest.mark.parametrize("reply, use, error", REPLIES)
def test_other_replies_are_raised(
    tmp_path: Path, monkeypatch: pytest.MonkeyPatch, reply: str, use: Callable[[Any], Any], error: type[Exception]
) -> None:
    stub(tmp_path, f"while read -r line; do echo '{reply}'; done", monkeypatch)

    async def ask() -> None:
        async with await AsyncPlanner.start("a.cu") as planner:
            await use(planner)

    with pytest.raises(error):
        asyncio.run(ask())
    with Planner("a.cu") as planner, pytest.raises(error):
        use(planner)


def test_orders_of_all_kinds(program: Path, rush_hour: Path, tmp_path: Path) -> None:
    path = tmp_path / "order"
    path.write_text("1\n0\n2\n")
    orders: list[Order] = ["dissect", path, str(path), [2, 0, 1], range(3), read_order(path)]
    for order in orders:
        with Planner.from_tables(rush_hour, order=order) as planner:
            assert planner.route(0, 2, 0) == Route(0, 2, 0, 160, (0, 1))
    with Planner.from_tables(rush_hour, order=[0, 0, 1]) as planner, pytest.raises(Ended, match="order: 1 twice"):
        planner.route(0, 2, 0)


def test_orders_that_are_none(rush_hour: Path, tmp_path: Path, monkeypatch: pytest.MonkeyPatch) -> None:
    """Each is told before anything is started, and leaves nothing behind."""
    monkeypatch.setattr("tempfile.tempdir", str(tmp_path))
    wrong: list[tuple[Any, int, type[Exception], str]] = [
        ([0.5, 1.5, 2.5], 1, TypeError, "integer"), (["0", "1", "2"], 1, TypeError, "integer"), ([0, -1, 1], 1, ValueError, "from 0 on"),
        ([0, 1, 2], 0, ValueError, "one process at least")]  # fmt: skip
    with warnings.catch_warnings():
        warnings.simplefilter("error")
        for order, processes, error, said in wrong:
            with pytest.raises(error, match=said):
                Planner.from_tables(rush_hour, order=order, processes=processes)
            with pytest.raises(error, match=said):
                asyncio.run(AsyncPlanner.from_tables(rush_hour, order=order, processes=processes))
        gc.collect()
        assert list(tmp_path.iterdir()) == []
        monkeypatch.setattr("tempfile.tempdir", "/none/such")
        with pytest.raises(Failure, match="the order can't be stored .*set TMPDIR"):
            Planner.from_tables(rush_hour, order=[0, 1, 2])


# ---- pools and threads ----


@pytest.mark.parametrize("processes", [1, 4])
def test_sixteen_threads_get_their_own_answers(town: Path, processes: int) -> None:
    draw = random.Random(1)
    asked = [(draw.randrange(159), draw.randrange(159), draw.randrange(86400)) for _ in range(1600)]
    lines = "".join(f"q,{origin},{target},{second}\n" for origin, target, second in asked)
    wanted = [reply.split()[0] for reply in run_program(["ask", town], input=lines).output.splitlines()]
    with Planner(town, processes=processes) as planner:

        def ask(number: int) -> None:
            for place in range(number, len(asked), 16):
                route = planner.route(*asked[place])
                assert (f"arrive={route.arrive}" if route else "unreachable") == wanted[place]
                if place % 400 == number:
                    assert planner.reach(number, 0).arrivals[number] == 0

        assert in_threads(16, ask) == []


def test_an_edit_is_in_every_process_when_it_returns(program: Path, rush_hour: Path) -> None:
    with Planner.from_tables(rush_hour, order="identity", processes=4) as planner:

        def edit(number: int) -> None:
            """Each thread has times of its own: after its edit only later edits can have changed them."""
            for time in range(1, 20):
                planner.edit_profile(2, [(0, "travel", time)])
                for _ in range(8):
                    route = planner.route(0, 2, 0)
                    assert route and 1 <= route.arrive < 20

        assert in_threads(16, edit) == []
        arrivals = {planner.route(0, 2, 0).arrive for _ in range(16)}  # type: ignore[union-attr]
        assert len(arrivals) == 1
        planner.edit_profile(2, [(0, "travel", 7)])
        pids = set()

        def ask(number: int) -> None:
            turn = Turn()
            child = planner._pool.wait(turn)
            barrier.wait(600)
            assert child and child.ask("q,0,2,0") == "arrive=7 arcs=2"
            pids.add(child.pid)
            planner._pool.end(turn)

        barrier = threading.Barrier(4)
        assert in_threads(4, ask) == [] and len(pids) == 4


def test_a_process_that_ends_is_left_out(program: Path, rush_hour: Path) -> None:
    with Planner.from_tables(rush_hour, processes=3) as planner:
        for child in planner._all[:2]:
            os.kill(child.pid, signal.SIGKILL)
        ended = 0
        for _ in range(20):
            try:
                assert planner.route(0, 2, 0) == Route(0, 2, 0, 160, (0, 1))
            except Ended as error:
                assert error.status == -9
                ended += 1
        assert ended in (0, 1, 2)
        assert planner.edit_road(2, 1) >= 1
        assert len(planner._pool.children) == 1 and planner.route(0, 2, 0)
        os.kill(planner._pool.children[0].pid, signal.SIGKILL)
        for _ in range(3):
            with pytest.raises(Ended):
                planner.route(0, 2, 0)
        with pytest.raises(Ended):
            planner.edit_road(2, 1)


def test_who_waits_is_told_when_none_is_left(tmp_path: Path, monkeypatch: pytest.MonkeyPatch) -> None:
    stub(tmp_path, "read -r line; sleep 0.3; exit 9", monkeypatch)
    with Planner("a.cu") as planner:
        raised = in_threads(8, lambda _: planner.route(0, 1, 0))  # type: ignore[arg-type, return-value]
    assert [type(error) for error in raised] == [Ended] * 8


ODD = """
while read -r line; do
  case "$line" in
    a*) if [ "$1" = 1 ]; then echo 'no memory'; else echo 'done 3'; fi ;;
    *) echo "arrive=$1 arcs=" ;;
  esac
done
"""


def test_a_process_without_the_edit_answers_no_more(tmp_path: Path, monkeypatch: pytest.MonkeyPatch) -> None:
    stub(tmp_path, ODD, monkeypatch)

    async def ask() -> set[int]:
        async with await AsyncPlanner.start("a.cu", processes=1) as planner:
            assert (await planner.route(0, 0, 0)).arrive == 0  # type: ignore[union-attr]
            planner._all.append(second := (await AsyncPlanner.start("a.cu"))._all[0])
            planner._load[second] = 0
            assert await planner.edit_road(0, 0) == 3
            return {(await planner.route(0, 0, 0)).arrive for _ in range(5)}  # type: ignore[union-attr]

    with pytest.warns(ResourceWarning):
        assert asyncio.run(ask()) == {0}
        gc.collect()
    for started in tmp_path.glob("started*"):
        started.unlink()
    with Planner("a.cu") as planner:
        planner.route(0, 0, 0)
        with Planner("a.cu") as other:
            other.route(0, 0, 0)
            planner._pool.children.append(other._pool.children[0])
            assert planner.edit_road(0, 0) == 3 and len(planner._pool.children) == 1
        assert planner.route(0, 0, 0).arrive == 0  # type: ignore[union-attr]


def test_many_calls_of_asyncio_at_once(town: Path) -> None:
    async def ask() -> None:
        async with await AsyncPlanner.start(town, processes=3) as planner:
            calls: list[Coroutine[Any, Any, Any]] = [planner.route(5, 151, second) for second in range(0, 86400, 200)]
            routes = await asyncio.gather(*calls)
            day = await planner.day(5, 151)
            assert day and [route.arrive for route in routes] == [day.arrival(second) for second in range(0, 86400, 200)]
            await asyncio.gather(*(planner.edit_profile(0, [(0, "travel", 30 + time)]) for time in range(10)))
            replies = {await child.ask(b"q,5,151,0") for child in planner._all}
            assert len(replies) == 1
            edit = asyncio.ensure_future(planner.edit_profile(0, [(0, "closed", 0)]))
            await asyncio.sleep(0)
            edit.cancel()
            await planner.edit_road(0, 1)
            assert edit.cancelled() and {await child.ask(b"q,5,151,0") for child in planner._all} != replies

    asyncio.run(ask())


# ---- closing ----


def test_closing_waits_for_what_is_asked(tmp_path: Path, monkeypatch: pytest.MonkeyPatch) -> None:
    stub(tmp_path, "while read -r line; do sleep 0.4; echo unreachable; done", monkeypatch)
    planner = Planner("a.cu", processes=2)
    found: list[object] = []
    threads = [threading.Thread(target=lambda: found.append(planner.route(0, 1, 0))) for _ in range(2)]
    for thread in threads:
        thread.start()
    wait_for(lambda: sum(turn.child is not None for turn in list(planner._pool._turns)) == 2)
    planner.close()
    # Both have their answers by now, and may not have noted them yet.
    for thread in threads:
        thread.join()
    assert found == [None, None]
    planner.close()
    for call in (lambda: planner.route(0, 1, 0), lambda: planner.edit_road(0, 0)):
        with pytest.raises(Ended, match="the planner is closed"):
            call()
    assert all(child._process and child._process.returncode == 0 for child in planner._all)


def test_a_planner_of_a_loop_that_has_ended(town: Path) -> None:
    """Calls of another loop are told why, and closing is no cancellation."""

    async def use(planner: AsyncPlanner) -> None:
        with pytest.raises(Ended, match="the event loop that it was started in has ended"):
            await planner.route(5, 151, 0)
        await planner.close()

    planner = asyncio.run(AsyncPlanner.start(town, processes=2))
    asyncio.run(use(planner))


def test_a_start_that_is_cancelled_leaves_nothing_open(town: Path) -> None:
    async def start() -> None:
        for _ in range(20):
            task = asyncio.ensure_future(AsyncPlanner.start(town, processes=3))
            await asyncio.sleep(0.001)
            task.cancel()
            with pytest.raises(asyncio.CancelledError):
                await task

    with warnings.catch_warnings(record=True) as told:
        warnings.simplefilter("always")
        asyncio.run(start())
        gc.collect()
    assert [str(each.message) for each in told] == []


FORKED = """
import os, sys, threading
from catchup import Ended, Planner
planner, alone = Planner(sys.argv[1], processes=2), Planner(sys.argv[1])
stop = threading.Event()

def ask_on():
    while not stop.is_set():
        planner.reach(0, 0)

threads = [threading.Thread(target=ask_on) for _ in range(8)]
for thread in threads:
    thread.start()
reader, writer = os.pipe()
for number in range(4):
    if os.fork() == 0:
        os.close(writer)
        for call in (lambda: planner.route(number, 151, 0), lambda: planner.edit_profile(0, [(0, "closed", 0)])):
            try:
                call()
            except Ended as error:
                os.write(1, f"{error}\\n".encode())
        planner.close()
        alone.close()
        # Until the parent has closed both.
        os.read(reader, 1)
        os._exit(0)
# Eight threads that ask without end would leave this one few turns.
stop.set()
for thread in threads:
    thread.join()
asked = [(5, 151, second) for second in range(0, 86400, 400)]
print([planner.route(*each) for each in asked] == [alone.route(*each) for each in asked], flush=True)
planner.close()
alone.close()
os.close(writer)
for number in range(4):
    os.wait()
"""


def test_a_forked_process_leaves_a_planner_alone(town: Path) -> None:
    """It neither takes the parent's replies nor keeps it from closing, whatever its threads do at that moment."""
    words = [sys.executable, "-W", "error", "-c", FORKED, str(town)]
    done = subprocess.run(words, capture_output=True, text=True, timeout=600, cwd=Path(catchup.__file__).parents[1])
    of_another = "the program has ended: this process was forked from the one that started it: start one in each process"
    assert (done.returncode, done.stderr) == (0, "")
    assert sorted(done.stdout.splitlines()) == ["True", *[of_another] * 8]


@pytest.mark.parametrize("send", [pickle.dumps, copy.copy, copy.deepcopy])
def test_a_planner_is_not_sent_to_other_processes(town: Path, send: Callable[[object], object]) -> None:
    async def ask() -> None:
        async with await AsyncPlanner.start(town) as planner:
            with pytest.raises(TypeError, match="an AsyncPlanner can't be pickled or copied: start one in each process"):
                send(planner)

    asyncio.run(ask())
    with Planner(town) as planner:
        with pytest.raises(TypeError, match="a Planner can't be pickled or copied: start one in each process"):
            send(planner)
        assert planner.route(5, 151, "08:00")


POOL = """
import asyncio, sys
from concurrent.futures import ProcessPoolExecutor
from catchup import AsyncPlanner

async def main():
    with ProcessPoolExecutor(1) as pool:
        async with await AsyncPlanner.start(sys.argv[1]) as planner:
            print(await asyncio.get_running_loop().run_in_executor(pool, abs, -3))
            print((await planner.route(5, 151, "08:00")).depart)

asyncio.run(main())
"""


def test_a_pool_of_forked_processes_keeps_no_planner_from_closing(town: Path) -> None:
    words = [sys.executable, "-c", POOL, str(town)]
    done = subprocess.run(words, capture_output=True, text=True, timeout=600, cwd=Path(catchup.__file__).parents[1])
    assert (done.returncode, done.stdout, done.stderr) == (0, "3\n28800\n", "")


def test_a_forgotten_planner_is_told(program: Path, rush_hour: Path) -> None:
    planner = Planner.from_tables(rush_hour, processes=2)
    planner.route(0, 2, 0)
    processes = [child._process for child in planner._all]
    with pytest.warns(ResourceWarning, match="a Planner wasn't closed"):
        del planner
        gc.collect()
    assert [process and process.wait(600) for process in processes] == [0, 0]


def test_a_planner_that_cannot_start(monkeypatch: pytest.MonkeyPatch, rush_hour: Path) -> None:
    monkeypatch.setenv("CATCHUP", "/none/such")
    with pytest.raises(Failure, match="CATCHUP names /none/such"):
        Planner("a.cu")
    with pytest.raises(Failure):
        Planner.from_tables(rush_hour, order=[0, 1, 2])
    for processes in (0, -1):
        with pytest.raises(ValueError):
            Planner("a.cu", processes=processes)


def test_a_missing_file_is_told_at_the_first_call(program: Path) -> None:
    with Planner("/none/such.cu", processes=2) as planner, pytest.raises(Ended, match="status 3: shelf: fault hierarchy"):
        planner.route(0, 1, 0)


def test_the_package_exports_what_it_says() -> None:
    for name in catchup.__all__:
        assert getattr(catchup, name) is not None
    with pytest.raises(AttributeError):
        catchup.nothing  # type: ignore[attr-defined]
    code = "import sys, catchup, catchup.replies, catchup.clock, catchup.program; print('numpy' in sys.modules, 'click' in sys.modules)"
    said = subprocess.run([sys.executable, "-c", code], capture_output=True, text=True, cwd=Path(catchup.__file__).parents[1])
    assert said.stdout == "False False\n"


def test_lines_are_written_once() -> None:
    assert reach_question(5, "8:00").line == "r,5,28800"
    assert table_question([1, 2], [3], 7).line == "t,7,2,1,2,3"
