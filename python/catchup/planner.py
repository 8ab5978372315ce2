"""Routes, days, reaches, tables and latest departures for programs in Python, over one process of the program or several.

    from catchup import Planner

    with Planner("town.cu") as planner:
        drive = planner.route(5, 151, "08:00")
        print(drive.arrival, drive.roads)

Times are seconds of the day, or texts as `08:00`; arrivals are seconds counted from the midnight before leaving. What
goes wrong is raised: Refused, Damaged, NoMemory, Ended of catchup.errors.
"""

from __future__ import annotations

import asyncio
import os
import tempfile
import threading
import warnings
from collections.abc import Callable, Sequence
from concurrent.futures import ThreadPoolExecutor
from dataclasses import dataclass
from operator import index
from pathlib import Path
from typing import Generic, NoReturn, TypeAlias, TypeVar

from catchup import clock, replies
from catchup.errors import CatchupError, Damaged, Ended, Failure
from catchup.pool import Pool, Turn
from catchup.program import OF_ANOTHER, AsyncChild, Child
from catchup.replies import Day, Piece, Reach, TooLate, Unreachable
from catchup.tables import NODES_FILE, PROFILES_FILE, ROADS_FILE, Shorts, order_text

Value = TypeVar("Value")
Time: TypeAlias = int | str
PieceLike: TypeAlias = Piece | tuple[Time, str, Time]
Words: TypeAlias = list[str | Path]
Order: TypeAlias = str | Path | Sequence[int] | Shorts


@dataclass(frozen=True, slots=True)
class Route:
    """A drive: who leaves `origin` at second `depart` of the day is at `target` at second `arrive`, over `roads`.

    `entered` has the second at which each road is entered, where it was asked for.
    """

    origin: int
    target: int
    depart: int
    arrive: int
    roads: tuple[int, ...]
    entered: tuple[int, ...] | None = None

    @property
    def seconds(self) -> int:
        """How long the drive takes."""
        return self.arrive - self.depart

    @property
    def departure(self) -> str:
        """When it begins, as `08:00:00`."""
        return clock.clock(self.depart)

    @property
    def arrival(self) -> str:
        """When it ends, as `08:12:55`, or `00:10:00 (+1 day)`."""
        return clock.clock(self.arrive)

    @property
    def duration(self) -> str:
        """How long it takes, as `12 min 55 s`."""
        return clock.duration(self.seconds)


@dataclass(frozen=True, slots=True)
class Matrix:
    """The least arrival from each source at each target, in rows of the sources; None where no way leads."""

    sources: tuple[int, ...]
    targets: tuple[int, ...]
    depart: int
    arrivals: tuple[tuple[int | None, ...], ...]


@dataclass(frozen=True)
class Question(Generic[Value]):
    """A line, and what its reply means."""

    line: str
    read: Callable[[replies.Answer], Value]

    def value(self, reply: str) -> Value:
        """What the reply means. Raises Refused, Damaged, NoMemory."""
        return self.read(replies.value(replies.parse(reply)))


class _Unsent:
    """What holds processes of the program: no other process can use them."""

    def __reduce__(self) -> NoReturn:
        name = type(self).__name__
        what = f"an {name}" if name[0] in "AEIOU" else f"a {name}"
        raise TypeError(f"{what} can't be pickled or copied: start one in each process")


class Planner(_Unsent):
    """Answers over a packed file, or over tables, by one process of the program or by several.

    Threads may share it: as many are answered at once as there are processes, and who waits is answered in the order in
    which they came. An edit is in every process when its call returns; until then a query gets an answer of before or
    after it. A process that ends is left out from then on: the call that it had raises Ended, and so do all where none is
    left. `close` waits for the calls in work. A process that is forked needs a planner of its own: there each call of
    this one raises Ended, and `close` does nothing.
    """

    def __init__(self, file: str | Path, *, processes: int = 1) -> None:
        """Raises Failure where the program can't be started; a file that it refuses is Ended at the first call."""
        self._start(["ask", Path(file)], processes, None)

    @classmethod
    def from_tables(
        cls, folder: str | Path, *, order: Order = "dissect", processes: int = 1
    ) -> Planner:
        """A planner over nodes.csv, roads.csv and profiles.csv of a folder, under an order: `identity`, `dissect`, a file,
        or the node at each rank."""
        planner = cls.__new__(cls)
        words, room = _serve(folder, order)
        planner._start(words, processes, room)
        return planner

    def _start(self, words: Words, processes: int, room: tempfile.TemporaryDirectory[str] | None) -> None:
        self._owner = os.getpid()
        self._room = room
        self._editing = threading.Lock()
        self._all: list[Child] = []
        try:
            _check_count(processes)
            self._all.extend(Child(words) for _ in range(processes))
        except BaseException:
            for child in self._all:
                child.close()
            if room:
                room.cleanup()
            raise
        # The children that haven't ended.
        self._pool = Pool(self._all)
        self._ended: Ended | None = None

    def route(self, origin: int, target: int, depart: Time, *, entered: bool = False) -> Route | None:
        """The drive that arrives first, or None where no way leads; with `entered` also the second at which each road is
        entered."""
        return self._ask(route_question(origin, target, depart, entered))

    def day(self, origin: int, target: int) -> Day | None:
        """The least arrival at each second of the day, or None where no way leads."""
        return self._ask(day_question(origin, target))

    def reach(self, origin: int, depart: Time) -> Reach:
        """The least arrival at each node."""
        return self._ask(reach_question(origin, depart))

    def table(self, sources: Sequence[int], targets: Sequence[int], depart: Time) -> Matrix:
        """The least arrival from each source at each target: 1,048,576 entries at most."""
        return self._ask(table_question(sources, targets, depart))

    def latest(self, origin: int, target: int, by: Time) -> Route | TooLate | None:
        """The drive of the latest departure of the day that is in time; TooLate where there is none on this day, None
        where no way leads. `by` may be a second of a later day."""
        return self._ask(latest_question(origin, target, by))

    def edit_profile(self, profile: int, pieces: Sequence[PieceLike]) -> int:
        """Gives a profile these pieces, as (start, kind, value); returns how many edges of the hierarchy it touches."""
        return self._edit(profile_question(profile, pieces))

    def edit_road(self, road: int, profile: int) -> int:
        """Gives a road another profile; returns how many edges of the hierarchy it touches."""
        return self._edit(road_question(road, profile))

    def close(self) -> None:
        """Waits for the calls in work, ends the processes and waits for their ends. Later calls raise Ended."""
        if self._is_foreign():
            return
        self._pool.close()
        with self._editing:
            for child in self._all:
                child.close()
        if self._room:
            self._room.cleanup()

    def __enter__(self) -> Planner:
        return self

    def __exit__(self, *_: object) -> None:
        self.close()

    def __del__(self) -> None:
        # One that couldn't be started has none.
        pool = getattr(self, "_pool", None)
        if pool and not pool.closed and not self._is_foreign():
            warnings.warn("a Planner wasn't closed: call close(), or use it by 'with'", ResourceWarning, source=self)

    def _ask(self, question: Question[Value]) -> Value:
        if self._is_foreign():
            raise self._gone()
        turn = Turn()
        try:
            child = self._pool.wait(turn)
            if child is None:
                raise self._gone()
            return question.value(self._asked(child, question.line))
        finally:
            # Twice, since an interrupt may break off the first; else the second changes nothing.
            try:
                self._pool.end(turn)
            finally:
                self._pool.end(turn)

    def _edit(self, question: Question[int]) -> int:
        """The edit goes to all children at once, behind what each is asked; each edit to all before the next."""
        if self._is_foreign():
            raise self._gone()
        with self._editing:
            children = self._pool.children
            if self._pool.closed or not children:
                raise self._gone()
            with ThreadPoolExecutor(len(children)) as threads:
                said = list(threads.map(lambda child: self._edited(child, question.line), children))
            reply, apart = _agreed(said)
            for at in apart:
                self._leave_out(children[at], _unedited(said[at]))
            if not reply:
                raise self._gone()
            return question.value(reply)

    def _edited(self, child: Child, line: str) -> str:
        """The reply of one child; empty where it has ended."""
        try:
            return self._asked(child, line)
        except Ended:
            return ""

    def _asked(self, child: Child, line: str) -> str:
        try:
            return child.ask(line)
        except Ended as ended:
            self._leave_out(child, ended)
            raise
        except BaseException:
            # The child is ended where a call is broken off.
            self._leave_out(child, Ended(None, "a call was broken off"))
            raise

    def _leave_out(self, child: Child, ended: Ended) -> None:
        child.kill()
        self._ended = ended
        self._pool.leave_out(child)

    def _is_foreign(self) -> bool:
        """Whether this process was forked from the one that made it, whose threads hold the locks."""
        return self._owner != os.getpid()

    def _gone(self) -> Ended:
        if self._is_foreign():
            return Ended(None, OF_ANOTHER)
        if self._pool.closed:
            return Ended(0, "the planner is closed")
        return Ended(self._ended.status, self._ended.said) if self._ended else Ended(None, "no process is left")


class AsyncPlanner(_Unsent):
    """As Planner, for asyncio: `async with await AsyncPlanner.start("town.cu", processes=4) as planner`.

    Any number of calls may be in work; each goes to the process with the fewest.
    """

    def __init__(self, children: Sequence[AsyncChild], room: tempfile.TemporaryDirectory[str] | None = None) -> None:
        self._all = list(children)
        self._load = dict.fromkeys(self._all, 0)
        self._editing = asyncio.Lock()
        self._edits: set[asyncio.Future[int]] = set()
        self._ended: Ended | None = None
        self._closed = False
        self._room = room

    @classmethod
    async def start(cls, file: str | Path, *, processes: int = 1) -> AsyncPlanner:
        """A planner over a packed file. Raises Failure where the program can't be started."""
        return cls(await _started(["ask", Path(file)], processes))

    @classmethod
    async def from_tables(
        cls, folder: str | Path, *, order: Order = "dissect", processes: int = 1
    ) -> AsyncPlanner:
        """A planner over nodes.csv, roads.csv and profiles.csv of a folder; the order as of Planner.from_tables."""
        words, room = _serve(folder, order)
        try:
            return cls(await _started(words, processes), room)
        except BaseException:
            if room:
                room.cleanup()
            raise

    async def route(self, origin: int, target: int, depart: Time, *, entered: bool = False) -> Route | None:
        """As Planner.route."""
        return await self._ask(route_question(origin, target, depart, entered))

    async def day(self, origin: int, target: int) -> Day | None:
        """As Planner.day."""
        return await self._ask(day_question(origin, target))

    async def reach(self, origin: int, depart: Time) -> Reach:
        """As Planner.reach."""
        return await self._ask(reach_question(origin, depart))

    async def table(self, sources: Sequence[int], targets: Sequence[int], depart: Time) -> Matrix:
        """As Planner.table."""
        return await self._ask(table_question(sources, targets, depart))

    async def latest(self, origin: int, target: int, by: Time) -> Route | TooLate | None:
        """As Planner.latest."""
        return await self._ask(latest_question(origin, target, by))

    async def edit_profile(self, profile: int, pieces: Sequence[PieceLike]) -> int:
        """As Planner.edit_profile."""
        return await self._edit(profile_question(profile, pieces))

    async def edit_road(self, road: int, profile: int) -> int:
        """As Planner.edit_road."""
        return await self._edit(road_question(road, profile))

    async def close(self) -> None:
        """Lets the calls in work be answered, ends the processes and waits for their ends. Later calls raise Ended."""
        self._closed = True
        await asyncio.gather(*(child.close() for child in self._all))
        if self._room:
            self._room.cleanup()

    async def __aenter__(self) -> AsyncPlanner:
        return self

    async def __aexit__(self, *_: object) -> None:
        await self.close()

    def __del__(self) -> None:
        if not getattr(self, "_closed", True):
            warnings.warn("an AsyncPlanner wasn't closed: await close()", ResourceWarning, source=self)

    async def _ask(self, question: Question[Value]) -> Value:
        if self._closed or not self._load:
            raise self._gone()
        child = min(self._load, key=self._load.__getitem__)
        return question.value(await self._asked(child, question.line))

    async def _edit(self, question: Question[int]) -> int:
        # An edit that has begun is made in every process, whoever still waits for it.
        edit = asyncio.ensure_future(self._edit_all(question))
        self._edits.add(edit)
        edit.add_done_callback(self._edits.discard)
        return await asyncio.shield(edit)

    async def _edit_all(self, question: Question[int]) -> int:
        async with self._editing:
            if self._closed or not self._load:
                raise self._gone()
            children = list(self._load)
            said = await asyncio.gather(*(self._edited(child, question.line) for child in children))
            reply, apart = _agreed(said)
            for at in apart:
                self._leave_out(children[at], _unedited(said[at]))
            if not reply:
                raise self._gone()
            return question.value(reply)

    async def _edited(self, child: AsyncChild, line: str) -> str:
        try:
            return await self._asked(child, line)
        except Ended:
            return ""

    async def _asked(self, child: AsyncChild, line: str) -> str:
        self._load[child] += 1
        try:
            return (await child.ask(line.encode())).decode()
        except Ended as ended:
            self._leave_out(child, ended)
            raise
        finally:
            if child in self._load:
                self._load[child] -= 1

    def _leave_out(self, child: AsyncChild, ended: Ended) -> None:
        self._ended = ended
        self._load.pop(child, None)
        child.kill()

    def _gone(self) -> Ended:
        if self._closed:
            return Ended(0, "the planner is closed")
        return Ended(self._ended.status, self._ended.said) if self._ended else Ended(None, "no process is left")


# ---- questions ----


def route_question(origin: int, target: int, depart: Time, entered: bool = False) -> Question[Route | None]:
    """A line `q`, or with `entered` a line `v`."""
    second = _of_day(depart)

    def read(answer: replies.Answer) -> Route | None:
        if isinstance(answer, Unreachable):
            return None
        drive = _expected(answer, replies.Drive)
        return Route(index(origin), index(target), second, drive.arrive, drive.roads, drive.entered)

    return Question(_line("v" if entered else "q", origin, target, second), read)


def day_question(origin: int, target: int) -> Question[Day | None]:
    """A line `d`."""

    def read(answer: replies.Answer) -> Day | None:
        return None if isinstance(answer, Unreachable) else _expected(answer, Day)

    return Question(_line("d", origin, target), read)


def reach_question(origin: int, depart: Time) -> Question[Reach]:
    """A line `r`."""
    return Question(_line("r", origin, _of_day(depart)), lambda answer: _expected(answer, Reach))


def table_question(sources: Sequence[int], targets: Sequence[int], depart: Time) -> Question[Matrix]:
    """A line `t`."""
    second = _of_day(depart)
    rows, width = tuple(map(index, sources)), tuple(map(index, targets))

    def read(answer: replies.Answer) -> Matrix:
        table = _expected(answer, replies.Table)
        if table.damaged:
            raise Damaged(table.damaged.edge, table.damaged.dir, table.damaged.second)
        if len(table.arrivals) != len(rows) * len(width):
            raise replies.NotAReply(f"a table of {len(rows)} by {len(width)} was answered by {len(table.arrivals)} entries")
        starts = range(0, len(table.arrivals), len(width)) if width else range(0)
        arrivals = tuple(table.arrivals[start : start + len(width)] for start in starts) or ((),) * len(rows)
        return Matrix(rows, width, second, arrivals)

    return Question(_line("t", second, len(rows), *rows, *width), read)


def latest_question(origin: int, target: int, by: Time) -> Question[Route | TooLate | None]:
    """A line `l`."""

    def read(answer: replies.Answer) -> Route | TooLate | None:
        if isinstance(answer, TooLate):
            return answer
        if isinstance(answer, Unreachable):
            return None
        drive = _expected(answer, replies.Departure)
        return Route(index(origin), index(target), drive.depart, drive.arrive, drive.roads)

    second = clock.parse_second(by) if isinstance(by, str) else by
    return Question(_line("l", origin, target, second), read)


def profile_question(profile: int, pieces: Sequence[PieceLike]) -> Question[int]:
    """A line `s`."""
    line = _line("s", profile)
    for piece in pieces:
        start, kind, value = (piece.start, piece.kind, piece.value) if isinstance(piece, Piece) else piece
        if kind not in ("travel", "until", "closed"):
            raise ValueError(f"a piece is travel, until or closed, and not {kind!r}")
        line += f",{_of_day(start)},{kind},{clock.parse_second(value) if isinstance(value, str) else index(value)}"
    return Question(line, lambda answer: _expected(answer, replies.Done).edges)


def road_question(road: int, profile: int) -> Question[int]:
    """A line `a`."""
    return Question(_line("a", road, profile), lambda answer: _expected(answer, replies.Done).edges)


def _line(word: str, *numbers: int) -> str:
    return ",".join([word, *(str(index(number)) for number in numbers)])


def _of_day(time: Time) -> int:
    return clock.parse_clock(time) if isinstance(time, str) else index(time)


Kind = TypeVar("Kind", bound=replies.Answer)


def _expected(answer: replies.Answer, kind: type[Kind]) -> Kind:
    if not isinstance(answer, kind):
        raise CatchupError(f"the program answered something else than was asked: {str(answer)[:60]}")
    return answer


# ---- processes ----


def _agreed(said: Sequence[str]) -> tuple[str, list[int]]:
    """What an edit comes to that each process has answered, an ended one by an empty text: the reply that counts, empty
    where all have ended, and the places of those that go apart. Who had no memory for what others have made can't answer
    for this network any more."""
    made = [reply for reply in said if reply.startswith("done ")]
    if not made:
        return next(filter(None, said), ""), []
    return made[0], [at for at, reply in enumerate(said) if reply not in made]


def _unedited(reply: str) -> Ended:
    """Why a process is left out that didn't make an edit which others have made."""
    return Ended(None, f"an edit was answered: {reply or 'not at all'}")


def _serve(folder: str | Path, order: Order) -> tuple[Words, tempfile.TemporaryDirectory[str] | None]:
    """The words of `serve`, and the folder of an order that was given as numbers. Raises TypeError and ValueError where
    these are none of nodes, and Failure where they can't be stored."""
    room = None
    if not isinstance(order, (str, Path)):
        text = order_text([index(node) for node in order])
        try:
            room = tempfile.TemporaryDirectory(prefix="catchup-order-")
            order = Path(room.name) / "order.csv"
            order.write_bytes(text)
        except OSError as error:
            if room:
                room.cleanup()
            raise Failure(f"the order can't be stored ({error.strerror}): set TMPDIR to a folder with room") from None
    tables = [Path(folder) / name for name in (NODES_FILE, ROADS_FILE, PROFILES_FILE)]
    return ["serve", *tables, order], room


def _check_count(processes: int) -> None:
    if processes < 1:
        raise ValueError("a planner needs one process at least")


async def _started(words: Words, processes: int) -> list[AsyncChild]:
    _check_count(processes)
    children: list[AsyncChild] = []
    try:
        for _ in range(processes):
            children.append(await AsyncChild.start(words))
    except BaseException:
        for child in children:
            await child.close()
        raise
    return children
