"""A served file: its version of now, the children that answer of it, and the changeover to the next one."""

from __future__ import annotations

import asyncio
import contextlib
import os
import stat
from collections.abc import Awaitable, Callable, Iterator
from pathlib import Path
from typing import TYPE_CHECKING

from catchup.errors import is_short
from catchup.service import packed
from catchup.service.children import DRIVE_PROBE, PROBE, Child, NotOpened
from catchup.service.errors import Refusal
from catchup.service.helpers import Helpers
from catchup.service.limits import PROBE_SECONDS, QUICK_SECONDS, SLOW_SECONDS
from catchup.service.process import said_of
from catchup.service.telling import tell, traced

if TYPE_CHECKING:
    from catchup.places import Places
    from catchup.service.placed import Placed

Identity = tuple[int, int, int, int]
HEARTBEAT_SECONDS = 5.0
AGAIN_SECONDS = 1.0
NO_MEMORY = "ended with status 9"
OF_FILE = packed.NotPacked, NotOpened, Refusal  # what says something of a file, mostly


def identity_of(found: os.stat_result) -> Identity:
    """What differs between two files that stand in one place after each other."""
    return found.st_dev, found.st_ino, found.st_size, found.st_mtime_ns


class Kept:
    """The last file of a place that was served, held open by the main process: a worker that starts while another
    file stands there that can't be served goes on with it. Workers say in a file which one they serve."""

    def __init__(self, path: Path, note: Path) -> None:
        self.path = path
        self.noted = note
        self.descriptor = os.open(path, os.O_RDONLY | os.O_CLOEXEC)

    def note(self, identity: Identity) -> None:
        """A worker serves a file."""
        with contextlib.suppress(OSError):
            self.noted.write_text(repr(identity))

    def follow(self) -> None:
        """Holds the file in the place where workers say that they serve it."""
        try:
            identity = identity_of(os.stat(self.path))
            if identity == identity_of(os.fstat(self.descriptor)) or self.noted.read_text() != repr(identity):
                return
            descriptor = os.open(self.path, os.O_RDONLY | os.O_CLOEXEC)
        except OSError:
            return
        if identity_of(os.fstat(descriptor)) != identity:
            os.close(descriptor)
            return
        os.close(self.descriptor)
        self.descriptor = descriptor


class Version:
    """One packed file, held open, and two children that answer of it: one for quick lines, one for slow ones, which may
    have so many helpers."""

    def __init__(self, descriptor: int, program: str, ground: Places | None = None, helpers: int = 0) -> None:
        self.descriptor = descriptor
        self.program = program
        self.has_seconds = False        # the program says the second at which each road is entered
        self.ground = ground            # the places of its network, with the times of the tables
        self.placed: Placed | None = None   # the same with its own times, where there are any
        self.holders = 0
        self.is_retired = False
        self.restarts: set[asyncio.Task[None]] = set()
        self.helpers = Helpers(lambda: Child.start(program, descriptor, SLOW_SECONDS), helpers)

    async def start(self) -> None:
        """Starts both children, which check the file, and reads it meanwhile; NotOpened where the program refuses
        it."""
        found = await asyncio.gather(
            Child.start(self.program, self.descriptor, QUICK_SECONDS),
            Child.start(self.program, self.descriptor, SLOW_SECONDS), asyncio.to_thread(self.read),
            return_exceptions=True)
        problems = [each for each in found if isinstance(each, BaseException)]
        children = [each for each in found if isinstance(each, Child)]
        if problems:
            for child in children:
                self.end_child(child)
            raise problems[0]
        self.quick, self.slow = children
        try:
            self.has_seconds = (await self.quick.ask(DRIVE_PROBE)).startswith(b"arrive=")
            if self.ground is not None:
                await asyncio.to_thread(self.read_travel)
        except Refusal:
            # It opened the file, and was ended behind that.
            self.end_now()
            raise NotOpened(f"the program {said_of(self.quick.status)}") from None
        except BaseException:
            self.end_now()
            raise
        for child in children:
            child.on_gone = self.replace
            if child.gone.is_set():
                self.replace(child)

    def read(self) -> None:
        """Reads what the file says of itself."""
        self.header = packed.read_header(self.descriptor)
        self.digest = packed.read_digest(self.descriptor)
        self.name = self.digest[:packed.SHORT]
        self.name_bytes = self.name.encode()
        self.shape = packed.shape_of(self.descriptor)

    def read_travel(self) -> None:
        """Reads its times, for what is asked between places."""
        # Only maps need numpy.
        from catchup.service.placed import placed_of

        self.placed = placed_of(self)

    async def start_child(self, limit: float) -> Child:
        """A child that has opened the file, and that is started again where it ends by itself."""
        child = await Child.start(self.program, self.descriptor, limit)
        child.on_gone = self.replace
        return child

    def replace(self, gone: Child) -> None:
        """Starts another child in the place of one that has ended."""
        if self.is_retired:
            return
        task = asyncio.get_running_loop().create_task(self.start_again(gone))
        self.restarts.add(task)
        task.add_done_callback(self.restarts.discard)

    async def start_again(self, gone: Child) -> None:
        tell(f"a child of version {self.name} is started again: it " + (
            "answered nothing for too long" if gone.is_overdue else "has ended"))
        while not self.is_retired:
            try:
                child = await self.start_child(gone.limit)
            except NotOpened as problem:
                tell(f"a child of version {self.name} can't be started: {problem}")
                await asyncio.sleep(AGAIN_SECONDS)
                continue
            if self.is_retired:
                self.end_child(child)
            elif gone is self.quick:
                self.quick = child
            else:
                self.slow = child
            return

    @contextlib.contextmanager
    def held(self) -> Iterator[None]:
        """Keeps the children there for whoever asks several lines that must be of one version."""
        self.holders += 1
        try:
            yield
        finally:
            self.holders -= 1
            self.end_where_unused()

    def retire(self) -> None:
        """Another version is served: the children end once all that was asked of them is answered."""
        self.is_retired = True
        self.end_where_unused()

    def end_where_unused(self) -> None:
        if not self.is_retired or self.holders or self.descriptor < 0:
            return
        self.helpers.end()
        os.close(self.descriptor)
        self.descriptor = -1
        for child in (self.quick, self.slow):
            child.close()
            # One that hangs isn't looked at any more.
            child.loop.call_later(SLOW_SECONDS, child.kill)

    def let_go(self, has_started: bool) -> None:
        """Ends a version that nobody has asked anything."""
        if has_started:
            self.end_now()
        if self.descriptor >= 0:
            os.close(self.descriptor)
            self.descriptor = -1

    def end_now(self) -> None:
        """Ends the children at once, whatever they were asked."""
        self.is_retired = True
        self.helpers.end()
        for child in (self.quick, self.slow):
            self.end_child(child)

    def end_child(self, child: Child) -> None:
        child.on_gone = None
        child.kill()

    def look(self, now: float) -> None:
        """Ends a child whose next reply takes too long, and asks one that has long been asked nothing whether it is
        there."""
        self.helpers.look(now)
        for child in (self.quick, self.slow):
            if child.gone.is_set():
                continue
            if child.is_late(now):
                child.is_overdue = True
                child.kill()
            elif not child.waiting and now - child.progress > HEARTBEAT_SECONDS:
                child.ask(PROBE).add_done_callback(lambda reply: reply.exception())

    async def answers(self) -> bool:
        """Whether both children answer: one with much to do counts while its next reply isn't late."""
        return all(await asyncio.gather(probe(self.quick), probe(self.slow)))


async def probe(child: Child) -> bool:
    """Whether a child answers in time."""
    if child.gone.is_set():
        return False
    if child.waiting and child.limit > PROBE_SECONDS:
        return child.loop.time() - child.progress < PROBE_SECONDS or child.limit == SLOW_SECONDS
    try:
        async with asyncio.timeout(PROBE_SECONDS):
            await child.ask(PROBE)
    except (TimeoutError, Refusal):
        return False
    return True


def may_pass(problem: Exception) -> bool:
    """Whether a problem says nothing of the file: a child that was ended or couldn't be started, or no memory."""
    said = str(problem)
    return (not isinstance(problem, OF_FILE) or " was ended by SIG" in said or "can't be started" in said
            or said.endswith(NO_MEMORY))


def unserved(problem: Exception) -> str:
    """Why a file isn't served, in words."""
    if is_short(problem):
        return "no memory"
    return str(problem) if isinstance(problem, (*OF_FILE, OSError)) else traced(problem)


class Network:
    """A place of a packed file that is served under a name, or under each name where it has none."""

    def __init__(self, name: str | None, path: Path, program: str, kept: Kept | None,
                 first_to_tell: Callable[[str], bool]) -> None:
        self.kept = kept
        self.name = name
        self.path = path
        self.program = program
        self.first_to_tell = first_to_tell  # answers once, among all workers, for each line
        self.shape: bytes | None = None
        self.refused: str | None = None
        self.tried: Identity | None = None
        self.prepared: tuple[Identity, Version, asyncio.Task[None]] | None = None
        self.turn = asyncio.Lock()
        self.on_change: Callable[[Version], None] | None = None
        self.ground: Places | None = None
        self.helpers = 0                # that each version may have
        self.current: Version

    async def open(self) -> None:
        """Opens the file as a worker starts: that in the place, or where it can't be served the last one that could."""
        if self.kept is not None:
            self.shape = await asyncio.to_thread(packed.shape_of, self.kept.descriptor)
        await self.load()
        if not hasattr(self, "current") and self.kept is not None:
            refused, tried = self.refused, self.tried
            descriptor = os.dup(self.kept.descriptor)
            await self.try_version(descriptor, identity_of(os.fstat(descriptor)))
            self.refused, self.tried = refused, tried

    async def load(self) -> None:
        """Changes over to the file that stands in the place, where it isn't the one that is served. Whatever goes
        wrong, the one that is served goes on."""
        async with self.turn:
            try:
                await self.change_over()
            except Exception as problem:
                if not hasattr(self, "current"):
                    raise
                self.refuse(unserved(problem), None)

    async def change_over(self) -> None:
        """Serves the file that stands in the place, or notes why not."""
        try:
            # Where a pipe stands there nobody is waited for.
            descriptor = os.open(self.path, os.O_RDONLY | os.O_CLOEXEC | os.O_NONBLOCK)
        except OSError as problem:
            self.refuse(f"{self.path.name} can't be read: {problem.strerror}", None)
            return
        found = os.fstat(descriptor)
        identity = identity_of(found)
        if identity == self.tried or not stat.S_ISREG(found.st_mode):
            os.close(descriptor)
            if identity != self.tried:
                self.refuse(f"{self.path.name} is no file", identity)
            return
        await self.try_version(descriptor, identity)

    def prepare(self, path: Path) -> None:
        """Begins to open a file that is about to be put in the place, so that `load` needn't begin then."""
        self.forget_prepared()
        descriptor = os.open(path, os.O_RDONLY | os.O_CLOEXEC)
        version = Version(descriptor, self.program, self.ground, self.helpers)
        starting = asyncio.get_running_loop().create_task(version.start())
        self.prepared = identity_of(os.fstat(descriptor)), version, starting

    def take_prepared(self, identity: Identity) -> tuple[Version, asyncio.Task[None]] | None:
        """The version that was prepared, where it is of this file."""
        if self.prepared is None or self.prepared[0] != identity:
            return None
        _, version, starting = self.prepared
        self.prepared = None
        return version, starting

    def forget_prepared(self) -> None:
        """Ends what was prepared, where nobody has taken it."""
        if self.prepared is not None:
            _, version, starting = self.prepared
            self.prepared = None
            starting.add_done_callback(lambda done: version.let_go(not done.cancelled() and done.exception() is None))

    async def try_version(self, descriptor: int, identity: Identity) -> None:
        """Serves an open file, where it is one of this network."""
        prepared = self.take_prepared(identity)
        if prepared is None:
            version = Version(descriptor, self.program, self.ground, self.helpers)
            starting = asyncio.get_running_loop().create_task(version.start())
        else:
            os.close(descriptor)
            version, starting = prepared
        try:
            await starting
        except Exception as problem:
            version.let_go(has_started=False)
            if not isinstance(problem, (*OF_FILE, OSError)):
                raise
            self.refuse(unserved(problem), None if may_pass(problem) else identity)
            return
        if self.shape is not None and version.shape != self.shape:
            version.retire()
            self.refuse("file: another network, with other nodes or roads than the one that is served", identity)
            return
        self.tried, self.shape, self.refused = identity, version.shape, None
        before = getattr(self, "current", None)
        self.current = version
        if self.kept is not None:
            self.kept.note(identity)
        if before is not None:
            before.retire()
        if self.on_change is not None:
            self.on_change(version)

    def refuse(self, line: str, identity: Identity | None) -> None:
        """Notes why the file in the place isn't served; one without an identity is tried again."""
        self.refused, self.tried = line, identity
        # Whoever ends the service ends its children too: nobody needs to be told.
        if not line.endswith((" by SIGINT", " by SIGTERM")) and self.first_to_tell(f"{self.path} {identity} {line}"):
            tell(f"{self.path} isn't served: {line}")

    def has_changed(self) -> bool:
        """Whether the place has another file than the last that was tried."""
        try:
            return identity_of(os.stat(self.path)) != self.tried
        except OSError:
            return self.tried is not None

    def end(self) -> None:
        """Ends the children: the service ends."""
        if hasattr(self, "current"):
            self.current.end_now()


async def watch(networks: list[Network], pause: float, each_second: Callable[[], Awaitable[None]]) -> None:
    """Looks at the files' places, the children and, once a second, at whatever else must be looked at, for ever."""
    loop = asyncio.get_running_loop()
    last, said = loop.time(), ""
    loads: set[asyncio.Task[None]] = set()
    while True:
        await asyncio.sleep(pause)
        now = loop.time()
        try:
            for network in networks:
                network.current.look(now)
                if network.has_changed() and not network.turn.locked():
                    loads.add(task := loop.create_task(network.load()))
                    task.add_done_callback(loads.discard)
            if now - last >= 1:
                last = now
                await each_second()
        except Exception as problem:
            # Whoever looks after all else must go on; what fails again and again is told once.
            if traced(problem) != said:
                said = traced(problem)
                tell(f"an error that should not be: {said}")
