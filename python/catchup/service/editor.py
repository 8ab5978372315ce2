"""How an edit is made: `catchup edit` makes the next file, which takes the place of the one before by renaming.

One at a time holds the lock of the folder, whichever process and service it is of. All lines are made, or none. What an
answer confirms is on the disk: first the journal's line, then the file in its place.
"""

from __future__ import annotations

import asyncio
import contextlib
import os
import signal
import sqlite3
import subprocess
from collections.abc import AsyncIterator
from concurrent.futures import ThreadPoolExecutor
from dataclasses import dataclass, field
from pathlib import Path
from typing import Any, Final

from catchup.errors import is_short
from catchup.service import journal, packed
from catchup.service.errors import Refusal, refusal_of
from catchup.service.jobs import DONE, ENDED, REFUSED, Job, Jobs
from catchup.service.limits import TOLD_REFUSALS
from catchup.service.process import Start, said_of, try_lock
from catchup.service.roadedits import Edit, Profiles, lines_of
from catchup.service.spool import Spool, next_of, recover, sweep
from catchup.service.telling import tell, traced
from catchup.service.versions import Network, identity_of

LOCK_PAUSE: Final = 0.01                # between two tries to take the folder's lock
CANCEL_PAUSE: Final = 0.2               # between two looks whether another worker was asked to end a job
NOTE_TRIES: Final = 6                   # to write what became of a job, each of them for ten seconds
NOTE_PAUSE: Final = 1.0                 # until another try where that can't be written
PIECE: Final = 65_536
REFUSED_WORD: Final = b"refused: "
WORDS: Final = {9: "no memory", 13: "the edited file would have more than 2^32 bytes"}


@dataclass(eq=False)
class Work:
    """A job in work: its edits, and whether it is to be ended, and why."""

    job: Job
    spool: Spool
    edits: list[Edit] | None = None     # of a body of JSON
    entry: str | None = None            # of the stream between replicas
    cancelled: asyncio.Event = field(default_factory=asyncio.Event)
    why: Refusal | None = None

    def cancel(self, why: Refusal) -> None:
        """Ends it at the next place where it can be ended: `catchup edit` at once."""
        if self.why is None:
            self.why = why
        self.cancelled.set()

    def check(self) -> None:
        """Stops here where it is to be ended."""
        if self.why is not None:
            raise self.why


@dataclass(frozen=True, slots=True)
class Made:
    """A version that was made: whole digests, and how many lines made it."""

    before: str
    after: str
    lines: int

    def told(self) -> dict[str, object]:
        """What an answer says of it besides its version."""
        return {"before": self.before[:packed.SHORT], "lines": self.lines}


class Refused(Exception):
    """Some lines were refused, so nothing was made: the first of them, and how many there are."""

    def __init__(self, lines: list[dict[str, object]], count: int) -> None:
        super().__init__(f"{count} lines were refused")
        self.told: dict[str, object] = {"refused": lines, "count": count}


class Replies:
    """What `catchup edit` says to its lines, counted without a look at each."""

    def __init__(self) -> None:
        self.lines = 0
        self.count = 0
        self.refused: list[tuple[int, str]] = []
        self.rest = b""
        self.last = b""                 # the last whole line

    def feed(self, piece: bytes) -> None:
        """Takes a piece of its output."""
        piece = self.rest + piece
        cut = piece.rfind(b"\n") + 1
        self.rest, piece = piece[cut:], piece[:cut]
        at = piece.find(REFUSED_WORD)
        while at >= 0 and len(self.refused) < TOLD_REFUSALS:
            word = piece[at + len(REFUSED_WORD):piece.find(b"\n", at)].decode("ascii", "replace")
            self.refused.append((self.lines + piece.count(b"\n", 0, at) + 1, word))
            at = piece.find(REFUSED_WORD, at + 1)
        self.count += piece.count(REFUSED_WORD)
        self.lines += piece.count(b"\n")
        if piece:
            self.last = piece[piece.rfind(b"\n", 0, -1) + 1:-1]


class Editor:
    """Makes the edits of one served file that come to this worker, one after the other."""

    def __init__(self, network: Network, program: str, *, is_of_stream: bool = False) -> None:
        self.network = network
        self.program = program
        self.is_of_stream = is_of_stream
        self.jobs = Jobs(network.path)
        self.turn = asyncio.Lock()
        self.works: dict[str, Work] = {}
        self.ending = asyncio.Event()                   # the worker ends, and can't wait longer
        self.late: set[asyncio.Task[None]] = set()      # notes of what became of jobs that are still to be written
        # For the replies of `catchup edit`, which may come for long.
        self.reader = ThreadPoolExecutor(1, "replies")

    async def start(self) -> None:
        """Takes away what killed services left, where nobody is at work in the folder: else whoever is has done it."""
        folder = os.open(self.network.path.parent, os.O_RDONLY | os.O_DIRECTORY | os.O_CLOEXEC)
        try:
            if try_lock(folder):
                await asyncio.to_thread(mend, self.jobs)
                await self.recover()
        except Exception as problem:
            tell(f"{self.network.path.parent} can't be looked through: {problem or traced(problem)}")
        finally:
            os.close(folder)

    async def recover(self) -> None:
        """Takes away what killed services left. The folder is locked."""
        await asyncio.to_thread(recover, self.network.path, self.jobs, is_of_stream=self.is_of_stream)

    def cancel_all(self, why: Refusal) -> None:
        """Ends all that is in work here: the worker ends."""
        self.ending.set()
        for work in list(self.works.values()):
            work.cancel(why)

    async def work(self, work: Work) -> Made:
        """Makes an edit. Refused where lines are refused, else a Refusal says why there is no new version. Whatever
        goes wrong, what became of the job is noted."""
        self.works[work.job.id] = work
        watcher = asyncio.create_task(self.watch(work))
        try:
            async with self.in_turn(work), self.locked(work) as folder:
                made = await self.make(work, folder)
            await self.serve()
            return made
        except Refused as refused:
            await self.note(work.job, REFUSED, refused.told)
            raise
        except Exception as problem:
            refusal = unmade(problem)
            await self.note(work.job, ENDED, {"error": refusal.error})
            raise refusal from None
        finally:
            watcher.cancel()
            del self.works[work.job.id]
            await asyncio.to_thread(work.spool.close)

    async def serve(self) -> None:
        """Waits until this worker serves what was made. Where it ends others do, and whoever waits is told at once."""
        loading, ending = asyncio.create_task(self.network.load()), asyncio.create_task(self.ending.wait())
        try:
            either: list[asyncio.Task[Any]] = [loading, ending]
            await asyncio.wait(either, return_when=asyncio.FIRST_COMPLETED)
            if loading.done():
                loading.result()
        finally:
            ending.cancel()

    async def note(self, job: Job, state: str, told: dict[str, object]) -> None:
        """Notes what became of a job; where that can't be written, the edit is what it is all the same, and it is noted
        later. Others may keep the jobs to themselves for long on a busy machine, and somebody may wait for the note."""
        said = ""
        for _ in range(NOTE_TRIES):
            try:
                await asyncio.to_thread(self.jobs.end, job, state, told)
                return
            except Exception as problem:
                said = str(problem) or traced(problem)
                if getattr(problem, "sqlite_errorname", "") != "SQLITE_BUSY":
                    break
        tell(f"{self.jobs.path} can't be written: {said}")
        task = asyncio.create_task(self.note_later(job, state, told))
        self.late.add(task)
        task.add_done_callback(self.late.discard)

    async def note_later(self, job: Job, state: str, told: dict[str, object]) -> None:
        """Notes what became of a job as soon as that can be written."""
        while True:
            await asyncio.sleep(NOTE_PAUSE)
            with contextlib.suppress(Exception):
                await asyncio.to_thread(self.jobs.end, job, state, told)
                return

    async def watch(self, work: Work) -> None:
        """Looks whether another worker was asked to end a job. What can't be asked for is asked for again."""
        while not work.cancelled.is_set():
            await asyncio.sleep(CANCEL_PAUSE)
            with contextlib.suppress(Exception):
                found = await asyncio.to_thread(self.jobs.find, work.job.id)
                if found is not None and found.is_cancelled:
                    work.cancel(cancelled())

    @contextlib.asynccontextmanager
    async def in_turn(self, work: Work) -> AsyncIterator[None]:
        """Waits until those that came before are made, or until this one is ended."""
        taking = asyncio.create_task(self.turn.acquire())
        ending = asyncio.create_task(work.cancelled.wait())
        try:
            await asyncio.wait({taking, ending}, return_when=asyncio.FIRST_COMPLETED)
            if taking.done():
                yield
            else:
                taking.cancel()
                work.check()
        finally:
            ending.cancel()
            if taking.done() and not taking.cancelled():
                self.turn.release()

    @contextlib.asynccontextmanager
    async def locked(self, work: Work) -> AsyncIterator[int]:
        """Holds the lock of the file's folder."""
        folder = os.open(self.network.path.parent, os.O_RDONLY | os.O_DIRECTORY | os.O_CLOEXEC)
        try:
            while not try_lock(folder):
                work.check()
                await asyncio.sleep(LOCK_PAUSE)
            yield folder
        finally:
            os.close(folder)

    async def make(self, work: Work, folder: int) -> Made:
        """Makes the next file and puts it in place. The folder is locked."""
        path = self.network.path
        await self.network.load()
        if self.network.refused is not None:
            raise Refusal(503, f"the file that was put in place isn't served: {self.network.refused}",
                          hint="put a file of this network in its place")
        await self.recover()
        await self.begin(work)
        source = os.open(path, os.O_RDONLY | os.O_CLOEXEC)
        following = next_of(path, work.spool.name)
        try:
            return await self.make_next(work, folder, source, following)
        finally:
            os.close(source)
            # Where `catchup edit` was killed it leaves something too. What can't be taken away now goes before the next
            # edit.
            with contextlib.suppress(Exception):
                await asyncio.to_thread(sweep, path)

    async def make_next(self, work: Work, folder: int, source: int, following: Path) -> Made:
        path, job = self.network.path, work.job
        before = packed.read_digest(source)
        lines, of = await self.lines(work, source, following)
        replies = await self.run_edit(work, source, lines, following)
        if replies.refused:
            raise Refused([{"line": of[line - 1] if of else line, "word": word} for line, word in replies.refused],
                          replies.count)
        after = packed.digest_of(str(following))
        work.check()
        await self.begin(work, after)
        entry = journal.Entry(before, after, journal.now(), work.entry)
        # Its children open it while it is stored.
        self.network.prepare(following)
        try:
            await asyncio.to_thread(put_in_place, path, following, folder, entry, lines, identity_of(os.fstat(source)))
        except BaseException:
            self.network.forget_prepared()
            raise
        made = Made(before, after, replies.lines - 1)
        await self.note(job, DONE, {"version": after[:packed.SHORT], **made.told()})
        return made

    async def begin(self, work: Work, after: str | None = None) -> None:
        """Notes how far a job is. An entry of a stream is made whoever asked for it, since all replicas make it."""
        has_begun = await asyncio.to_thread(self.jobs.begin, work.job, after)
        if not has_begun and work.entry is None:
            raise cancelled()

    async def lines(self, work: Work, source: int, following: Path) -> tuple[Path, list[int]]:
        """The file of edit lines, and of JSON which edit each line is of."""
        if work.edits is None:
            return work.spool.path, []
        lines, of = await asyncio.to_thread(lambda: lines_of(work.edits or [], Profiles(source)))
        path = lines_path(following)
        path.write_text("".join(line + "\n" for line in lines), "ascii")
        return path, of

    async def run_edit(self, work: Work, source: int, lines: Path, following: Path) -> Replies:
        """Runs `catchup edit`; where it doesn't come to its end a Refusal says why."""
        loop, replies = asyncio.get_running_loop(), Replies()
        # The thread that reads is there before the process is: one that nobody reads would go on by itself.
        await loop.run_in_executor(self.reader, int)
        process = await self.begin_edit((self.program, "edit", f"/dev/fd/{source}", lines, following), source)
        ending = asyncio.create_task(work.cancelled.wait())
        reading: asyncio.Future[int] | None = None
        try:
            reading = loop.run_in_executor(self.reader, read_replies, process, replies)
            either: list[asyncio.Future[Any]] = [reading, ending]
            await asyncio.wait(either, return_when=asyncio.FIRST_COMPLETED)
        finally:
            ending.cancel()
            if reading is None or not reading.done():
                end_group(process)
        status = await reading
        work.check()
        if status:
            raise not_made(status, replies, self.network.path)
        return replies

    async def begin_edit(self, words: tuple[str | Path, ...], source: int) -> subprocess.Popen[bytes]:
        """Starts `catchup edit`, which leads a group of its own; a Refusal says why it can't be."""
        try:
            return await Start(words, source, has_group=True).process()
        except OSError as problem:
            if is_short(problem):
                raise
            raise Refusal(503, f"catchup edit can't be started: {problem.strerror}", hint="nothing has changed") from None


def mend(jobs: Jobs) -> None:
    """Puts a damaged list of jobs aside, as a machine that stops may leave it: else no edit could be made. For the
    holder of the folder's lock alone."""
    if not jobs.is_whole():
        tell(f"{jobs.path} is damaged: it is {jobs.put_aside().name} now, and another one is begun")


def read_replies(process: subprocess.Popen[bytes], replies: Replies) -> int:
    """Reads all that the process says, and answers its status. Where that fails the process is ended."""
    assert process.stdout is not None
    try:
        with process.stdout as said:
            while piece := os.read(said.fileno(), PIECE):
                replies.feed(piece)
        return process.wait()
    except BaseException:
        end_group(process)
        process.wait()
        raise


def end_group(process: subprocess.Popen[bytes]) -> None:
    """Ends a process that leads a group, with all that it has started."""
    with contextlib.suppress(ProcessLookupError):
        os.killpg(process.pid, signal.SIGKILL)


def put_in_place(path: Path, following: Path, folder: int, entry: journal.Entry, lines: Path,
                 expected: tuple[int, int, int, int]) -> None:
    """Writes the journal's line and renames the next file over the one before, each flushed to the disk."""
    descriptor = os.open(following, os.O_RDONLY | os.O_CLOEXEC)
    try:
        os.fchmod(descriptor, os.stat(path).st_mode & 0o7777)
        os.fsync(descriptor)
    finally:
        os.close(descriptor)
    journal.append(path, entry, lines)
    try:
        if identity_of(os.stat(path)) != expected:
            raise Refusal(503, "another file was put in place while the edit was made",
                          hint="try it again over that one")
        os.rename(following, path)
    except BaseException:
        journal.drop_last_where_not(path, entry.before)
        raise
    try:
        os.fsync(folder)
    except OSError as problem:
        raise Refusal(503, "the edit is in its place, and may be lost if the machine stops now, since the folder can't be "
                      f"flushed to the disk: {problem.strerror}") from None


def lines_path(following: Path) -> Path:
    """Where the lines of an edit in JSON are written."""
    return following.with_name(following.name + "-lines")


def cancelled() -> Refusal:
    """What is said of a job that somebody ended."""
    return Refusal(503, "the edit was ended, and nothing has changed")


def not_made(status: int, replies: Replies, path: Path) -> Refusal:
    """Why `catchup edit` came to no end."""
    said = replies.last.decode("ascii", "replace") if replies.lines else ""
    if status in WORDS:
        return Refusal(503, WORDS[status], hint="nothing has changed")
    if status == -signal.SIGXFSZ:
        return Refusal(503, "the edited file can't be stored: no file may be as large here", hint="see ulimit -f")
    if status > 0 and said.startswith("shelf: fault out"):
        free = os.statvfs(path.parent)
        room, needed = free.f_bavail * free.f_frsize, os.stat(path).st_size
        may = os.access(path.parent, os.W_OK | os.X_OK)
        reason = f"no space left on the disk, {room} bytes are free" if may else "the folder may not be written"
        return Refusal(503, f"the edited file can't be stored: {reason}",
                       hint=f"it needs some {needed} bytes in {path.parent}")
    return Refusal(503, f"catchup edit {said_of(status)}" + (f": {said}" if said else ""), hint="nothing has changed")


def unmade(problem: Exception) -> Refusal:
    """What a client gets where an edit wasn't made."""
    if isinstance(problem, Refusal):
        return problem
    if not is_short(problem) and isinstance(problem, (OSError, sqlite3.Error, packed.NotPacked)):
        return Refusal(503, why(problem), hint="nothing has changed; see to it and try again")
    refusal = refusal_of(problem)
    refusal.hint = "nothing has changed"
    return refusal


def why(problem: Exception) -> str:
    """An error of the system in words."""
    if isinstance(problem, OSError) and problem.strerror:
        return f"the edit can't be stored: {problem.strerror}"
    return f"the edit can't be stored: {problem}"
