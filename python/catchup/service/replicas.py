"""Edits of several machines, each with a file of its own: a stream of Redis says which come, and in which order.

All is exact: who makes the same entries over the same file has the same bytes. So beside each entry stands the digest
of the file behind it, and a replica whose digest is another one makes nothing more and says so. On each machine one
worker takes the entries; where in the stream its file is, the journal and the digests tell.
"""

from __future__ import annotations

import asyncio
import contextlib
import os
import re
import sqlite3
from collections.abc import Iterator
from pathlib import Path
from typing import Any, Final

from redis.asyncio import Redis
from redis.exceptions import RedisError

from catchup.errors import WrongWords, is_short
from catchup.service import journal, packed
from catchup.service.editor import Editor, Made, Refused, Work
from catchup.service.errors import Refusal
from catchup.service.jobs import ENDED, REFUSED, WAITING, Job, new_name
from catchup.service.limits import LOG_SECONDS, LONGEST_LINES
from catchup.service.process import try_lock
from catchup.service.roadedits import edits_of_entry, entry_of
from catchup.service.spool import Spool, left_of, settle
from catchup.service.telling import tell, traced
from catchup.service.versions import Network

ADDRESS: Final = re.compile(r"(rediss?://[^/]+/[0-9]+)/([A-Za-z0-9_.:-]{1,200})")
FORESEEN: Final = RedisError, OSError, sqlite3.Error, Refusal, packed.NotPacked
FIRST: Final = "0"                      # stands for the entry before the first
AGAIN_SECONDS: Final = 0.5              # until another try where something failed, and twice as long each time,
LONGEST_SECONDS: Final = 8.0            # up to so long
BLOCK_MILLISECONDS: Final = 1_000       # for which an entry is waited for at once
LOOK_SECONDS: Final = 0.03              # between two looks whether an entry is made
SOCKET_SECONDS: Final = 4.0


def parted(address: str) -> tuple[str, str]:
    """The server and the stream of `redis://HOST:PORT/0/NAME`."""
    found = ADDRESS.fullmatch(address)
    if found is None:
        raise WrongWords(f"--log {address} is no stream: write it as redis://HOST:PORT/0/NAME")
    return found[1], found[2]


def order_of(entry: str) -> tuple[int, int]:
    """What entries are ordered by."""
    time, _, number = entry.partition("-")
    return int(time), int(number or 0)


class Diverged(Exception):
    """This replica's file isn't the one that the others have: str() says what to do."""


class Log:
    """The stream, for one worker. `folder` is shared by the workers of a service: one of them takes the entries."""

    def __init__(self, address: str, network: Network, editor: Editor, folder: Path | None) -> None:
        server, self.name = parted(address)
        self.redis: Redis[bytes] = Redis.from_url(
            server, socket_timeout=SOCKET_SECONDS, socket_connect_timeout=SOCKET_SECONDS)
        self.digests = self.name + ":digests"
        self.network = network
        self.editor = editor
        # What all workers know: who takes the entries, what is wrong with the file, and that the server is off.
        room = folder or network.path.parent
        self.leader, self.trouble, self.off = room / "leader", room / "diverged", room / "unreached"
        self.late = room / "late"       # and why an entry can't be made here yet
        self.taken = room / "taken"     # and that entries are being made
        self.said = ""                  # what was told last
        self.pause = AGAIN_SECONDS
        self.position = FIRST           # the last entry that the file has
        self.digest = ""                # the file's digest at that entry

    # ---- for those who edit ----

    def check(self, network: Network) -> None:
        """Refuses edits where they can't be made."""
        if network is not self.network:
            raise Refusal(400, "the stream is of the first file alone")
        if (said := read_note(self.trouble)) is not None:
            raise Refusal(503, said)

    def health(self) -> dict[str, object]:
        """What /health says of the stream."""
        said, late = read_note(self.trouble), read_note(self.late)
        if said is not None:
            return {"status": "diverged", "error": said}
        if late is not None:
            return {"log": "late", "late": late}
        return {"log": "unreachable" if self.off.exists() else "ok"}

    def note_reached(self, is_reached: bool) -> None:
        """Tells the other workers whether the server answers; where nothing can be written they learn it by
        themselves."""
        with contextlib.suppress(OSError):
            if is_reached:
                self.off.unlink(missing_ok=True)
            else:
                self.off.touch()

    async def make(self, editor: Editor, work: Work) -> Made:
        """Puts an edit into the stream, and waits until this replica has made it."""
        editor.works[work.job.id] = work
        try:
            return await self.outcome(work, await self.add(work))
        finally:
            del editor.works[work.job.id]
            await asyncio.to_thread(work.spool.close)

    async def add(self, work: Work) -> bytes:
        """Puts an edit into the stream, as which entry it answers."""
        # Roads go by their numbers: another machine may know other names.
        fields = {"job": work.job.id, "type": "lines" if work.edits is None else "roads",
                  "edits": await asyncio.to_thread(work.spool.read) if work.edits is None else entry_of(work.edits)}
        try:
            async with asyncio.timeout(LOG_SECONDS):
                entry: bytes = await self.redis.xadd(self.name, fields)
                return entry
        except (RedisError, OSError, TimeoutError) as problem:
            self.note_reached(False)
            refusal = Refusal(503, f"the stream can't be reached: {said_of(problem)}",
                              hint="reads go on; edit again later")
            await self.editor.note(work.job, ENDED, {"error": refusal.error})
            raise refusal from None

    async def outcome(self, work: Work, entry: bytes) -> Made:
        """What became of an entry here. Where it can't be made now, nobody is kept waiting for it."""
        loop = asyncio.get_running_loop()
        last = loop.time() + LOG_SECONDS
        while True:
            job = await asyncio.to_thread(self.editor.jobs.find, work.job.id)
            if job is not None and job.is_over:
                break
            if work.cancelled.is_set():
                raise Refusal(503, "the edit is in the stream, and is made once the service is there again")
            if (said := read_note(self.trouble)) is not None:
                raise Refusal(503, f"the edit is in the stream, and isn't made here: {said}")
            if loop.time() > last:
                last += AGAIN_SECONDS
                self.check_late()
                # Of a server that is off nothing is known.
                with contextlib.suppress(RedisError, OSError):
                    await self.check_kept(work, entry)
            await asyncio.sleep(LOOK_SECONDS)
        await self.network.load()
        told: dict[str, Any] = job.told
        if job.state == REFUSED:
            if "refused" in told:
                raise Refused(told["refused"], told["count"])
            raise Refusal(409, str(told["error"]))
        if job.state == ENDED:
            raise Refusal(503, str(told["error"]))
        return Made(told["before"], told["version"], told["lines"])

    def check_late(self) -> None:
        """Refuses to wait any longer for an entry that can't be made now."""
        if self.off.exists():
            raise Refusal(503, "the edit is in the stream, and is made once that can be reached again")
        if (said := read_note(self.late)) is not None:
            raise Refusal(503, f"the edit is in the stream, and can't be made here yet: {said}",
                          hint="it is tried again and again: don't send it once more")

    async def check_kept(self, work: Work, entry: bytes) -> None:
        """Refuses to wait for an entry that the server has lost before it was taken here."""
        if await self.is_kept(entry):
            return
        # Whoever has just taken it says so by then.
        await asyncio.sleep(AGAIN_SECONDS)
        if self.taken.exists() or await self.is_kept(entry):
            return
        job = await asyncio.to_thread(self.editor.jobs.find, work.job.id)
        if job is None or not job.is_over:
            refusal = Refusal(503, "the stream has lost the edit, and it isn't made", hint="send it again")
            await self.editor.note(work.job, ENDED, {"error": refusal.error})
            raise refusal

    async def is_kept(self, entry: bytes | str) -> bool:
        """Whether an entry is in the stream."""
        return bool(await self.redis.xrange(self.name, entry, entry, count=1))

    @contextlib.contextmanager
    def taking(self) -> Iterator[None]:
        """Tells the other workers that entries are made, which may have gone from the stream meanwhile."""
        with contextlib.suppress(OSError):
            self.taken.touch()
        try:
            yield
        finally:
            self.let_taken_go()

    def let_taken_go(self) -> None:
        with contextlib.suppress(OSError):
            self.taken.unlink(missing_ok=True)

    # ---- for the one who makes entries ----

    async def run(self) -> None:
        """Takes the entries in their order, for as long as this worker is the one to do so."""
        lock = os.open(self.leader, os.O_RDWR | os.O_CREAT | os.O_CLOEXEC, 0o600)
        try:
            while not try_lock(lock):
                await asyncio.sleep(AGAIN_SECONDS)
            # Of one who was killed.
            self.let_taken_go()
            while True:
                await self.take()
        finally:
            os.close(lock)

    async def take(self) -> None:
        """Takes the next entries; where something fails, it is tried again."""
        try:
            await self.find_place()
            left = await asyncio.to_thread(left_of, self.network.path, self.editor.jobs)
            entries = await self.take_next()
            self.note_reached(True)
            with self.taking():
                for entry, fields in entries:
                    await self.make_entry(entry.decode(), fields)
            if left and not entries:
                # They never came into the stream.
                await asyncio.to_thread(settle, self.network.path, self.editor.jobs, left, self.digest)
            self.trouble.unlink(missing_ok=True)
            self.late.unlink(missing_ok=True)
            self.said, self.pause = "", AGAIN_SECONDS
        except Diverged as diverged:
            self.tell_once(f"this replica has diverged: {diverged}")
            with contextlib.suppress(OSError):
                self.trouble.write_text(str(diverged))
            self.digest = ""
            await asyncio.sleep(AGAIN_SECONDS)
        except TimeoutError:
            pass
        except RedisError as problem:
            self.note_reached(False)
            self.tell_once(f"the stream can't be reached: {said_of(problem)}")
            self.digest = ""
            await asyncio.sleep(AGAIN_SECONDS)
        except Exception as problem:
            self.note_reached(True)
            said = "no memory" if is_short(problem) else said_of(problem)
            with contextlib.suppress(OSError):
                self.late.write_text(said)
            self.tell_once(f"an entry of the stream can't be made yet: {said}")
            self.digest = ""
            await asyncio.sleep(self.pause)
            self.pause = min(2 * self.pause, LONGEST_SECONDS)

    def tell_once(self, line: str) -> None:
        """Tells a line where it isn't the one that was told last: what fails is tried again and again."""
        if line != self.said:
            tell(line)
        self.said = line

    async def find_place(self) -> None:
        """Finds which entry the file has as its last one, where the file isn't the one that was made here."""
        digest = await asyncio.to_thread(packed.digest_of, str(self.network.path))
        if digest == self.digest:
            return
        is_new = await self.redis.hsetnx(self.digests, FIRST, digest)
        known = {entry.decode(): found.decode() for entry, found in (await self.redis.hgetall(self.digests)).items()}
        made = await asyncio.to_thread(lambda: [
            line for line in journal.entries(self.network.path) if line.entry is not None])
        last = made[-1].entry if made and made[-1].after == digest else None
        places = [entry for entry, found in known.items() if found == digest]
        # Beside the last entry that was made its digest may be missing.
        if last is not None and await self.is_kept(last):
            places.append(last)
        for place in sorted(places, key=order_of, reverse=True):
            if await self.is_in_stream(place):
                self.position, self.digest = place, digest
                if is_new and made and place == FIRST:
                    tell(f"the server of the stream {self.name} has none of it: it begins anew with version {digest[:12]}")
                return
        raise Diverged(self.what_is_lost() if places or last is not None and any(
            line.before in known.values() for line in made) else
            f"the file's version {digest[:12]} isn't one of the stream {self.name}: copy the file of another replica into "
            f"its place, or start a new stream")

    def what_is_lost(self) -> str:
        """What to do where the server has lost entries by which this file was made, so that other replicas can't make
        the file any more."""
        return (f"the stream {self.name} has lost edits that are in this file: copy the newest file into each replica's "
                f"place, and then begin the stream anew (redis-cli DEL {self.name} {self.digests})")

    async def take_next(self) -> list[tuple[bytes, dict[bytes, bytes]]]:
        """The entries behind the last one that the file has, once there are some, or none after a second.

        Where the server has lost its data or went back to an older state, other entries are in its stream: they may be
        numbered before that one, and be waited for without end, or behind it, and be made over what they don't follow.
        """
        if not await self.is_at_place():
            self.digest = ""
            await self.find_place()
            if not await self.is_at_place():
                raise Diverged(self.what_is_lost())
        found = await self.redis.xread({self.name: self.position}, count=16, block=BLOCK_MILLISECONDS)
        entries: list[tuple[bytes, dict[bytes, bytes]]] = found[0][1] if found else []
        # Meanwhile they may be those of another stream.
        return entries if entries and await self.is_at_place() else []

    async def is_at_place(self) -> bool:
        """Whether the stream is one that somebody has begun, and has the last entry that the file has."""
        return await self.is_in_stream(self.position) and await self.redis.hexists(self.digests, FIRST)

    async def is_in_stream(self, entry: str) -> bool:
        """Whether the stream has an entry, or none before it, as where those were trimmed."""
        return await self.last_entry(entry) in (None, entry)

    async def last_entry(self, entry: str) -> str | None:
        """The last entry in the stream that isn't behind some entry."""
        found = await self.redis.xrevrange(self.name, max=entry, count=1)
        return found[0][0].decode() if found else None

    async def check_digest(self, entry: str, digest: str) -> None:
        """Writes the file's digest beside the last entry, and compares where another has."""
        await self.redis.hsetnx(self.digests, entry, digest)
        found = (await self.redis.hget(self.digests, entry) or b"").decode()
        if found != digest:
            raise Diverged(f"behind entry {entry} this file is {digest[:12]}, and another replica's is {found[:12]}: "
                           f"copy its file into this one's place")

    async def make_entry(self, entry: str, fields: dict[bytes, bytes]) -> None:
        """Makes one entry, all of it or nothing, as each replica does."""
        work = await asyncio.to_thread(self.work_of, entry, fields)
        try:
            async with self.editor.turn, self.editor.locked(work) as folder:
                digest = await asyncio.to_thread(packed.digest_of, str(self.network.path))
                if digest != self.digest:
                    raise Refusal(503, "the file has changed meanwhile")
                await self.check_digest(self.position, digest)
                after = await self.make_all_or_nothing(work, folder, digest)
        finally:
            await asyncio.to_thread(work.spool.close)
        self.position, self.digest = entry, after
        await self.network.load()
        await self.check_digest(entry, after)

    async def make_all_or_nothing(self, work: Work, folder: int, before: str) -> str:
        """The digest behind an entry. What is refused is refused by each replica; what only fails here is tried
        again."""
        try:
            if work.edits is not None and not work.edits:
                raise Refusal(409, "the edit isn't one")
            return (await self.editor.make(work, folder)).after
        except Refused as refused:
            await self.editor.note(work.job, REFUSED, refused.told)
        except Refusal as refusal:
            if refusal.status != 409:
                raise
            await self.editor.note(work.job, REFUSED, {"error": refusal.error})
        return before

    def work_of(self, entry: str, fields: dict[bytes, bytes]) -> Work:
        """An entry's edits, in a file."""
        body = fields.get(b"edits", b"")
        spool = Spool(self.network.path, new_name(), LONGEST_LINES)
        spool.write(body, has_lines=False)
        job = Job(fields.get(b"job", b"").decode("ascii", "replace"), WAITING, 0)
        return Work(job, spool, None if fields.get(b"type") == b"lines" else edits_of_entry(body), entry)

    async def close(self) -> None:
        """Lets the server go."""
        with contextlib.suppress(RedisError, OSError):
            await self.redis.close()


def read_note(path: Path) -> str | None:
    """What the workers tell one another in a file; None where there is no such note."""
    try:
        return path.read_text() or "see what the service says on standard error"
    except OSError:
        return None


def said_of(problem: BaseException) -> str:
    """An error in one line, one that nobody has foreseen with where it came from."""
    if not isinstance(problem, FORESEEN):
        return traced(problem)
    text = problem.error if isinstance(problem, Refusal) else str(problem)
    return " ".join(text.split())[:200] or type(problem).__name__
