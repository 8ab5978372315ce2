"""A child process `ask` over one open packed file: lines go to it, and its replies come back in their order."""

from __future__ import annotations

import asyncio
import subprocess
from collections import deque
from collections.abc import Callable, Sequence

from catchup.service.errors import Refusal, ended
from catchup.service.limits import START_SECONDS
from catchup.service.process import Start, handed_on, said_of

LEAVE_SECONDS = 1.0                     # for which a process that has closed its streams may still run
LEAVE_PAUSE = 0.005
# A line that asks nothing, and its reply from a child that has opened its file.
PROBE = b"-"
READY = b"refused: line"
# A drive with the second at which each road is entered; a program that doesn't know it refuses the line.
DRIVE_PROBE = b"v,0,0,0"


# Takes a reply without its line end, or why there is none.
Take = Callable[[bytes | Refusal], None]


class NotOpened(Exception):
    """The program didn't open the file: str() is its line."""


class Replies:
    """Takes the replies to lines that were asked together: a future for all of them."""

    def __init__(self, whole: asyncio.Future[list[bytes]], count: int) -> None:
        self.whole = whole
        self.left = count
        self.said: list[bytes] = []

    def __call__(self, said: bytes | Refusal) -> None:
        if self.whole.done():
            return
        if isinstance(said, Refusal):
            self.whole.set_exception(said)
            return
        self.said.append(said)
        self.left -= 1
        if not self.left:
            self.whole.set_result(self.said)


class Child(asyncio.Protocol):
    """One process. `limit` is how many seconds it gets for its next reply before it is ended."""

    def __init__(self, process: subprocess.Popen[bytes], writer: asyncio.WriteTransport, limit: float) -> None:
        self.process = process
        self.writer = writer
        self.limit = limit
        self.loop = asyncio.get_running_loop()
        self.waiting: deque[Take] = deque()
        self.unsent: list[bytes] = []
        self.parts: list[bytes] = []
        self.progress = self.loop.time()
        self.is_lost = False            # it says nothing more
        self.gone = asyncio.Event()     # and it has ended
        self.on_gone: Callable[[Child], None] | None = None
        self.is_overdue = False

    @classmethod
    async def start(cls, program: str, descriptor: int, limit: float) -> Child:
        """A child over an open file that has answered; NotOpened where the program refuses the file."""
        loop = asyncio.get_running_loop()
        try:
            process = await Start((program, "ask", f"/dev/fd/{descriptor}"), descriptor, stdin=subprocess.PIPE,
                                  stderr=subprocess.DEVNULL).process()
        except OSError as problem:
            raise NotOpened(f"{program} can't be started: {problem.strerror}") from None
        try:
            writer, _ = await loop.connect_write_pipe(asyncio.BaseProtocol, handed_on(process.stdin))
            child = cls(process, writer, limit)
            # Before anything can come: the program says why it refuses a file without being asked.
            reply = child.ask(PROBE)
            await loop.connect_read_pipe(lambda: child, handed_on(process.stdout))
        except BaseException:
            process.kill()
            raise
        try:
            async with asyncio.timeout(START_SECONDS):
                said = await reply
        except (TimeoutError, Refusal):
            said = b""
        if said != READY:
            child.kill()
            await child.gone.wait()
            last = said or b"".join(child.parts)
            raise NotOpened(last.decode("ascii", "replace").strip() or f"the program {said_of(child.status)}")
        return child

    @property
    def status(self) -> int:
        """Its status once it has gone, negative of a signal."""
        return self.process.returncode or 0

    def ask(self, line: bytes) -> asyncio.Future[bytes]:
        """The reply to come, without line ends; it fails with a Refusal where the child ends before."""
        reply: asyncio.Future[bytes] = self.loop.create_future()

        def take(said: bytes | Refusal) -> None:
            if reply.done():
                return
            if isinstance(said, Refusal):
                reply.set_exception(said)
            else:
                reply.set_result(said)

        self.ask_for(line, take)
        return reply

    def ask_for(self, line: bytes, take: Take) -> None:
        """Hands the reply to `take` as soon as it comes, in the same turn of the loop."""
        if self.is_lost:
            take(ended())
            return
        if not self.waiting:
            self.progress = self.loop.time()
        if not self.unsent:
            self.loop.call_soon(self.send)
        self.unsent.append(line)
        self.waiting.append(take)

    def ask_all(self, lines: Sequence[bytes]) -> asyncio.Future[list[bytes]]:
        """The replies to some lines, of which one at least, as `ask` has them: one future for all."""
        replies = Replies(self.loop.create_future(), len(lines))
        if self.is_lost:
            replies(ended())
            return replies.whole
        if not self.waiting:
            self.progress = self.loop.time()
        if not self.unsent:
            self.loop.call_soon(self.send)
        self.unsent.extend(lines)
        self.waiting.extend([replies] * len(lines))
        return replies.whole

    def send(self) -> None:
        """Writes what was asked in this turn of the loop, at once."""
        lines, self.unsent = self.unsent, []
        # Where the process has closed its end, whoever asked learns it as that is seen to have gone.
        if not self.is_lost and not self.writer.is_closing():
            lines.append(b"")
            self.writer.write(b"\n".join(lines))

    def is_late(self, now: float) -> bool:
        """Whether the next reply takes longer than it may."""
        return bool(self.waiting) and now - self.progress > self.limit

    def kill(self) -> None:
        """Ends the process at once."""
        self.process.kill()

    def close(self) -> None:
        """Ends the process once it has answered all that it was asked: its input ends."""
        if self.unsent:
            self.send()
        self.writer.close()

    def data_received(self, data: bytes) -> None:
        self.progress = self.loop.time()
        if b"\n" not in data:
            self.parts.append(data)
            return
        if self.parts:
            self.parts.append(data)
            data = b"".join(self.parts)
        *replies, rest = data.split(b"\n")
        self.parts = [rest] if rest else []
        for said in replies:
            if self.waiting:
                self.waiting.popleft()(said)

    def connection_lost(self, exc: Exception | None) -> None:
        self.is_lost = True
        self.writer.close()
        while self.waiting:
            self.waiting.popleft()(ended("the program took too long" if self.is_overdue else "the program has ended"))
        self.see_off(self.loop.time() + LEAVE_SECONDS)

    def see_off(self, last: float) -> None:
        """Waits until the process has ended, which it does in a moment; else it is made to."""
        if self.process.poll() is None:
            if self.loop.time() > last:
                self.kill()
            self.loop.call_later(LEAVE_PAUSE, self.see_off, last)
            return
        self.gone.set()
        if self.on_gone is not None:
            self.on_gone(self)
