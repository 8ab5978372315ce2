"""Further children of a version, which help with what one alone would take long for: the lines of large tables.

They are started when many lines take longer than a moment, as many as there are processors for each worker, and end
when they have been asked nothing for a while.
"""

from __future__ import annotations

import asyncio
import contextlib
import os
from collections import deque
from collections.abc import Awaitable, Callable, Sequence
from typing import Final

from catchup.service.children import Child, NotOpened
from catchup.service.errors import Refusal

MOST: Final = 7                         # helpers of a version
PATIENCE_SECONDS: Final = 0.2           # for which one child works alone before others are started
UNUSED_SECONDS: Final = 20.0            # after which they end
SHARES: Final = 16                      # of the lines that nobody has yet: a child takes one of them at a time
MANY: Final = 16                        # lines below which one child answers all

StartChild = Callable[[], Awaitable[Child]]


def helpers_for(workers: int) -> int:
    """How many helpers each of some workers may have: all of them together as many as there are processors."""
    return max(min(len(os.sched_getaffinity(0)) // workers - 1, MOST), 0)


class Helpers:
    """The helpers of one version."""

    def __init__(self, start: StartChild, most: int) -> None:
        self.start = start
        self.most = most
        self.children: list[Child] = []
        self.coming: set[asyncio.Task[None]] = set()
        self.is_over = False
        self.works = 0                  # that are in hand
        self.asked = 0.0                # when the last one was done

    async def ask_all(self, child: Child, lines: Sequence[bytes]) -> Sequence[bytes]:
        """The replies to some lines in their order, by a child and its helpers. Raises the Refusal of the child; what a
        helper leaves that ends is the child's."""
        if len(lines) < MANY or not self.most:
            return await child.ask_all(lines)
        work, loop = Work(lines), asyncio.get_running_loop()
        late = loop.call_later(PATIENCE_SECONDS, self.call, work)
        self.works += 1
        try:
            await asyncio.gather(work.share(child), *(work.help(each) for each in self.children))
            while work.left or work.joined:
                await work.share(child)
                while work.joined:
                    await work.joined.pop()
            return work.said
        finally:
            late.cancel()
            work.left.clear()
            self.works, self.asked = self.works - 1, loop.time()

    def call(self, work: Work) -> None:
        """Starts helpers, where there are too few, for work that isn't done yet."""
        for _ in range(self.most - len(self.children) - len(self.coming)):
            task = asyncio.get_running_loop().create_task(self.come(work))
            self.coming.add(task)
            task.add_done_callback(self.coming.discard)

    async def come(self, work: Work) -> None:
        """Starts a helper, which takes its share."""
        try:
            child = await self.start()
        except NotOpened:
            # One that can't be started, for want of memory perhaps, isn't needed.
            return
        if self.is_over:
            child.kill()
            return
        self.children.append(child)
        child.on_gone = self.forget
        if child.is_lost:
            self.forget(child)
        work.join(child)

    def forget(self, child: Child) -> None:
        """A helper has ended."""
        if child in self.children:
            self.children.remove(child)

    def look(self, now: float) -> None:
        """Ends a helper whose next reply takes too long, and all that have been asked nothing for long."""
        for child in list(self.children):
            if child.is_late(now):
                child.is_overdue = True
                child.kill()
            elif not self.works and now - self.asked > UNUSED_SECONDS:
                self.forget(child)
                child.close()

    def end(self) -> None:
        """Ends them all at once: nothing is asked of them any more."""
        self.is_over = True
        for child in self.children:
            child.on_gone = None
            child.kill()
        self.children = []


class Work:
    """Lines that several children answer: each takes the next few as soon as it has answered those before. They are ever
    fewer, so that all children end about together."""

    def __init__(self, lines: Sequence[bytes]) -> None:
        self.said: list[bytes] = [b""] * len(lines)
        self.lines = lines
        self.left = deque([range(len(lines))])
        self.joined: list[asyncio.Task[None]] = []

    def take(self) -> range:
        """The next few lines that nobody has yet; there are some."""
        first = self.left.popleft()
        size = -(-sum(map(len, self.left), len(first)) // SHARES)
        if len(first) > size:
            self.left.appendleft(first[size:])
        return first[:size]

    async def share(self, child: Child) -> None:
        """Has a child answer as many of them as it comes to. Raises Refusal, where the lines that it had go back."""
        while self.left:
            part = self.take()
            try:
                self.said[part.start:part.stop] = await child.ask_all(self.lines[part.start:part.stop])
            except Refusal:
                self.left.append(part)
                raise

    async def help(self, helper: Child) -> None:
        """The same of a helper, which may end."""
        with contextlib.suppress(Refusal):
            await self.share(helper)

    def join(self, helper: Child) -> None:
        """One more takes its share."""
        if self.left:
            self.joined.append(asyncio.get_running_loop().create_task(self.help(helper)))
