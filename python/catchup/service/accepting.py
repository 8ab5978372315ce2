"""How workers share the clients that come, and in which order each worker takes them.

All workers wait on one socket. Left to the system, the first that wakes takes most clients, and another none. So each
tells how many it has in memory that all share, and one that has more than another leaves a client to the others for a
moment.

A storm of clients must not keep others waiting. So the line is walked through quickly: those that have hung up already,
and those that bring large bodies, are put aside, which costs little, and come in one by one when nobody else waits.
"""

from __future__ import annotations

import asyncio
import contextlib
import enum
import mmap
import re
import socket
import time
from collections import deque
from collections.abc import Callable
from typing import Any, Final

from catchup.service.limits import LARGE_BODY

SLOTS: Final = 256
UNUSED: Final = 0xFFFF_FFFF
LEAVE_SECONDS: Final = 0.002            # for which a client is left to others
LIKE: Final = 16                        # of so many clients one more or less doesn't matter
LAST: Final = 1_024                     # clients that are taken at most when the worker ends
FAILED_SECONDS: Final = 0.1             # until another try where no more files may be open
AGAIN_SECONDS: Final = 0.1              # until another look where clients were put aside
LOOK_SECONDS: Final = 0.003             # for which one turn looks at clients that wait
PEEKED: Final = 2_048                   # bytes of a client that are looked at before it is taken
WELCOMED: Final = 8                     # clients that are taken in one turn
CLOSE_WAIT: Final = 8                   # the system's state of a connection whose other side sends nothing more
RECEIVED: Final = 65_536                # bytes that the system takes of a client before they are read

BODY: Final = re.compile(rb"\r\n(?:content-length:[ \t]*([0-9]+)|transfer-encoding:)", re.IGNORECASE)

Address = tuple[Any, ...]
Client = tuple[socket.socket, Address]


class Counts:
    """How many connections each worker has, in memory that forked processes share."""

    def __init__(self) -> None:
        self.cells = memoryview(mmap.mmap(-1, 4 * SLOTS)).cast("I")
        for slot in range(SLOTS):
            self.cells[slot] = UNUSED
        self.begun = mmap.mmap(-1, 1)
        self.taking = mmap.mmap(-1, SLOTS)

    def begin(self, slot: int) -> None:
        """A worker has opened its files, and takes clients."""
        self.begun[0] = self.taking[slot] = 1

    def end(self, slot: int) -> None:
        """A worker takes no more clients, or is gone."""
        self.taking[slot] = 0
        self.cells[slot] = UNUSED

    def has_begun(self) -> bool:
        """Whether any worker has ever taken clients."""
        return bool(self.begun[0])

    def is_any_taking(self) -> bool:
        """Whether any worker takes clients."""
        return self.taking.find(b"\1", 0) >= 0

    def take_slot(self) -> int:
        """A slot for another worker. It counts from the first client on that the worker waits for."""
        taken = [slot for slot in range(SLOTS) if self.cells[slot] == UNUSED]
        return taken[0] if taken else SLOTS - 1

    def least(self) -> int:
        """The least count of all workers; UNUSED where none takes clients."""
        return min(self.cells)


class Sort(enum.Enum):
    """What is to become of a client."""

    WELCOME = enum.auto()
    HUNG_UP = enum.auto()               # it sends nothing more, and may yet wait for an answer
    LARGE = enum.auto()                 # it brings a large body
    GONE = enum.auto()


def sort_of(client: socket.socket) -> Sort:
    """What is to become of a client, by what it has sent up to now."""
    if client.getsockopt(socket.IPPROTO_TCP, socket.TCP_INFO, 1)[0] == CLOSE_WAIT:
        return Sort.HUNG_UP
    try:
        head = client.recv(PEEKED, socket.MSG_PEEK)
    except BlockingIOError:
        return Sort.WELCOME
    except OSError:
        return Sort.GONE
    return Sort.LARGE if brings_much(head) else Sort.WELCOME


def brings_much(head: bytes) -> bool:
    """Whether a request's head says that a large body follows."""
    if head.startswith((b"GET ", b"HEAD ")):
        return False
    found = BODY.search(head)
    return found is not None and (found[1] is None or len(found[1]) > 9 or int(found[1]) > LARGE_BODY)


class Acceptor:
    """Takes clients from a listening socket for one worker. `make` makes a connection of a client's address; of each
    sort `most_aside` are put aside, and more aren't taken."""

    def __init__(self, listener: socket.socket, make: Callable[[Address], asyncio.BaseProtocol], counts: Counts,
                 slot: int, many: Callable[[], int], most_aside: int) -> None:
        self.loop = asyncio.get_running_loop()
        self.listener = listener
        self.make = make
        self.counts = counts
        self.slot = slot
        self.many = many
        self.most_aside = most_aside
        self.has_left = False           # a client was left to others, and none took it
        self.is_closed = False
        self.aside: dict[Sort, deque[Client]] = {Sort.HUNG_UP: deque(), Sort.LARGE: deque()}
        self.is_aside_due = False
        self.is_look_due = False
        self.is_crowded = False         # more clients may wait than were looked at
        self.tasks: set[asyncio.Task[object]] = set()
        # The system holds so much of each client, and a turn reads no more of one.
        listener.setsockopt(socket.SOL_SOCKET, socket.SO_RCVBUF, RECEIVED)
        listener.setblocking(False)
        counts.cells[slot] = many()
        self.loop.add_reader(listener.fileno(), self.ready)

    def ready(self) -> None:
        """Clients wait."""
        until = time.monotonic() + LOOK_SECONDS
        self.is_crowded = True
        welcomed = 0
        while welcomed < WELCOMED and time.monotonic() < until and not self.leaves():
            try:
                client, address = self.listener.accept()
            except (BlockingIOError, InterruptedError, ConnectionAbortedError):
                self.is_crowded = False
                self.call_aside()
                return
            except OSError:
                self.pause(FAILED_SECONDS)
                break
            client.setblocking(False)
            sort = sort_of(client)
            if sort is Sort.WELCOME:
                welcomed += 1
                self.has_left = False
                self.welcome((client, address))
            elif sort in self.aside and len(self.aside[sort]) < self.most_aside:
                self.aside[sort].append((client, address))
            else:
                client.close()
        # Where nobody waits any more the system doesn't tell, and those that were put aside would stay there.
        if any(self.aside.values()) and not self.is_look_due:
            self.is_look_due = True
            self.loop.call_later(AGAIN_SECONDS, self.look_again)

    def look_again(self) -> None:
        self.is_look_due = False
        if not self.is_closed and any(self.aside.values()):
            self.ready()

    def leaves(self) -> bool:
        """Whether the next client is left to other workers, since one has fewer than this one."""
        mine = self.many() + len(self.tasks)
        self.counts.cells[self.slot] = mine
        least = self.counts.least()
        if self.has_left or mine <= least + least // LIKE:
            return False
        self.has_left = True
        self.pause(LEAVE_SECONDS)
        return True

    def call_aside(self) -> None:
        """Nobody waits: of each sort that was put aside one is taken in the next turn."""
        if any(self.aside.values()) and not self.is_aside_due:
            self.is_aside_due = True
            self.loop.call_soon(self.take_aside)

    def take_aside(self) -> None:
        self.is_aside_due = False
        if self.is_crowded:
            return
        for line in self.aside.values():
            if line:
                self.welcome(line.popleft())
        self.call_aside()

    def welcome(self, client: Client) -> None:
        """Takes a client."""
        accepted, address = client
        task: asyncio.Task[object] = self.loop.create_task(
            self.loop.connect_accepted_socket(lambda: self.make(address), accepted))
        self.tasks.add(task)
        task.add_done_callback(self.let_go)

    def let_go(self, task: asyncio.Task[object]) -> None:
        self.tasks.discard(task)
        # A client that was gone before it was welcomed.
        if not task.cancelled():
            task.exception()

    def pause(self, seconds: float) -> None:
        """Leaves the socket alone for a moment."""
        self.loop.remove_reader(self.listener.fileno())
        self.loop.call_later(seconds, self.resume)

    def resume(self) -> None:
        if not self.is_closed:
            self.loop.add_reader(self.listener.fileno(), self.ready)

    def tell(self) -> None:
        """Tells the others how many clients there are now."""
        if not self.is_closed:
            self.counts.cells[self.slot] = self.many()

    def close(self) -> None:
        """Takes those that wait already, and then no more clients."""
        self.is_closed = True
        self.loop.remove_reader(self.listener.fileno())
        with contextlib.suppress(OSError):
            self.take_all()
        self.listener.close()
        self.counts.end(self.slot)
        # None may be taken again by a turn that was asked for before: two connections over one file end the worker.
        for line in self.aside.values():
            while line:
                self.welcome(line.popleft())

    def take_all(self) -> None:
        """Takes those that wait; an OSError says that there are no more."""
        for _ in range(LAST):
            client, address = self.listener.accept()
            client.setblocking(False)
            self.welcome((client, address))
