"""How the end goes: nobody connects any more, and whoever has connected gets an answer.

The system cuts off whoever has connected and isn't taken as the last process closes the socket. So the main process
lets nobody connect before it asks any worker to end, and closes the socket behind all workers. A signal to all
processes may come to a worker first: it serves on until the main process has asked too, or for a moment where that
doesn't.
"""

from __future__ import annotations

import contextlib
import ctypes
import mmap
import selectors
import socket
import struct
import time
from email.utils import formatdate
from typing import Any, Final

from uvicorn.protocols.http.httptools_impl import STATUS_LINE

from catchup.service.accepting import LAST, SLOTS
from catchup.service.answers import refusal_answer
from catchup.service.errors import Refusal

UNASKED_SECONDS: Final = 2.0            # for which a worker serves on that somebody else than the main process ends
LATE_SECONDS: Final = 0.2               # for those that were about to connect as the end began
ANSWER_SECONDS: Final = 0.5             # for those to take their answer that no worker has taken
DROPPED: Final = 65_536                 # bytes that are read of such a client at a time

SO_ATTACH_FILTER: Final = 26            # of Linux; Python has no name for it
# A filter's instructions: of the flags in a packet's byte 13 take SYN and ACK; SYN alone begins a connection and is
# dropped, all else comes in.
NO_BEGINNING: Final = b"".join(struct.pack("=HBBI", *each) for each in (
    (0x30, 0, 0, 13), (0x54, 0, 0, 0x12), (0x15, 0, 1, 0x02), (0x06, 0, 0, 0), (0x06, 0, 0, 0xFFFF_FFFF)))


class Asked:
    """Which workers the main process has asked to end, in memory that forked processes share."""

    def __init__(self) -> None:
        self.cells = mmap.mmap(-1, SLOTS + 1)

    def ask(self, slot: int) -> None:
        """Asks the worker of a slot."""
        self.cells[slot] = 1

    def ask_all(self) -> None:
        """The service ends."""
        self.cells[SLOTS] = 1

    def is_over(self) -> bool:
        """Whether the service ends, and not one worker alone."""
        return bool(self.cells[SLOTS])

    def begin(self, slot: int) -> None:
        """Another worker has the slot."""
        self.cells[slot] = 0

    def is_asked(self, slot: int) -> bool:
        """Whether the worker of a slot is to end."""
        return bool(self.cells[slot] or self.cells[SLOTS])


def let_nobody_connect(listener: Any) -> None:
    """Has a listening socket drop what comes of clients that begin to connect; those that have begun come in and may be
    taken. A dropped one tries again after a second, and finds nobody or the next service. Where the system has no such
    filter, all stays as it was."""
    program = ctypes.create_string_buffer(NO_BEGINNING, len(NO_BEGINNING))
    with contextlib.suppress(OSError):
        listener.setsockopt(socket.SOL_SOCKET, SO_ATTACH_FILTER,
                            struct.pack("@HP", len(NO_BEGINNING) // 8, ctypes.addressof(program)))


def last_answer(version: str, why: str) -> bytes:
    """What a client gets that no worker has taken."""
    told = refusal_answer(Refusal(503, why), version)
    lines = b"".join(name + b": " + value + b"\r\n" for name, value in told.raw_headers)
    date = formatdate(time.time(), usegmt=True).encode()
    head: bytes = STATUS_LINE[told.status_code]
    return head + b"date: " + date + b"\r\n" + lines + b"connection: close\r\n\r\n" + told.body


def answer_left(listener: Any, answer: bytes) -> None:
    """Answers the clients that no worker has taken, whatever they ask. What they send is read, since an answer that
    stands behind unread bytes is lost."""
    with selectors.DefaultSelector() as waiting, contextlib.ExitStack() as clients:
        with contextlib.suppress(OSError):
            for _ in range(LAST):
                client = clients.enter_context(listener.accept()[0])
                client.setblocking(False)
                with contextlib.suppress(OSError):
                    client.sendall(answer)
                    client.shutdown(socket.SHUT_WR)
                    waiting.register(client, selectors.EVENT_READ)
        last = time.monotonic() + ANSWER_SECONDS
        while waiting.get_map() and (left := last - time.monotonic()) > 0:
            for key, _ in waiting.select(left):
                if has_ended(key.fileobj):
                    waiting.unregister(key.fileobj)


def has_ended(client: Any) -> bool:
    """Reads what a client has sent; whether nothing more comes."""
    try:
        return not client.recv(DROPPED)
    except BlockingIOError:
        return False
    except OSError:
        return True
