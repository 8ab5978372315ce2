"""Clients that ask again and again, each time on a connection of its own, while a service is ended or reloaded."""

from __future__ import annotations

import socket
import threading
import time
from collections.abc import Iterator
from contextlib import contextmanager
from typing import NamedTuple

from serving import SECONDS

from catchup.service.limits import DRAIN_SECONDS, GRACE_SECONDS

OK, LATER, REFUSED = "HTTP/1.1 200", "HTTP/1.1 503", "refused"


class Outcome(NamedTuple):
    """What came of a request: how its answer begins, or what went wrong; and whether the client took so long to ask, or
    the service to answer, that it may be told that the service ends. On a busy machine either happens."""

    what: str
    is_late: bool


def ask_once(port: int, request: bytes) -> Outcome:
    """Asks once, on a new connection."""
    began = sent = time.monotonic()
    try:
        with socket.create_connection(("127.0.0.1", port), timeout=SECONDS) as client:
            client.sendall(request)
            sent = time.monotonic()
            what = client.recv(len(OK)).decode() or "closed"
    except ConnectionRefusedError:
        what = REFUSED
    except OSError as problem:
        what = str(problem)
    is_late = sent - began > GRACE_SECONDS or time.monotonic() - sent > DRAIN_SECONDS - GRACE_SECONDS
    return Outcome(what, is_late)


def ask_until_refused(port: int, request: bytes, found: list[Outcome], is_over: threading.Event) -> None:
    """Asks until nobody may connect, and notes what comes of each request."""
    while not is_over.is_set():
        found.append(ask_once(port, request))
        if found[-1].what == REFUSED:
            return


@contextmanager
def clients_of(port: int, request: bytes, many: int) -> Iterator[list[Outcome]]:
    """What comes of the requests of many clients. They go on until they are refused, or to the end."""
    found: list[Outcome] = []
    is_over = threading.Event()
    clients = [threading.Thread(target=ask_until_refused, args=(port, request, found, is_over)) for _ in range(many)]
    for client in clients:
        client.start()
    try:
        yield found
    finally:
        is_over.set()
        for client in clients:
            client.join()


def counted(found: list[Outcome]) -> dict[str, int]:
    """How often each outcome was, but for clients that were told of the end since they or their answers were late."""
    told = [each.what for each in found if each.what != LATER or not each.is_late]
    return {what: told.count(what) for what in set(told)}
