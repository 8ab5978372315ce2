"""Which clients are taken and which requests are begun first, and how many in one turn."""

from __future__ import annotations

import asyncio
import os
import socket
import time
from collections.abc import Iterator
from dataclasses import dataclass, field

import pytest
from waiting import SECONDS, wait_for

from catchup.service import accepting, turns as turns_of
from catchup.service.accepting import Acceptor, Counts, Sort, brings_much, sort_of
from catchup.service.process import Pipe
from catchup.service.turns import MOST_HUNG_UP, MOST_LARGE, PIECES, PROMPT, Turns

# ---- clients, by what they have sent ----


@pytest.fixture
def listener() -> Iterator[socket.socket]:
    with socket.create_server(("127.0.0.1", 0)) as made:
        yield made


GET = b"GET /day?from=5&to=151 HTTP/1.1\r\nHost: localhost\r\n\r\n"
LARGE = b"POST /edits HTTP/1.1\r\nHost: localhost\r\nContent-Length: 65537\r\n\r\n"


@pytest.mark.parametrize(("sent", "end", "wanted"), [
    (b"", "", Sort.WELCOME), (GET, "", Sort.WELCOME), (GET[:9], "", Sort.WELCOME), (LARGE, "", Sort.LARGE),
    (GET, "half", Sort.HUNG_UP), (GET, "whole", Sort.HUNG_UP), (LARGE, "half", Sort.HUNG_UP),
    (b"", "whole", Sort.HUNG_UP)])
def test_clients_are_sorted_before_they_are_taken(listener: socket.socket, sent: bytes, end: str, wanted: Sort) -> None:
    with socket.create_connection(listener.getsockname()) as client:
        accepted, _ = listener.accept()
        with accepted:
            accepted.setblocking(False)
            client.sendall(sent)
            if end == "half":
                client.shutdown(socket.SHUT_WR)
            elif end:
                client.close()
            # Both ends are of this machine, and what was sent is there in a moment.
            assert wait_for(lambda: sort_of(accepted), lambda found: found is wanted) is wanted


def test_a_client_that_is_gone_is_known(listener: socket.socket) -> None:
    with socket.create_connection(listener.getsockname()) as client:
        accepted, _ = listener.accept()
        with accepted:
            accepted.setblocking(False)
            client.setsockopt(socket.SOL_SOCKET, socket.SO_LINGER, b"\1\0\0\0\0\0\0\0")
            client.close()
            assert wait_for(lambda: sort_of(accepted), lambda found: found is Sort.GONE) is Sort.GONE


def test_clients_that_were_put_aside_are_taken_once_at_the_end(listener: socket.socket) -> None:
    """A turn that was asked for before finds nothing more: two connections over one file end the worker."""
    made = []

    def make(address: tuple[object, ...]) -> asyncio.Protocol:
        made.append(address)
        return asyncio.Protocol()

    async def run() -> None:
        acceptor = Acceptor(listener, make, Counts(), 0, lambda: 0, 10)
        for _ in range(5):
            acceptor.aside[Sort.LARGE].append(listener.accept())
        acceptor.call_aside()
        acceptor.close()
        while acceptor.tasks:
            await asyncio.sleep(0)
        # The turn that was asked for has come by then, and another one would have.
        for _ in range(10):
            await asyncio.sleep(0)

    clients = [socket.create_connection(listener.getsockname()) for _ in range(5)]
    asyncio.run(run())
    assert len(made) == len(set(made)) == 5
    for client in clients:
        client.close()


def test_clients_that_were_put_aside_wait_for_no_other(
        listener: socket.socket, monkeypatch: pytest.MonkeyPatch) -> None:
    """Nor where there was no time to see that nobody else waits."""
    made = []

    def make(address: tuple[object, ...]) -> asyncio.Protocol:
        made.append(address)
        return asyncio.Protocol()

    def sort_slowly(client: socket.socket) -> Sort:
        time.sleep(2 * accepting.LOOK_SECONDS)
        return Sort.HUNG_UP

    async def run() -> int:
        acceptor = Acceptor(listener, make, Counts(), 0, lambda: 0, 10)
        until = time.monotonic() + SECONDS
        while not made and time.monotonic() < until:
            await asyncio.sleep(0.01)
        many = len(made)
        acceptor.close()
        return many

    monkeypatch.setattr(accepting, "sort_of", sort_slowly)
    with socket.create_connection(listener.getsockname()):
        assert asyncio.run(run()) == 1


def test_a_pipe_is_closed_once() -> None:
    """uvloop has closed it by then, and its number may be another file's; Python's own loop leaves it to us."""
    async def is_open() -> bool:
        ends = os.pipe()
        os.close(ends[0])
        Pipe(ends[1]).close()
        try:
            os.close(ends[1])
        except OSError:
            return False
        return True

    uvloop = pytest.importorskip("uvloop", reason="python3-uvloop isn't installed")
    with asyncio.Runner(loop_factory=uvloop.new_event_loop) as runner:
        assert runner.run(is_open())
    assert not asyncio.run(is_open())


@pytest.mark.parametrize(("head", "wanted"), [
    (GET, False), (LARGE, True), (LARGE.replace(b"65537", b"65536"), False), (LARGE.replace(b"65537", b"9" * 50), True),
    (LARGE.replace(b"Content-Length", b"CONTENT-LENGTH"), True),
    (LARGE.replace(b"Content-Length: 65537", b"Transfer-Encoding: chunked"), True),
    (LARGE.replace(b"POST", b"GET"), False), (LARGE.replace(b"Content-Length", b"X-Content-Length"), False),
    (b"\0" * 99, False), (b"", False)])
def test_large_bodies_are_known_by_their_heads(head: bytes, wanted: bool) -> None:
    assert brings_much(head) is wanted


# ---- requests ----


@pytest.fixture
def still(monkeypatch: pytest.MonkeyPatch) -> None:
    """No turn takes long, however long a busy machine leaves this process aside."""
    monkeypatch.setattr(turns_of, "LONG_SECONDS", 60.0)


@dataclass(eq=False)
class Request:
    """A request that notes what becomes of it, and in which turn."""

    turns: Turns
    name: str
    began: list[str]
    is_large: bool = False
    has_ended: bool = False
    is_closing: bool = False
    is_away: bool = field(default=False)

    def go(self) -> None:
        self.began.append(self.name)

    def turn_away(self) -> None:
        self.is_away = True


def begun(many: dict[str, tuple[bool, bool]], turns_taken: int) -> list[list[str]]:
    """What is begun in each of some turns, of requests by name that are large or hung up."""
    async def run() -> list[list[str]]:
        turns, found = Turns(), []
        began: list[str] = []
        for name, (is_large, has_ended) in many.items():
            turns.add(Request(turns, name, began, is_large, has_ended))
        for _ in range(turns_taken):
            await asyncio.sleep(0)
            found.append(sorted(began))
            began.clear()
        return found

    return asyncio.run(run())


@pytest.mark.usefixtures("still")
def test_a_turn_begins_a_few_requests_of_each_kind() -> None:
    many = {f"{kind}{at}": (kind == "large", kind == "gone") for at in range(6) for kind in ("plain", "gone", "large")}
    first, second, third, *_ = begun(many, 7)
    assert first == ["gone0", "large0", "plain0", "plain1", "plain2", "plain3"]
    assert second == ["gone1", "large1", "plain4", "plain5"]
    assert third == ["gone2", "large2"]
    assert len(first) == PROMPT + 2


def test_after_a_long_turn_one_request_is_begun() -> None:
    async def run() -> list[str]:
        turns, began = Turns(), []  # type: ignore[var-annotated]
        for at in range(3):
            turns.add(Request(turns, str(at), began))
        time.sleep(0.01)
        await asyncio.sleep(0)
        return list(began)

    assert asyncio.run(run()) == ["0"]


@pytest.mark.usefixtures("still")
def test_requests_whose_clients_hang_up_or_go_meanwhile() -> None:
    async def run() -> tuple[list[str], int]:
        turns, began = Turns(), []  # type: ignore[var-annotated]
        requests = [Request(turns, str(at), began) for at in range(4)]
        for request in requests:
            turns.add(request)
        requests[0].is_closing = requests[1].has_ended = True
        await asyncio.sleep(0)
        first = len(began)
        await asyncio.sleep(0)
        return began, first

    assert asyncio.run(run()) == (["2", "3", "1"], 2)


@pytest.mark.usefixtures("still")
def test_no_more_wait_than_may() -> None:
    async def run() -> tuple[int, int, int]:
        turns = Turns()
        began: list[str] = []
        gone = [Request(turns, "gone", began, has_ended=True) for _ in range(MOST_HUNG_UP + 3)]
        large = [Request(turns, "large", began, is_large=True) for _ in range(MOST_LARGE + 5)]
        for request in [*gone, *large]:
            turns.add(request)
        turns.forget(large[0])
        more = Request(turns, "more", began, is_large=True)
        turns.add(more)
        return sum(each.is_away for each in gone), sum(each.is_away for each in large), more.is_away

    assert asyncio.run(run()) == (3, 5, False)


@pytest.mark.usefixtures("still")
def test_pieces_of_large_bodies_take_turns() -> None:
    async def run() -> list[int]:
        turns = Turns()
        waiting = [asyncio.ensure_future(turns.piece()) for _ in range(2 * PIECES + 1)]
        waiting[1].cancel()
        found = []
        for _ in range(8):
            await asyncio.sleep(0)
            found.append(sum(each.done() for each in waiting))
        return found

    counts = asyncio.run(run())
    assert counts[-1] == 2 * PIECES + 1
    assert all(b - a <= PIECES for a, b in zip([0, *counts], counts))
