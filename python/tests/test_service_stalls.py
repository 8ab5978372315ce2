"""Clients that do harm, each a process of its own so that it doesn't slow the one that measures, and how long others
wait."""

from __future__ import annotations

import contextlib
import functools
import os
import re
import socket
import subprocess
import sys
import threading
import time
from collections.abc import Iterator
from concurrent.futures import ThreadPoolExecutor
from pathlib import Path

import pytest
from serving import Service, read_all, read_some, send_all, wait_for
from waiting import hold_within

from catchup.service.limits import HEAD_SECONDS

ROUTE = b"GET /route?from=5&to=151&depart=28800 HTTP/1.1\r\nHost: localhost\r\n\r\n"
HEALTH = b"GET /health HTTP/1.1\r\nHost: localhost\r\n\r\n"
H = b"Host: localhost\r\n"
# By how many seconds the 99th percentile may be above that of quiet times, on a machine that has much else to do.
MOST_SECONDS = 0.5
TRIES = 4

HARMS = {
    "pipelines": """
while True:
    client = connect()
    try:
        while True:
            client.sendall(b"GET /edit HTTP/1.1\\r\\nHost: localhost\\r\\n\\r\\n" * 3000)
    except OSError:
        pass
""",
    "what is no request": """
while True:
    client = connect()
    try:
        while True:
            client.sendall(b"GET /edit HTTP/1.1\\r\\n\\r" * 3000)
    except OSError:
        pass
""",
    "empty lines": """
while True:
    client = connect()
    try:
        while True:
            client.sendall(b"\\r\\n" * 30000)
    except OSError:
        pass
""",
    "large lines": """
body = b"s" + b",0" * (1 << 21)
while True:
    client = connect()
    client.sendall(b"POST /edits HTTP/1.1\\r\\nHost: localhost\\r\\nContent-Length: %d\\r\\n\\r\\n" % len(body) + body)
    client.recv(1000)
""",
    "large bodies": """
while True:
    client = connect()
    try:
        client.sendall(b"POST /edits HTTP/1.1\\r\\nHost: localhost\\r\\nContent-Length: 67108864\\r\\n\\r\\n"
                       + b"\\n" * (1 << 20))
    except OSError:
        pass
    client.close()
""",
    "reads nothing": """
client = connect()
client.settimeout(None)
while True:
    client.sendall(b"GET /reach?from=5&depart=0 HTTP/1.1\\r\\nHost: localhost\\r\\n\\r\\n" * 1000)
""",
    "comes and goes": """
while True:
    client = connect()
    client.sendall(b"GET /day?from=5&to=151 HTTP/1.1\\r\\nHost: localhost\\r\\n\\r\\n")
    client.close()
""",
    "drips": """
clients = [connect() for _ in range(800)]
while True:
    for client in clients:
        with contextlib.suppress(OSError):
            client.sendall(b"G")
    time.sleep(0.05)
""",
    "wide tables": """
ask_by_four(b"GET /table?depart=0&from=0&to=%b HTTP/1.1\\r\\nHost: localhost\\r\\n\\r\\n" % b",".join([b"1"] * 7900))
""",
    "many words": """
ask_by_four(b"GET /route?%bz=1 HTTP/1.1\\r\\nHost: localhost\\r\\n\\r\\n" % (b"a=1&" * 4000))
""",
    "counts": """
ask_by_four(b"GET /metrics HTTP/1.1\\r\\nHost: localhost\\r\\n\\r\\n")
""",
    "edits of roads": """
body = b'{"edits": [%b]}' % b", ".join([b'{"road": 9999999, "closed": true}'] * 1500)
ask_by_four(b"POST /edits HTTP/1.1\\r\\nHost: localhost\\r\\nContent-Type: application/json\\r\\n"
            b"Content-Length: %d\\r\\n\\r\\n" % len(body) + body)
""",
}
COMMON = """
import contextlib, socket, sys, threading, time

def connect():
    return socket.create_connection(("127.0.0.1", int(sys.argv[1])), 5)

def ask(request):
    while True:
        with contextlib.suppress(OSError, ValueError, IndexError), connect() as client:
            while True:
                client.sendall(request)
                head, _, body = client.recv(65536).partition(b"\\r\\n\\r\\n")
                left = int(head.lower().split(b"content-length: ")[1].split()[0]) - len(body)
                while left > 0:
                    left -= len(client.recv(65536)) or left

def ask_by_four(request):
    for _ in range(4):
        threading.Thread(target=ask, args=(request,)).start()
"""


class Harm:
    """Two processes that do harm of a kind, until the end of a block."""

    def __init__(self, service: Service, name: str) -> None:
        self.words = [sys.executable, "-c", COMMON + HARMS[name], str(service.port)]

    def __enter__(self) -> None:
        self.clients = [subprocess.Popen(self.words, stderr=subprocess.DEVNULL) for _ in range(2)]

    def __exit__(self, *_: object) -> None:
        for client in self.clients:
            client.kill()
            client.wait()


@contextlib.contextmanager
def preferred(pid: int) -> Iterator[None]:
    """Has the system prefer a process and those of its session, where it may be asked to: how long a client waits
    tells little where the service gets a tenth of a processor."""
    path = Path(f"/proc/{pid}/autogroup")
    before = re.search(r"nice (-?\d+)", path.read_text()) if path.exists() else None
    with contextlib.suppress(OSError):
        path.write_text("-15")
    try:
        yield
    finally:
        if before is not None:
            with contextlib.suppress(OSError):
                path.write_text(before[1])


def withheld(places: list[str]) -> float:
    """For how many seconds some threads have waited for a processor, where the system tells that."""
    found = 0.0
    for place in places:
        with contextlib.suppress(OSError, IndexError):
            found += int(Path(place).read_text().split()[1]) / 1e9
    return found


def late(service: Service, seconds: float, *, anew: bool = False) -> float:
    """The 99th percentile of another client's routes meanwhile, in seconds: by one connection, or each by one of its
    own. A busy machine may keep a processor from that client or from the worker's loop, which counts for nobody."""
    [worker] = service.workers()
    places = [f"/proc/{worker}/task/{worker}/schedstat", f"/proc/self/task/{threading.get_native_id()}/schedstat"]
    found: list[float] = []
    client = service.connect()
    until = time.monotonic() + seconds
    while not found or time.monotonic() < until:
        before, began = withheld(places), time.monotonic()
        if anew:
            client.close()
            client = service.connect()
        client.sendall(ROUTE)
        assert client.recv(65_536).startswith(b"HTTP/1.1 200")
        found.append(time.monotonic() - began - (withheld(places) - before))
        time.sleep(0.002)
    client.close()
    return sorted(found)[int(len(found) * 0.99)]


def later(service: Service, name: str) -> tuple[float, float]:
    """The 99th percentile in quiet times and under harm, the worse of one connection and of new ones each time, of
    the try in which they are nearest: other work on the machine may add to one, and not to each."""
    found: list[tuple[float, float]] = []
    while len(found) < TRIES and not (found and found[-1][1] < found[-1][0] + MOST_SECONDS / 5):
        quiet = max(late(service, 0.15, anew=anew) for anew in (False, True))
        with Harm(service, name):
            time.sleep(0.2)
            found.append((quiet, max(late(service, 0.3, anew=anew) for anew in (False, True))))
        time.sleep(0.1)
    return min(found, key=lambda pair: pair[1] - pair[0])


def memory_of(service: Service) -> int:
    """The most memory that the worker has had, in MB."""
    [worker] = service.workers()
    found = re.search(r"VmHWM:\s+(\d+)", Path(f"/proc/{worker}/status").read_text())
    assert found
    return int(found[1]) // 1024


def test_no_client_stalls_another(town: Path, tmp_path: Path, capsys: pytest.CaptureFixture[str]) -> None:
    """Others' 99th percentile under each kind of harm stays near that of quiet times; both are printed."""
    path = tmp_path / "town.cu"
    path.write_bytes(town.read_bytes())
    said = []
    with Service(path) as service, preferred(service.process.pid), preferred(os.getpid()):
        for name in HARMS:
            quiet, found = later(service, name)
            said.append(f"{name} {found * 1000:.0f} ({quiet * 1000:.0f})")
            assert found < quiet + MOST_SECONDS, said
        assert memory_of(service) < 200
        assert service.end() == (0, "", "")
    with capsys.disabled():
        print("\n  99th percentile in ms (and in quiet times): " + ", ".join(said))


# ---- clients that hang up and wait for an answer all the same ----


def ask_and_hang_up(service: Service, request: bytes) -> bytes:
    """The status line of the answer to a client that sends nothing more."""
    with service.connect() as client:
        client.sendall(request)
        client.shutdown(socket.SHUT_WR)
        return read_all(client).split(b"\r\n")[0]


def test_clients_that_hang_up_are_answered(town: Path) -> None:
    day = b"GET /day?from=5&to=151 HTTP/1.1\r\n" + H + b"\r\n"
    with Service(town) as service, ThreadPoolExecutor(16) as pool:
        found = list(pool.map(lambda request: ask_and_hang_up(service, request), [ROUTE, day, HEALTH, ROUTE * 2] * 40))
        assert set(found) == {b"HTTP/1.1 200 OK"}
        # A head whose body never comes gets what can be said of it.
        head = b"POST /%b HTTP/1.1\r\n" + H + b"Content-Length: %d\r\n\r\n"
        assert ask_and_hang_up(service, head % (b"edits", 5)) == b"HTTP/1.1 400 Bad Request"
        assert ask_and_hang_up(service, head % (b"edits", 1 << 20)) == b"HTTP/1.1 400 Bad Request"
        assert ask_and_hang_up(service, head % (b"day", 1 << 20)).startswith(b"HTTP/1.1 413")
        assert ask_and_hang_up(service, head % (b"nothing", 5)).startswith(b"HTTP/1.1 404")


# ---- limits of time, size and memory ----


def send_slowly(service: Service) -> bytes:
    """A byte of a head now and then, and what becomes of it."""
    with service.connect() as client:
        with contextlib.suppress(OSError):
            for byte in b"GET /route?from=5&to=151 HTTP/1.1\r\n":
                client.sendall(bytes([byte]))
                time.sleep(0.5)
        return read_all(client).split(b"\r\n")[0]


def send_much(service: Service, size: int) -> bytes:
    """A body of a gigabyte, as far as it is taken."""
    with service.connect() as client:
        client.sendall(b"POST /edits HTTP/1.1\r\n" + H + b"Content-Length: %d\r\n\r\n" % size)
        with contextlib.suppress(OSError):
            for _ in range(size >> 20):
                client.sendall(bytes(1 << 20))
        return read_some(client, 12)


def test_slow_and_large_clients_are_told_so(town: Path) -> None:
    with Service(town) as service, ThreadPoolExecutor(12) as pool:
        slow = [pool.submit(send_slowly, service) for _ in range(10)]
        head = b"POST /edits HTTP/1.1\r\n" + H + b"Content-Length: 4194306\r\n\r\n"
        status, told = service.raw(head + b"0" * 4194306)
        assert (status.split()[0], told["error"]) == ("413", "a line has at most 4194304 bytes")
        assert {send_much(service, 1 << 30) for _ in range(3)} <= {b"HTTP/1.1 413", b""}
        assert {each.result() for each in slow} == {b"HTTP/1.1 408 Request Timeout"}
        assert memory_of(service) < 200


def test_a_thousand_idle_connections_take_little_memory(town: Path, capsys: pytest.CaptureFixture[str]) -> None:
    with Service(town, workers=4) as service:
        clients = [service.connect() for _ in range(1000)]
        wait_for(lambda: service.ask("/health")[0], lambda status: status == 200)
        time.sleep(0.5)
        processes = [service.process.pid, *service.workers()]
        whole = sum(int(Path(f"/proc/{pid}/smaps_rollup").read_text().split("Pss:")[1].split()[0])
                    for pid in processes) // 1024
        for client in clients:
            client.close()
    with capsys.disabled():
        print(f"\n  1,000 idle connections, 4 workers: {whole} MB")
    assert whole < 200


def take_places(service: Service, sent: bytes) -> None:
    """Has others ask beside more clients than there is room for, who have sent something: the one that has been waited
    for the longest goes, and is told nothing."""
    with contextlib.ExitStack() as stack:
        clients = [stack.enter_context(service.connect()) for _ in range(80)]
        for client in clients:
            send_all(client, sent)
        for _ in range(3):
            with service.connect() as client:
                client.sendall(HEALTH)
                assert read_some(client).startswith(b"HTTP/1.1 200"), sent
        # Where what was sent wasn't read yet, the system tells the client's end as a reset.
        assert sent.endswith(b"\n\r\n") or read_all(clients[0]) == b"", sent
        if not sent:
            send_all(clients[-1], HEALTH)
            assert read_some(clients[-1]).startswith(b"HTTP/1.1 200")


def test_clients_that_are_waited_for_go_where_there_are_too_many(town: Path) -> None:
    """With few open files allowed, a new client takes the place of the one that has been waited for the longest: for a
    request, for the rest of its head or of its body, or to close behind a refusal."""
    head = b"POST /edits HTTP/1.1\r\n" + H + b"Content-Length: 9\r\n\r\n"
    with Service(town, most_files=180) as service:
        for sent in (b"", b"G", head, head + b"a", b"no request\r\n\r\n"):
            # Whose head takes longer is sent away for that.
            hold_within(HEAD_SECONDS, functools.partial(take_places, service, sent))
        assert service.end() == (0, "", "")
