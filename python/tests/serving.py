"""A running service for tests: a real process, with a port of its own."""

from __future__ import annotations

import contextlib
import json
import os
import random
import re
import resource
import signal
import socket
import subprocess
import threading
import time
from collections.abc import Iterable
from pathlib import Path
from typing import Any

import httpx
from conftest import TOP
from waiting import SECONDS as SECONDS, wait_for as wait_for

from catchup.program import run_program

HTTP = TOP / "bin" / "catchup-http"
PORTS = Path("/proc/sys/net/ipv4/ip_local_port_range")


def free_ports(many: int) -> list[int]:
    """Ports that are free, and stay so until somebody asks for just these: none of those that the system gives to
    whoever connects or listens anywhere. So a service may go, and another one listen there. Lower ones are kept for
    protocols, to some of which no browser goes."""
    low, high = map(int, PORTS.read_text().split())
    left = [port for port in range(11_000, 1 << 16) if not low <= port <= high] or [*range(low, high + 1)]
    draw, found = random.SystemRandom(), list[int]()
    with contextlib.ExitStack() as taken:
        while len(found) < many:
            with contextlib.suppress(OSError):
                made = taken.enter_context(socket.create_server(("127.0.0.1", draw.choice(left))))
                found.append(made.getsockname()[1])
    return found


def client_of(port: int) -> httpx.Client:
    """A client. Certificates would take it longer to read than all that it asks."""
    return httpx.Client(base_url=f"http://127.0.0.1:{port}", timeout=SECONDS, verify=False, trust_env=False)


class Service:
    """A service over some files."""

    def __init__(self, *words: str | Path, workers: int = 1, most_files: int | None = None,
                 most_bytes: int | None = None,
                 **environment: str) -> None:
        def limit() -> None:
            for kind, most in ((resource.RLIMIT_NOFILE, most_files), (resource.RLIMIT_FSIZE, most_bytes)):
                if most is not None:
                    resource.setrlimit(kind, (most, most))

        self.process = subprocess.Popen(
            [HTTP, "--port", "0", "--workers", str(workers), *words], stdout=subprocess.PIPE, stderr=subprocess.PIPE,
            text=True,
            env={**os.environ, **environment}, start_new_session=True, preexec_fn=limit)
        assert self.process.stdout is not None
        line = self.process.stdout.readline()
        found = re.search(r":(\d+)/$", line.strip())
        assert found, line + self.process.communicate()[1]
        self.port = int(found[1])
        self.client = client_of(self.port)
        # It listens before its workers have opened the file.
        assert wait_for(lambda: len(self.children()) >= 2 * workers)
        assert wait_for(lambda: self.client.get("/health").status_code, lambda status: status == 200) == 200

    def __enter__(self) -> Service:
        return self

    def __exit__(self, *_: object) -> None:
        self.client.close()
        if self.process.poll() is None:
            os.killpg(self.process.pid, signal.SIGKILL)
        self.process.communicate()

    def ask(self, path: str, method: str = "GET", body: bytes | None = None, **headers: str) -> tuple[int, Any]:
        """The status and the JSON of an answer."""
        reply = self.client.request(method, path, content=body,
                                    headers={name.replace("_", "-"): value for name, value in headers.items()})
        return reply.status_code, reply.json()

    def get(self, path: str) -> Any:
        """The JSON of an answer, which is one."""
        status, told = self.ask(path)
        assert status == 200, told
        return told

    def edit(self, *lines: str) -> Any:
        """Makes edits, and answers what is told of them."""
        status, told = self.ask("/edits", "POST", "".join(line + "\n" for line in lines).encode())
        assert status == 200, told
        return told

    def client_of(self) -> httpx.Client:
        """A client with a connection of its own."""
        return client_of(self.port)

    def once(self, line: str) -> tuple[int, Any]:
        """Makes an edit on a connection of its own."""
        with self.client_of() as client:
            reply = client.post("/edits", content=line)
            return reply.status_code, reply.json()

    def connect(self) -> socket.socket:
        """A connection of its own."""
        return socket.create_connection(("127.0.0.1", self.port), timeout=SECONDS)

    def raw(self, data: bytes, *, end: bool = True) -> tuple[str, Any]:
        """The status line and the JSON of what is answered to some bytes; behind them nothing more is sent."""
        with self.connect() as client:
            send_all(client, data, end=end)
            found = read_all(client)
        head, _, body = found.partition(b"\r\n\r\n")
        status = head.split(b"\r\n")[0].decode("latin-1").removeprefix("HTTP/1.1 ")
        return status, json.loads(body) if body.startswith(b"{") else body

    def end(self, number: int = signal.SIGTERM) -> tuple[int, str, str]:
        """Asks it to end: its status and what it said."""
        self.client.close()
        self.process.send_signal(number)
        output, errors = self.process.communicate(timeout=SECONDS)
        return self.process.returncode, output, errors

    def workers(self) -> list[int]:
        """The worker processes."""
        return children_of(self.process.pid)

    def children(self) -> list[int]:
        """The workers' processes of the program."""
        return [child for worker in self.workers() for child in children_of(worker)]


# What the system tells of a connection that the other side has closed: a reset where bytes crossed that.
CLOSED = ConnectionResetError, BrokenPipeError


def send_all(client: socket.socket, data: bytes, *, end: bool = False) -> None:
    """Sends bytes, as far as the other side takes them, which may have answered and closed by then; behind an end
    nothing more is sent."""
    with contextlib.suppress(*CLOSED):
        client.sendall(data)
    if end:
        # The system says that there is no connection where a reset has come.
        with contextlib.suppress(OSError):
            client.shutdown(socket.SHUT_WR)


def read_all(client: socket.socket) -> bytes:
    """All that comes until the other side closes."""
    found = b""
    with contextlib.suppress(*CLOSED):
        while piece := client.recv(65_536):
            found += piece
    return found


def read_some(client: socket.socket, size: int = 65_536) -> bytes:
    """What comes next; nothing where the other side has closed."""
    with contextlib.suppress(*CLOSED):
        return client.recv(size)
    return b""


def children_of(pid: int) -> list[int]:
    """The processes that a process has started and that are there; none where it has ended itself meanwhile."""
    found = []
    with contextlib.suppress(FileNotFoundError, ProcessLookupError):
        for task in Path(f"/proc/{pid}/task").glob("*/children"):
            found += [int(word) for word in task.read_text().split()]
    return sorted(found)


class Watch:
    """A clock of what some processes and their descendants do, and whoever looks at it. It stands still while a busy
    machine has them wait for a processor: the system counts that for each thread, and for each processor how long the
    machine had none. Where nobody waits it is a clock like any other."""

    def __init__(self, *pids: int) -> None:
        self.pids = pids
        self.own = f"/proc/self/task/{threading.get_native_id()}/schedstat"
        self.is_over = threading.Event()
        self.before, self.stolen = self.waits(), stolen()
        self.last = dict(self.before)
        self.began = time.monotonic()
        self.thread = threading.Thread(target=self.look, daemon=True)
        self.thread.start()

    def waits(self) -> dict[str, int]:
        """For how many nanoseconds each thread has waited."""
        places, pids = [self.own], [*self.pids]
        while pids:
            pid = pids.pop()
            pids += children_of(pid)
            with contextlib.suppress(OSError):
                places += [f"/proc/{pid}/task/{task}/schedstat" for task in os.listdir(f"/proc/{pid}/task")]
        found = {}
        for place in places:
            with contextlib.suppress(OSError, IndexError):
                found[place] = int(Path(place).read_text().split()[1])
        return found

    def look(self) -> None:
        """What a process has waited can't be asked for any more when it has ended."""
        while not self.is_over.wait(0.05):
            self.last = self.last | self.waits()

    def so_far(self) -> float:
        """How long it has taken up to now."""
        took = time.monotonic() - self.began
        last = self.last | self.waits()
        waited = sum(found - self.before.get(place, 0) for place, found in last.items()) / 1e9
        return took - waited - max((now - then for now, then in zip(stolen(), self.stolen)), default=0.0)

    def seconds(self) -> float:
        """How long it took. The clock stops."""
        found = self.so_far()
        self.is_over.set()
        self.thread.join()
        return found


def stolen() -> list[float]:
    """For how many seconds each processor of this machine wasn't there, where the machine is one of many on another."""
    ticks = re.findall(r"^cpu\d+(?: \d+){7} (\d+)", Path("/proc/stat").read_text(), re.M)
    return [int(each) / os.sysconf("SC_CLK_TCK") for each in ticks]


def is_there(pid: int) -> bool:
    """Whether a process runs, and isn't only waited for."""
    try:
        return Path(f"/proc/{pid}/stat").read_text().rpartition(")")[2].split()[0] not in "ZX"
    except (FileNotFoundError, ProcessLookupError):
        return False


def ask_program(path: Path, *lines: str) -> list[str]:
    """The program's replies to lines."""
    return run_program(["ask", path], input="".join(line + "\n" for line in lines)).output.splitlines()


def digest_of(path: Path) -> str:
    """The version of a packed file, by its bytes."""
    return path.read_bytes()[-32:].hex()[:12]


def left_in(folder: Path) -> list[str]:
    """Names of files that no service may leave."""
    return sorted(each.name for each in folder.iterdir() if each.name.startswith(".")
                  or each.name.endswith(("-journal", "-wal", "-shm")))


def arrivals(path: Path, queries: Iterable[tuple[int, int, int]]) -> list[int | None]:
    """The least arrivals of queries, by the program."""
    replies = ask_program(path, *(f"q,{start},{end},{second}" for start, end, second in queries))
    return [int(reply.split()[0].removeprefix("arrive=")) if reply.startswith("arrive") else None for reply in replies]
