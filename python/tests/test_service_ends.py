"""How a service ends while clients go on connecting: whoever has connected gets an answer, whichever process is asked
to end, and when."""

from __future__ import annotations

import asyncio
import os
import re
import signal
import socket
import subprocess
import time
from collections.abc import Callable, Iterator
from pathlib import Path
from types import SimpleNamespace

import pytest
from clients import LATER, OK, REFUSED, clients_of, counted
from conftest import TOP
from serving import HTTP, SECONDS, Service, Watch, is_there, read_all, read_some, send_all, wait_for
from waiting import hold_within

from catchup.service.limits import DRAIN_SECONDS, GRACE_SECONDS

ending = pytest.importorskip("catchup.service.ending")
supervisor = pytest.importorskip("catchup.service.supervisor")

REQUEST = b"GET /route?from=5&to=151&depart=28800 HTTP/1.1\r\nHost: localhost\r\n\r\n"
END_SECONDS = 10 + 5                    # and what a busy machine adds
MANY = 24                               # clients at once
APART = 0.3                             # seconds between the signals to some processes and to the others


def end_all(service: Service) -> None:
    """Asks all processes at once."""
    os.killpg(service.process.pid, signal.SIGTERM)


def interrupt_all(service: Service) -> None:
    """As a terminal does."""
    os.killpg(service.process.pid, signal.SIGINT)


def end_workers_first(service: Service) -> None:
    """As a kill of many processes goes: the main process comes last."""
    for worker in service.workers():
        os.kill(worker, signal.SIGTERM)
    time.sleep(APART)
    service.process.send_signal(signal.SIGTERM)


def end_main_first(service: Service) -> None:
    workers = service.workers()
    service.process.send_signal(signal.SIGTERM)
    time.sleep(APART)
    for worker in filter(is_there, workers):
        os.kill(worker, signal.SIGTERM)


def end_beside_a_reload(service: Service) -> None:
    """While workers are started anew, some haven't begun to serve and others are about to end."""
    service.process.send_signal(signal.SIGHUP)
    time.sleep(APART)
    os.killpg(service.process.pid, signal.SIGTERM)


WAYS = [end_all, interrupt_all, end_workers_first, end_main_first, end_beside_a_reload]


def check_end(file: Path, end: Callable[[Service], None]) -> None:
    """Ends a service under clients: each that connected was answered, and the service went in time."""
    with Service(file, workers=3) as service:
        with clients_of(service.port, REQUEST, MANY) as found:
            assert wait_for(lambda: len(found) > 4 * MANY)
            watch = Watch(service.process.pid)
            end(service)
            assert service.process.wait(SECONDS) == 0
            took = watch.seconds()
            assert took < END_SECONDS, took
        assert set(counted(found)) <= {OK, LATER, REFUSED}, counted(found)
        assert service.process.communicate() == ("", "")


@pytest.mark.parametrize("end", WAYS)
def test_whoever_has_connected_is_answered_at_the_end(town: Path, end: Callable[[Service], None]) -> None:
    for _ in range(2):
        check_end(town, end)


@pytest.mark.long
@pytest.mark.parametrize("end", WAYS)
def test_whoever_has_connected_is_answered_at_many_ends(town: Path, end: Callable[[Service], None]) -> None:
    for _ in range(20):
        check_end(town, end)


def test_a_worker_that_is_ended_alone_cuts_off_nobody(town: Path) -> None:
    """Nor does it keep anybody from the others, or from the one that is started in its place."""
    with Service(town, workers=2) as service, clients_of(service.port, REQUEST, MANY) as found:
        for worker in service.workers():
            assert wait_for(lambda: len(found) > 2 * MANY)
            watch = Watch(worker)
            os.kill(worker, signal.SIGTERM)
            assert wait_for(lambda: is_there(worker), lambda there: not there) is False
            assert watch.seconds() < END_SECONDS
            assert wait_for(lambda: len(service.children()), lambda many: many == 4) == 4
            many = len(found)
            assert wait_for(lambda: len(found) > many + 2 * MANY)
            assert set(counted(found)) == {OK}, counted(found)
        # From now on no worker is left that was there at first, and still everybody may connect.
        assert service.get("/health")["status"] == "ok"
        many = len(found)
        assert wait_for(lambda: len(found) > many + 2 * MANY) and set(counted(found)) == {OK}, counted(found)


def test_who_comes_while_the_last_is_answered_is_refused_at_once(town: Path) -> None:
    """Work that takes long keeps nobody waiting at the door."""
    # What isn't ready by then is ended.
    hold_within(DRAIN_SECONDS, lambda: end_beside_an_edit(town))


def end_beside_an_edit(town: Path) -> None:
    """Ends a service that waits for the rest of an edit, while others go on coming to it."""
    with Service(town, workers=2) as service, service.connect() as client:
        client.sendall(b"POST /edits HTTP/1.1\r\nHost: localhost\r\nContent-Length: 3\r\nExpect: 100-continue\r\n\r\n")
        assert client.recv(100) == b"HTTP/1.1 100 Continue\r\n\r\n"
        client.sendall(b"?,")
        service.process.send_signal(signal.SIGTERM)
        watch, last = Watch(service.process.pid), 0.0
        while (found := knock(service.port)) != REFUSED:
            last = watch.so_far() if found == "taken" else last
        assert last < 3 * APART
        # Whose first packet was dropped tries again after a second.
        assert watch.seconds() < 3 * APART + 5
        assert service.process.poll() is None
        send_all(client, b"?")
        assert read_some(client, 12) == b"HTTP/1.1 400"
        assert service.process.wait(SECONDS) == 0


@pytest.mark.parametrize("number, why", [(signal.SIGTERM, "the service ends"), (signal.SIGHUP, "the service is reloaded")])
def test_who_has_connected_and_not_asked_yet_is_told(town: Path, number: int, why: str) -> None:
    """A busy machine may take long over a client's request, and some of it may be there."""
    with Service(town) as service, service.connect() as silent, service.connect() as slow, service.connect() as idle:
        idle.sendall(REQUEST)
        assert idle.recv(65_536).startswith(b"HTTP/1.1 200")
        slow.sendall(REQUEST[:9])
        [before] = service.workers()
        watch = Watch(service.process.pid)
        service.process.send_signal(number)
        # Between two requests nobody waits for an answer.
        assert idle.recv(65_536) == b""
        # By now both have been told, and the service needn't wait for what they send.
        send_all(slow, REQUEST[9:])
        send_all(silent, REQUEST)
        for client in (silent, slow):
            head, _, body = read_all(client).partition(b"\r\n\r\n")
            assert head.startswith(b"HTTP/1.1 503 ") and b"\r\nretry-after: 1" in head
            assert b"\r\nconnection: close" in head and f'"error":"{why}"'.encode() in body
        # Nobody waits long for those who go on saying nothing.
        assert wait_for(lambda: is_there(before), lambda there: not there) is False
        assert watch.seconds() < END_SECONDS / 2


# A worker that gets no processor from when it has taken its last clients until a file is there.
STALLED = """
import pathlib, sys, time

sys.path.insert(0, {python!r})
from catchup.service.accepting import Acceptor

close = Acceptor.close


def close_and_stall(acceptor):
    close(acceptor)
    pathlib.Path({begun!r}).touch()
    while not pathlib.Path({over!r}).exists():
        time.sleep(0.01)


Acceptor.close = close_and_stall
"""


@pytest.mark.parametrize("number, why", [(signal.SIGTERM, "the service ends"), (signal.SIGHUP, "the service is reloaded")])
def test_what_has_come_is_answered_though_no_processor_was_free(town: Path, tmp_path: Path, number: int, why: str) -> None:
    """A worker may get none from before clients send until its time for them is over."""
    begun, over = tmp_path / "begun", tmp_path / "over"
    code = STALLED.format(python=str(TOP / "python"), begun=str(begun), over=str(over))
    (tmp_path / "sitecustomize.py").write_text(code)
    with Service(town, PYTHONPATH=str(tmp_path)) as service, service.connect() as new, service.connect() as half, \
            service.connect() as silent, service.connect() as known, service.connect() as idle:
        for client in (known, idle):
            client.sendall(REQUEST)
            assert client.recv(65_536).startswith(b"HTTP/1.1 200")
        service.process.send_signal(number)
        assert wait_for(begun.exists)
        sent = time.monotonic()
        for client, data in ((new, REQUEST), (half, REQUEST[:9]), (known, REQUEST)):
            client.sendall(data)
        assert wait_for(lambda: time.monotonic() > sent + GRACE_SECONDS)
        over.touch()
        for client in (new, known):
            found = read_all(client)
            assert found.startswith(b"HTTP/1.1 200 ") and b"\r\nconnection: close" in found
        for client in (half, silent):
            found = read_all(client)
            assert found.startswith(b"HTTP/1.1 503 ") and b"\r\nretry-after: 1" in found and why.encode() in found
        assert read_all(idle) == b""


@pytest.fixture
def checker(program: Path, tmp_path: Path) -> Path:
    """A program which, as long as a file `what` stands beside it, does that in the place of its work."""
    path = tmp_path / "checker"
    path.write_text(f'#!/bin/sh\nif [ -e "$0.what" ]; then : >"$0.asked"; . "$0.what"; fi\nexec "{program}" "$@"\n')
    path.chmod(0o755)
    return path


def begin_reload(service: Service, checker: Path, what: str) -> None:
    """Asks for a reload whose look at the file does this, and waits until it has begun."""
    checker.with_name("checker.what").write_text(what + "\n")
    service.process.send_signal(signal.SIGHUP)
    assert wait_for(checker.with_name("checker.asked").exists)


@pytest.mark.parametrize("to_all", [False, True])
def test_the_end_waits_for_no_look_at_a_file(town: Path, checker: Path, to_all: bool) -> None:
    """However long a reload looks at the file, and whoever of all processes is ended first, nothing is said of it."""
    with Service(town, workers=2, CATCHUP=str(checker)) as service:
        begin_reload(service, checker, "exec sleep 1000")
        watch = Watch(service.process.pid)
        (os.killpg if to_all else os.kill)(service.process.pid, signal.SIGTERM)
        assert service.process.wait(SECONDS) == 0
        assert watch.seconds() < END_SECONDS
        assert service.process.communicate() == ("", "")


def test_the_end_may_come_to_the_look_at_a_file_first(town: Path, checker: Path) -> None:
    with Service(town, workers=2, CATCHUP=str(checker)) as service:
        begin_reload(service, checker, "kill -TERM $$")
        assert service.end() == (0, "", "")


def test_a_reload_whose_look_at_a_file_was_ended_says_so(town: Path, checker: Path) -> None:
    """The program isn't taken for a worker, and its status is told."""
    with Service(town, workers=2, CATCHUP=str(checker)) as service:
        before = service.workers()
        begin_reload(service, checker, "sleep 0.5; kill -KILL $$")
        # A worker that ends meanwhile is started again as ever.
        os.kill(before[0], signal.SIGTERM)
        checker.with_name("checker.what").unlink()
        assert wait_for(lambda: len(service.children()), lambda many: many == 4) == 4
        assert wait_for(service.workers, lambda found: len(found) == 2 and before[0] not in found)[0] == before[1]
        status, output, said = service.end()
    assert (status, output) == (0, "")
    assert said == f"catchup-http: nothing is reloaded: {town} can't be served: the program was ended by SIGKILL\n"


def knock(port: int) -> str:
    """What becomes of a client that comes now, and asks nothing. Dropped is one whose packet came to nobody: left to the
    system it would try again after ever longer times."""
    try:
        socket.create_connection(("127.0.0.1", port), timeout=APART).close()
    except ConnectionRefusedError:
        return REFUSED
    except TimeoutError:
        return "dropped"
    return "taken"


@pytest.mark.parametrize("to_all", [False, True])
def test_whoever_comes_before_the_workers_is_answered(town: Path, to_all: bool) -> None:
    """It listens before its workers have opened the file, and may end by then."""
    for pause in (0.0, 0.1, 0.2, 0.4):
        process = subprocess.Popen([HTTP, "--port", "0", "--workers", "2", town], stdout=subprocess.PIPE,
                                   stderr=subprocess.PIPE, start_new_session=True)
        assert process.stdout is not None
        port = int(re.findall(rb":(\d+)/", process.stdout.readline())[0])
        with clients_of(port, REQUEST, MANY) as found:
            time.sleep(pause)
            (os.killpg if to_all else os.kill)(process.pid, signal.SIGTERM)
            assert process.wait(SECONDS) == 0
        assert set(counted(found)) <= {OK, LATER, REFUSED}, counted(found)
        assert process.communicate() == (b"", b"")


# ---- the parts ----


@pytest.fixture
def listener() -> Iterator[socket.socket]:
    with socket.create_server(("127.0.0.1", 0)) as found:
        found.settimeout(SECONDS)
        yield found


def test_who_has_begun_to_connect_comes_in_and_nobody_else(listener: socket.socket) -> None:
    # So a client's last step comes only with the first bytes that it sends.
    listener.setsockopt(socket.IPPROTO_TCP, socket.TCP_DEFER_ACCEPT, 5)
    with socket.create_connection(listener.getsockname(), timeout=SECONDS) as early:
        ending.let_nobody_connect(listener)
        with pytest.raises(TimeoutError):
            socket.create_connection(listener.getsockname(), timeout=0.3)
        early.sendall(b"a")
        taken, _ = listener.accept()
        with taken:
            # Bytes come and go as ever, and so does the end.
            early.sendall(b"b" * 1_000_000)
            early.shutdown(socket.SHUT_WR)
            assert len(read_all(taken)) == 1_000_001
            taken.sendall(b"c")
            assert early.recv(2) == b"c"


def test_whoever_is_left_is_answered_whatever_was_sent(listener: socket.socket) -> None:
    answer = ending.last_answer("0123456789ab", "the service ends")
    head, _, body = answer.partition(b"\r\n\r\n")
    assert head.startswith(b"HTTP/1.1 503 ") and b"\r\ncontent-length: %d" % len(body) in head
    assert body == b'{"error":"the service ends","version":"0123456789ab"}'
    listener.setblocking(False)
    clients = [socket.create_connection(listener.getsockname(), timeout=SECONDS) for _ in range(5)]
    silent, asking, large, half, gone = clients
    asking.sendall(REQUEST)
    large.setblocking(False)
    large.send(b"a" * 1_000_000)
    large.settimeout(SECONDS)
    half.sendall(REQUEST[:9])
    half.shutdown(socket.SHUT_WR)
    gone.close()
    watch = Watch()
    ending.answer_left(listener, answer)
    assert watch.seconds() < END_SECONDS / 2
    listener.close()
    for client in clients[:-1]:
        with client:
            assert client.recv(65_536) == answer


def test_a_worker_gives_signs_while_it_opens_its_files() -> None:
    """The main process ends one that gives none, however large its file is."""
    signs: list[float] = []

    async def notify() -> None:
        signs.append(time.monotonic())

    async def start() -> None:
        server = supervisor.DrainingServer(supervisor.Config(None, callback_notify=notify))
        server.worker = SimpleNamespace(start=lambda: asyncio.sleep(SECONDS), unserved=lambda: None)
        asyncio.get_running_loop().call_later(5 * supervisor.START_PAUSE, server.handle_exit, signal.SIGTERM, None)
        await server.startup()

    asyncio.run(start())
    assert len(signs) >= 2


def test_workers_know_who_is_asked_to_end() -> None:
    asked = ending.Asked()
    asked.ask(3)
    assert [asked.is_asked(slot) for slot in (2, 3)] == [False, True]
    asked.begin(3)
    assert not asked.is_asked(3)
    asked.ask_all()
    asked.begin(3)
    assert all(asked.is_asked(slot) for slot in range(256))
