"""What a service endures: killed and hung processes at any moment, and files that are put in the place of the served
one."""

from __future__ import annotations

import fcntl
import json
import os
import random
import re
import signal
import subprocess
import sys
import termios
import threading
import time
from concurrent.futures import ThreadPoolExecutor
from pathlib import Path

import httpx
import pytest
from clients import OK, REFUSED, clients_of, counted
from conftest import TOP, build
from scripts import run
from serving import (
    HTTP, SECONDS, Service, Watch, ask_program, children_of, client_of, digest_of, is_there, left_in, wait_for)

from catchup.program import run_program

ROUTE = "/route?from=5&to=151&depart=28800"


def version_of(service: Service) -> str:
    """The version that a worker answers of."""
    with client_of(service.port) as client:
        return str(client.get("/health").json()["version"])


def versions_of(service: Service) -> set[str]:
    """The versions of which some connections are answered, more than there are workers and shared among them."""
    return {version_of(service) for _ in range(20)}


def status_of(service: Service, path: str = ROUTE) -> int:
    """The status of a request, made on a connection of its own."""
    with client_of(service.port) as client:
        return client.get(path).status_code


def put(path: Path, data: bytes) -> None:
    """Puts a file in a place by renaming."""
    beside = path.with_name("beside")
    beside.write_bytes(data)
    beside.rename(path)


def edited(path: Path, line: str) -> bytes:
    edits, out = path.parent.parent / "edits.txt", path.parent.parent / "edited.cu"
    edits.write_text(line + "\n")
    assert run_program(["edit", path, edits, out]).status == 0
    return out.read_bytes()


def test_the_program_keeps_to_the_memory_that_the_service_is_told(file: Path) -> None:
    with Service(file, CATCHUP_MEMORY="64") as service:
        for child in service.children():
            assert b"CATCHUP_MEMORY=64" in Path(f"/proc/{child}/environ").read_bytes().split(b"\0")


def test_a_file_that_is_put_in_place_is_served(file: Path) -> None:
    following = edited(file, "s,0,0,travel,600")
    with Service(file, workers=2) as service:
        put(file, following)
        wanted = digest_of(file)
        assert wait_for(lambda: versions_of(service), lambda found: found == {wanted}) == {wanted}
        # From then on no worker goes back.
        assert versions_of(service) == {wanted}
        assert wait_for(lambda: len(service.children()), lambda many: many == 4) == 4


def test_a_file_that_is_refused_is_not_served(file: Path, rush_hour: Path, tmp_path: Path) -> None:
    good, before = file.read_bytes(), digest_of(file)
    other = build(rush_hour, tmp_path / "rush.cu", "identity").read_bytes()
    cases = ((b"CATCHUPH", "file: short"), (good[:-1] + b"\0", "file: digest"), (other, "another network"))
    with Service(file, workers=2) as service:
        for data, said in cases:
            put(file, data)
            told = wait_for(lambda: service.get("/health"), lambda told: "refused" in told)
            assert told["status"] == "ok" and told["version"] == before and said in told["refused"]
            assert service.get(ROUTE)["version"] == before
            status, told = service.ask("/edits", "POST", b"a,0,1")
            assert status == 503 and "isn't served" in told["error"]
            # All workers have seen it before it goes.
            assert wait_for(lambda: {refused_by(service) for _ in range(20)}, lambda found: None not in found)
            put(file, edited_bytes(good, file))
            assert wait_for(lambda: service.get("/health").get("refused", ""), lambda said: not said) == ""
            put(file, good)
            assert wait_for(lambda: service.get("/health")["version"], lambda found: found == before) == before
        status, _, errors = service.end()
        assert status == 0 and errors.count("\n") == len(cases), errors
        assert all(said in line for (_, said), line in zip(cases, errors.splitlines())), errors


def refused_by(service: Service) -> str | None:
    """What a worker says of a file that isn't served; None where it is."""
    with client_of(service.port) as client:
        said: str | None = client.get("/health").json().get("refused")
        return said


def edited_bytes(good: bytes, path: Path) -> bytes:
    beside = path.parent.parent / "good.cu"
    beside.write_bytes(good)
    edits, out = path.parent.parent / "edits.txt", path.parent.parent / "edited.cu"
    edits.write_text("a,0,1\n")
    assert run_program(["edit", beside, edits, out]).status == 0
    return out.read_bytes()


def test_what_is_no_file_is_not_served(file: Path) -> None:
    """A pipe, of which nobody writes the other end, holds up nobody."""
    good = file.read_bytes()
    for make in (os.mkfifo, os.mkdir):
        with Service(file) as service:
            file.unlink()
            make(file)
            told = wait_for(lambda: service.get("/health"), lambda told: "refused" in told)
            assert (told["status"], told["refused"]) == ("ok", "town.cu is no file")
            assert service.get(ROUTE)["answer"] == "arrive" and service.ask("/edits", "POST", b"a,0,1")[0] == 503
            for worker in service.workers():
                os.kill(worker, signal.SIGKILL)
                assert wait_for(lambda: service.workers(), lambda found: found and found != [worker])
            assert wait_for(lambda: status_of(service), lambda status: status == 200) == 200
        (os.rmdir if make is os.mkdir else os.unlink)(file)
        file.write_bytes(good)


def test_a_file_that_is_gone_is_served_on(file: Path) -> None:
    good = file.read_bytes()
    with Service(file) as service:
        file.unlink()
        told = wait_for(lambda: service.get("/health"), lambda told: "refused" in told)
        assert told["status"] == "ok" and "can't be read" in told["refused"]
        assert service.get(ROUTE)["answer"] == "arrive"
        assert service.ask("/edits", "POST", b"a,0,1")[0] == 503
        put(file, good)
        assert wait_for(lambda: "refused" in service.get("/health"), lambda refused: not refused) is False


def test_a_child_that_dies_is_started_again(file: Path) -> None:
    with Service(file) as service:
        before = service.children()
        assert len(before) == 2
        for child in before:
            os.kill(child, signal.SIGKILL)
            statuses = {service.ask(path)[0] for path in (ROUTE, "/day?from=5&to=151")}
            assert statuses <= {200, 503}
            wait_for(lambda: [service.ask(path)[0] for path in (ROUTE, "/day?from=5&to=151")],
                     lambda found: found == [200, 200])
        assert not set(before) & set(service.children())
        status, _, errors = service.end()
        assert status == 0 and "Traceback" not in errors and errors.count("is started again: it has ended") == 2


def test_a_child_that_hangs_is_replaced(file: Path) -> None:
    with Service(file) as service:
        quick = service.children()[0]
        os.kill(quick, signal.SIGSTOP)
        watch = Watch(service.process.pid)
        status, told = service.ask(ROUTE)
        if status == 200:
            quick = service.children()[1]
            os.kill(quick, signal.SIGSTOP)
            watch = Watch(service.process.pid)
            status, told = service.ask(ROUTE)
        assert status == 503 and told["error"] == "the program took too long" and watch.seconds() < 15
        assert wait_for(lambda: service.ask(ROUTE)[0], lambda status: status == 200) == 200
        assert not is_there(quick)


def is_asked(child: int) -> bool:
    """Whether a line waits in a child's input, longer than that which asks whether it is there; or it is gone."""
    try:
        with open(f"/proc/{child}/fd/0", "rb", buffering=0) as pipe:
            waits = int.from_bytes(fcntl.ioctl(pipe, termios.FIONREAD, bytes(4)), sys.byteorder)
            return waits >= len("d,5,151\n")
    except OSError:
        return True


def test_what_hangs_holds_up_no_end(file: Path) -> None:
    """Who waits for a child that hangs is told before the service ends; a worker that hangs is ended."""
    with Service(file) as service, ThreadPoolExecutor(2) as pool:
        children = service.children()
        for child in children:
            os.kill(child, signal.SIGSTOP)
        asked = [pool.submit(status_of, service, path) for path in (ROUTE, "/day?from=5&to=151")]
        assert wait_for(lambda: all(map(is_asked, children)))
        watch = Watch(service.process.pid)
        assert service.end()[0] == 0
        assert [each.result() for each in asked] == [503, 503]
        # Ten seconds, and what a busy machine adds.
        assert watch.seconds() < 10 + 5
    with Service(file, workers=2) as service:
        os.kill(service.workers()[0], signal.SIGSTOP)
        watch = Watch(service.process.pid)
        assert service.end()[0] == 0 and watch.seconds() < 10 + 5


def test_two_services_over_one_file_take_turns(file: Path) -> None:
    with Service(file) as one, Service(file) as other, ThreadPoolExecutor(6) as pool:
        found = list(pool.map(lambda number: (one, other)[number % 2].once(line_of(number)), range(100, 112)))
        assert {status for status, _ in found} == {200}
        entries = [json.loads(line) for line in file.with_name("town.cu.journal").read_text().splitlines()]
        assert len(entries) == 12 and all(a["after"] == b["before"] for a, b in zip(entries, entries[1:]))
        wanted = digest_of(file)
        assert wait_for(lambda: {version_of(each) for each in (one, other)}, lambda found: found == {wanted}) == {wanted}


def test_health_says_that_a_child_hangs(file: Path) -> None:
    with Service(file) as service:
        for child in service.children():
            os.kill(child, signal.SIGSTOP)
        status, told = service.ask("/health")
        assert (status, told["status"]) == (503, "down")
        # Nobody asks it anything, and it is found all the same.
        assert wait_for(lambda: service.ask("/health")[0], lambda status: status == 200) == 200


def test_workers_and_children_end_with_the_main_process(file: Path) -> None:
    with Service(file, workers=2) as service:
        processes = [*service.workers(), *service.children()]
        assert len(processes) == 6
        os.kill(service.process.pid, signal.SIGKILL)
        watch = Watch(*processes)
        assert wait_for(lambda: [pid for pid in processes if is_there(pid)], lambda left: not left) == []
        assert watch.seconds() < 10


def test_a_worker_that_dies_is_started_again(file: Path) -> None:
    with Service(file, workers=2) as service:
        for worker in service.workers():
            children = children_of(worker)
            os.kill(worker, signal.SIGKILL)
            wait_for(lambda: [pid for pid in [worker, *children] if is_there(pid)], lambda left: not left)
        assert wait_for(lambda: len(service.children()), lambda many: many == 4) == 4
        assert status_of(service) == 200


def test_a_hangup_starts_workers_anew(file: Path) -> None:
    with Service(file, workers=2) as service:
        before = set(service.workers())
        service.process.send_signal(signal.SIGHUP)
        assert wait_for(lambda: (len(service.workers()), set(service.workers()) & before),
                        lambda found: found == (2, set()))
        assert status_of(service) == 200
        # Workers that couldn't serve aren't started.
        before = set(service.workers())
        good = file.read_bytes()
        put(file, b"CATCHUPH")
        service.process.send_signal(signal.SIGHUP)
        time.sleep(1)
        assert set(service.workers()) == before
        put(file, good)
        assert service.end()[0] == 0


@pytest.mark.parametrize(("number", "to_all"), [
    (signal.SIGHUP, False), (signal.SIGHUP, True), (signal.SIGTERM, False), (signal.SIGTERM, True)])
def test_requests_on_their_way_are_answered(file: Path, number: int, to_all: bool) -> None:
    """At a reload all are; at the end all are whose connection was taken. The same where all processes are asked."""
    nodes = ",".join(map(str, range(60)))
    table = f"GET /table?depart=0&from={nodes}&to={nodes} HTTP/1.1\r\nHost: localhost\r\n\r\n".encode()
    with Service(file, workers=2) as service:
        with clients_of(service.port, table, 12) as found:
            assert wait_for(lambda: len(found) > 20)
            before = set(service.workers())
            if to_all:
                os.killpg(service.process.pid, number)
            else:
                service.process.send_signal(number)
            if number == signal.SIGHUP:
                assert wait_for(lambda: (len(service.workers()), set(service.workers()) & before),
                                lambda now: now == (2, set()))
                many = len(found)
                assert wait_for(lambda: len(found) > many + 20)
            else:
                assert service.process.wait(SECONDS) == 0
        told = counted(found)
        assert set(told) - {REFUSED} == {OK}, told
        assert number == signal.SIGTERM or REFUSED not in told


def test_other_signals_end_nothing(file: Path) -> None:
    """Nor does the end where many clients were put aside."""
    with Service(file, workers=2) as service:
        before = service.workers()
        for number in (signal.SIGUSR1, signal.SIGUSR2, signal.SIGWINCH):
            os.killpg(service.process.pid, number)
        os.kill(before[0], signal.SIGQUIT)
        head = b"POST /edits HTTP/1.1\r\nHost: localhost\r\nContent-Length: 1000000\r\n\r\na"
        for _ in range(600):
            with service.connect() as client:
                client.sendall(head)
        assert service.workers() == before
        assert service.end() == (0, "", "")


def test_a_worker_that_hangs_is_replaced(file: Path, monkeypatch: pytest.MonkeyPatch) -> None:
    """It is ended without leaving a core, and only where it gives no sign for long, whatever becomes of the clock."""
    supervisor = pytest.importorskip("catchup.service.supervisor")
    ended: list[tuple[int, int]] = []

    class Sign:
        at = 5.0

        def last_update(self) -> float:
            return self.at

    class Hung:
        tmp = Sign()

    class Arbiter:
        timeout = 20
        WORKERS = {17: Hung()}

        def kill_worker(self, pid: int, number: int) -> None:
            ended.append((pid, number))

    now = 1000.0
    monkeypatch.setattr(time, "monotonic", lambda: now)
    arbiter = Arbiter()
    for seconds, sign, wanted in ((0, 5.0, 0), (15, 9e9, 0), (19, 9e9, 0), (1.5, 9e9, 1)):
        now += seconds
        Hung.tmp.at = sign
        supervisor.ServiceArbiter.murder_workers(arbiter)
        assert len(ended) == wanted
    assert ended == [(17, signal.SIGKILL)]


def test_workers_and_children_break_off_nobody(file: Path) -> None:
    """Where there are as many workers as processors, and nobody has chosen how they share these."""
    processors = os.sched_getaffinity(0)
    for used in ({min(processors)}, processors):
        os.sched_setaffinity(0, used)
        try:
            with Service(file) as service:
                assert os.sched_getscheduler(service.process.pid) == os.sched_getscheduler(0)
                found = {os.sched_getscheduler(pid) for pid in (*service.workers(), *service.children())}
                assert found == {os.SCHED_BATCH if len(used) == 1 else os.sched_getscheduler(0)}
        finally:
            os.sched_setaffinity(0, processors)
    chosen = ("import os; os.sched_setscheduler(0, os.SCHED_IDLE, os.sched_param(0)); "
              "from catchup.service.process import give_way; give_way(); print(os.sched_getscheduler(0))")
    ran = run([sys.executable, "-c", chosen], folder=TOP / "python")
    assert (ran.status, ran.out, ran.err) == (0, f"{os.SCHED_IDLE}\n", "")


def test_children_have_no_files_but_their_own(file: Path) -> None:
    """Else one that is late would keep a port or a lock from the next service. Signals to all aren't for them."""
    with Service(file) as service, service.connect():
        service.edit("s,0,0,travel,600")
        assert wait_for(lambda: len(service.children()), lambda many: many == 2) == 2
        for child in service.children():
            files = [os.readlink(each) for each in Path(f"/proc/{child}/fd").iterdir()]
            assert sorted(name.split(":")[0] for name in files) == sorted(["/dev/null", "pipe", "pipe", str(file)])
            blocked = int(re.findall(r"SigBlk:\s+(\w+)", Path(f"/proc/{child}/status").read_text())[0], 16)
            assert all(blocked >> number - 1 & 1
                       for number in (signal.SIGTERM, signal.SIGINT, signal.SIGHUP, signal.SIGQUIT))


# ---- killed at any moment ----


class Writer(threading.Thread):
    """Makes edits one after the other, and notes which were confirmed."""

    def __init__(self, port: int, first: int) -> None:
        super().__init__(daemon=True)
        self.port = port
        self.number = first
        self.confirmed: list[tuple[int, str]] = []
        self.is_over = False

    def run(self) -> None:
        with client_of(self.port) as client:
            while not self.is_over:
                try:
                    reply = client.post("/edits", content=line_of(self.number))
                except httpx.HTTPError:
                    time.sleep(0.01)
                    continue
                if reply.status_code == 200:
                    self.confirmed.append((self.number, reply.json()["version"]))
                    self.number += 1


def line_of(number: int) -> str:
    """An edit that no other is like: its number is a travel time."""
    return f"s,0,0,travel,{number}"


def kill_one(service: subprocess.Popen[bytes], draw: random.Random) -> None:
    """Ends a process of the service, or all of them."""
    workers = children_of(service.pid)
    children = [child for worker in workers for child in children_of(worker)]
    chosen = draw.choice(["all", "main", "worker", "worker", "child", "child"])
    if chosen == "all":
        os.killpg(service.pid, signal.SIGKILL)
    if chosen in ("all", "main"):
        service.kill()
        service.wait()
        return
    victims = workers if chosen == "worker" else children
    if victims:
        try:
            os.kill(draw.choice(victims), signal.SIGKILL)
        except ProcessLookupError:
            pass


def endure(file: Path, rounds: int) -> tuple[int, int]:
    """Kills processes of services under writes; how many edits were confirmed, and how many starts there were."""
    draw, service, confirmed, starts, first = random.Random(7), None, 0, 0, 100
    writer: Writer | None = None
    for _ in range(rounds):
        if service is None or service.poll() is not None:
            service = subprocess.Popen([HTTP, "--port", "0", "--workers", "2", file], stdout=subprocess.PIPE,
                                       stderr=subprocess.DEVNULL, start_new_session=True)
            assert service.stdout is not None
            port = int(re.findall(rb":(\d+)/", service.stdout.readline())[0])
            starts += 1
            assert wait_for(lambda: left_in(file.parent), lambda left: not [name for name in left if "-next-" in name],
                            10) is not None
            writer = Writer(port, first)
            writer.start()
        assert writer is not None
        many = len(writer.confirmed)
        assert wait_for(lambda: len(writer.confirmed) > many)
        time.sleep(draw.random() * 0.15)
        kill_one(service, draw)
        time.sleep(0.05)
        if service.poll() is not None:
            first = end_round(file, writer, service)
            confirmed += len(writer.confirmed)
    if service is not None and service.poll() is None:
        service.send_signal(signal.SIGTERM)
        assert writer is not None
        writer.is_over = True
        service.wait(SECONDS)
        first = end_round(file, writer, service)
        confirmed += len(writer.confirmed)
    return confirmed, starts


def end_round(file: Path, writer: Writer, service: subprocess.Popen[bytes]) -> int:
    """All is over: the last edit that was confirmed is in the file, or one behind it whose answer was on its way."""
    writer.is_over = True
    writer.join(2 * SECONDS)
    assert service.stdout is not None
    service.stdout.close()
    [reply] = ask_program(file, "q,0,0,0")
    assert reply.startswith("arrive="), reply
    if writer.confirmed:
        number, version = writer.confirmed[-1]
        # A version is in the journal before it is in its place: a worker that is about to end may still put one there.
        served = digest_of(file)
        entries = file.with_name(file.name + ".journal").read_text().splitlines()
        made = [entry for entry in entries if line_of(number) in entry]
        assert made and f'"after": "{version}' in made[-1]
        behind = "".join(entries[entries.index(made[-1]) + 1:])
        assert served == version or line_of(number + 1) in behind
    return writer.number + 1000


@pytest.mark.first
def test_no_confirmed_edit_is_lost_by_a_kill(file: Path, capsys: pytest.CaptureFixture[str]) -> None:
    began = time.monotonic()
    confirmed, starts = endure(file, 20)
    check_left(file)
    with capsys.disabled():
        print(f"\n  20 kills, {starts} starts, {confirmed} edits confirmed, {time.monotonic() - began:.0f} s")


@pytest.mark.long
def test_no_confirmed_edit_is_lost_by_many_kills(file: Path, capsys: pytest.CaptureFixture[str]) -> None:
    confirmed, starts = endure(file, 200)
    check_left(file)
    with capsys.disabled():
        print(f"\n  200 kills, {starts} starts, {confirmed} edits confirmed")


def check_left(file: Path) -> None:
    """After the next start nothing is left of what was killed, and the journal tells where each version came from."""
    with Service(file) as service:
        assert service.get("/health")["version"] == digest_of(file)
        assert wait_for(lambda: left_in(file.parent), lambda left: not left) == []
        assert wait_for(lambda: [job for job in service.get("/edits")["jobs"]
                                 if job["state"] in ("waiting", "working")],
                        lambda active: not active) == []
        assert service.end()[0] == 0
    assert sorted(each.name for each in file.parent.iterdir()) == ["town.cu", "town.cu.jobs", "town.cu.journal"]
