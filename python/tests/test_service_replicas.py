"""Replicas: two services with a file each, a stream of Redis between them, and nginx before them; each is ended in
turn."""

from __future__ import annotations

import fcntl
import os
import shutil
import subprocess
import threading
import time
from collections.abc import Iterator
from concurrent.futures import Future, ThreadPoolExecutor
from contextlib import contextmanager
from pathlib import Path
from typing import Any

import httpx
import pytest
from fronts import Front, is_open, need_nginx, site_of_two
from serving import HTTP, SECONDS, Watch, client_of, digest_of, free_ports, left_in, wait_for

from catchup.service.jobs import Jobs

pytest.importorskip("redis", reason="python3-redis isn't installed")


class Running:
    """A process that is started again with the same words."""

    def __init__(self, *words: str | Path, port: int) -> None:
        self.words = words
        self.port = port
        self.start()

    def start(self) -> None:
        self.process = subprocess.Popen(self.words, stdout=subprocess.DEVNULL, stderr=subprocess.DEVNULL,
                                        start_new_session=True)
        wait_for(lambda: is_open(self.port))

    def kill(self) -> None:
        """Ends it by SIGKILL, and waits until nobody listens there."""
        self.process.kill()
        self.process.wait()
        assert not wait_for(lambda: is_open(self.port), lambda found: not found)


@pytest.fixture(scope="module")
def room(tmp_path_factory: pytest.TempPathFactory) -> Path:
    need_nginx()
    if shutil.which("redis-server") is None:
        pytest.skip("redis-server isn't installed")
    return tmp_path_factory.mktemp("replicas")


def start_redis(room: Path, port: int) -> Running:
    data = room / "redis"
    data.mkdir(exist_ok=True)
    return Running("redis-server", "--port", str(port), "--bind", "127.0.0.1", "--dir", data, "--appendonly", "yes",
                   "--appendfsync",
                   "always", "--save", "", port=port)


def start_replica(room: Path, town: Path, name: str, redis: int, port: int) -> tuple[Running, Path]:
    folder = room / name
    folder.mkdir(exist_ok=True)
    path = folder / "town.cu"
    if not path.exists():
        path.write_bytes(town.read_bytes())
    return Running(HTTP, "--port", str(port), "--workers", "2", "--log", f"redis://127.0.0.1:{redis}/0/{room.name}",
                   path, port=port), path


class Reader(threading.Thread):
    """Asks for routes all the time, and notes which statuses come."""

    def __init__(self, port: int) -> None:
        super().__init__(daemon=True)
        self.port = port
        self.statuses: list[int] = []
        self.is_over = False

    def run(self) -> None:
        with client_of(self.port) as client:
            while not self.is_over:
                try:
                    self.statuses.append(client.get("/route?from=5&to=151&depart=28800").status_code)
                except httpx.HTTPError:
                    self.statuses.append(0)
                time.sleep(0.02)


@contextmanager
def reading(port: int) -> Iterator[list[int]]:
    reader = Reader(port)
    reader.start()
    try:
        yield reader.statuses
    finally:
        reader.is_over = True
        reader.join()


def edit(port: int, number: int) -> bool:
    """Makes an edit of a number; whether it was confirmed."""
    with client_of(port) as client:
        try:
            return client.post("/edits", content=f"s,0,0,travel,{number}").status_code == 200
        except httpx.HTTPError:
            return False


def lines(path: Path) -> str:
    journal = path.with_name("town.cu.journal")
    return journal.read_text() if journal.exists() else ""


def test_replicas_have_the_same_bytes_whatever_is_killed(room: Path, town: Path) -> None:
    redis_port, front, *ports = free_ports(4)
    redis = start_redis(room, redis_port)
    replicas = [start_replica(room, town, name, redis_port, port) for name, port in zip(("north", "south"), ports)]
    nginx = Front(room, site_of_two(ports, front), front)
    everything: list[Running | Front] = [redis, nginx, *(running for running, _ in replicas)]
    paths = [path for _, path in replicas]
    confirmed = []
    try:
        wait_for(lambda: edit(front, 99), bool)
        for turn, victim in enumerate([replicas[0][0], replicas[1][0], redis, nginx]):
            number = 100 + 10 * turn
            assert wait_for(lambda: edit(front, number), bool)
            confirmed.append(number)
            with reading(ports[0] if victim is redis else front) as statuses:
                time.sleep(0.2)
                victim.kill()
                if victim is redis:
                    watch = Watch(*(running.process.pid for running, _ in replicas))
                    assert not edit(ports[0], number + 1)
                    assert watch.seconds() < 10 + 5
                elif victim is not nginx:
                    assert wait_for(lambda: edit(front, number + 2), bool)
                    confirmed.append(number + 2)
                time.sleep(0.3)
                many = len(statuses)
                assert set(statuses[:many]) <= {200} or victim is nginx, statuses
                victim.start()
            assert wait_for(lambda: edit(front, number + 3), bool)
            confirmed.append(number + 3)
        assert wait_for(lambda: digest_of(paths[0]) == digest_of(paths[1]), bool)
        for path in paths:
            text = lines(path)
            assert [number for number in confirmed if f'"s,0,0,travel,{number}"' not in text] == []
            assert '"entry": "' in text
            assert wait_for(lambda: left_in(path.parent), lambda left: not left) == []
        with client_of(ports[0]) as client:
            told = client.post("/edits", json={"edits": [{"road": "road:3", "profile": 1}, {"road": 4, "profile": 1}]})
            assert (told.status_code, told.json()["lines"]) == (200, 2)
        assert wait_for(lambda: digest_of(paths[0]) == digest_of(paths[1]), bool)
        assert '["a,3,1", "a,4,1"]' in lines(paths[1])
        with client_of(ports[1]) as client:
            job = client.post("/edits?wait=0", content="a,5,1").headers["Location"]
            assert client.delete(job).status_code == 409
            assert wait_for(lambda: client.get(job).json()["state"], lambda state: state == "done") == "done"
            refused = client.post("/edits", content="s,0,0,travel,1\nq,0,0,0")
            assert (refused.status_code, refused.json()["refused"]) == (400, [{"line": 2, "word": "line"}])
            assert client.get("/health").json()["log"] == "ok"
        check_diverged(replicas, ports, town)
    finally:
        for each in everything:
            each.kill()


def check_diverged(replicas: list[tuple[Running, Path]], ports: list[int], town: Path) -> None:
    """A replica whose file is another than the others' says so, makes nothing, and goes on once it has theirs."""
    (running, path), (_, other) = replicas
    running.kill()
    beside = path.with_name("beside")
    beside.write_bytes(edited(town, path.parent.parent))
    beside.rename(path)
    running.start()

    def health() -> tuple[int, object]:
        with client_of(ports[0]) as client:
            reply = client.get("/health")
            return reply.status_code, reply.json()["status"]

    assert wait_for(health, lambda found: found == (503, "diverged")) == (503, "diverged")
    assert not edit(ports[0], 500)
    assert wait_for(lambda: edit(ports[1], 501), bool)
    beside.write_bytes(other.read_bytes())
    beside.rename(path)
    assert wait_for(health, lambda found: found == (200, "ok")) == (200, "ok")
    assert wait_for(lambda: edit(ports[0], 502), bool)
    assert wait_for(lambda: digest_of(path) == digest_of(other), bool)


def edited(town: Path, folder: Path) -> bytes:
    """A version that no entry of the stream made."""
    from catchup.program import run_program

    edits, out = folder / "other.txt", folder / "other.cu"
    edits.write_text("s,1,0,travel,4321\n")
    assert run_program(["edit", town, edits, out]).status == 0
    return out.read_bytes()


def test_an_entry_that_cannot_be_made_yet_keeps_nobody_waiting(room: Path, town: Path, program: Path) -> None:
    """Here `catchup edit` ends as where it finds no memory, for a while, on one of two replicas. Whoever asks learns it,
    the job isn't over, and it is made as soon as that can be; one that never came into the stream is ended."""
    short, wrapper = room / "short", room / "wrapper"
    wrapper.write_text(f'#!/bin/sh\nif [ "$1" = edit ] && [ -e {short} ]; then exit 9; fi\nexec {program} "$@"\n')
    wrapper.chmod(0o755)
    redis_port, port, other_port = free_ports(3)
    redis = start_redis(room, redis_port)
    other, other_path = start_replica(room, town, "east", redis_port, other_port)
    with pytest.MonkeyPatch.context() as changed:
        changed.setenv("CATCHUP", str(wrapper))
        running, path = start_replica(room, town, "west", redis_port, port)
    try:
        with client_of(port) as client:
            assert wait_for(lambda: edit(port, 700), bool)
            never = Jobs(path).add("never")
            short.touch()
            reply = client.post("/edits", content="s,0,0,travel,701")
            assert reply.status_code == 503 and reply.json()["error"].endswith("can't be made here yet: no memory")
            assert client.get("/health").json()["late"] == "no memory"
            assert wait_for(lambda: digest_of(other_path) != digest_of(path), bool)
            job = client.get("/edits").json()["jobs"][0]
            assert job["state"] == "working", job
            short.unlink()
            assert wait_for(lambda: client.get(f"/edits/{job['job']}").json()["state"], lambda state: state == "done")
            assert wait_for(lambda: client.get("/health").json()["log"], lambda said: said == "ok") == "ok"
            assert wait_for(lambda: client.get(f"/edits/{never.id}").json()["state"], lambda state: state == "ended")
            assert digest_of(other_path) == digest_of(path)
    finally:
        for each in (running, other, redis):
            each.kill()


# ---- a server that has lost its data ----


class Pair:
    """A server of a stream, and replicas of it."""

    def __init__(self, room: Path, town: Path, many: int = 2) -> None:
        self.room = room
        redis_port, *self.ports = free_ports(1 + many)
        self.redis = start_redis(room, redis_port)
        self.replicas = [start_replica(room, town, f"host{port}", redis_port, port) for port in self.ports]
        self.server = connect_redis(redis_port)
        self.stream = room.name

    def __enter__(self) -> Pair:
        return self

    def __exit__(self, *_: object) -> None:
        for each in (*(running for running, _ in self.replicas), self.redis):
            each.kill()

    def edit(self, number: int, at: int = 0) -> None:
        """Makes an edit by one of them, and waits until all have it."""
        assert wait_for(lambda: edit(self.ports[at], number), bool)
        self.wait_alike(number)

    def wait_alike(self, number: int) -> None:
        """Waits until all have made an edit, and have the same bytes."""
        assert wait_for(lambda: all(f'"s,0,0,travel,{number}"' in lines(path) for _, path in self.replicas))
        assert wait_for(lambda: len({digest_of(path) for _, path in self.replicas}) == 1)

    def wait_health(self, *wanted: str) -> list[str]:
        """Waits until each says that it is so, and what is wrong with each."""
        def told() -> list[dict[str, str]]:
            found = []
            for port in self.ports:
                with client_of(port) as client:
                    found.append(client.get("/health").json())
            return found

        found = wait_for(told, lambda found: [each["status"] for each in found] == [*wanted])
        assert [each["status"] for each in found] == [*wanted], found
        return [each.get("error", "") for each in found]

    def restart_redis(self, data: Path | None) -> None:
        """Starts the server again, over a copy of its data or none."""
        self.redis.kill()
        shutil.rmtree(self.room / "redis")
        if data is not None:
            shutil.copytree(data, self.room / "redis")
        else:
            (self.room / "redis").mkdir()
        self.redis.start()
        # It listens before it has read its data.
        assert wait_for(self.has_read)

    def has_read(self) -> bool:
        """Whether the server has read its data, and answers."""
        from redis import RedisError

        try:
            return bool(self.server.ping())
        except RedisError:
            return False


def connect_redis(port: int) -> Any:
    """A client of the server itself."""
    from redis import Redis

    return Redis(port=port, socket_timeout=SECONDS)


@pytest.fixture
def pair(room: Path, town: Path, tmp_path: Path) -> Iterator[Pair]:
    with Pair(tmp_path, town) as found:
        yield found


@pytest.mark.parametrize("is_started_again", [False, True], ids=["flushed", "started again"])
def test_a_stream_that_is_lost_begins_anew(pair: Pair, is_started_again: bool) -> None:
    """Where all replicas have the same file nothing is lost. Entries may have lower numbers then than those before, as
    where the server's clock is another one."""
    pair.edit(100)
    if is_started_again:
        pair.restart_redis(None)
    else:
        pair.server.flushall()
    pair.server.xadd(pair.stream, {"job": "lower", "type": "lines", "edits": "s,0,0,travel,101\n"}, id="5-0")
    pair.wait_alike(101)
    pair.edit(102, at=1)
    pair.wait_health("ok", "ok")
    for port in pair.ports:
        running, _ = pair.replicas[pair.ports.index(port)]
        running.kill()
        running.start()
    pair.edit(103)
    pair.wait_health("ok", "ok")


def test_a_server_that_went_back_has_nothing_made_of_older_entries(pair: Pair) -> None:
    pair.edit(100)
    pair.redis.kill()
    older = pair.room / "older"
    shutil.copytree(pair.room / "redis", older)
    pair.redis.start()
    pair.edit(101)
    pair.edit(102, at=1)
    before = digest_of(pair.replicas[0][1])
    pair.restart_redis(older)
    pair.server.xadd(pair.stream, {"job": "later", "type": "lines", "edits": "s,0,0,travel,103\n"})
    for said in pair.wait_health("diverged", "diverged"):
        assert "has lost edits that are in this file" in said and f"DEL {pair.stream} {pair.stream}:digests" in said
    assert not edit(pair.ports[0], 104)
    assert {digest_of(path) for _, path in pair.replicas} == {before}
    # A start changes nothing of that.
    pair.replicas[0][0].kill()
    pair.replicas[0][0].start()
    pair.wait_health("diverged", "diverged")
    pair.server.delete(pair.stream, f"{pair.stream}:digests")
    pair.wait_health("ok", "ok")
    pair.edit(105)
    pair.edit(106, at=1)


def test_the_newest_file_is_kept_where_a_stream_begins_anew_over_an_older_one(pair: Pair) -> None:
    pair.edit(100)
    (newer, path), (older, behind) = pair.replicas
    older.kill()
    assert wait_for(lambda: edit(pair.ports[0], 101), bool)
    newer.kill()
    pair.server.flushall()
    older.start()
    assert wait_for(lambda: pair.server.exists(f"{pair.stream}:digests"))
    newer.start()
    said, _ = pair.wait_health("diverged", "ok")
    assert "has lost edits that are in this file: copy the newest file" in said
    assert '"s,0,0,travel,101"' in lines(path) and digest_of(path) != digest_of(behind)
    beside = behind.with_name("beside")
    beside.write_bytes(path.read_bytes())
    beside.rename(behind)
    pair.server.delete(pair.stream, f"{pair.stream}:digests")
    pair.wait_health("ok", "ok")
    assert digest_of(path) == digest_of(behind)
    pair.edit(102, at=1)


def test_entries_of_another_stream_are_not_made(pair: Pair) -> None:
    """Here the stream is gone, but not what stands beside it: its new entry has a lower number."""
    pair.edit(100)
    pair.server.delete(pair.stream)
    pair.server.xadd(pair.stream, {"job": "lower", "type": "lines", "edits": "s,0,0,travel,101\n"}, id="5-0")
    assert all("has lost" in said for said in pair.wait_health("diverged", "diverged"))


def test_an_edit_that_the_stream_has_lost_is_waited_for_by_nobody(room: Path, town: Path, tmp_path: Path) -> None:
    """The first edit waits for its turn among other programs; behind it comes another one, which is lost."""
    with Pair(tmp_path, town, 1) as single:
        single.edit(100)
        [port], [(_, path)] = single.ports, single.replicas
        before = single.server.xlen(single.stream)
        with flocked(path.parent):
            first = in_background(port, 101)
            # What it asks for is in a file, and so is what was taken of the stream.
            assert wait_for(lambda: len(list(path.parent.glob(".catchup-edits-*"))) == 2)
            second = in_background(port, 102)
            assert wait_for(lambda: single.server.xlen(single.stream) == before + 2)
            single.server.flushall()
        assert first.result(SECONDS)[0] == 200
        assert second.result(SECONDS) == (503, "the stream has lost the edit, and it isn't made")
        assert states(port)[:2] == ["ended", "done"]
        single.edit(103)
        single.wait_health("ok")


def in_background(port: int, number: int) -> Future[tuple[int, str]]:
    """Makes an edit meanwhile: its status, and what is said to be wrong."""
    def make() -> tuple[int, str]:
        with client_of(port) as client:
            reply = client.post("/edits", content=f"s,0,0,travel,{number}")
            return reply.status_code, reply.json().get("error", "")

    return ThreadPoolExecutor(1).submit(make)


def states(port: int) -> list[str]:
    """How the jobs of a replica are, the newest first."""
    with client_of(port) as client:
        return [job["state"] for job in client.get("/edits").json()["jobs"]]


@contextmanager
def flocked(folder: Path) -> Iterator[None]:
    """Holds the lock of a folder, as another program does that edits there."""
    lock = os.open(folder, os.O_RDONLY)
    try:
        fcntl.flock(lock, fcntl.LOCK_EX)
        yield
    finally:
        os.close(lock)


def test_a_stream_that_is_none(town: Path) -> None:
    for address in ("redis://", "http://x/0/y", "redis://127.0.0.1:1", "redis://127.0.0.1:1/0/"):
        found = subprocess.run([HTTP, town, "--log", address], capture_output=True, text=True, timeout=SECONDS,
                               check=False)
        assert found.returncode == 2 and "redis://HOST:PORT/0/NAME" in found.stderr and found.stderr.count("\n") == 1
