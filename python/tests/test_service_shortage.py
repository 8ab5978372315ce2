"""What becomes of edits where the service gets no memory, no thread, no process or no open file, or is killed: each edit
is made or comes to an end that is told, nothing of it is left, and the next one goes on."""

from __future__ import annotations

import asyncio
import contextlib
import errno
import json
import os
import resource
import signal
import sqlite3
import stat
import subprocess
import sys
import threading
from collections.abc import Callable, Iterator, Sequence
from pathlib import Path
from types import SimpleNamespace
from typing import Any

import httpx
import pytest
from conftest import build
from serving import HTTP, SECONDS, Service, digest_of, left_in, wait_for

from catchup.errors import is_short
from catchup.program import run_program
from catchup.service import journal
from catchup.service.editor import Editor, Replies, Work, read_replies
from catchup.service.errors import Refusal, refusal_of
from catchup.service.jobs import Jobs
from catchup.service.packed import digest_of as whole_digest_of
from catchup.service.spool import Spool
from catchup.service.threads import Threads
from catchup.service.versions import Network

LINES = "s,0,0,travel,600\na,3,1\n"
NAMED = json.dumps({"edits": [{"road": 5, "profile": 2}]})
JSON = "application/json"
MIB = 1 << 20
# What a worker may have besides what it has: bytes of memory, and open files.
BYTES = [0, 64 << 10, 256 << 10, MIB, 4 * MIB, 9 * MIB, 20 * MIB, 60 * MIB]
FILES = range(9)
LITTLE = """#!/bin/sh
if [ "$1" = edit ]; then {first}; fi
exec {program} "$@"
"""
SHUT = """#!/bin/sh
case "$1 $2" in "ask /dev/fd/"*) if [ -e {shut} ]; then exit 9; fi; esac
exec {program} "$@"
"""


@contextlib.contextmanager
def limited(pid: int, kind: int, most: int) -> Iterator[None]:
    """Limits what a process may have meanwhile."""
    before = resource.prlimit(pid, kind)
    resource.prlimit(pid, kind, (most, before[1]))
    try:
        yield
    finally:
        with contextlib.suppress(ProcessLookupError):
            resource.prlimit(pid, kind, before)


def bytes_of(pid: int) -> int:
    """The size of a process's memory, as the system limits it."""
    return int(Path(f"/proc/{pid}/statm").read_text().split()[0]) * resource.getpagesize()


def files_of(pid: int) -> int:
    """Behind the greatest number of a process's open files."""
    return max(map(int, os.listdir(f"/proc/{pid}/fd"))) + 1


def entries_of(path: Path) -> list[dict[str, Any]]:
    """The journal's lines, each of which is whole."""
    try:
        return [json.loads(line) for line in journal.journal_of(path).read_text().splitlines()]
    except FileNotFoundError:
        return []


def check_kept(path: Path) -> None:
    """The journal leads to the file, and nothing of an edit is left."""
    made = entries_of(path)
    assert all(a["after"] == b["before"] for a, b in zip(made, made[1:]))
    assert not made or made[-1]["after"] == whole_digest_of(str(path))
    assert left_in(path.parent) == []


def states_of(service: Service) -> list[str]:
    """What became of the edits, the newest first."""
    return [job["state"] for job in service.get("/edits")["jobs"]]


def try_edit(service: Service, body: str, kind: str, before: str) -> int:
    """Asks for an edit: it is made, or refused with a word as what may be tried again."""
    reply = service.client.post("/edits", content=body, headers={"Content-Type": kind})
    told = reply.json()
    assert reply.status_code in (200, 503), told
    if reply.status_code == 503:
        assert told["error"] and reply.headers["Retry-After"]
        assert told["version"] == before or "is stored and isn't served yet" in told["error"]
    return reply.status_code


def check_shortage(path: Path, kind: int, rooms: Sequence[int], size: Callable[[int], int]) -> None:
    """Has edits come to a worker that gets no more than so much, from nothing to plenty."""
    found = []
    with Service(path) as service:
        for at, room in enumerate(rooms):
            [worker] = service.workers()
            before = digest_of(path)
            with limited(worker, kind, size(worker) + room):
                found.append(try_edit(service, *((LINES, "text/plain"), (NAMED, JSON))[at % 2], before))
            assert service.workers() == [worker]
            wait_for(lambda: service.get("/health").get("refused"), lambda said: said is None)
            states = wait_for(lambda: states_of(service), lambda states: not {"waiting", "working"} & {*states})
            assert {*states} <= {"done", "ended"}
            check_kept(path)
            assert service.edit("a,7,1")["version"] == digest_of(path)
            assert states_of(service)[0] == "done"
        status, _, errors = service.end()
    assert status == 0 and "Traceback" not in errors and "should not be" not in errors, errors
    assert 503 in found and 200 in found, found
    check_kept(path)


def test_an_edit_without_memory_is_refused_and_the_next_one_is_made(file: Path) -> None:
    check_shortage(file, resource.RLIMIT_AS, BYTES, bytes_of)


def test_an_edit_without_open_files_is_refused_and_the_next_one_is_made(file: Path) -> None:
    check_shortage(file, resource.RLIMIT_NOFILE, [*FILES, 60], files_of)


def wrapped(program: Path, folder: Path, first: str) -> Path:
    """The program, but that something comes before an edit."""
    path = folder / "wrapped"
    path.write_text(LITTLE.format(program=program, first=first))
    path.chmod(path.stat().st_mode | stat.S_IXUSR)
    return path


def test_catchup_edit_without_memory_is_told(program: Path, tmp_path: Path) -> None:
    names = [tmp_path / name for name in ("nodes.csv", "roads.csv", "profiles.csv")]
    assert run_program(["make", "5", "40", "40", *names]).status == 0
    (tmp_path / "served").mkdir()
    file = build(tmp_path, tmp_path / "served" / "grid.cu")
    before = file.read_bytes()
    with Service(file, CATCHUP=str(wrapped(program, tmp_path, "ulimit -v 12000"))) as service:
        for body, kind in ((LINES, "text/plain"), (NAMED, JSON)):
            status, told = service.ask("/edits", "POST", body.encode(), content_type=kind)
            assert (status, told["error"], told["hint"]) == (503, "no memory", "nothing has changed")
        assert [(job["state"], job["error"]) for job in service.get("/edits")["jobs"]] == [("ended", "no memory")] * 2
        assert service.get("/route?from=5&to=151&depart=0")["version"] == digest_of(file)
    assert file.read_bytes() == before and entries_of(file) == []
    check_kept(file)


def ask_anew(service: Service, path: str) -> httpx.Response:
    """An answer on a connection of its own."""
    with service.client_of() as client:
        return client.get(path)


def test_who_comes_while_no_worker_can_open_the_file_is_told_why(file: Path, program: Path, tmp_path: Path) -> None:
    """Nobody waits for memory without an end, and all are served once it is there."""
    shut, path = tmp_path / "shut", tmp_path / "wrapped"
    path.write_text(SHUT.format(program=program, shut=shut))
    path.chmod(path.stat().st_mode | stat.S_IXUSR)
    version = digest_of(file)
    with Service(file, workers=2, CATCHUP=str(path)) as service:
        for _ in range(2):
            shut.touch()
            for worker in service.workers():
                os.kill(worker, signal.SIGKILL)
            for asked in ("/health", "/route?from=5&to=151&depart=0", "/"):
                reply = ask_anew(service, asked)
                assert reply.status_code == 503 and reply.headers["Retry-After"] == "1", reply.text
                assert reply.json() == {
                    "error": f"{file.name} isn't served: the program ended with status 9", "version": version}
            shut.unlink()
            assert wait_for(lambda: ask_anew(service, "/health").status_code, lambda status: status == 200) == 200
            assert wait_for(lambda: len(service.children()), lambda many: many == 4) == 4
            assert ask_anew(service, "/route?from=5&to=151&depart=0").json()["version"] == version


def test_a_start_without_memory_is_told_in_one_line(file: Path) -> None:
    """Wherever it runs out while modules load."""
    for room in range(24_000, 52_000, 3_000):
        done = subprocess.run(["bash", "-c", f'ulimit -v {room}; exec "$0" "$@"', HTTP, "--port", "0", file],
                              capture_output=True, text=True, timeout=SECONDS, check=False)
        assert (done.returncode, done.stdout) == (1, ""), (room, done)
        assert done.stderr.startswith("catchup-http: ") and done.stderr.count("\n") == 1, (room, done)
        assert "memory" in done.stderr or "ulimit" in done.stderr, (room, done)


# ---- the service is killed ----


def kill_all(service: Service) -> None:
    os.killpg(service.process.pid, signal.SIGKILL)


def kill_worker(service: Service) -> None:
    os.kill(service.workers()[0], signal.SIGKILL)


@pytest.mark.parametrize("kill", [kill_all, kill_worker])
def test_a_list_says_what_became_of_edits_whose_process_was_killed(
        file: Path, program: Path, tmp_path: Path, kill: Callable[[Service], None]) -> None:
    before = file.read_bytes()
    slow = wrapped(program, tmp_path, "exec sleep 1000")
    with Service(file, CATCHUP=str(slow)) as service:
        for _ in range(3):
            assert service.client.post("/edits?wait=0", content=LINES).status_code == 202
        assert wait_for(lambda: states_of(service), lambda states: states[-1] == "working")
        [worker] = service.workers()
        kill(service)
        if kill is kill_worker:
            assert wait_for(service.workers, lambda found: found not in ([], [worker]))
            service.client.close()
            service.client = service.client_of()
            check_ended(service)
    with Service(file) as service:
        check_ended(service)
        assert file.read_bytes() == before
        service.edit(*LINES.splitlines())
        assert states_of(service) == ["done", "ended", "ended", "ended"]
    check_kept(file)


def check_ended(service: Service) -> None:
    """All three edits have come to an end, and say so."""
    jobs = wait_for(lambda: listed(service), lambda jobs: all(job["state"] == "ended" for job in jobs))
    assert [(job["state"], job["error"]) for job in jobs] == [
        ("ended", "the service was ended before the edit was made")] * 3


def listed(service: Service) -> Any:
    try:
        return service.get("/edits")["jobs"]
    except httpx.TransportError:
        return [{"state": "working"}]


# ---- what nobody has thought of ----


class Broken(Network):
    """A network whose file can't be looked at, for a reason that nobody has thought of."""

    def __init__(self, path: Path) -> None:
        super().__init__(None, path, "", None, lambda line: True)

    async def load(self) -> None:
        raise KeyError("nobody has thought of it")


async def outcome_of(editor: Editor, name: str) -> Refusal:
    """The refusal that an edit ends with."""
    job = editor.jobs.add(name)
    spool = Spool(editor.network.path, name, 100)
    spool.write(b"a,3,1\n", has_lines=True)
    with pytest.raises(Refusal) as found:
        await editor.work(Work(job, spool))
    assert not editor.works and not spool.path.exists()
    return found.value


def test_an_edit_ends_whatever_goes_wrong(file: Path) -> None:
    async def edit() -> None:
        editor = Editor(Broken(file), "")
        refusal = await outcome_of(editor, "1")
        assert (refusal.status, refusal.error) == (500, "an error of the service")
        job = editor.jobs.find("1")
        assert job is not None and (job.state, job.told) == ("ended", {"error": "an error of the service"})

    asyncio.run(edit())


def test_what_became_of_an_edit_is_noted_once_that_can_be(file: Path) -> None:
    """Here the list of edits finds no memory a few times."""
    async def edit() -> str:
        editor = Editor(Broken(file), "")
        end, left = editor.jobs.end, [MemoryError(), sqlite3.OperationalError("disk I/O error"), RuntimeError()]

        def end_at_last(*words: Any) -> None:
            if left:
                raise left.pop()
            end(*words)

        editor.jobs.end = end_at_last  # type: ignore[assignment, method-assign]
        await outcome_of(editor, "1")
        assert [job.state for job in editor.jobs.all()] == ["waiting"]
        while editor.late:
            await asyncio.sleep(0.01)
        return editor.jobs.all()[0].state

    assert asyncio.run(edit()) == "ended"


def test_a_journal_that_finds_no_memory_has_no_half_line(file: Path, monkeypatch: pytest.MonkeyPatch) -> None:
    lines = file.with_name("lines")
    lines.write_text("a,3,1\n" * 1000)
    entry = journal.Entry("00", "11", journal.now(), None)
    journal.append(file, entry, lines)
    whole = journal.journal_of(file).read_bytes()

    def fail(lines: bytes, is_first: bool) -> bytes:
        raise MemoryError

    monkeypatch.setattr(journal, "listed", fail)
    with pytest.raises(MemoryError):
        journal.append(file, entry, lines)
    assert journal.journal_of(file).read_bytes() == whole


def test_a_process_whose_replies_cannot_be_read_is_ended() -> None:
    class Short(Replies):
        def feed(self, piece: bytes) -> None:
            raise MemoryError

    process = subprocess.Popen(["sh", "-c", "echo ok; exec sleep 1000"], stdout=subprocess.PIPE, start_new_session=True)
    with pytest.raises(MemoryError):
        read_replies(process, Short())
    assert process.returncode == -signal.SIGKILL


def wait_until(started: threading.Event, go: threading.Event) -> bool:
    started.set()
    return go.wait(60)


def test_threads_do_the_work_that_are_there(monkeypatch: pytest.MonkeyPatch) -> None:
    """Where no more can be started nothing fails; what fails for the first one isn't done later."""
    def fail(thread: threading.Thread) -> None:
        raise RuntimeError("can't start new thread")

    with Threads(4) as threads:
        started, go = threading.Event(), threading.Event()
        first = threads.submit(wait_until, started, go)
        assert started.wait(60)
        with monkeypatch.context() as changed:
            changed.setattr(threading.Thread, "start", fail)
            others = [threads.submit(int, str(number)) for number in range(9)]
            go.set()
            assert first.result(60) and [each.result(60) for each in others] == list(range(9))
            with Threads(1) as none, pytest.raises(RuntimeError):
                none.submit(int)


def test_what_is_short_is_told_as_no_memory() -> None:
    short = [MemoryError(), OSError(errno.ENOMEM, "x"), RuntimeError("can't start new thread"),
             ImportError("libblas.so.3: failed to map segment from shared object"),
             ImportError("libblas.so.3: cannot allocate memory for program header"),
             SystemError("<function at 0x7fdb> returned NULL without setting an exception"),
             SystemError("error return without exception set")]
    for problem in short:
        assert is_short(problem)
        found = refusal_of(problem)
        assert (found.status, found.error, found.headers["Retry-After"]) == (503, "no memory", "1")
    for other in (ModuleNotFoundError("numpy"), RuntimeError("x"), OSError(errno.ENOENT, "x"), KeyError("x")):
        assert not is_short(other) and refusal_of(other).status == 500


def test_jobs_that_are_not_over_are_found_by_themselves(tmp_path: Path) -> None:
    jobs = Jobs(tmp_path / "town.cu")
    assert jobs.active() == []
    for name in "abc":
        jobs.add(name)
    jobs.end(SimpleNamespace(id="b"), "done")  # type: ignore[arg-type]
    assert [job.id for job in jobs.active()] == ["c", "a"]


def test_edits_that_name_roads_need_no_numpy(file: Path) -> None:
    """It is for the page and for maps; and where it found no memory once, nothing in that process can use it."""
    script = ("import os, sys; sys.modules['numpy'] = None; from catchup.service.roadedits import Profiles, edits_of, lines_of;"
              "edits = edits_of(sys.argv[2].encode(), lambda text: []);"
              "print(*lines_of(edits, Profiles(os.open(sys.argv[1], os.O_RDONLY)))[0])")
    done = subprocess.run([sys.executable, "-c", script, file, NAMED], capture_output=True, text=True, check=False,
                          env={**os.environ, "PYTHONPATH": str(Path(__file__).resolve().parent.parent)})
    assert (done.stdout, done.stderr) == ("a,5,2\n", "")
