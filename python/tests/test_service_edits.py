"""Edits of a service: all or nothing, on the disk before they are confirmed, one at a time; jobs and the journal."""

from __future__ import annotations

import asyncio
import contextlib
import fcntl
import itertools
import json
import os
import signal
import sqlite3
import stat
import subprocess
import time
from collections.abc import Callable
from concurrent.futures import ThreadPoolExecutor
from pathlib import Path
from typing import Any

import pytest
from conftest import build
from hypothesis import given, settings
from hypothesis import strategies as st
from serving import Service, Watch, ask_program, digest_of, is_there, left_in, wait_for

from catchup.program import run_program
from catchup.service import packed
from catchup.service.errors import Refusal
from catchup.service.roadedits import Profiles, edits_of, lines_of

LINE = "s,0,0,travel,600"
SLOW = """#!/bin/sh
if [ "$1" = edit ]; then read -r line <{never}; fi
exec {program} "$@"
"""


@pytest.fixture
def slow(program: Path, tmp_path: Path) -> Path:
    """The program, but that no edit comes to its end: it waits for what nobody writes."""
    path, never = tmp_path / "slow", tmp_path / "never"
    os.mkfifo(never)
    path.write_text(SLOW.format(program=program, never=never))
    path.chmod(path.stat().st_mode | stat.S_IXUSR)
    return path


def edited(path: Path, *lines: str) -> bytes:
    """The bytes of a packed file after edits, by the program."""
    edits, out = path.with_name("wanted.txt"), path.with_name("wanted.cu")
    edits.write_text("".join(line + "\n" for line in lines))
    assert run_program(["edit", path, edits, out]).status == 0
    found = out.read_bytes()
    edits.unlink()
    out.unlink()
    return found


def edits_in_work(service: Service) -> list[int]:
    """The processes that make an edit."""
    found = []
    for pid in service.children():
        with contextlib.suppress(FileNotFoundError, ProcessLookupError):
            if b"\0edit\0" in Path(f"/proc/{pid}/cmdline").read_bytes():
                found.append(pid)
    return found


def journal_of(path: Path) -> list[dict[str, Any]]:
    return [json.loads(line) for line in path.with_name(path.name + ".journal").read_text().splitlines()]


def test_an_edit_is_confirmed_once_it_is_stored_and_served(file: Path) -> None:
    wanted, before = edited(file, LINE, "a,3,1"), digest_of(file)
    os.chmod(file, 0o640)
    with Service(file, workers=2) as service:
        status, told = service.ask("/edits", "POST", f"{LINE}\r\na,3,1".encode())
        assert (status, told) == (200, {"before": before, "lines": 2, "version": digest_of(file)})
        assert file.read_bytes() == wanted
        assert stat.S_IMODE(file.stat().st_mode) == 0o640
        [entry] = journal_of(file)
        assert (entry["before"][:12], entry["after"], entry["entry"]) == (before, wanted[-32:].hex(), None)
        assert entry["edits"] == [LINE, "a,3,1"]
        # The worker that made it answers of it at once, others a moment later.
        query = "/route?from=5&to=151&depart=28800"
        arrive = int(ask_program(file, "q,5,151,28800")[0].split()[0].removeprefix("arrive="))

        def found() -> set[tuple[str, int]]:
            answers = []
            for _ in range(20):
                with service.client_of() as client:
                    answers.append(client.get(query).json())
            return {(each["version"], each["arrive"]) for each in answers}

        assert wait_for(found, lambda all: all == {(told["version"], arrive)}) == {(told["version"], arrive)}
        assert service.end() == (0, "", "")
    assert left_in(file.parent) == []


def test_a_refused_line_undoes_all(file: Path) -> None:
    before = file.read_bytes()
    with Service(file) as service:
        body = "\n".join([LINE, "q,0,2,0", "s,0,0,travel,300,36000,travel,100", "", "a,1"])
        status, told = service.ask("/edits", "POST", body.encode())
        assert (status, told["error"], told["count"]) == (400, "refused", 4)
        assert told["refused"] == [{"line": 2, "word": "line"}, {"line": 3, "word": "fifo 35999"},
                                   {"line": 4, "word": "line"},
                                   {"line": 5, "word": "line"}]
        status, told = service.ask("/edits", "POST", b"\n" * 250)
        assert (told["count"], len(told["refused"]), told["refused"][99]) == (250, 100, {"line": 100, "word": "line"})
        assert service.get("/health")["version"] == before[-32:].hex()[:12]
        [job, *_] = service.get("/edits")["jobs"]
        assert (job["state"], job["count"]) == ("refused", 250)
    assert file.read_bytes() == before
    assert not file.with_name("town.cu.journal").exists()
    assert left_in(file.parent) == []


BAD_LINES = [
    ("s,0", "line"), ("q,0,2,0", "line"), ("step", "line"), ("0,x", "line"), ("a,1,2,3", "line"),
    ("s,0,0,travel,+1", "line"),
    ("s,\u0661,0,travel,1", "line"), ("a,99999999999999999999999999,0", "arc"), ("a,0,9999", "profile"),
    ("s,9999,0,travel,1", "profile"), ("s,0,0,\x07,1", "kind"), ("s,0,0,travel,999999999", "limit"),
    ("s,0,5,travel,1", "start"),
    ("s,0,0,travel,1,0,travel,1", "rising"), ("s,0,0,travel,1,5,closed,0", "closed"), ("\ufeffa,0,0", "line"),
    ("a,0,0\0", "line")]


def test_lines_are_refused_by_the_programs_words(file: Path) -> None:
    with Service(file) as service:
        status, told = service.ask("/edits", "POST", "\n".join(line for line, _ in BAD_LINES).encode())
        assert status == 400
        assert told["refused"] == [{"line": at, "word": word} for at, (_, word) in enumerate(BAD_LINES, 1)]
        assert service.ask("/edits", "POST", b"") == (400, {
            "error": "there is no edit line in the body", "version": digest_of(file)})


def test_edits_of_all_workers_take_turns(file: Path) -> None:
    lines = [f"a,{road},1" for road in range(12)]
    wanted = edited(file, *lines)
    with Service(file, workers=3) as service, ThreadPoolExecutor(12) as pool:
        found = list(pool.map(lambda line: Service.once(service, line), lines))
        assert [status for status, _ in found] == [200] * 12
    assert file.read_bytes() == wanted
    entries = journal_of(file)
    assert sorted(entry["edits"][0] for entry in entries) == sorted(lines)
    assert all(a["after"] == b["before"] for a, b in zip(entries, entries[1:]))


def test_an_edit_with_an_edit_of_another_program_of_the_folder(file: Path) -> None:
    """It waits until the other one lets go of the folder."""
    before = digest_of(file)
    with Service(file) as service, ThreadPoolExecutor(1) as pool:
        folder = os.open(file.parent, os.O_RDONLY)
        try:
            fcntl.flock(folder, fcntl.LOCK_EX)
            edit = pool.submit(service.once, LINE)
            assert wait_for(lambda: service.get("/edits")["jobs"])
            time.sleep(0.8)
            assert service.get("/edits")["jobs"][0]["state"] == "waiting"
            assert not edit.done() and digest_of(file) == before
        finally:
            os.close(folder)
        status, told = edit.result()
        assert (status, told["version"]) == (200, digest_of(file))


# ---- jobs ----


def test_a_job_is_asked_for(file: Path) -> None:
    with Service(file, workers=2) as service:
        reply = service.client.post("/edits?wait=0", content=LINE)
        told = reply.json()
        assert (reply.status_code, told["state"]) == (202, "waiting")
        assert reply.headers["Location"] == f"/edits/{told['job']}"
        found = wait_for(lambda: service.get(reply.headers["Location"]), lambda found: found["state"] == "done")
        assert (found["version"], found["lines"]) == (digest_of(file), 1)
        assert service.get("/edits")["jobs"][0]["job"] == told["job"]
        assert service.ask(reply.headers["Location"], "DELETE")[0] == 409
        for name in ("nothing", "..%2ftown.cu", "%00", "a" * 5000):
            assert service.ask(f"/edits/{name}")[0] == 404
        text = service.client.get("/metrics").text
        assert 'catchup_jobs{state="done"} 1.0' in text
        status, told = service.ask("/edits?wait=2", "POST", LINE.encode())
        assert (status, told["error"]) == (400, "wait must be 0 or 1")


def test_a_job_is_ended(file: Path, slow: Path) -> None:
    before = file.read_bytes()
    with Service(file, workers=2, CATCHUP=str(slow)) as service, ThreadPoolExecutor(2) as pool:
        waiting = pool.submit(Service.once, service, LINE)
        [job] = wait_for(lambda: service.get("/edits")["jobs"])
        wait_for(lambda: service.get(f"/edits/{job['job']}")["state"], lambda state: state == "working")
        second = service.client.post("/edits?wait=0", content=LINE).json()["job"]
        watch = Watch(service.process.pid)
        status, told = service.ask(f"/edits/{second}", "DELETE")
        assert (status, told["state"]) == (200, "ended")
        status, told = service.ask(f"/edits/{job['job']}", "DELETE")
        assert (status, told["state"]) == (200, "ended")
        assert watch.seconds() < 6
        status, told = waiting.result()
        assert status == 503 and "ended" in told["error"]
        assert service.ask(f"/edits/{job['job']}", "DELETE")[0] == 409
        assert file.read_bytes() == before
        assert wait_for(lambda: left_in(file.parent), lambda left: not left) == []


def test_the_last_thousand_jobs_are_kept(tmp_path: Path) -> None:
    from catchup.service.jobs import DONE, Jobs

    jobs = Jobs(tmp_path / "town.cu")
    for number in range(1020):
        jobs.end(jobs.add(str(number)), DONE)
    found = jobs.all()
    assert [len(found), found[0].id, jobs.find("5")] == [1000, "1019", None]


def test_a_note_waits_until_others_let_it_be_written(tmp_path: Path) -> None:
    """On a busy machine the jobs are locked for long, and a client waits for what became of its edit."""
    import sqlite3
    from types import SimpleNamespace

    from catchup.service.editor import Editor
    from catchup.service.jobs import DONE

    class Busy(sqlite3.OperationalError):
        sqlite_errorname = "SQLITE_BUSY"

    async def note() -> str:
        editor = Editor(SimpleNamespace(path=tmp_path / "town.cu"), "")  # type: ignore[arg-type]
        job, end, problems = editor.jobs.add("1"), editor.jobs.end, [Busy("locked"), Busy("locked")]

        def end_at_last(*words: object) -> None:
            if problems:
                raise problems.pop()
            end(*words)  # type: ignore[arg-type]

        editor.jobs.end = end_at_last  # type: ignore[assignment, method-assign]
        await editor.note(job, DONE, {})
        found = editor.jobs.find("1")
        return "" if found is None else found.state

    assert asyncio.run(note()) == DONE


# ---- edits in JSON ----


def post_json(service: Service, edits: object, kind: str = "application/json") -> tuple[int, Any]:
    return service.ask("/edits", "POST", json.dumps(edits).encode(), content_type=kind)


@pytest.fixture
def rush(program: Path, rush_hour: Path, tmp_path: Path) -> Path:
    """The rush hour with two spare profiles, the closed one 3, and 4 of one second."""
    folder = tmp_path / "tables"
    folder.mkdir()
    for name in ("nodes.csv", "roads.csv"):
        (folder / name).write_text((rush_hour / name).read_text())
    more = "3,0,closed,0\n4,0,travel,1\n5,0,travel,1\n"
    (folder / "profiles.csv").write_text((rush_hour / "profiles.csv").read_text() + more)
    served = tmp_path / "served"
    served.mkdir()
    return build(folder, served / "rush.cu", "identity")


def test_roads_are_edited_by_their_numbers(rush: Path) -> None:
    with Service(rush) as service:
        def arrive() -> int | None:
            return service.get("/route?from=0&to=2&depart=0").get("arrive")

        assert post_json(service, {"edits": [{"road": 2, "closed": True}]})[1]["lines"] == 1
        assert service.get("/route?from=0&to=2&depart=0")["roads"] == [0, 1]
        pieces = [{"from": 0, "kind": "travel", "value": 7}]
        status, told = post_json(service, {"edits": [{"road": 2, "pieces": pieces}]}, "Application/JSON; charset=utf-8")
        assert (status, told["lines"]) == (200, 2) and arrive() == 7
        # It has a profile of its own now, which is used again.
        other = [{"from": 0, "kind": "travel", "value": 9}]
        status, told = post_json(service, {"edits": [{"road": 2, "pieces": other}]})
        assert (status, told["lines"]) == (200, 1) and arrive() == 9
        # Some editors and libraries write a byte-order mark before it.
        marked = "\ufeff" + json.dumps({"edits": [{"road": 2, "pieces": pieces}]})
        assert service.ask("/edits", "POST", marked.encode(), content_type="application/json")[0] == 200
        assert arrive() == 7
        assert post_json(service, {"edits": [{"road": 2, "profile": 4}, {"profile": 4, "pieces": pieces}]})[0] == 200
        assert arrive() == 7
        status, told = post_json(service, {"edits": [{"road": "road:1", "closed": True}, {"road": 99, "pieces": pieces},
                                                     {"profile": 99, "pieces": pieces}]})
        assert (status, told["refused"]) == (400, [{"line": 2, "word": "arc"}, {"line": 3, "word": "profile"}])
        edits = [entry["edits"] for entry in journal_of(rush)]
        assert edits[0] == ["a,2,3"] and edits[1] == ["s,2,0,travel,7", "a,2,2"]


def test_without_a_spare_profile_nothing_is_done(town: Path, program: Path, rush_hour: Path, tmp_path: Path) -> None:
    path = build(rush_hour, tmp_path / "rush.cu", "identity")
    before = path.read_bytes()
    with Service(path) as service:
        closed, five = [{"from": 0, "kind": "closed", "value": 0}], [{"from": 0, "kind": "travel", "value": 5}]
        status, told = post_json(service, {"edits": [
            {"road": 0, "profile": 1}, {"road": 2, "profile": 1}, {"profile": 0, "pieces": closed},
            {"road": 1, "pieces": five}, {"road": 2, "pieces": five}]})
        assert (status, told["error"]) == (409, "no spare profile")
    assert path.read_bytes() == before


BAD_JSON: list[object] = [
    [], {}, {"edits": []}, {"edits": {}}, {"edits": [1]}, {"edits": [{}]}, {"edits": [{"road": 1}]},
    {"edits": [{"road": 1, "closed": False}]},
    {"edits": [{"road": True, "closed": True}]}, {"edits": [{"road": 1.0, "closed": True}]},
    {"edits": [{"road": -1, "closed": True}]},
    {"edits": [{"road": "Main Street", "closed": True}]}, {"edits": [{"road": 1, "closed": True, "profile": 2}]},
    {"edits": [{"road": 1, "pieces": []}]}, {"edits": [{"road": 1, "pieces": [{"from": 0, "kind": "travel"}]}]},
    {"edits": [{"road": 1, "pieces": [{"from": 0, "kind": "wings", "value": 1}]}]},
    {"edits": [{"road": 1, "pieces": [{"from": "0", "kind": "travel", "value": 1}]}]}, {"edits": [{"profile": 1}]},
    {"edits": [{"profile": 1, "pieces": [{"from": 0, "kind": "travel", "value": 1, "x": 1}]}]},
    {"edits": [], "more": 1}, None, "x", 1]


def test_json_that_is_no_edit(file: Path) -> None:
    with Service(file) as service:
        for body in BAD_JSON:
            status, told = post_json(service, body)
            assert status == 400 and told["error"], body
        for raw in (b"", b"{", b"\xff", b'{"edits": [], "edits": []}', b'{"edits": [NaN]}', b"[" * 60_000,
                    b"\xef\xbb\xbf" * 2 + b'{"edits": [{"road": 1, "closed": true}]}'):
            assert service.ask("/edits", "POST", raw, content_type="application/json")[0] == 400
        status, told = service.ask("/edits", "POST", b" " * 65_537, content_type="application/json")
        assert status == 413
        assert service.get("/edits")["jobs"] == []


JSON = st.recursive(st.none() | st.booleans() | st.integers(-2, 10) | st.floats(allow_nan=False) | st.text(max_size=5),
                    lambda inner: st.lists(inner, max_size=4) | st.dictionaries(st.sampled_from(
                        ["edits", "road", "profile", "pieces", "closed", "from", "kind", "value", "x"]), inner,
                        max_size=4), max_leaves=12)


@settings(max_examples=100)
@given(st.one_of(JSON, JSON.map(lambda inner: {"edits": [inner]})))
def test_any_json_is_edits_or_refused(body: object) -> None:
    try:
        found = edits_of(json.dumps(body).encode(), lambda text: [])
    except Refusal as refusal:
        assert refusal.status == 400
    else:
        assert found


@settings(max_examples=60)
@given(st.lists(st.tuples(st.integers(0, 2), st.sampled_from(["closed", "pieces", "profile"]), st.integers(0, 5)),
                max_size=8))
def test_edits_of_roads_are_as_they_say(rush_file: Path, edits: list[tuple[int, str, int]]) -> None:
    """Whatever came before, a road has in the end what was said of it last, and no other road has changed with it."""
    with open(rush_file, "rb") as opened:
        profiles = Profiles(opened.fileno())
    def told(road: int, kind: str, value: int) -> dict[str, object]:
        if kind == "closed":
            return {"road": road, "closed": True}
        if kind == "profile":
            return {"road": road, "profile": value}
        return {"road": road, "pieces": [{"from": 0, "kind": "travel", "value": 100 + value}]}

    named = list(itertools.starmap(told, edits))
    if not named:
        return
    try:
        lines, of = lines_of(edits_of(json.dumps({"edits": named}).encode(), lambda text: []), profiles)
    except Refusal as refusal:
        assert refusal.status == 409
        return
    assert len(lines) == len(of) and of == sorted(of)
    last = {road: (kind, value) for road, kind, value in edits}
    pieces: dict[int, str] = {}
    has: dict[int, int] = {}
    for line in lines:
        kind, first, *rest = line.split(",")
        if kind == "s":
            pieces[int(first)] = ",".join(rest)
        else:
            has[int(first)] = int(rest[0])
    for road, (kind, value) in last.items():
        profile = has.get(road, road)
        if kind == "pieces":
            assert pieces[profile] == f"0,travel,{100 + value}"


# ---- what fails ----


def test_a_full_disk_keeps_the_version_before(file: Path, tmp_path: Path) -> None:
    room = tmp_path / "small"
    room.mkdir()
    size = file.stat().st_size
    if subprocess.run(["mount", "-t", "tmpfs", "-o", f"size={size + size // 2 + 16_384}", "none", room],
                      capture_output=True).returncode:
        pytest.skip("a file system of a few bytes can't be mounted here")
    try:
        path = room / "town.cu"
        path.write_bytes(file.read_bytes())
        with Service(path, TMPDIR=str(room)) as service:
            status, told = service.ask("/edits", "POST", LINE.encode())
            assert status == 503 and "no space left" in told["error"].lower()
            assert service.client.post("/edits", content=LINE).headers["Retry-After"]
            status, told = service.ask("/edits", "POST", b"\n" * (2 * size))
            assert status == 503 and "no space left" in told["error"].lower()
            assert service.get("/route?from=5&to=151&depart=0")["version"] == digest_of(file)
            assert left_in(room) == []
            check_without_any_room(service, room)
            assert service.end()[0] == 0
        assert path.read_bytes() == file.read_bytes()
    finally:
        subprocess.run(["umount", room], check=False)


def check_without_any_room(service: Service, room: Path) -> None:
    """Not a byte can be written, and the workers are new."""
    full = os.open(room / "full", os.O_WRONLY | os.O_CREAT)
    with contextlib.suppress(OSError):
        while True:
            os.write(full, bytes(4096))
    os.close(full)
    [worker] = service.workers()
    os.kill(worker, signal.SIGKILL)
    assert wait_for(service.workers, lambda found: found not in ([], [worker]))
    with service.client_of() as client:
        for path in ("/route?from=5&to=151&depart=0", "/edits", "/metrics", "/health", "/network", "/openapi.json"):
            assert client.get(path).status_code == (404 if path == "/network" else 200)
        [first, *_] = client.get("/edits").json()["jobs"]
        # Of one of which nothing can be noted it is told once its process is known to be gone.
        told = wait_for(lambda: client.get(f"/edits/{first['job']}").json()["state"], lambda state: state == "ended")
        assert told == "ended"
        assert client.post("/edits", content=LINE).status_code == 503


def test_a_limit_of_file_sizes_keeps_the_version_before(file: Path) -> None:
    before = file.read_bytes()
    assert len(before) > 70_000
    with Service(file, most_bytes=70_000) as service:
        status, told = service.ask("/edits", "POST", LINE.encode())
        assert status == 503 and "stored" in told["error"]
        assert service.get("/health")["status"] == "ok"
    assert file.read_bytes() == before and left_in(file.parent) == []


def cut(jobs: Path) -> None:
    """Half of the list is gone, as where a machine stops."""
    os.truncate(jobs, jobs.stat().st_size // 2)


def replace_by_text(jobs: Path) -> None:
    jobs.write_text("no database at all")


@pytest.mark.parametrize("damage", [cut, replace_by_text])
def test_a_damaged_list_of_edits_is_put_aside(file: Path, damage: Callable[[Path], object]) -> None:
    jobs = file.with_name(file.name + ".jobs")
    aside = jobs.with_name(jobs.name + ".damaged")
    with Service(file) as service:
        service.edit(LINE)
        assert service.end()[0] == 0
    damage(jobs)
    damaged = jobs.read_bytes()
    with Service(file) as service:
        assert service.get("/edits")["jobs"] == [] and aside.read_bytes() == damaged
        service.edit(LINE)
        assert [job["state"] for job in service.get("/edits")["jobs"]] == ["done"]
        # In work nobody takes it away: a hint says what does.
        damage(jobs)
        for asked in (("/edits",), ("/edits/1",), ("/edits/1", "DELETE"), ("/edits", "POST", LINE.encode())):
            status, told = service.ask(*asked)
            assert status == 503 and "SIGHUP" in told["hint"], told
        assert service.get("/health")["status"] == "ok"
        service.process.send_signal(signal.SIGHUP)
        assert wait_for(lambda: service.once("a,3,1")[0], lambda status: status == 200) == 200
        said = service.end()[2]
    assert said.count("town.cu.jobs is damaged: it is town.cu.jobs.damaged now") == 2 and "should not be" not in said


def test_an_edit_that_dies_is_told(file: Path, slow: Path) -> None:
    with Service(file, CATCHUP=str(slow)) as service, ThreadPoolExecutor(1) as pool:
        waiting = pool.submit(Service.once, service, LINE)
        edit = wait_for(lambda: edits_in_work(service))
        os.kill(edit[0], signal.SIGKILL)
        status, told = waiting.result()
        assert (status, told["error"]) == (503, "catchup edit was ended by SIGKILL")
    assert left_in(file.parent) == []


def test_at_the_end_an_edit_that_is_not_ready_is_ended(file: Path, slow: Path) -> None:
    before = file.read_bytes()
    with Service(file, CATCHUP=str(slow)) as service, ThreadPoolExecutor(1) as pool:
        waiting = pool.submit(Service.once, service, LINE)
        edit = wait_for(lambda: edits_in_work(service))
        watch = Watch(service.process.pid)
        assert service.end() == (0, "", "")
        # Ten seconds, and what a busy machine adds.
        assert watch.seconds() < 10 + 5
        status, told = waiting.result()
        assert status == 503 and "the service ends" in told["error"]
        assert not is_there(edit[0])
    assert file.read_bytes() == before and left_in(file.parent) == []


def test_an_edit_that_is_made_is_told_at_the_end_though_it_is_not_served_yet(
        file: Path, program: Path, tmp_path: Path) -> None:
    """A busy machine may take long over the next file's processes."""
    wanted, stub, made = edited(file, LINE), tmp_path / "late", tmp_path / "made"
    stub.write_text(f'#!/bin/sh\nif [ "$1" = ask ] && [ -e "{made}" ]; then exec sleep 1000; fi\n'
                    f'if [ "$1" = edit ]; then : >"{made}"; fi\nexec "{program}" "$@"\n')
    stub.chmod(0o755)
    with Service(file, CATCHUP=str(stub)) as service, ThreadPoolExecutor(1) as pool:
        waiting = pool.submit(Service.once, service, LINE)
        assert wait_for(lambda: file.read_bytes() == wanted)
        assert service.end() == (0, "", "")
        status, told = waiting.result()
        assert (status, told["version"]) == (200, digest_of(file))
    assert file.read_bytes() == wanted and left_in(file.parent) == []


def test_an_edit_of_which_nothing_can_be_noted_is_told_at_the_end(file: Path, slow: Path) -> None:
    """Whoever waits when the service can't wait any longer isn't cut off."""
    with Service(file, CATCHUP=str(slow)) as service, ThreadPoolExecutor(1) as pool:
        waiting = pool.submit(Service.once, service, LINE)
        assert wait_for(lambda: edits_in_work(service))
        with contextlib.closing(sqlite3.connect(f"{file}.jobs", isolation_level=None)) as kept:
            kept.execute("BEGIN EXCLUSIVE")
            assert service.end() == (0, "", "")
        status, told = waiting.result()
        assert status == 503 and told["error"] == "the service ends: GET /edits says whether the edit was made"
    with Service(file) as service:
        # It is noted once the list can be written.
        [job] = wait_for(lambda: service.get("/edits")["jobs"], lambda jobs: [job["state"] for job in jobs] == ["ended"])
        assert job["state"] == "ended" and not file.with_name(file.name + ".journal").exists()


def test_at_a_reload_nobody_is_told_that_the_service_ends(file: Path, slow: Path) -> None:
    """An edit that isn't ready by then is ended as at the end, and the service stays well."""
    with Service(file, workers=2, CATCHUP=str(slow)) as service, ThreadPoolExecutor(1) as pool:
        waiting = pool.submit(Service.once, service, LINE)
        assert wait_for(lambda: edits_in_work(service))
        service.process.send_signal(signal.SIGHUP)
        found = []
        while not waiting.done():
            with service.client_of() as client:
                found.append(client.get("/health").status_code)
        assert {*found} == {200}
        status, told = waiting.result()
        assert status == 503 and "the service is reloaded, and the edit wasn't ready" in told["error"]
        assert wait_for(lambda: left_in(file.parent), lambda left: not left) == []


# ---- the journal ----


def test_a_start_drops_what_never_came_into_place(file: Path) -> None:
    with Service(file) as service:
        service.edit(LINE)
    journal = file.with_name("town.cu.journal")
    whole = journal.read_bytes()
    for bad in (b'{"before": "00", "after": "11", "time": "", "entry": null, "edits": ["x"]}\n', b'{"before": "00',
                b"x\n"):
        journal.write_bytes(whole + bad)
        for name in (".catchup-edits-0", ".catchup-next-0", ".catchup-stored-7"):
            file.with_name(name).write_bytes(b"x")
        with Service(file) as service:
            assert service.get("/health")["status"] == "ok"
            assert journal.read_bytes() == whole
            assert left_in(file.parent) == []


def test_the_journal_makes_the_file_again(file: Path, town: Path) -> None:
    with Service(file) as service:
        for number in range(3):
            service.edit(f"s,{number},0,travel,{number + 70}", f"a,{number},1")
    again = file.with_name("again.cu")
    again.write_bytes(town.read_bytes())
    for entry in journal_of(file):
        assert packed.digest_of(str(again)) == entry["before"]
        again.write_bytes(edited(again, *entry["edits"]))
        assert packed.digest_of(str(again)) == entry["after"]
    assert again.read_bytes() == file.read_bytes()
