"""The program as a child: plain, shared by threads, and for asyncio."""

from __future__ import annotations

import asyncio
import gc
import os
import signal
import stat
import threading
from pathlib import Path

import pytest

from catchup.errors import Ended, Failure
from catchup.program import AsyncChild, Child, checkout, find_program, run_program

TABLES = ("nodes.csv", "roads.csv", "profiles.csv")


@pytest.fixture
def serve(program: Path, rush_hour: Path) -> list[str | Path]:
    return ["serve", *(rush_hour / name for name in TABLES), "identity"]


def script(folder: Path, text: str) -> str:
    path = folder / "stub"
    path.write_text("#!/bin/sh\n" + text)
    path.chmod(path.stat().st_mode | stat.S_IXUSR)
    return str(path)


# ---- where it is ----


def test_the_program_of_the_environment_goes_first(tmp_path: Path, monkeypatch: pytest.MonkeyPatch) -> None:
    monkeypatch.setenv("CATCHUP", script(tmp_path, "echo stub"))
    assert find_program() == tmp_path / "stub"
    assert run_program(["ask"]).output == "stub\n"


def test_a_wrong_program_of_the_environment_is_told(monkeypatch: pytest.MonkeyPatch) -> None:
    monkeypatch.setenv("CATCHUP", "/none/such")
    with pytest.raises(Failure, match="CATCHUP names /none/such"):
        find_program()


def test_the_checkout_goes_before_path(monkeypatch: pytest.MonkeyPatch) -> None:
    monkeypatch.delenv("CATCHUP", raising=False)
    top = checkout()
    assert top is not None and find_program() == top / "bin" / "catchup"


def test_a_program_on_path(tmp_path: Path, monkeypatch: pytest.MonkeyPatch) -> None:
    monkeypatch.delenv("CATCHUP", raising=False)
    monkeypatch.setattr("catchup.program.checkout", lambda: None)
    monkeypatch.setenv("PATH", str(tmp_path))
    with pytest.raises(Failure, match="install it, or set CATCHUP"):
        find_program()
    os.rename(script(tmp_path, ""), tmp_path / "catchup")
    assert find_program() == tmp_path / "catchup"


# ---- one run ----


def test_a_run(program: Path, serve: list[str | Path]) -> None:
    assert run_program(serve, input="q,0,2,0\n") == (0, "arrive=160 arcs=0 1\n", "")
    assert run_program(serve, input=b"") == (0, "", "")
    assert run_program(["ask", "/none/such"]).status == 3


def test_a_run_that_takes_too_long(tmp_path: Path, monkeypatch: pytest.MonkeyPatch) -> None:
    monkeypatch.setenv("CATCHUP", script(tmp_path, "exec sleep 600"))
    with pytest.raises(Failure, match="took longer than 0.2 s"):
        run_program(["ask", "x"], seconds=0.2)


# ---- a child ----


def test_a_line_and_its_reply(serve: list[str | Path]) -> None:
    with Child(serve) as child:
        assert child.ask("q,0,2,28800") == "arrive=29050 arcs=2"
        assert child.ask("") == "refused: line"
        assert child.ask_all([]) == []
        assert child.ask_all(["q,2,0,0", "q,9,9,9"]) == ["unreachable", "refused: node"]
    assert child.close() == 0


def test_many_lines_never_wait_for_one_another(serve: list[str | Path]) -> None:
    lines = [f"q,0,2,{second}" for second in range(0, 86400, 2)]
    with Child(serve) as child:
        replies = child.ask_all(lines)
    assert len(replies) == len(lines) and replies[0] == "arrive=160 arcs=0 1"


def test_a_line_of_four_megabytes(serve: list[str | Path]) -> None:
    with Child(serve) as child:
        assert child.ask("q," + "0" * 4_194_301) == "refused: line"
        assert child.ask("q," + "0" * 4_194_303) == "refused: long"
        assert child.ask("q,0,2,0") == "arrive=160 arcs=0 1"


def test_a_line_feed_in_a_line_is_refused(serve: list[str | Path]) -> None:
    with Child(serve) as child:
        with pytest.raises(ValueError):
            child.ask("q,0,2,0\nq,0,2,0")
        assert child.ask("q,0,2,0") == "arrive=160 arcs=0 1"


def test_threads_share_a_child(serve: list[str | Path]) -> None:
    wrong: list[str] = []

    def ask(start: int) -> None:
        for second in range(start, 28000, 997):
            reply = child.ask(f"q,0,2,{second}")
            if reply != f"arrive={second + 160} arcs=0 1":
                wrong.append(reply)

    with Child(serve) as child:
        threads = [threading.Thread(target=ask, args=(start,)) for start in range(16)]
        for thread in threads:
            thread.start()
        for thread in threads:
            thread.join()
    assert wrong == []


ENDS = [
    (["ask", "/none/such"], 3, "shelf: fault hierarchy"),
    (["ask", "/dev/null"], 6, "file: short"),
    (["nothing"], 2, "words"),
]


@pytest.mark.parametrize("words, status, said", ENDS)
def test_a_program_that_stops_before_the_script(program: Path, words: list[str], status: int, said: str) -> None:
    with Child(words) as child:
        for _ in range(2):
            with pytest.raises(Ended) as error:
                child.ask("q,0,0,0")
            assert error.value.status == status and error.value.said.startswith(said)
    assert child.close() == status


def test_a_program_that_is_killed(serve: list[str | Path]) -> None:
    with Child(serve) as child:
        os.kill(child.pid, signal.SIGKILL)
        with pytest.raises(Ended) as error:
            child.ask("q,0,2,0")
        assert error.value.status == -9
    assert child.close() == -9


def test_what_a_program_says_on_standard_error_is_told(tmp_path: Path, monkeypatch: pytest.MonkeyPatch) -> None:
    monkeypatch.setenv("CATCHUP", script(tmp_path, "echo 'no more memory' >&2; printf 'arrive='; exit 9"))
    with Child(["ask", "x"]) as child, pytest.raises(Ended, match="status 9: arrive= no more memory"):
        child.ask("q,0,0,0")


def test_a_call_that_is_broken_off_ends_the_process(tmp_path: Path, monkeypatch: pytest.MonkeyPatch) -> None:
    monkeypatch.setenv("CATCHUP", script(tmp_path, "exec cat"))
    with Child(["ask"]) as child:
        monkeypatch.setattr(child, "_read", lambda: (_ for _ in ()).throw(KeyboardInterrupt()))
        with pytest.raises(KeyboardInterrupt):
            child.ask("one")
        monkeypatch.undo()
        with pytest.raises(Ended):
            child.ask("two")


def test_a_closed_child_says_so(serve: list[str | Path]) -> None:
    child = Child(serve)
    assert child.close() == 0 and child.close() == 0
    with pytest.raises(Ended, match="closed"):
        child.ask("q,0,2,0")


def test_a_forgotten_child_is_told_and_ends(serve: list[str | Path]) -> None:
    child = Child(serve)
    child.ask("q,0,2,0")
    process = child._process
    with pytest.warns(ResourceWarning, match="wasn't closed"):
        del child
        gc.collect()
    assert process is not None and process.wait(600) == 0


def test_a_program_that_cannot_be_started(tmp_path: Path, monkeypatch: pytest.MonkeyPatch) -> None:
    stub = script(tmp_path, "")
    Path(stub).write_text("#!/none/such\n")
    monkeypatch.setenv("CATCHUP", stub)
    for start in (lambda: Child(["ask"]), lambda: run_program(["ask"]), lambda: asyncio.run(AsyncChild.start(["ask"]))):
        with pytest.raises(Failure, match="can't be started"):
            start()


# ---- a child for asyncio ----


def test_many_asks_in_flight(serve: list[str | Path]) -> None:
    async def ask() -> list[bytes]:
        child = await AsyncChild.start(serve)
        replies = await asyncio.gather(*(child.ask(b"q,0,2,%d" % second) for second in range(0, 28000, 7)))
        assert await child.ask_all([b"q,2,0,0", b"x"]) == [b"unreachable", b"refused: line"]
        assert await child.close() == 0 and child.ended.is_set()
        with pytest.raises(Ended):
            await child.ask(b"q,0,2,0")
        return replies

    replies = asyncio.run(ask())
    assert replies == [b"arrive=%d arcs=0 1" % (second + 160) for second in range(0, 28000, 7)]


def test_replies_of_many_megabytes(town: Path) -> None:
    async def ask() -> bytes:
        child = await AsyncChild.start(["ask", town])
        nodes = ",".join(str(node % 159) for node in range(2048))
        reply = await child.ask(b"t,28800,1024," + nodes.encode())
        await child.close()
        return reply

    assert asyncio.run(ask()).count(b" ") == 1024 * 1024


def test_an_ask_that_is_cancelled_costs_nobody_a_reply(serve: list[str | Path]) -> None:
    async def ask() -> bytes:
        child = await AsyncChild.start(serve)
        first = asyncio.create_task(child.ask(b"q,0,2,0"))
        await asyncio.sleep(0)
        first.cancel()
        reply = await child.ask(b"q,0,2,28800")
        assert first.cancelled()
        await child.close()
        return reply

    assert asyncio.run(ask()) == b"arrive=29050 arcs=2"


@pytest.mark.parametrize("words, status, said", ENDS)
def test_an_async_program_that_stops_before_the_script(
    program: Path, words: list[str], status: int, said: str
) -> None:
    async def ask() -> None:
        child = await AsyncChild.start(words)
        for _ in range(2):
            with pytest.raises(Ended) as error:
                await child.ask(b"q,0,0,0")
            assert error.value.status == status and error.value.said.startswith(said)
        assert await child.close() == status

    asyncio.run(ask())


def test_an_async_program_that_is_killed(serve: list[str | Path]) -> None:
    async def ask() -> None:
        child = await AsyncChild.start(serve)
        assert await child.ask(b"q,0,2,0") == b"arrive=160 arcs=0 1"
        os.kill(child.pid, signal.SIGKILL)
        replies = await asyncio.gather(*(child.ask(b"q,0,2,0") for _ in range(5)), return_exceptions=True)
        assert all(isinstance(reply, Ended) for reply in replies)
        await asyncio.wait_for(child.ended.wait(), 600)
        assert await child.close() == -9

    asyncio.run(ask())
