"""How tests run the commands of bin/ as a stranger does."""

from __future__ import annotations

import os
import runpy
import signal
import subprocess
import sys
import tempfile
import time
from collections.abc import Mapping
from contextlib import ExitStack, chdir
from pathlib import Path
from typing import NamedTuple
from unittest import mock

# No command runs without it: where it isn't installed, the tests that import this are skipped.
import click  # noqa: F401

BIN = Path(__file__).resolve().parents[2] / "bin"


class Ran(NamedTuple):
    """Status, standard output and standard error of a command."""

    status: int
    output: str
    error: str


def run(
    name: str, *words: str | Path, input: str | bytes = b"", cwd: Path | None = None, env: Mapping[str, str] | None = None
) -> Ran:
    """Runs bin/NAME to its end, at most ten minutes."""
    said = input.encode() if isinstance(input, str) else input
    done = subprocess.run(
        [BIN / name, *words], input=said, capture_output=True, timeout=600, cwd=cwd, env={**os.environ, **(env or {})}
    )
    return Ran(done.returncode, done.stdout.decode(), done.stderr.decode())


def call(
    name: str, *words: str | Path, input: str | bytes = b"", cwd: Path | None = None, env: Mapping[str, str] | None = None
) -> Ran:
    """As `run`, but in this process: for the many cases of a command that other tests start as a process of its own."""
    said = input.encode() if isinstance(input, str) else input
    with ExitStack() as stack:
        files = [stack.enter_context(tempfile.TemporaryFile()) for _ in range(3)]
        os.pwrite(files[0].fileno(), said, 0)
        for stream, file in zip(("stdin", "stdout", "stderr"), files):
            text = stack.enter_context(open(os.dup(file.fileno()), "r+", encoding="utf-8"))
            stack.enter_context(mock.patch.object(sys, stream, text))
        stack.enter_context(mock.patch.object(sys, "argv", [str(BIN / name), *map(str, words)]))
        stack.enter_context(mock.patch.object(sys, "path", list(sys.path)))
        stack.enter_context(mock.patch.object(sys, "unraisablehook", sys.unraisablehook))
        stack.enter_context(mock.patch.dict(os.environ, env or {}))
        stack.enter_context(chdir(cwd or "."))
        for number in (signal.SIGTERM, signal.SIGHUP, signal.SIGINT):
            stack.callback(signal.signal, number, signal.getsignal(number))
        try:
            runpy.run_path(str(BIN / name), run_name="__main__")
        except SystemExit as end:
            status = end.code
            if isinstance(status, str):
                # So Python does with it.
                print(status, file=sys.stderr)
                status = 1
        sys.stdout.flush()
        sys.stderr.flush()
        output, error = (os.pread(file.fileno(), os.fstat(file.fileno()).st_size, 0).decode() for file in files[1:])
    assert isinstance(status, int)
    return Ran(status, output, error)


def check_refused(ran: Ran, status: int, said: str) -> None:
    """That a command ended so, printed nothing, and said one line with these words."""
    assert (ran.status, ran.output) == (status, "") and said in ran.error and ran.error.count("\n") == 1, ran


def run_into_closed_pipe(name: str, *words: str | Path, input: bytes = b"", cwd: Path | None = None) -> Ran:
    """Runs bin/NAME with an output that nobody reads."""
    reader, writer = os.pipe()
    os.close(reader)
    try:
        done = subprocess.run([BIN / name, *words], input=input, stdout=writer, stderr=subprocess.PIPE, timeout=600, cwd=cwd)
    finally:
        os.close(writer)
    return Ran(done.returncode, "", done.stderr.decode())


def interrupt(process: subprocess.Popen[bytes], after: Path, seconds: float = 600) -> tuple[int, bytes]:
    """Interrupts a command, with all that it has started, once a file is there; its status and what it said."""
    until = time.monotonic() + seconds
    while not after.exists():
        assert process.poll() is None and time.monotonic() < until, "the command never came so far"
        time.sleep(0.02)
    os.killpg(process.pid, signal.SIGINT)
    _, error = process.communicate(timeout=seconds)
    return process.returncode, error


def interrupt_at_a_pipe(name: str, folder: Path) -> None:
    """Interrupts a command that reads nodes from a pipe and `roads` of a folder: it ends silently and leaves nothing."""
    os.mkfifo(folder / "pipe")
    before = sorted(folder.iterdir())
    process = subprocess.Popen([BIN / name, "pipe", "roads"], cwd=folder, stdin=subprocess.DEVNULL, stdout=subprocess.PIPE,
                               stderr=subprocess.PIPE, start_new_session=True)
    with open(folder / "pipe", "w") as pipe:
        pipe.write("node,x,y\n")
        pipe.flush()
        time.sleep(0.1)
        assert interrupt(process, folder / "pipe") == (130, b"")
    assert sorted(folder.iterdir()) == before


def without_tools(folder: Path) -> dict[str, str]:
    """An environment whose PATH has nothing but a Python."""
    folder.mkdir(exist_ok=True)
    return {"PATH": str(folder)}
