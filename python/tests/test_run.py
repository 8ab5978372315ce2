"""How commands end."""

from __future__ import annotations

import os
import re
import signal
import subprocess
import sys
import time
from pathlib import Path

# Each test runs a command that is made of it.
import click  # noqa: F401
import pytest

PYTHON = Path(__file__).resolve().parents[1]
BIN = PYTHON.parent / "bin"

CODE = """
import sys, time
sys.path.insert(0, {path!r})
import click
from catchup import errors
from catchup.commands._run import run

@click.command()
@click.argument("how")
def command(how):
    "Ends as it is told."
    if how == "failure": raise errors.Failure("nothing is\\nthere")
    if how == "status": raise type("Own", (errors.Failure,), {{"status": 7}})("own")
    if how == "refused": raise errors.Refused("node")
    if how == "bug": raise RuntimeError("bug")
    if how == "memory": raise MemoryError
    if how == "library": raise ImportError("libsqlite3.so.0: failed to map segment from shared object")
    if how == "module": import no_such.thing
    if how == "own module": import catchup.no_such
    if how == "own name": from catchup.clock import no_such
    if how == "their part":
        try: raise ImportError("lib.so:\\nwrong ELF class", name="their.part")
        except ImportError: raise ImportError("They say\\nmuch")
    if how == "thread": raise RuntimeError("can't start new thread")
    if how == "pipe":
        for _ in range(100000): print("line")
    if how == "number": return 5
    if how == "file": open("/proc/none", "w")
    if how == "wait":
        try: print("waiting", flush=True); time.sleep(600)
        finally: print("cleaned up")
    if how == "passes over":
        class Deaf:
            def __del__(self): print("waiting", flush=True); time.sleep(600)
        try:
            for _ in range(3): Deaf()
            time.sleep(600)
        finally: print("cleaned up")
    if how == "print": print("done")

run(command, "try-it")
"""


def start(*words: str, **more: object) -> subprocess.Popen[str]:
    code = CODE.format(path=str(PYTHON))
    pipe = subprocess.PIPE
    return subprocess.Popen([sys.executable, "-c", code, *words], text=True, stderr=pipe, **{"stdout": pipe, **more})  # type: ignore[call-overload, no-any-return]


ENDS = [
    (["failure"], 1, "try-it: nothing is there\n"),
    (["status"], 7, "try-it: own\n"),
    (["refused"], 1, "try-it: the program refused the line: node (docs/FORMATS.md has the checks of each line)\n"),
    (["memory"], 1, "try-it: out of memory: free some, allow it more (ulimit -v), or give it a smaller input\n"),
    (["library"], 1, "try-it: out of memory: free some, allow it more (ulimit -v), or give it a smaller input\n"),
    (
        ["module"],
        1,
        "try-it: the Python module no_such isn't installed: 'apt-get install python3-no-such' does it on Debian and Ubuntu\n",
    ),
    (["their part"], 1, "try-it: the Python module their can't be loaded: lib.so: wrong ELF class\n"),
    (["thread"], 1, "try-it: no thread can be started: free some memory, or allow more processes (ulimit -u)\n"),
    (["number"], 5, ""),
    (["print"], 0, ""),
    ([], 2, "try-it: Missing argument 'HOW'. Write: try-it [OPTIONS] HOW. See: try-it --help\n"),
    (["print", "more"], 2, "try-it: Got unexpected extra argument (more). Write: try-it [OPTIONS] HOW. See: try-it --help\n"),
    (["--none"], 2, "try-it: No such option: --none. See: try-it --help\n"),
]


@pytest.mark.parametrize("words, status, said", ENDS)
def test_ends(words: list[str], status: int, said: str) -> None:
    run = start(*words)
    _, error = run.communicate(timeout=600)
    assert (run.returncode, error) == (status, said)


def test_help_goes_to_standard_output() -> None:
    run = start("--help")
    output, error = run.communicate(timeout=600)
    assert (run.returncode, error) == (0, "") and output.startswith("Usage: try-it [OPTIONS] HOW")


BUGS = [
    ("bug", "RuntimeError: bug"),
    ("own module", "No module named 'catchup.no_such'"),
    ("own name", "cannot import name 'no_such'"),
]


@pytest.mark.parametrize("how, said", BUGS)
def test_a_bug_keeps_its_traceback(how: str, said: str) -> None:
    run = start(how)
    _, error = run.communicate(timeout=600)
    assert run.returncode == 1 and "Traceback" in error and said in error


def test_a_closed_pipe_is_silent() -> None:
    reader, writer = os.pipe()
    run = start("pipe", stdout=writer)
    os.close(writer)
    os.close(reader)
    _, error = run.communicate(timeout=600)
    assert (run.returncode, error) == (141, "")


def test_a_full_device_is_told() -> None:
    with open("/dev/full", "w") as full:
        run = start("print", stdout=full)
        _, error = run.communicate(timeout=600)
    assert run.returncode == 1 and error.startswith("try-it: ") and "No space left" in error and error.count("\n") == 1


def test_what_of_a_full_device_is_told() -> None:
    with open("/dev/full", "w") as full:
        run = start("print", stdout=full)
        assert run.communicate(timeout=600)[1] == "try-it: its output can't be written: No space left on device\n"
    run = start("file")
    assert run.communicate(timeout=600)[1] == "try-it: /proc/none: No such file or directory\n"


@pytest.mark.parametrize("how", ["print", "number", "failure"])
def test_a_closed_output_is_told_before_any_work(how: str) -> None:
    run = start(how, preexec_fn=lambda: os.close(1))
    _, error = run.communicate(timeout=600)
    assert (run.returncode, error) == (1, "try-it: standard output is closed\n")


def test_what_goes_wrong_is_never_told_on_standard_output() -> None:
    run = start("failure", preexec_fn=lambda: os.close(2))
    output, _ = run.communicate(timeout=600)
    assert (run.returncode, output) == (1, "")


ENDINGS = pytest.mark.parametrize("number, status", [(signal.SIGINT, 130), (signal.SIGTERM, 143), (signal.SIGHUP, 129)])


@ENDINGS
def test_an_interrupt_lets_it_clean_up(number: int, status: int) -> None:
    # Whoever runs the tests may be deaf to it.
    run = start("wait", preexec_fn=lambda: signal.signal(number, signal.SIG_DFL))
    assert run.stdout and run.stdout.readline() == "waiting\n"
    time.sleep(0.1)
    run.send_signal(number)
    output, error = run.communicate(timeout=600)
    assert (run.returncode, output, error) == (status, "cleaned up\n", "")


@ENDINGS
def test_an_interrupt_that_python_passes_over_comes_again(number: int, status: int) -> None:
    """It comes where nothing can be raised, three times over: the second and the third time by itself."""
    run = start("passes over", preexec_fn=lambda: signal.signal(number, signal.SIG_DFL))
    assert run.stdout and run.stdout.readline() == "waiting\n"
    time.sleep(0.1)
    run.send_signal(number)
    output, error = run.communicate(timeout=600)
    assert (run.returncode, output.replace("waiting\n", ""), error) == (status, "cleaned up\n", "")


@pytest.mark.parametrize("name", ["catchup-http", "catchup-tables", "draw-route"])
def test_an_interrupt_while_modules_load_is_silent(name: str) -> None:
    """Wherever it comes: shells tell status 130 of an end by it."""
    told = subprocess.run([BIN / name, "--none"], text=True, capture_output=True, timeout=600, check=False).stderr
    for at in range(12):
        run = subprocess.Popen(
            [BIN / name, "--none"], text=True, stdout=subprocess.PIPE, stderr=subprocess.PIPE,
            preexec_fn=lambda: signal.signal(signal.SIGINT, signal.SIG_DFL))
        # Python takes it as it starts, and has it no more once the script has begun. So does the shell that some begin in.
        for is_wanted in (True, False):
            while run.poll() is None and not (is_python(run.pid) and takes_interrupts(run.pid) is is_wanted):
                time.sleep(0.0005)
        time.sleep(at * 0.01)
        run.send_signal(signal.SIGINT)
        output, error = run.communicate(timeout=600)
        # It may have told its wrong word by then.
        assert (output, error) in (("", ""), ("", told)), error
        assert run.returncode in (-signal.SIGINT, 130, 2)


def is_python(pid: int) -> bool:
    """Whether a process is Python by now, and no shell before it."""
    return Path(f"/proc/{pid}/cmdline").read_bytes().partition(b"\0")[0].endswith(b"/python3")


def takes_interrupts(pid: int) -> bool:
    """Whether a process has a handler for an interrupt."""
    [caught] = re.findall(r"^SigCgt:\s*([0-9a-f]+)$", Path(f"/proc/{pid}/status").read_text(), re.M)
    return bool(int(caught, 16) >> signal.SIGINT - 1 & 1)


def test_an_interrupt_that_is_ignored_stays_so() -> None:
    """As of a command in the background of a script."""
    run = subprocess.Popen(
        [BIN / "catchup-tables", "--help"], text=True, stdout=subprocess.PIPE, stderr=subprocess.PIPE,
        preexec_fn=lambda: signal.signal(signal.SIGINT, signal.SIG_IGN))
    while run.poll() is None:
        run.send_signal(signal.SIGINT)
        time.sleep(0.005)
    output, error = run.communicate(timeout=600)
    assert (run.returncode, error) == (0, "") and output.startswith("Usage: ")
