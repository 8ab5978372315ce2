"""Whether the program that CATCHUP names is catchup: asked before it is given any file."""

from __future__ import annotations

import os
import select
import signal
import subprocess
import time
from pathlib import Path
from typing import Final

from catchup.errors import Failure
from catchup.program import find_program
from catchup.service.process import said_of

PROBE_SECONDS: Final = 30.0             # for its answer
ANSWER: Final = b"words\n"              # to `ask` without a file
WRONG_WORDS: Final = 2                  # the status behind that


def check_program() -> None:
    """Refuses a program that CATCHUP names and that doesn't answer as catchup does. Where CATCHUP names none, the
    launcher knows its program by checksums.

    Raises Failure, which says what to do, within PROBE_SECONDS and a moment.
    """
    if not os.environ.get("CATCHUP"):
        return
    program = find_program()
    found = found_instead(program)
    if found is not None:
        raise Failure(f"CATCHUP names {program}, and that isn't catchup: {found}; set it to the path of catchup, or unset it")


def found_instead(program: Path) -> str | None:
    """What a program did that isn't catchup's way; None of catchup."""
    try:
        process = subprocess.Popen([program, "ask"], stdin=subprocess.DEVNULL, stdout=subprocess.PIPE,
                                   stderr=subprocess.DEVNULL, start_new_session=True)
    except OSError as problem:
        return f"it can't be started: {problem.strerror}"
    last = time.monotonic() + PROBE_SECONDS
    try:
        said = read_until(process, last)
        if said not in (b"", ANSWER):
            return "it says other things"
        status = process.wait(max(last - time.monotonic(), 0))
    except subprocess.TimeoutExpired:
        return f"it gave no answer in {PROBE_SECONDS:g} s"
    finally:
        end_group(process)
    return None if (said, status) == (ANSWER, WRONG_WORDS) else f"it {said_of(status)}"


def read_until(process: subprocess.Popen[bytes], last: float) -> bytes:
    """What a program says, and of one that says more than catchup its beginning; TimeoutExpired where it has said
    neither by a second of the monotonic clock."""
    assert process.stdout is not None
    said = b""
    while len(said) <= len(ANSWER):
        left = last - time.monotonic()
        if left <= 0 or not select.select([process.stdout], [], [], left)[0]:
            raise subprocess.TimeoutExpired(process.args, PROBE_SECONDS)
        piece = os.read(process.stdout.fileno(), len(ANSWER) + 1)
        if not piece:
            break
        said += piece
    return said


def end_group(process: subprocess.Popen[bytes]) -> None:
    """Ends a program that leads a group, and all that it has started, where it hasn't ended itself."""
    assert process.stdout is not None
    process.stdout.close()
    if process.returncode is None:
        os.killpg(process.pid, signal.SIGKILL)
        process.wait()
