"""What operators are told: lines on standard error. Nobody who serves waits until they are read: where the pipe or the
socket behind it is full, lines are lost."""

from __future__ import annotations

import contextlib
import functools
import os
import select
import socket
import stat
from collections.abc import Callable
from pathlib import Path
from typing import Final

NAME: Final = "catchup-http"
STREAMS: Final = 3


def open_streams() -> None:
    """Opens standard streams that are closed, before anything else is opened in their place and written to."""
    for descriptor in range(STREAMS):
        try:
            os.fstat(descriptor)
        except OSError:
            os.open(os.devnull, os.O_RDWR)


@functools.cache
def writer() -> Callable[[bytes], object]:
    """What writes to standard error without waiting. Others may share its open file, so that isn't changed."""
    mode = os.fstat(2).st_mode
    if stat.S_ISSOCK(mode):
        connection = socket.socket(fileno=os.dup(2))
        return lambda data: connection.send(data, socket.MSG_DONTWAIT)
    descriptor = 2
    if stat.S_ISFIFO(mode) or stat.S_ISCHR(mode):
        with contextlib.suppress(OSError):
            descriptor = os.open("/proc/self/fd/2", os.O_WRONLY | os.O_NONBLOCK | os.O_NOCTTY | os.O_CLOEXEC)
    return functools.partial(os.write, descriptor)


def say(line: str) -> None:
    """A line as it is, but no longer than a pipe takes in one piece."""
    with contextlib.suppress(OSError):
        writer()(line.encode("ascii", "replace")[:select.PIPE_BUF - 1] + b"\n")


def tell(line: str) -> None:
    """A line that an operator should know, with the service's name before it."""
    say(f"{NAME}: {' '.join(line.split())}")


def traced(problem: BaseException) -> str:
    """An error of the service's own in one line, with where it came from."""
    at, trace = "", problem.__traceback__
    while trace is not None:
        at = f" at {Path(trace.tb_frame.f_code.co_filename).name}:{trace.tb_lineno}"
        trace = trace.tb_next
    return f"{type(problem).__name__}: {' '.join(str(problem).split())[:300]}{at}"
