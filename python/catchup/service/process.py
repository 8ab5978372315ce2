"""Processes that end with the one that started them, and locks that end with their holder. Linux alone."""

from __future__ import annotations

import asyncio
import contextlib
import ctypes
import fcntl
import functools
import os
import signal
import subprocess
from collections.abc import Sequence
from concurrent.futures import ThreadPoolExecutor
from dataclasses import dataclass
from pathlib import Path
from typing import IO, Any, Final

PR_SET_PDEATHSIG: Final = 1
# Signals to the whole group are for the service: it ends its children by itself, once what is in work is answered.
LEFT_TO_THE_SERVICE: Final = frozenset([signal.SIGTERM, signal.SIGINT, signal.SIGHUP, signal.SIGQUIT])
# A child asks the system for its end with its parent, and then looks whether that is still there.
BOUND: Final = ("/usr/bin/setpriv", "--pdeathsig", "KILL", "/bin/sh", "-c", 'test "$PPID" = "$0" && exec "$@"')

_libc = ctypes.CDLL(None, use_errno=True)


def end_with(parent: int) -> None:
    """Ends this process by SIGKILL as soon as its parent, of this number, is gone."""
    _libc.prctl(PR_SET_PDEATHSIG, signal.SIGKILL, 0, 0, 0)
    if os.getppid() != parent:
        os.kill(os.getpid(), signal.SIGKILL)


def give_way() -> None:
    """Has this process, and all that it starts, break off no other as it wakes: it waits until that has done its part.
    Workers and their children that share all processors would else break off each other at each request. Where somebody
    has chosen how the service is to share the processors, that stays."""
    with contextlib.suppress(OSError):
        if os.sched_getscheduler(0) == os.SCHED_OTHER:
            os.sched_setscheduler(0, os.SCHED_BATCH, os.sched_param(0))


@dataclass(frozen=True, slots=True)
class Start:
    """How a program is started: its words, the open file that it has besides, its streams, and whether it leads a
    group of its own."""

    words: Sequence[str | Path]
    descriptor: int
    stdin: int | IO[Any] = subprocess.DEVNULL
    stdout: int | IO[Any] = subprocess.PIPE
    stderr: int | None = None
    has_group: bool = False

    async def process(self) -> subprocess.Popen[bytes]:
        """The process, which ends with this one."""
        return await asyncio.get_running_loop().run_in_executor(_starter, self.begin)

    def begin(self) -> subprocess.Popen[bytes]:
        """Starts it from this thread. The system doesn't copy this process's memory for it as long as nothing is
        done between; all other files are closed as it becomes the program."""
        words = [*BOUND, str(os.getpid()), *map(str, self.words)]
        os.set_inheritable(self.descriptor, True)
        try:
            return subprocess.Popen(words, stdin=self.stdin, stdout=self.stdout, stderr=self.stderr, close_fds=False,
                                    start_new_session=self.has_group)
        finally:
            os.set_inheritable(self.descriptor, False)


# The system takes the thread that started a process for its parent: this one lasts as long as the process does, and has
# these signals blocked, as has all that it starts.
_starter: Final = ThreadPoolExecutor(
    1, "starter", functools.partial(signal.pthread_sigmask, signal.SIG_BLOCK, LEFT_TO_THE_SERVICE))


class Pipe:
    """An end of a pipe for the loop. uvloop closes a descriptor by itself before it closes what it was given: closed
    twice, it may be another file's by then, which a thread has opened meanwhile."""

    def __init__(self, descriptor: int) -> None:
        self.descriptor = descriptor
        self.is_left = type(asyncio.get_running_loop()).__module__.startswith("uvloop")

    def fileno(self) -> int:
        """Its descriptor."""
        return self.descriptor

    def close(self) -> None:
        """Closes it where the loop hasn't."""
        if not self.is_left:
            os.close(self.descriptor)


def handed_on(pipe: IO[bytes] | None) -> Pipe:
    """A process's pipe for the loop."""
    assert pipe is not None
    with pipe:
        return Pipe(os.dup(pipe.fileno()))


def try_lock(descriptor: int) -> bool:
    """Locks an open file or folder where nobody else holds it."""
    try:
        fcntl.flock(descriptor, fcntl.LOCK_EX | fcntl.LOCK_NB)
    except BlockingIOError:
        return False
    return True


def said_of(status: int) -> str:
    """What a status of a process says, a signal by its name."""
    if status >= 0:
        return f"ended with status {status}"
    try:
        return f"was ended by {signal.Signals(-status).name}"
    except ValueError:
        return f"was ended by signal {-status}"
