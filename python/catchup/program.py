"""The program: where it is, a run of it, and a child process that answers lines, plain and for asyncio."""

from __future__ import annotations

import asyncio
import contextlib
import os
import shutil
import subprocess
import tempfile
import threading
import warnings
import weakref
from collections import deque
from collections.abc import Sequence
from pathlib import Path
from typing import IO, NamedTuple, TypeAlias

from catchup.errors import Ended, Failure

Words: TypeAlias = Sequence[str | Path]

# What the program says in the place of the first reply where it stops before the script; no reply begins so.
_STOPS = (b"words", b"shelf: ", b"network: ", b"measured: ", b"order: ", b"file: ", b"too many shortcuts", b"too large")
# Bytes of a reply's line at most: a reach or a table of a million entries has some 20 MB.
_LONGEST_REPLY = 2**28
OF_ANOTHER = "this process was forked from the one that started it: start one in each process"
"""What Ended says in a process that was forked."""


class Finished(NamedTuple):
    """A run that has ended: its status (negative of a signal) and what it wrote."""

    status: int
    output: str
    error: str


def checkout() -> Path | None:
    """The folder of the checkout, or of the installed copy, that this package stands in: the one with bin/catchup."""
    top = Path(__file__).resolve().parents[2]
    return top if (top / "bin" / "catchup").is_file() else None


def find_program() -> Path:
    """CATCHUP of the environment, else bin/catchup of the checkout of this package, else `catchup` on PATH.

    Raises Failure, which says what to do.
    """
    named = os.environ.get("CATCHUP")
    if named:
        if os.access(named, os.X_OK) and os.path.isfile(named):
            return Path(named).absolute()
        raise Failure(f"CATCHUP names {named}, and that is no program: set it to the path of catchup, or unset it")
    top = checkout()
    if top:
        return top / "bin" / "catchup"
    found = shutil.which("catchup")
    if found:
        return Path(found).absolute()
    raise Failure("the program catchup isn't found: install it, or set CATCHUP to its path")


def run_program(words: Words, *, input: str | bytes | None = None, seconds: float | None = None) -> Finished:
    """Runs the program to its end, with `input` as its standard input (none: an empty one).

    Raises Failure where it can't be started, or takes longer than `seconds`.
    """
    said = input.encode() if isinstance(input, str) else input or b""
    command = _command(words)
    try:
        run = subprocess.run(command, input=said, capture_output=True, timeout=seconds)
    except subprocess.TimeoutExpired:
        raise Failure(f"catchup {words[0]} took longer than {seconds:g} s and was ended") from None
    except OSError as error:
        raise _not_started(command, error) from None
    return Finished(run.returncode, _text(run.stdout), _text(run.stderr))


class Child:
    """A process of the program that answers one line by one line: `ask FILE`, `serve ..` or `wait ..`.

    Threads may share it: each has its own reply, and one waits while another asks. Where a call is broken off by an
    exception, the process is ended, since its next reply would be another line's. In a process that is forked from this
    one each ask raises Ended, and `close` and `kill` do nothing.
    """

    def __init__(self, words: Words) -> None:
        self._owner = os.getpid()
        self._lock = threading.Lock()
        self._end: Ended | None = None
        self._process: subprocess.Popen[bytes] | None = None
        self._errors = _error_file()
        command = _command(words)
        try:
            self._process = subprocess.Popen(
                command, stdin=subprocess.PIPE, stdout=subprocess.PIPE, stderr=self._errors, bufsize=-1
            )
        except OSError as error:
            self._errors.close()
            raise _not_started(command, error) from None
        assert self._process.stdin and self._process.stdout
        self._input: IO[bytes] = self._process.stdin
        self._output: IO[bytes] = self._process.stdout
        _children.add(self)

    @property
    def pid(self) -> int:
        return self._running().pid

    def ask(self, line: str) -> str:
        """The reply to one line, both without line ends. Raises Ended where the program has gone."""
        return self.ask_all([line])[0]

    def ask_all(self, lines: Sequence[str]) -> list[str]:
        """The replies to the lines, in their order; the program may work at one while another is written.

        Raises Ended where the program has gone, or goes meanwhile.
        """
        said = [_bytes(line) for line in lines]
        # Before the lock, which a thread may hold that the fork left behind.
        if self._owner != os.getpid():
            raise Ended(None, OF_ANOTHER)
        with self._lock:
            if self._end:
                raise Ended(self._end.status, self._end.said)
            try:
                return self._exchange(said)
            except BaseException:
                # What it still says, before it is gone, is no reply to the next line.
                self._end = self._end or Ended(None, "a call was broken off, so nothing more can be asked")
                self.kill()
                raise

    def close(self) -> int:
        """Closes the program's input, waits for its end and returns its status (negative of a signal)."""
        if self._owner != os.getpid():
            return 0
        with self._lock:
            _close(self._input)
            status = self._running().wait()
            self._end = self._end or Ended(status, "it was closed, so nothing can be asked")
            self._output.close()
            self._errors.close()
            return status

    def kill(self) -> None:
        """Ends the process at once, without asking it."""
        self._running().kill()

    def __enter__(self) -> Child:
        return self

    def __exit__(self, *_: object) -> None:
        self.close()

    def __del__(self) -> None:
        process = getattr(self, "_process", None)
        if process is not None and process.poll() is None and not self._input.closed:
            # With its input closed the program ends by itself.
            warnings.warn(f"a catchup process wasn't closed: {process.pid}", ResourceWarning, source=self)
            _close(self._input)

    def _running(self) -> subprocess.Popen[bytes]:
        assert self._process
        return self._process

    def _disown(self, nowhere: int) -> None:
        """In a process that was forked: lets go of the pipes, as _disown_all says."""
        # So that neither `kill` nor `__del__` takes it for a child of this process.
        self._running().returncode = 0
        for stream in (self._input, self._output):
            if not stream.closed:
                os.dup2(nowhere, stream.fileno(), inheritable=False)

    def _exchange(self, lines: list[bytes]) -> list[str]:
        # Few bytes fit into the pipe, so they are written before a reply is read; more are written meanwhile.
        if sum(map(len, lines)) + len(lines) <= 4096:
            self._write(lines)
            return [self._read() for _ in lines]
        writer = threading.Thread(target=self._write, args=(lines,), daemon=True)
        writer.start()
        try:
            return [self._read() for _ in lines]
        except BaseException:
            self.kill()
            raise
        finally:
            writer.join()

    def _write(self, lines: list[bytes]) -> None:
        # Where the program has gone whoever reads its replies tells.
        with contextlib.suppress(OSError):
            self._input.writelines(line + b"\n" for line in lines)
            self._input.flush()

    def _read(self) -> str:
        reply = self._output.readline(_LONGEST_REPLY)
        if not reply.endswith(b"\n") or reply.startswith(_STOPS):
            raise self._ended(reply)
        return _text(reply[:-1])

    def _ended(self, last: bytes) -> Ended:
        _close(self._input)
        self._end = Ended(self._running().wait(), _said(last, self._errors))
        return self._end


class AsyncChild:
    """As Child, for asyncio: many asks may be in flight at once, and are answered in the order in which they came.

    `ended` is set when the program has gone, whyever. An ask that is cancelled costs nobody else a reply.
    """

    def __init__(self, process: asyncio.subprocess.Process, errors: IO[bytes]) -> None:
        assert process.stdin and process.stdout
        self._owner = os.getpid()
        self._process = process
        self._errors = errors
        self._input = process.stdin
        self._output = process.stdout
        self._asked: deque[asyncio.Future[bytes]] = deque()
        self._end: Ended | None = None
        self._closing = False
        self.ended = asyncio.Event()
        self._reader = asyncio.create_task(self._read_replies())
        _children.add(self)

    @classmethod
    async def start(cls, words: Words) -> AsyncChild:
        """Starts the program. Raises Failure where it can't be started."""
        errors = _error_file()
        command = _command(words)
        pipe = asyncio.subprocess.PIPE
        try:
            process = await asyncio.create_subprocess_exec(
                *command, stdin=pipe, stdout=pipe, stderr=errors, limit=_LONGEST_REPLY
            )
        except BaseException as error:
            errors.close()
            if isinstance(error, OSError):
                raise _not_started(command, error) from None
            raise
        return cls(process, errors)

    @property
    def pid(self) -> int:
        return self._process.pid

    async def ask(self, line: bytes) -> bytes:
        """The reply to one line, both without line ends. Raises Ended where the program has gone, or goes."""
        return (await self.ask_all([line]))[0]

    async def ask_all(self, lines: Sequence[bytes]) -> list[bytes]:
        """The replies to the lines, which go to the program behind one another."""
        if self._input.is_closing() and not self._closing:
            # The program goes by itself, and what it ends with is known in a moment.
            await self.ended.wait()
        replies = self._send(lines)
        try:
            await self._written()
            return list(await asyncio.gather(*replies))
        finally:
            for reply in replies:
                reply.cancel()

    async def close(self) -> int:
        """Closes the program's input, lets it answer what it was asked, and returns its status."""
        self._closing = True
        if not self._input.is_closing():
            self._input.close()
        # Where it has ended its reader may be of a loop that has ended too, and was cancelled by it.
        if not self.ended.is_set():
            await asyncio.shield(self._reader)
        return await self._process.wait()

    def kill(self) -> None:
        """Ends the process at once; asks in flight raise Ended."""
        with contextlib.suppress(ProcessLookupError):
            self._process.kill()

    def _send(self, lines: Sequence[bytes]) -> list[asyncio.Future[bytes]]:
        if any(b"\n" in line for line in lines):
            raise ValueError("a line has no line feed in it")
        if self._owner != os.getpid():
            raise Ended(None, OF_ANOTHER)
        if self._end:
            raise Ended(self._end.status, self._end.said)
        if self._input.is_closing():
            raise Ended(None, "its input is closed, so nothing can be asked")
        loop = asyncio.get_running_loop()
        replies = [loop.create_future() for _ in lines]
        self._asked.extend(replies)
        self._input.write(b"".join(line + b"\n" for line in lines))
        return replies

    async def _written(self) -> None:
        # Where the program has gone the futures of the asks tell.
        with contextlib.suppress(OSError):
            await self._input.drain()

    async def _read_replies(self) -> None:
        last = b""
        try:
            while True:
                reply = await self._output.readline()
                if not reply.endswith(b"\n") or reply.startswith(_STOPS):
                    last = reply
                    break
                self._give(reply[:-1])
        except ValueError:
            last = b"a reply is longer than can be read"
            self.kill()
        except asyncio.CancelledError:
            last = b"the event loop that it was started in has ended"
            raise
        finally:
            await self._finish(last)

    def _give(self, reply: bytes) -> None:
        if self._asked:
            future = self._asked.popleft()
            if not future.done():
                future.set_result(reply)

    async def _finish(self, last: bytes) -> None:
        self._input.close()
        with contextlib.suppress(OSError):
            await self._input.wait_closed()
        status = await self._process.wait()
        self._end = Ended(status, _said(last, self._errors))
        self._errors.close()
        for future in self._asked:
            if not future.done():
                future.set_exception(Ended(self._end.status, self._end.said))
        self._asked.clear()
        self.ended.set()

    def _disown(self, nowhere: int) -> None:
        """In a process that was forked: lets go of the input, as _disown_all says."""
        pipe = self._input.get_extra_info("pipe")
        if pipe is not None and not self._input.is_closing():
            os.dup2(nowhere, pipe.fileno(), inheritable=False)


_children: weakref.WeakSet[Child | AsyncChild] = weakref.WeakSet()


def _disown_all() -> None:
    """What a process does that was forked from this one, with its copies of the pipes to all children.

    As long as it had them a program wouldn't see that its input is closed, and what it asked over them would be answered
    in the place of another's line. The files themselves stay as they are, since a thread may hold their locks that the
    fork left behind.
    """
    nowhere = os.open(os.devnull, os.O_RDWR)
    for child in _children:
        child._disown(nowhere)
    os.close(nowhere)


os.register_at_fork(after_in_child=_disown_all)


def _command(words: Words) -> list[str]:
    return [str(find_program()), *map(str, words)]


def _not_started(command: list[str], error: OSError) -> Failure:
    return Failure(f"{command[0]} can't be started: {error.strerror or error}")


def _error_file() -> IO[bytes]:
    """Where a child writes its standard error: a file of no name, which never makes it wait as a full pipe would."""
    try:
        return tempfile.TemporaryFile()
    except OSError as error:
        raise Failure(f"no temporary file can be made ({error.strerror}): set TMPDIR to a folder with room") from None


def _said(last: bytes, errors: IO[bytes]) -> str:
    """The program's last line and what it wrote on standard error, as one line."""
    errors.seek(0)
    words = " ".join([*_text(last).split(), *_text(errors.read(4096)).split()])
    return words[:1000]


def _close(stream: IO[bytes]) -> None:
    # What was still to be written may have no reader any more.
    with contextlib.suppress(OSError):
        stream.close()


def _bytes(line: str) -> bytes:
    if "\n" in line:
        raise ValueError("a line has no line feed in it")
    return line.encode("utf-8", "surrogateescape")


def _text(said: bytes) -> str:
    return said.decode("utf-8", "surrogateescape")
