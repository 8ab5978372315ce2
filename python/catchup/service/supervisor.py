"""The processes of a service: gunicorn's arbiter, which keeps workers alive, and uvicorn's workers."""

from __future__ import annotations

import asyncio
import contextlib
import errno
import gc
import logging
import os
import resource
import shutil
import signal
import socket
import sys
import time
from collections.abc import Callable
from pathlib import Path
from typing import Any, Final

from uvicorn.config import Config
from uvicorn.server import Server

from catchup.errors import Failure
from catchup.program import Child, find_program, run_program
from catchup.service import packed
from catchup.service.accepting import UNUSED, Acceptor, Address, Counts
from catchup.service.app import Front, make_app
from catchup.service.ending import (
    LATE_SECONDS, UNASKED_SECONDS, Asked, answer_left, last_answer, let_nobody_connect)
from catchup.service.limits import DRAIN_SECONDS, GRACE_SECONDS, LAST_SECONDS, MOST_CONNECTIONS
from catchup.service.metrics import Figures, Metrics
from catchup.service.notes import first_to_tell, make_folder
from catchup.service.options import Options
from catchup.service.probing import check_program
from catchup.service.process import end_with, give_way, said_of
from catchup.service.protocol import Connection
from catchup.service.streets import streets_of
from catchup.service.tables import MAP, draw_networks, open_places
from catchup.service.telling import open_streams, tell, traced
from catchup.service.versions import Kept
from catchup.service.worker import Shared, Worker

BACKLOG: Final = 1_024                  # clients that wait to be taken
SPARE_FILES: Final = 128                # for all but connections
LEAST_FILES: Final = 48                 # with which one file can be served at all, and edited
FILES_OF_EACH: Final = 16               # and for each file, its children and their helpers
MOST_FAILED: Final = 4                  # workers that may fail before any has begun
ASIDE: Final = 16                       # of each sort, one of so many connections may be put aside before it is taken
LARGE_PAGES: Final = "glibc.malloc.hugetlb=1"   # as the launcher has them
SHARED_MEMORY: Final = "/dev/shm"
STUCK_SECONDS: Final = 20               # after which a worker that gives no sign is ended
COLLECTED: Final = 20_000, 20, 100      # a request makes hundreds of things, few of which are in cycles
SWITCH_SECONDS: Final = 0.001           # after which a thread that works lets the loop go on
DRAIN_PAUSE: Final = 0.02
LAST_TURNS: Final = 8                   # of the loop, in which all is read that has come by then
START_PAUSE: Final = 0.1
END_SECONDS: Final = 0.3                # for a request to end to come
LEAVE_SECONDS: Final = 0.6              # for a worker to tell its last clients and go away, behind its last second
THE_END: Final = (signal.SIGTERM, signal.SIGINT, signal.SIGQUIT)
LEFT_TO_THE_ARBITER: Final = (
    signal.SIGINT, signal.SIGHUP, signal.SIGQUIT, signal.SIGUSR1, signal.SIGUSR2, signal.SIGWINCH)
UVICORN: Final[dict[str, Any]] = {
    "loop": "uvloop", "lifespan": "off", "log_config": None, "access_log": False, "date_header": False,
    "server_header": False, "proxy_headers": False, "ws": "none"}

try:
    from gunicorn.app.base import BaseApplication
    from gunicorn.arbiter import Arbiter
    from gunicorn.errors import HaltServer
    from gunicorn.glogging import Logger
    from gunicorn.sock import close_sockets
    from uvicorn.workers import UvicornWorker
except ImportError:
    HAS_GUNICORN = False
else:
    HAS_GUNICORN = True


class Setting:
    """What the main process has found out, and each worker needs."""

    options: Options
    folder: Path
    shared: Shared
    counts: Counts
    asked: Asked
    figures: Figures
    failed = 0                          # workers that ended by themselves before any had begun


class BrokenOff(KeyboardInterrupt):
    """The service ends while a reload looks at the files. Of an interrupt itself Python would leave the program that
    looks at one to itself."""


class DrainingServer(Server):  # type: ignore[misc]
    """uvicorn's server, which lets what is in work come to its end, and no longer than it may."""

    worker: Worker
    slot: int
    asked_at: float | None = None       # when a signal asked for the end

    def handle_exit(self, sig: int, frame: Any) -> None:
        """A signal asks for the end."""
        self.asked_at = self.asked_at or time.monotonic()
        self.should_exit = True

    async def on_tick(self, counter: int) -> bool:
        """Whether the end begins: once the main process has asked for it too, which lets nobody connect before, or
        where it doesn't since this worker alone is to end."""
        is_asked = await super().on_tick(counter)
        return is_asked and (Setting.asked.is_asked(self.slot) or self.asked_at is None
                             or time.monotonic() > self.asked_at + UNASKED_SECONDS)

    async def startup(self, sockets: list[socket.socket] | None = None) -> None:
        """Opens the files, and takes clients from then on. Where the end is asked for meanwhile, nothing is waited
        for."""
        # From now on the server takes it.
        signal.pthread_sigmask(signal.SIG_UNBLOCK, {signal.SIGTERM})
        starting = asyncio.create_task(self.worker.start())
        while not starting.done() and not self.should_exit:
            await asyncio.wait({starting}, timeout=START_PAUSE)
            self.answer_unserved(sockets or [])
            if self.config.callback_notify is not None:
                # Else the main process would end it over a file that takes long to open, again and again.
                await self.config.callback_notify()
        if self.should_exit:
            starting.cancel()
            return
        await starting
        # What is there now stays: it needn't be looked through for what is no longer used, which takes its time.
        gc.collect()
        gc.freeze()
        gc.set_threshold(*COLLECTED)
        sys.setswitchinterval(SWITCH_SECONDS)
        crowd = self.worker.crowd
        self.acceptors = [
            Acceptor(each, self.connection, Setting.counts, self.slot, crowd.everyone.__len__, crowd.most // ASIDE)
            for each in sockets or []]
        self.worker.acceptors = self.acceptors
        Setting.counts.begin(self.slot)
        self.started = True

    def answer_unserved(self, listeners: list[socket.socket]) -> None:
        """Tells those that wait why, where a file can't be opened and no worker takes clients."""
        why = self.worker.unserved()
        if why is None or Setting.counts.is_any_taking():
            return
        for listener in listeners:
            with contextlib.suppress(OSError, MemoryError):
                listener.setblocking(False)
                answer_left(listener, last_answer(last_version(), why))

    def connection(self, address: Address) -> Connection:
        """The connection of a client."""
        return Connection(self.worker.crowd, address, self.config, self.server_state)

    async def shutdown(self, sockets: list[socket.socket] | None = None) -> None:
        """Takes no more connections, answers what is in work, and ends what isn't ready in time."""
        worker, began = self.worker, asyncio.get_running_loop().time()
        # At a reload others serve on.
        worker.is_ending, worker.crowd.is_ending = Setting.asked.is_over(), True
        if not HAS_GUNICORN:
            for listener in sockets or ():
                let_nobody_connect(listener)
        for each in self.acceptors:
            each.close()
        # A request that is on its way is answered too, and told that the connection ends.
        await self.wait(self.has_clients, began + GRACE_SECONDS)
        for _ in range(2):
            # One that has sent something since is left at first, and told once that is read.
            await self.read_what_came()
            worker.crowd.end(worker.why())
        await self.wait(self.is_busy, began + DRAIN_SECONDS)
        worker.is_ending = Setting.asked.is_over()
        worker.end_edits()
        # Whoever still waits for a child learns that it gets no answer.
        worker.end_children()
        await self.wait(self.is_busy, began + LAST_SECONDS)
        await self.read_what_came()
        worker.crowd.give_up(worker.why())
        await worker.end()

    async def wait(self, is_so: Callable[[], bool], last: float) -> None:
        """Waits as long as something is so, up to a second of the loop's."""
        loop = asyncio.get_running_loop()
        while is_so() and loop.time() < last:
            await asyncio.sleep(DRAIN_PAUSE)

    async def read_what_came(self) -> None:
        """Gives the loop some turns, whatever the time is: it takes those that wait at the door, and reads what the
        system holds of them. On a busy machine all that may have come since its last turn."""
        for _ in range(LAST_TURNS):
            await asyncio.sleep(0)

    def has_clients(self) -> bool:
        """Whether somebody is connected, or is about to be."""
        return bool(self.worker.crowd.everyone) or any(each.tasks for each in self.acceptors)

    def is_busy(self) -> bool:
        """Whether something is in work."""
        return self.has_clients() or any(editor.works for editor in self.worker.editors.values())


async def serve(sockets: list[socket.socket], slot: int, notify: Any = None, pause: float = 0.0) -> None:
    """Serves in this process until a signal comes."""
    if Setting.options.workers >= len(os.sched_getaffinity(0)):
        # They have no processor to themselves, and wake each other at each request.
        give_way()
    asyncio.get_running_loop().set_exception_handler(tell_error)
    worker = Worker(Setting.options, Setting.folder, Setting.shared, Metrics(Setting.figures, slot))
    front = Front(worker, make_app(worker))
    worker.crowd.begin_plain = front.begin_plain
    worker.crowd.answer_now = front.answer_nearest
    config = Config(front, http=Connection, backlog=BACKLOG, callback_notify=notify, timeout_notify=pause, **UVICORN)
    server = DrainingServer(config)
    server.worker, server.slot = worker, slot
    await server.serve(sockets=sockets)
    # It ends by itself: another request to end is too late.
    signal.pthread_sigmask(signal.SIG_BLOCK, {signal.SIGTERM})


if HAS_GUNICORN:
    class OneLine(Logger):  # type: ignore[misc]
        """gunicorn's log, with a line for an error in place of a trace."""

        def exception(self, msg: str, *args: Any, **kwargs: Any) -> None:
            """An error that ended a worker."""
            problem = sys.exc_info()[1]
            line = f"{msg}: {traced(problem) if problem is not None else ''}"
            # Until one has begun, all mostly fail of the same.
            if Setting.counts.has_begun() or first_to_tell(Setting.folder, line):
                tell(line)

        def info(self, msg: str, *args: Any, **kwargs: Any) -> None:
            """What gunicorn says of itself, of which only an error that ends the main process matters."""
            if kwargs.get("exc_info") and (problem := sys.exc_info()[1]) is not None:
                tell(f"{msg}: {traced(problem)}")

        def warning(self, msg: str, *args: Any, **kwargs: Any) -> None:
            """What an operator should know, in a line as all others are; a trace would stand behind its first one."""
            tell((msg % args if args else msg).partition("\n")[0])

        error = critical = warning

    class ServiceWorker(UvicornWorker):  # type: ignore[misc]
        """A worker that ends with its arbiter."""

        def init_process(self) -> None:
            end_with(self.ppid)
            super().init_process()

        def run(self) -> None:
            # An interrupt of a terminal is for the arbiter, which asks the workers to end.
            asyncio.run(serve_sockets(self))
            # All is closed; Python's own end would take its time.
            os._exit(0)

        def init_signals(self) -> None:
            # Those of the arbiter's processes. Not even for a moment may one end this worker that isn't meant for it:
            # nobody who asks for a reload wants requests broken off.
            signal.signal(signal.SIGCHLD, signal.SIG_DFL)
            for number in LEFT_TO_THE_ARBITER:
                signal.signal(number, signal.SIG_IGN)

    async def serve_sockets(worker: Any) -> None:
        for each in worker.sockets:
            # gunicorn would let the program have it.
            each.sock.set_inheritable(False)
        await serve([each.sock for each in worker.sockets], worker.slot, worker.callback_notify, worker.timeout / 2)

    class ServiceArbiter(Arbiter):  # type: ignore[misc]
        """gunicorn's arbiter, but an interrupt lets requests in work come to their end, and a reload needs good
        files."""

        began: float | None = None      # when the end began
        is_looking = False              # a reload looks at the files

        def signal(self, sig: int, frame: Any) -> None:
            """Takes note of a signal. That of the end goes before all others, and is for the workers too, whatever is
            in work here; nobody waits for what a reload looks at then."""
            # A worker begins with the arbiter's ways.
            if os.getpid() != self.pid:
                return
            if sig not in THE_END:
                super().signal(sig, frame)
                return
            is_first = self.began is None
            self.ask_all()
            self.SIG_QUEUE.insert(0, sig)
            self.wakeup()
            if is_first and self.is_looking:
                raise BrokenOff

        def reap_workers(self) -> None:
            """Takes note of the workers that have ended, and of no other process: whoever has started one waits for it.
            One that can't begin is started again as any other, whereas gunicorn would end the service."""
            for pid in list(self.WORKERS):
                with contextlib.suppress(ChildProcessError):
                    ended, status = os.waitpid(pid, os.WNOHANG)
                    # A request to end may have come between, and found that there is no such process.
                    if ended and (worker := self.WORKERS.pop(pid, None)) is not None:
                        self.let_go(worker, status)

        def let_go(self, worker: Any, status: int) -> None:
            """A worker has ended."""
            if os.WIFSIGNALED(status):
                self.log.warning("Worker with pid %s was terminated due to signal %s", worker.pid, os.WTERMSIG(status))
            worker.tmp.close()
            self.cfg.child_exit(self, worker)

        def spawn_worker(self) -> None:
            """Starts a worker. It has to take a request to end as soon as it can, so that waits until then."""
            signal.pthread_sigmask(signal.SIG_BLOCK, {signal.SIGTERM})
            super().spawn_worker()
            signal.pthread_sigmask(signal.SIG_UNBLOCK, {signal.SIGTERM})

        def ask_all(self) -> None:
            """Lets nobody connect any more, and asks all workers to end."""
            self.began = self.began or time.monotonic()
            for listener in self.LISTENERS:
                let_nobody_connect(listener)
            Setting.asked.ask_all()
            self.kill_workers(signal.SIGTERM)

        def kill_worker(self, pid: int, sig: int) -> None:
            """Sends a worker a signal, and lets it know from whom that is."""
            if sig == signal.SIGTERM and pid in self.WORKERS:
                Setting.asked.ask(self.WORKERS[pid].slot)
            super().kill_worker(pid, sig)

        def stop(self, graceful: bool = True) -> None:
            """Asks the workers to end, and ends those that don't in time."""
            self.is_looking = False
            self.ask_all()
            assert self.began is not None
            while self.WORKERS and time.monotonic() < self.began + LAST_SECONDS + LEAVE_SECONDS:
                time.sleep(DRAIN_PAUSE)
                if time.monotonic() > self.began + LATE_SECONDS and Setting.counts.least() == UNUSED:
                    # None takes clients any more: whoever comes now needn't wait until their work is done.
                    self.close_last()
            self.kill_workers(signal.SIGKILL)
            time.sleep(max(self.began + LATE_SECONDS - time.monotonic(), 0))
            self.close_last()

        def close_last(self) -> None:
            """Answers whoever has connected and was taken by no worker, and closes."""
            for listener in self.LISTENERS:
                answer_left(listener, last_answer(last_version(), "the service ends"))
            close_sockets(self.LISTENERS, False)
            self.LISTENERS: list[Any] = []

        def manage_workers(self) -> None:
            """Starts workers where there are too few, over the files that the others serve."""
            for kept in Setting.shared.kept.values():
                kept.follow()
            # One that has ended before it was known by its number.
            self.reap_workers()
            if Setting.failed >= MOST_FAILED and not Setting.counts.has_begun():
                raise HaltServer(
                    f"{Setting.failed} workers failed before any could serve, so the service ends: allow it more memory "
                    "(ulimit -v) or open files (ulimit -n), or fewer --workers", 1)
            super().manage_workers()

        def halt(self, reason: str | None = None, exit_status: int = 0) -> None:
            """Ends the service, and says last why it does so by itself."""
            try:
                super().halt(reason, exit_status)
            finally:
                if reason is not None:
                    tell(reason)

        def handle_int(self) -> None:
            """As a request to terminate."""
            raise StopIteration

        handle_quit = handle_int

        def murder_workers(self) -> None:
            """Ends workers that give no sign, whatever becomes of the clock. gunicorn would have them leave a core."""
            now = time.monotonic()
            for pid, worker in list(self.WORKERS.items()):
                with contextlib.suppress(OSError, ValueError):
                    sign = worker.tmp.last_update()
                    if sign != getattr(worker, "sign", None):
                        worker.sign, worker.seen = sign, now
                    elif now - worker.seen > self.timeout:
                        tell(f"worker {pid} gives no sign and is ended")
                        self.kill_worker(pid, signal.SIGKILL)

        def handle_usr1(self) -> None:
            """gunicorn would have the workers open their logs again, which ends them."""

        def handle_usr2(self) -> None:
            """gunicorn would start another service beside this one."""

        def handle_winch(self) -> None:
            """gunicorn would end the workers."""

        def handle_hup(self) -> None:
            """Starts workers anew, where they could serve."""
            self.is_looking = True
            try:
                check_files(Setting.options)
                Setting.shared = share_anew(Setting.options, Setting.shared)
            except (Failure, OSError, MemoryError) as problem:
                # Of a request to end to all processes this one may be the last to hear.
                time.sleep(END_SECONDS)
                tell(f"nothing is reloaded: {problem or 'out of memory'}")
                return
            finally:
                self.is_looking = False
            if self.began is None:
                super().handle_hup()

    class Service(BaseApplication):  # type: ignore[misc]
        """gunicorn's application: what it is told in place of a file of settings."""

        def __init__(self, listener: socket.socket) -> None:
            self.address = address_of(listener)
            # gunicorn closes the descriptor that it is given, and listens by one of its own.
            self.descriptor = listener.detach()
            super().__init__()

        def load_config(self) -> None:
            settings = {
                "bind": f"fd://{self.descriptor}", "workers": Setting.options.workers,
                "worker_class": f"{__name__}.ServiceWorker", "logger_class": OneLine, "timeout": STUCK_SECONDS,
                "backlog": BACKLOG, "loglevel": "warning", "proc_name": "catchup-http", "pre_fork": take_slot,
                "child_exit": let_go, "when_ready": lambda _: tell_ready(self.address),
                "worker_tmp_dir": SHARED_MEMORY if os.access(SHARED_MEMORY, os.W_OK | os.X_OK) else None}
            for name, value in settings.items():
                self.cfg.set(name, value)

        def load(self) -> Any:
            """Workers make the application themselves."""
            return None


def tell_error(_: asyncio.AbstractEventLoop, context: dict[str, Any]) -> None:
    """An error that nobody waits for, in one line."""
    problem = context.get("exception")
    tell(f"an error that should not be: {context.get('message', '')} {traced(problem) if problem is not None else ''}")


def take_slot(_: object, worker: Any) -> None:
    """Gives a worker that is about to start its place among the counts."""
    worker.slot = Setting.counts.take_slot()
    # Two that start behind one another get two.
    Setting.counts.cells[worker.slot] = 0
    Setting.asked.begin(worker.slot)


def let_go(_: object, worker: Any) -> None:
    """A worker is gone."""
    if not Setting.asked.is_asked(worker.slot):
        Setting.failed += 1
    Setting.counts.end(worker.slot)
    Setting.figures.leave(worker.slot)


def address_of(listener: socket.socket) -> str:
    """Where a socket listens, as an address of the web."""
    host, port = listener.getsockname()[:2]
    return f"http://{f'[{host}]' if ':' in host else host}:{port}/"


def last_version() -> str:
    """The version that is served of the first file."""
    kept = next(iter(Setting.shared.kept.values()))
    kept.follow()
    with contextlib.suppress(packed.NotPacked, OSError):
        return packed.read_digest(kept.descriptor)[:packed.SHORT]
    return ""


def tell_ready(address: str) -> None:
    """Says where the service listens; standard output may be closed."""
    with contextlib.suppress(OSError):
        os.write(1, f"listening on {address}\n".encode())


def listen(options: Options) -> socket.socket:
    """The socket that all workers take their clients from."""
    try:
        family = socket.getaddrinfo(options.host, options.port, type=socket.SOCK_STREAM)[0][0]
        listener = socket.create_server((options.host, options.port), family=family, backlog=BACKLOG)
    except OSError as problem:
        # Python puts the address behind the reason.
        said = (problem.strerror or str(problem)).partition(" (")[0]
        more = ": end what listens there, or choose another --port" if problem.errno == errno.EADDRINUSE else ""
        raise Failure(f"can't listen on {options.host} port {options.port}: {said}{more}") from None
    listener.set_inheritable(False)
    return listener


class Unserved(Failure):
    """A file that can't be served as the service starts: the status is the program's."""

    def __init__(self, text: str, status: int) -> None:
        super().__init__(text)
        self.status = status


def check_files(options: Options) -> None:
    """Refuses files that the program doesn't open."""
    for file in options.files:
        found = run_program(["ask", file.path], input="-\n")
        if found.output != "refused: line\n":
            said = found.output.strip() or found.error.strip()
            raise Unserved(f"{file.path} can't be served: the program {said_of(found.status)}{f': {said}' if said else ''}",
                           found.status if 0 < found.status < 126 else 1)


def find_at_once(options: Options) -> None:
    """Finds the program that the launcher starts, once for all children: the launcher looks through its sources each
    time. A program that CATCHUP names is started as it is."""
    if os.environ.get("CATCHUP"):
        return
    with Child(["ask", options.files[0].path]) as child:
        child.ask("-")
        path = os.readlink(f"/proc/{child.pid}/exe")
    if os.path.basename(path) == "catchup":
        os.environ["CATCHUP"] = path
        os.environ.setdefault("GLIBC_TUNABLES", LARGE_PAGES)


def allow_files(served: int) -> int:
    """Allows as many open files as connections need, with those put aside, and answers how many connections a worker
    may have. Failure where too few may be open for so many served files."""
    soft, hard = resource.getrlimit(resource.RLIMIT_NOFILE)
    most = hard if hard != resource.RLIM_INFINITY else 1 << 20
    least = LEAST_FILES + FILES_OF_EACH * served
    if most < least:
        raise Failure(f"only {most} files may be open here, and the service needs {least}: allow more (ulimit -n)")
    soft = max(soft, min(most, MOST_CONNECTIONS * (ASIDE + 2) // ASIDE + SPARE_FILES))
    resource.setrlimit(resource.RLIMIT_NOFILE, (soft, hard))
    return max(min(MOST_CONNECTIONS, (soft - SPARE_FILES) * ASIDE // (ASIDE + 2)), 8)


def share(options: Options, kept: dict[Path, Kept], most: int) -> Shared:
    """What workers have from now on: a token or a table that changes later is read at a reload, and not by a worker
    that is started again."""
    return Shared(options.gates(), draw_networks(options), streets_of(options), open_places(options), kept, most)


def share_anew(options: Options, before: Shared) -> Shared:
    """What workers have from a reload on. Failure where places were asked for by a map that is gone: clients would find
    that out, and not who reloads."""
    found = share(options, before.kept, before.most)
    for file in options.files:
        if file.tables is not None and file.path in before.grounds and file.path not in found.grounds:
            raise Failure(f"{file.tables / MAP} is gone: put it back, or end the service and start it, to serve without it")
    return found


def start(options: Options) -> None:
    """Serves until a signal asks for the end."""
    open_streams()
    find_program()
    check_program()
    check_files(options)
    find_at_once(options)
    Setting.options = options
    Setting.shared = share(options, {}, allow_files(len(options.files)))
    Setting.counts = Counts()
    Setting.asked = Asked()
    Setting.figures = Figures()
    listener = listen(options)
    logging.raiseExceptions = False
    # Else uvicorn follows each message, as if all were to be logged.
    logging.getLogger("uvicorn.error").setLevel(logging.WARNING)
    Setting.folder = make_folder()
    main = os.getpid()
    try:
        for at, file in enumerate(options.files):
            Setting.shared.kept[file.path] = Kept(file.path, Setting.folder / f"served{at}")
        if HAS_GUNICORN:
            ServiceArbiter(Service(listener)).run()
        else:
            tell("gunicorn isn't installed: one worker serves, and nobody starts it again where it dies")
            tell_ready(address_of(listener))
            # Nobody else asks it to end.
            Setting.asked.ask_all()
            asyncio.run(serve([listener], Setting.counts.take_slot()))
    finally:
        if os.getpid() == main:
            shutil.rmtree(Setting.folder, ignore_errors=True)
