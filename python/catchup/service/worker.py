"""What one worker process holds: its networks, their editors, who gets in, and what it counts."""

from __future__ import annotations

import asyncio
import contextlib
import functools
import sqlite3
from collections.abc import Coroutine
from dataclasses import dataclass
from pathlib import Path
from typing import TYPE_CHECKING, Any

from starlette.requests import Request

from catchup.program import find_program
from catchup.service.accepting import Acceptor
from catchup.service.answers import as_json
from catchup.service.editor import Editor, Refused
from catchup.service.errors import Refusal, told_briefly
from catchup.service.gates import Gates
from catchup.service.helpers import helpers_for
from catchup.service.limits import WATCH_SECONDS
from catchup.service.metrics import Metrics
from catchup.service.notes import first_to_tell
from catchup.service.options import Options
from catchup.service.osrm.paths import Osrm
from catchup.service.protocol import Crowd, Headers
from catchup.service.reads import Tables
from catchup.service.streets import Streets
from catchup.service.telling import say, tell, traced
from catchup.service.threads import Threads
from catchup.service.versions import AGAIN_SECONDS, Kept, Network, watch

if TYPE_CHECKING:
    from catchup.places import Places
    from catchup.service.placed import Placed
    from catchup.service.replicas import Log


@dataclass(slots=True)
class Shared:
    """What the main process has found out, and all workers share: who gets in; of each file what the page draws, what
    roads are called, its map's places, and the last version that was served; and how many connections a worker may
    have."""

    gates: Gates
    drawn: dict[Path, bytes]
    streets: dict[Path, Streets]
    grounds: dict[Path, Places]
    kept: dict[Path, Kept]
    most: int


class Worker:
    """One process of a service."""

    def __init__(self, options: Options, folder: Path | None, shared: Shared, metrics: Metrics) -> None:
        self.options = options
        self.folder = folder
        self.gates = shared.gates
        self.program = str(find_program())
        self.metrics = metrics
        tell_once = functools.partial(first_to_tell, folder)
        self.networks = [Network(file.name, file.path, self.program, shared.kept.get(file.path), tell_once)
                         for file in options.files]
        for network in self.networks:
            network.ground = shared.grounds.get(network.path)
            network.helpers = helpers_for(options.workers)
        self.by_name = {network.name: network for network in self.networks}
        # A file without a name answers to every name.
        self.unnamed = self.by_name.get(None)
        self.drawn = {network: shared.drawn[network.path] for network in self.networks if network.path in shared.drawn}
        self.streets = {network: shared.streets.get(network.path, Streets()) for network in self.networks}
        self.editors = {
            network: Editor(network, self.program, is_of_stream=options.log is not None and network is self.networks[0])
            for network in self.networks}
        self.crowd = Crowd(shared.most, self.error, self.metrics.told, say if options.has_access_log else None)
        self.acceptors: list[Acceptor] = []
        self.tables = Tables()
        self.osrm = Osrm(self.placed, options.now, self.version)
        self.log: Log | None = None
        self.tasks: set[asyncio.Task[Any]] = set()
        self.is_ending = False          # with the whole service

    async def start(self) -> None:
        """Opens the files, waiting for one that can be served, and begins to look at them."""
        asyncio.get_running_loop().set_default_executor(Threads(thread_name_prefix="work"))
        for network in self.networks:
            await network.open()
            while not hasattr(network, "current"):
                # There was no memory for it, say. The workers that have a version go on with it.
                await asyncio.sleep(AGAIN_SECONDS)
                network.tried = None
                await network.open()
            await self.editors[network].start()
        if self.options.log is not None:
            from catchup.service.replicas import Log

            self.log = Log(self.options.log, self.networks[0], self.editors[self.networks[0]], self.folder)
            self.keep(self.log.run())
        await self.each_second()
        self.keep(watch(self.networks, WATCH_SECONDS, self.each_second))

    def unserved(self) -> str | None:
        """Why a file can't be served; None where all are, or nobody knows yet."""
        for network in self.networks:
            if network.refused is not None and not hasattr(network, "current"):
                return f"{network.path.name} isn't served: {network.refused}"
        return None

    async def each_second(self) -> None:
        """What is due each second."""
        self.crowd.tick(asyncio.get_running_loop().time())
        for acceptor in self.acceptors:
            acceptor.tell()
        versions = [network.current for network in self.networks]
        self.metrics.tell_children(sum(
            not child.gone.is_set() for version in versions for child in (version.quick, version.slow)))

    def end_edits(self) -> None:
        """The service ends, or this worker alone, and can't wait longer for edits."""
        for editor in self.editors.values():
            editor.cancel_all(Refusal(503, f"{self.why()}, and the edit wasn't ready: nothing has changed"))

    def why(self) -> str:
        """Why it ends, with the whole service or alone."""
        return "the service ends" if self.is_ending else "the service is reloaded"

    async def end(self) -> None:
        """Ends all that it has begun."""
        for task in list(self.tasks):
            task.cancel()
        await asyncio.gather(*self.tasks, return_exceptions=True)
        if self.log is not None:
            await self.log.close()
        self.end_children()

    def end_children(self) -> None:
        """Ends the children, whatever they were asked."""
        for network in self.networks:
            network.end()

    def keep(self, coroutine: Coroutine[Any, Any, Any]) -> asyncio.Task[Any]:
        """A task that goes on whoever asked for it, and whose errors are told where nobody waits for it."""
        task = asyncio.get_running_loop().create_task(coroutine)
        self.tasks.add(task)
        task.add_done_callback(self.let_go)
        return task

    def let_go(self, task: asyncio.Task[Any]) -> None:
        self.tasks.discard(task)
        problem = None if task.cancelled() else task.exception()
        if problem is not None and not isinstance(problem, (Refusal, Refused)):
            tell(f"an error that should not be: {traced(problem)}")

    def network(self, profile: str | None) -> Network:
        """The network of a profile's name, the first where none is said."""
        if profile is None:
            return self.networks[0]
        found = self.by_name.get(profile, self.unnamed)
        if found is None:
            known = ", ".join(str(network.name) for network in self.networks)
            raise Refusal(400, "InvalidValue", hint=f"there is no profile {told_briefly(profile)}: {known}")
        return found

    def placed(self, profile: str) -> Placed | None:
        """The places of a profile's network, None where it has no map."""
        return self.network(profile).current.placed

    def version(self) -> str:
        """The version that this worker serves of the first file."""
        return self.networks[0].current.name

    def error(self, status: int, text: str, code: str | None) -> tuple[Headers, bytes]:
        """The headers and the body of an error that comes before any path is known; with a code it is one of OSRM's."""
        version = self.version()
        headers = [(b"content-type", b"application/json"), (b"catchup-version", version.encode())]
        if code is not None:
            return headers, as_json({"code": code, "message": text, "data_version": version})
        return headers, as_json({"error": text, "version": version})

    def job_counts(self) -> dict[str, int]:
        """How many jobs of all files there are in each state."""
        found: dict[str, int] = {}
        for editor in self.editors.values():
            with contextlib.suppress(sqlite3.Error):
                for state, count in editor.jobs.counts().items():
                    found[state] = found.get(state, 0) + count
        return found


def worker_of(request: Request) -> Worker:
    """The worker that answers a request."""
    found: Worker = request.app.state.worker
    return found
