"""The application: the gates before it, the quick way of plain routes, and the routers of all paths."""

from __future__ import annotations

import re
from collections.abc import Awaitable, Callable, MutableMapping
from typing import Any, Final

from fastapi import FastAPI, Request
from starlette.exceptions import HTTPException
from starlette.responses import Response
from starlette.routing import Match

from catchup import __version__
from catchup.errors import is_short
from catchup.service import edits, openapi, reads, state
from catchup.service.answers import refusal_answer
from catchup.service.errors import Refusal, refusal_of
from catchup.service.gates import PREFLIGHT, READS
from catchup.service.limits import LONGEST_JSON, MOST_WORDS
from catchup.service.osrm.paths import KIND, Answer, make_router
from catchup.service.page.paths import router as page_router
from catchup.service.protocol import Cycle
from catchup.service.reads import PlainRoute, route_asked
from catchup.service.telling import tell, traced
from catchup.service.worker import Worker

Scope = MutableMapping[str, Any]
Receive = Callable[[], Awaitable[MutableMapping[str, Any]]]
Send = Callable[[MutableMapping[str, Any]], Awaitable[None]]

# Each has the paths of one field; further ones are added here.
ROUTERS: Final = (reads.router, edits.router, state.router, page_router)
JSON_HEADER: Final = (b"content-type", b"application/json")
VERSION_HEADER: Final = b"catchup-version"
# These need nothing of the framework, and many are asked.
NEAREST: Final = b"/nearest/v"
OSRM_PATHS: Final = (b"/route/v", b"/table/v", NEAREST)
OSRM_HEADER: Final = (b"content-type", KIND.encode())


def make_app(worker: Worker) -> FastAPI:
    """The application over a worker."""
    app = FastAPI(title="catchup", version=__version__, description=openapi.DESCRIPTION, openapi_url=None,
                  servers=openapi.SERVERS)
    app.router.redirect_slashes = False
    app.state.worker = worker
    for router in (*ROUTERS, make_router(worker.osrm)):
        app.include_router(router)
    app.add_exception_handler(Refusal, on_refusal)
    app.add_exception_handler(HTTPException, on_http_error)
    app.add_exception_handler(Exception, leave_to_the_front)
    return app


async def on_refusal(request: Request, refusal: Exception) -> Response:
    assert isinstance(refusal, Refusal)
    return refusal_answer(refusal, request.app.state.worker.version())


async def on_http_error(request: Request, problem: Exception) -> Response:
    """What FastAPI itself refuses: paths and methods."""
    assert isinstance(problem, HTTPException)
    if problem.status_code == 404:
        refusal = Refusal(404, "there is nothing of this path", hint="/openapi.json has all paths")
    elif problem.status_code == 405:
        refusal = Refusal(405, "this path doesn't know this method", headers={"Allow": ", ".join(methods_of(request))})
    else:
        refusal = Refusal(problem.status_code, str(problem.detail))
    return refusal_answer(refusal, request.app.state.worker.version())


async def leave_to_the_front(request: Request, problem: Exception) -> Response:
    """All else is answered by the front; the framework would answer it before, in words of its own."""
    raise problem


def methods_of(request: Request) -> list[str]:
    """The methods that a path has."""
    found: set[str] = set()
    for route in request.app.router.routes:
        if route.matches(request.scope)[0] is not Match.NONE:
            found |= set(route.methods or ())
    return sorted(found | ({"HEAD"} if "GET" in found else set()))


class Front:
    """What each request meets first."""

    def __init__(self, worker: Worker, app: FastAPI) -> None:
        self.worker = worker
        self.app = app

    def begin_plain(self, cycle: Cycle, found: re.Match[bytes]) -> bool:
        """Has a plain route answered without a task of its own; False where its Host has to be looked at first, and
        over a map, of which more is told."""
        gates, read, version = self.worker.gates, cycle.scope["catchup.read"], self.worker.networks[0].current
        if version.ground is not None or read.get(b"host", b"") not in gates.seen:
            return False
        plain = PlainRoute.of(found)
        headers = [JSON_HEADER, (VERSION_HEADER, version.name_bytes)]
        if gates.origins:
            headers += encoded(gates.shared(read))

        def take(reply: bytes | Refusal) -> None:
            try:
                if isinstance(reply, Refusal):
                    raise reply
                cycle.answer(200, headers, plain.answer(version, reply))
            except Refusal as refusal:
                response = refusal_answer(refusal, version.name)
                cycle.answer(response.status_code, [*response.raw_headers, *headers[2:]], response.body)
            except Exception as problem:
                tell(f"an error that should not be: {traced(problem)}")
                cycle.connection.abort()

        version.quick.ask_for(plain.line(version), take)
        return True

    def answer_nearest(self, cycle: Cycle) -> bool:
        """Answers /nearest without a task, since it waits for nothing; False where the request is another one, its Host
        has to be looked at first, or something went wrong, which is told in the other way."""
        scope, worker = cycle.scope, self.worker
        if not scope["raw_path"].startswith(NEAREST) or scope["method"] != "GET":
            return False
        read = scope["catchup.read"]
        if read.get(b"host", b"") not in worker.gates.seen:
            return False
        try:
            told = worker.osrm.answer_nearest(scope["raw_path"], scope["query_string"])
        except Exception:
            return False
        cycle.answer(told.status, osrm_headers(told, worker.gates.shared(read)), told.body)
        return True

    async def __call__(self, scope: Scope, receive: Receive, send: Send) -> None:
        try:
            await self.answer(scope, receive, send)
        except Refusal as refusal:
            await self.refuse(refusal, scope, receive, send)
        except Exception as problem:
            if isinstance(problem, OSError) and not is_short(problem):
                # Of a client that is gone, mostly.
                told = Refusal(503, problem.strerror or "an error of the system")
            else:
                told = refusal_of(problem)
            await self.refuse(told, scope, receive, send)

    async def answer(self, scope: Scope, receive: Receive, send: Send) -> None:
        worker, read, method = self.worker, scope["catchup.read"], scope["method"]
        worker.gates.check_host(read)
        shared = worker.gates.shared(read)
        if method == "GET" and scope["raw_path"].startswith(OSRM_PATHS):
            told = await worker.osrm.answer(scope["raw_path"], scope["query_string"])
            await send({"type": "http.response.start", "status": told.status, "headers": osrm_headers(told, shared)})
            await send({"type": "http.response.body", "body": told.body})
            return
        if method == "OPTIONS" and "Access-Control-Allow-Origin" in shared:
            allowed = Response(status_code=204, headers={**shared, **PREFLIGHT, "Catchup-Version": worker.version()})
            await allowed(scope, receive, send)
            return
        self.check(scope, read, method)
        if method == "GET" and scope["path"] == "/route" and worker.networks[0].ground is not None:
            # Most requests of a service with a map are this one, and need nothing of the framework.
            accept = b"".join(value for name, value in scope["headers"] if name == b"accept").decode("latin-1")
            response = await route_asked(worker.network, scope["query_string"], accept)
            await response(scope, receive, with_headers(send, worker, shared))
            return
        # Each path that has GET has HEAD: the body is left out as it is sent.
        passed = {**scope, "method": "GET"} if method == "HEAD" else scope
        await self.app(passed, receive, with_headers(send, worker, shared))

    def check(self, scope: Scope, read: dict[bytes, bytes], method: str) -> None:
        """Refuses writes of those who may not, bodies that nobody wants, and more words than any path knows."""
        if method not in READS:
            self.worker.gates.check_write(read)
        if scope["path"] != "/edits" and int(read.get(b"content-length", b"0")) > LONGEST_JSON:
            raise Refusal(413, f"a body has at most {LONGEST_JSON} bytes here")
        if scope["query_string"].count(b"&") >= MOST_WORDS:
            raise Refusal(400, f"an address has at most {MOST_WORDS} words")

    async def refuse(self, refusal: Refusal, scope: Scope, receive: Receive, send: Send) -> None:
        """Answers a refusal, where no answer has begun."""
        response = refusal_answer(refusal, self.worker.version())
        for name, value in self.worker.gates.shared(scope["catchup.read"]).items():
            response.headers[name] = value
        try:
            await response(scope, receive, send)
        except RuntimeError as problem:
            tell(f"an answer was broken off: {problem}")


def osrm_headers(told: Answer, shared: dict[str, str]) -> list[tuple[bytes, bytes]]:
    """The headers of an answer to one of OSRM's addresses."""
    return [OSRM_HEADER, (VERSION_HEADER, told.version.encode()), *encoded({**told.headers, **shared})]


def encoded(headers: dict[str, str]) -> list[tuple[bytes, bytes]]:
    return [(name.lower().encode(), value.encode("latin-1")) for name, value in headers.items()]


def with_headers(send: Send, worker: Worker, shared: dict[str, str]) -> Send:
    """A `send` that adds the version to an answer that doesn't say one, and what lets other pages read it."""
    more = encoded(shared)

    async def send_with_headers(message: MutableMapping[str, Any]) -> None:
        if message["type"] == "http.response.start":
            headers = [*message.get("headers", ()), *more]
            if not any(name == VERSION_HEADER for name, _ in headers):
                headers.append((VERSION_HEADER, worker.version().encode()))
            message["headers"] = headers
        await send(message)

    return send_with_headers
