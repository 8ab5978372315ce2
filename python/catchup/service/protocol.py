"""Connections: how requests are read, one after the other, each with limits of size and of time.

uvicorn's protocol, but for six things. A request is begun only when the one before it is answered, in a later turn of
the loop, so that no client has more than its share however much it sends at once; and but for plain routes, a few of
all clients in a turn. What is no request is refused in JSON. Heads, bodies, pauses and replies have limits. A body may
come in chunks, which are read strictly. Who holds much for long is let go where all hold too much.
A plain route with the headers of the one before it, as nearly all have, isn't read as if they were new.
"""

from __future__ import annotations

import asyncio
import contextlib
import fcntl
import re
import termios
import time
import urllib.parse
from collections.abc import Callable
from email.utils import formatdate
from typing import Any, Final, Protocol

import httptools
from uvicorn.protocols.http.flow_control import HIGH_WATER_LIMIT, FlowControl
from uvicorn.protocols.http.httptools_impl import STATUS_LINE, HttpToolsProtocol, RequestResponseCycle

from catchup.service.bodies import BadBody, Body, Chunked, Sized
from catchup.service.gates import READS
from catchup.service.limits import (
    BODY_RATE, BODY_SECONDS, HEAD_SECONDS, IDLE_SECONDS, LARGE, LARGE_BODY, LAST_LINGER_SECONDS, LINGER_SECONDS,
    LONGEST_HEAD, LONGEST_LINES, LONGEST_TARGET, MOST_BLANK, MOST_DROPPED, MOST_HELD, TAKE_SECONDS)
from catchup.service.turns import Turns
from catchup.service.words import PLAIN_ROUTE

HEAD_END: Final = b"\r\n\r\n"
FIRST_LINE: Final = re.compile(rb"[A-Z]{1,32} /[!-~]{0,16383} HTTP/1\.[01]")
# Ends of lines that are none, and NUL.
BAD_ENDS: Final = re.compile(rb"\x00|\r(?=[^\n])|(?<!\r)\n")
BLANK: Final = re.compile(rb"(?:\r?\n)*")
# A line that is no header: one that goes on the one before, or a name with blanks, which others would read in another
# way.
BAD_LINE: Final = re.compile(rb"\r\n(?![!#$%&'*+.^_`|~0-9A-Za-z-]+:)")
# Bytes that a header nobody reads here may hold, and the parser wouldn't take.
CONTROLS: Final = re.compile(rb"[\x01-\x08\x0b\x0c\x0e-\x1f\x7f]")
HARMLESS: Final = bytes.maketrans(bytes([*range(1, 9), 11, 12, *range(14, 32), 127]), b"?" * 29)
READ: Final = frozenset([
    b"host", b"origin", b"authorization", b"content-length", b"content-type", b"transfer-encoding", b"expect"])
NUMBER: Final = re.compile(rb"[0-9]+")
PLAIN_LINE: Final = re.compile(rb"GET /route\?" + PLAIN_ROUTE.pattern + rb" HTTP/1\.1")
QUERY_AT: Final = len(b"GET /route?")
MOST_REMEMBERED: Final = 2_048          # bytes of headers that a connection keeps in mind
OSRM: Final = re.compile(rb"[A-Z]+ /[A-Za-z0-9]+/v[0-9]+/")

Headers = list[tuple[bytes, bytes]]
Address = tuple[Any, ...]


def has_plain_ends(head: bytes) -> bool:
    """Whether all ends of lines are CR LF, and there is no NUL: then BAD_ENDS, which takes longer, finds nothing."""
    ends = head.count(b"\r\n")
    return ends == head.count(b"\n") == head.count(b"\r") and b"\0" not in head


class Told(Protocol):
    """What connections tell of each answer: the path, the status and how many seconds it took."""

    def __call__(self, path: str, status: int, seconds: float) -> None: ...


class BeginPlain(Protocol):
    """Has a plain route answered in a quick way, where it may go that way."""

    def __call__(self, cycle: Cycle, found: re.Match[bytes], /) -> bool: ...


class Crowd:
    """All connections of a worker."""

    def __init__(self, most: int, error: Callable[[int, str, str | None], tuple[Headers, bytes]], told: Told,
                 log: Callable[[str], None] | None = None) -> None:
        self.most = most
        self.error = error          # the headers and the body of an error
        self.told = told
        self.log = log
        self.begin_plain: BeginPlain = lambda cycle, found: False
        self.answer_now: Callable[[Cycle], bool] = lambda cycle: False
        self.turns = Turns()
        self.everyone: set[Connection] = set()
        self.waiting: dict[Connection, None] = {}   # those whose clients are waited for, the longest such first
        self.holders: dict[Connection, int] = {}    # those with many bytes on their way, and how many
        self.is_ending = False
        self.date = b""
        self.tick(0.0)

    def tick(self, now: float) -> None:
        """What is due each second: the date, and whoever takes too long."""
        self.date = b"date: " + formatdate(time.time(), usegmt=True).encode() + b"\r\n"
        for each in [each for each in self.everyone if each.deadline <= now]:
            each.is_due(now)

    def admit(self, connection: Connection) -> bool:
        """Takes a connection in; where there are too many that goes whose client has been waited for the longest: for
        a request, for the rest of one, or to take an answer. Where all are in work it answers that this one goes."""
        has_room = len(self.everyone) < self.most
        if not has_room and self.waiting:
            next(iter(self.waiting)).abort()
            has_room = True
        self.everyone.add(connection)
        self.waiting[connection] = None
        return has_room

    def wait_for(self, connection: Connection) -> None:
        """From now on the client is waited for."""
        self.waiting.pop(connection, None)
        self.waiting[connection] = None

    def hold(self, connection: Connection, size: int) -> None:
        """Takes note of bytes on their way. Where they are too many, those go that hold some for the longest."""
        if size < LARGE:
            self.holders.pop(connection, None)
            return
        while self.holders and sum(self.holders.values()) + size > MOST_HELD:
            next(iter(self.holders)).abort()
        if not connection.is_closing:
            self.holders[connection] = size

    def forget(self, connection: Connection) -> None:
        """A connection is gone."""
        self.everyone.discard(connection)
        self.waiting.pop(connection, None)
        self.holders.pop(connection, None)
        self.turns.forget(connection)

    def end(self, why: str) -> None:
        """Closes idle connections, and others once they are answered; who hasn't asked yet is told why."""
        self.is_ending = True
        for each in list(self.everyone):
            each.end(why)

    def give_up(self, why: str) -> None:
        """Lets all connections go; who still waits for an answer is told why."""
        for each in list(self.everyone):
            each.give_up(why)


class Cycle(RequestResponseCycle):  # type: ignore[misc]
    """One request and its answer: uvicorn's, but what is sent goes out in one piece, and is counted."""

    connection: Connection
    began: float
    start: dict[str, Any] | None = None
    response_started: bool
    response_complete: bool
    on_response: Callable[[], None] | None

    async def run_asgi(self, app: Any) -> None:
        """Has the application answer. It tells what goes wrong by itself; where it is ended meanwhile, the client is
        let go."""
        try:
            await app(self.scope, self.receive, self.send)
        except asyncio.CancelledError:
            self.transport.abort()
        finally:
            self.on_response = None
        if not self.response_complete and not self.disconnected:
            self.transport.close()

    def answer(self, status: int, headers: Headers, body: bytes) -> None:
        """Sends an answer that is whole, outside the application."""
        if not self.disconnected:
            self.start = {"status": status, "headers": headers}
            self.response_started = True
            self.write(self.head(self.start, len(body)), body)
            self.complete()
        self.on_response = None

    async def receive(self) -> Any:
        """The next piece of the body; its time counts from the first one on that is asked for."""
        connection = self.connection
        if self.response_complete or (connection.has_ended and connection.body is not None and not self.body):
            return {"type": "http.disconnect"}
        connection.expect_body()
        if connection.is_large and self.flow.read_paused and not self.disconnected:
            await connection.crowd.turns.piece()
        return await super().receive()

    async def send(self, message: Any) -> None:
        """Takes the answer's start, and its body in pieces."""
        if self.start is None:
            if message["type"] != "http.response.start":
                raise RuntimeError(f"an answer begins with its start, not with {message['type']}")
            self.start = message
            return
        if message["type"] == "http.response.start":
            raise RuntimeError("an answer has begun already")
        if self.flow.write_paused and not self.disconnected:
            await self.flow.drain()
        if self.disconnected or self.response_complete:
            return
        body, more = message.get("body", b""), message.get("more_body", False)
        if not self.response_started:
            self.response_started = True
            self.waiting_for_100_continue = False
            head = self.head(self.start, None if more else len(body))
            if self.scope["method"] == "HEAD":
                # It is whole, also where the body would go on for ever.
                body, more = b"", False
            self.write(head, self.framed(body, more))
        else:
            self.write(self.framed(body, more))
        if not more:
            self.complete()

    def head(self, start: dict[str, Any], length: int | None) -> bytes:
        """The status line and the headers of an answer; `length` is that of its body where all of it is there."""
        lines, has_length, status = [], False, start["status"]
        for name, value in start.get("headers", ()):
            has_length = has_length or name == b"content-length"
            lines.append(name + b": " + value + b"\r\n")
        self.chunked_encoding = False
        if not has_length and status not in (204, 304):
            is_old = self.scope["http_version"] == "1.0"
            self.chunked_encoding = length is None and not is_old
            if length is not None:
                lines.append(b"content-length: %d\r\n" % length)
            elif is_old:
                # It knows no chunks: the body ends with the connection.
                self.keep_alive = False
            else:
                lines.append(b"transfer-encoding: chunked\r\n")
        if self.connection.must_close():
            self.keep_alive = False
        if not self.keep_alive:
            lines.append(b"connection: close\r\n")
        elif self.scope["http_version"] == "1.0":
            lines.append(b"connection: keep-alive\r\n")
        block = b"".join(lines)
        if block.count(b"\n") != len(lines) or block.count(b"\r") != len(lines):
            raise RuntimeError("a header has an end of line in it")
        line: bytes = STATUS_LINE[status]
        return line + self.connection.crowd.date + block + b"\r\n"

    def framed(self, body: bytes, more: bool) -> bytes:
        """A piece of the body as it goes out."""
        if not self.chunked_encoding or self.scope["method"] == "HEAD":
            return body
        piece = b"%x\r\n%b\r\n" % (len(body), body) if body else b""
        return piece if more else piece + b"0\r\n\r\n"

    def write(self, *pieces: bytes) -> None:
        if sum(map(len, pieces)) < LARGE:
            self.transport.write(b"".join(pieces))
        else:
            for piece in pieces:
                self.transport.write(piece)
            self.connection.crowd.hold(self.connection, self.transport.get_write_buffer_size())

    def complete(self) -> None:
        """The answer is on its way."""
        connection, scope = self.connection, self.scope
        assert self.start is not None
        self.response_complete = True
        self.message_event.set()
        seconds = time.monotonic() - self.began
        connection.crowd.told(scope["path"], self.start["status"], seconds)
        if connection.crowd.log is not None:
            query = scope["query_string"]
            address = scope["raw_path"] + b"?" * bool(query) + query
            connection.crowd.log(f"{scope['client'][0]} {scope['method']} {address.decode('latin-1')} "
                                 f"{self.start['status']} {seconds * 1000:.1f}")
        if self.on_response is not None:
            self.on_response()


class Connection(HttpToolsProtocol):  # type: ignore[misc]
    """A client's connection."""

    cycle: Any
    scope: Any
    parser: Any

    def __init__(self, crowd: Crowd, address: Address, config: Any, server_state: Any) -> None:
        super().__init__(config, server_state)
        self.crowd = crowd
        self.client, self.scheme = address[:2], "http"
        self.held, self.at = b"", 0     # what came and isn't read yet, from this place on
        self.looked = 0                 # how far a head that isn't whole was looked at
        self.blank = 0                  # bytes of empty lines before it
        self.has_begun = False          # a head has begun to come
        self.is_busy = False            # a request is in work
        self.is_closing = False         # nothing more is read
        self.has_ended = False          # the client sends nothing more
        self.dropped = 0                # bytes that came behind a refusal
        self.body: Body | None = None   # what is still to come of the request's body
        self.body_began, self.body_size = 0.0, 0
        self.is_large = False           # others go before its body
        self.is_head = False            # its answer has no body
        self.deadline = self.loop.time() + IDLE_SECONDS
        self.unsent = 0                 # bytes that the client hadn't taken when it was last looked at
        self.read: dict[bytes, bytes] = {}
        self.lines = b""                # the headers of the request, as they came
        self.known_lines = b""          # those of a plain route, and what was read of it
        self.known_scope: dict[str, Any] = {}

    # ---- what comes ----

    def connection_made(self, transport: Any) -> None:
        # As uvicorn's, but that the system isn't asked for addresses.
        self.connections.add(self)
        self.transport, self.flow = transport, FlowControl(transport)
        if not self.crowd.admit(self):
            self.refuse(503, "too many clients at once", b"retry-after: 1\r\n")

    def connection_lost(self, exc: Exception | None) -> None:
        self.crowd.forget(self)
        self.is_closing = True
        super().connection_lost(exc)

    def data_received(self, data: bytes) -> None:
        if self.is_closing:
            self.dropped += len(data)
            self.deadline += len(data) / BODY_RATE
            if self.dropped > MOST_DROPPED:
                self.abort()
            return
        self.held = self.held[self.at:] + data if self.at < len(self.held) else data
        self.looked, self.at = max(self.looked - self.at, 0), 0
        if self.body is not None:
            self.take_body()
        elif not self.is_busy:
            self.begin()
        if self.is_busy and self.body is None and self.at < len(self.held):
            self.flow.pause_reading()

    def eof_received(self) -> bool:
        """Keeps the connection open where an answer is still owed to a client that sends nothing more."""
        self.has_ended = True
        if self.is_closing:
            return False
        if self.body is not None:
            # The application learns that no more of it comes.
            self.cycle.message_event.set()
            return True
        if not self.is_busy and self.at < len(self.held):
            self.loop.call_soon(self.begin)
        return self.is_busy or self.at < len(self.held)

    def begin(self) -> None:
        """Begins the next request where its head is there."""
        if self.is_busy or self.is_closing or self.transport.is_closing():
            return
        self.is_head = False
        if not self.skip_blank():
            self.refuse(400, "the first line is no request")
            return
        self.is_head = self.held.startswith(b"HEAD ", self.at)
        end = self.held.find(HEAD_END, max(self.at, self.looked - 3))
        size = (len(self.held) if end < 0 else end) - self.at
        if size > LONGEST_HEAD:
            self.refuse_long()
        elif end >= 0:
            head, self.at, self.looked, self.blank = self.held[self.at:end + 4], end + 4, 0, 0
            self.take_head(head)
        elif self.has_ended and size:
            self.refuse(400, "the request's head isn't whole")
        elif self.has_ended:
            self.transport.close()
        else:
            self.flow.resume_reading()
            if size:
                self.wait_for_head()

    def skip_blank(self) -> bool:
        """Skips ends of lines before a request, and answers whether they are few."""
        found = BLANK.match(self.held, self.at)
        assert found is not None
        self.blank += found.end() - self.at
        self.at = found.end()
        return self.blank <= MOST_BLANK

    def wait_for_head(self) -> None:
        """The rest of a head is still to come; what is there is looked at once."""
        looked, self.looked = max(self.at, self.looked - 1), len(self.held)
        if BAD_ENDS.search(self.held, looked):
            self.refuse(400, "the request's head has bytes that have no place there")
        elif not self.has_begun:
            self.has_begun, self.deadline = True, self.loop.time() + HEAD_SECONDS

    def refuse_long(self) -> None:
        if self.held.find(b"\r\n", self.at, self.at + LONGEST_TARGET + 64) < 0:
            self.refuse_target(self.held[self.at:self.at + 64])
        else:
            self.refuse(431, f"a request's head has at most {LONGEST_HEAD} bytes")

    def take_head(self, head: bytes) -> None:
        """Hands a whole head to the parser, which calls back."""
        end = head.find(b"\r\n")
        first, self.lines = head[:end], head[end:]
        if self.lines == self.known_lines and (plain := PLAIN_LINE.fullmatch(first)) is not None:
            self.take_known(first[QUERY_AT:-len(b" HTTP/1.1")], plain)
        elif not FIRST_LINE.fullmatch(first):
            self.refuse_first(first)
        elif not has_plain_ends(head) and BAD_ENDS.search(head[:-4]):
            self.refuse(400, "the request's head has bytes that have no place there")
        elif BAD_LINE.search(head[:-4]):
            self.refuse(400, "a header isn't one")
        else:
            head = head.translate(HARMLESS)
            try:
                self.parser.feed_data(head)
            except httptools.HttpParserUpgrade:
                self.refuse(400, "no other protocol is spoken here")
            except httptools.HttpParserError:
                # What was refused already may be more than the parser takes.
                if not self.is_closing:
                    self.refuse(400, "the request's head can't be read")

    def take_known(self, query: bytes, plain: re.Match[bytes]) -> None:
        """Takes a plain route whose headers are those of one before it."""
        self.read = self.known_scope["catchup.read"]
        self.scope = {**self.known_scope, "query_string": query, "catchup.plain": plain}
        self.start_cycle("1.1")

    def refuse_target(self, first: bytes) -> None:
        """Refuses an address that is too long. One of OSRM's has too many places, and is refused in OSRM's words."""
        if OSRM.match(first):
            self.refuse(400, f"an address has at most {LONGEST_TARGET} bytes: ask for fewer places", code="TooBig")
        else:
            self.refuse(414, f"an address has at most {LONGEST_TARGET} bytes")

    def refuse_first(self, first: bytes) -> None:
        words = first.split(b" ")
        if CONTROLS.search(first) or not first.isascii() or BAD_ENDS.search(first):
            self.refuse(400, "the request's head has bytes that have no place there")
        elif len(words) != 3 or not words[2].startswith(b"HTTP/") or not words[0].isupper():
            self.refuse(400, "the first line is no request")
        elif len(words[1]) > LONGEST_TARGET:
            self.refuse_target(first)
        elif words[2] not in (b"HTTP/1.1", b"HTTP/1.0"):
            self.refuse(505, "HTTP/1.1 and HTTP/1.0 are known here")
        else:
            self.refuse(400, "an address begins with /")

    # ---- the parser's calls ----

    def on_message_begin(self) -> None:
        self.url = b""
        self.headers: Headers = []
        self.read = {}
        self.twice: bytes | None = None

    def on_header(self, name: bytes, value: bytes) -> None:
        name = name.lower()
        self.headers.append((name, value))
        if name in READ:
            if name in self.read:
                self.twice = name
            self.read[name] = value
        elif name == b"connection":
            self.read[name] = self.read.get(name, b"") + b"," + value.lower()

    def on_headers_complete(self) -> None:
        if self.parser.should_upgrade():
            return
        version, method = self.parser.get_http_version(), self.parser.get_method()
        if (wrong := self.wrong_headers(version)) is not None:
            self.refuse(*wrong)
            return
        raw_path, _, query = self.url.partition(b"?")
        path = raw_path.decode("ascii")
        plain = PLAIN_ROUTE.fullmatch(query) if path == "/route" and method == b"GET" else None
        self.scope = {
            "type": "http", "asgi": {"version": self.config.asgi_version, "spec_version": "2.3"},
            "http_version": version, "server": self.server, "client": self.client, "scheme": self.scheme,
            "root_path": self.root_path, "headers": self.headers, "method": method.decode("ascii"),
            "raw_path": raw_path, "query_string": query, "path": urllib.parse.unquote(path) if "%" in path else path,
            "catchup.read": self.read, "catchup.plain": plain}
        self.start_cycle(version)

    def wrong_headers(self, version: str) -> tuple[int, str] | None:
        """What is wrong with a request's headers, with its status."""
        if self.twice is not None:
            return 400, f"the header {self.twice.decode()} is there twice"
        if version == "1.1" and b"host" not in self.read:
            return 400, "the header host is missing"
        coding = self.read.get(b"transfer-encoding")
        if coding is not None:
            if b"content-length" in self.read:
                return 400, "a request has Content-Length or Transfer-Encoding, and not both"
            if version == "1.0" or coding.strip().lower() != b"chunked":
                return 400, "of transfer codings only chunked is known here, in HTTP/1.1"
            self.body = Chunked()
            return None
        length = self.read.get(b"content-length", b"0")
        if not NUMBER.fullmatch(length):
            return 400, "Content-Length is no number"
        short = length.lstrip(b"0") or b"0"
        if len(short) > 9 or int(short) > LONGEST_LINES:
            return 413, f"a body has at most {LONGEST_LINES} bytes"
        # Whoever reads it as a number would refuse thousands of zeros.
        self.read[b"content-length"] = short
        self.body = Sized(int(short)) if short != b"0" else None
        return None

    def start_cycle(self, version: str) -> None:
        kept = self.read.get(b"connection", b"")
        keeps = b"keep-alive" in kept if version == "1.0" else b"close" not in kept
        self.cycle = Cycle(
            scope=self.scope, transport=self.transport, flow=self.flow, logger=self.logger,
            access_logger=self.access_logger, access_log=False, default_headers=[], message_event=asyncio.Event(),
            expect_100_continue=self.read.get(b"expect", b"").lower() == b"100-continue", keep_alive=keeps,
            on_response=self.on_response_complete)
        self.cycle.connection, self.cycle.began = self, time.monotonic()
        self.is_busy, self.has_begun = True, False
        self.crowd.waiting.pop(self, None)
        self.deadline = float("inf")
        self.is_large = self.body is not None and (not isinstance(self.body, Sized) or self.body.left > LARGE_BODY)
        if self.body is None:
            self.hand_on(b"")
        else:
            self.body_began, self.body_size = 0.0, 0
            # The parser waits for the body, which it doesn't get.
            self.parser = httptools.HttpRequestParser(self)
            self.loop.call_soon(self.take_body)
            if not self.is_large:
                # Large ones are few, and come in turns.
                self.crowd.wait_for(self)
        plain = self.scope["catchup.plain"]
        if plain is None or not self.crowd.begin_plain(self.cycle, plain):
            self.crowd.turns.add(self)
        elif keeps and version == "1.1" and self.body is None and len(self.lines) <= MOST_REMEMBERED:
            self.known_lines, self.known_scope = self.lines, self.scope

    def go(self) -> None:
        """Has the application answer the request, where that isn't done in a quick way, in this turn."""
        if self.crowd.answer_now(self.cycle):
            return
        task = self.loop.create_task(self.cycle.run_asgi(self.app))
        task.add_done_callback(self.tasks.discard)
        self.tasks.add(task)

    def turn_away(self) -> None:
        """Too many requests wait that others go before."""
        if self.has_ended:
            self.abort()
        else:
            self.refuse(503, "too many requests with large bodies at once", b"retry-after: 1\r\n")

    # ---- bodies ----

    def on_message_complete(self) -> None:
        """The parser gets heads alone."""

    def expect_body(self) -> None:
        """The application asks for the body: from now on it must come."""
        if self.body is not None and not self.body_began:
            self.body_began = self.loop.time()
            self.deadline = self.body_began + BODY_SECONDS

    def take_body(self) -> None:
        """Hands on what there is of a body."""
        if self.is_closing or self.body is None or self.at >= len(self.held):
            return
        try:
            piece, self.at = self.body.take(self.held, self.at)
        except BadBody as problem:
            self.break_off(400, str(problem))
            return
        self.body_size += len(piece)
        if self.body_began:
            self.deadline = self.body_began + BODY_SECONDS + self.body_size / BODY_RATE
        if self.body.is_over:
            self.body, self.deadline = None, float("inf")
            self.crowd.waiting.pop(self, None)
            self.crowd.turns.forget(self)
        self.hand_on(piece)
        if self.body is None and self.at < len(self.held):
            self.flow.pause_reading()

    def hand_on(self, piece: bytes) -> None:
        """Gives the application a piece of the body, the last one where no more is to come."""
        cycle = self.cycle
        cycle.body += piece
        cycle.more_body = self.body is not None
        if self.is_large or len(cycle.body) > HIGH_WATER_LIMIT:
            self.flow.pause_reading()
        cycle.message_event.set()

    def break_off(self, status: int, error: str) -> None:
        """Refuses a request whose body comes to no good end; the application learns that its client is gone."""
        self.is_closing = True
        self.cycle.disconnected = True
        self.cycle.message_event.set()
        if self.cycle.response_started:
            self.abort()
        else:
            self.refuse(status, error)

    # ---- answers ----

    def must_close(self) -> bool:
        """Whether the connection can't have another request: the service ends, or a body is left that nobody wants."""
        return self.crowd.is_ending or self.body is not None

    def on_response_complete(self) -> None:
        """The answer of the request in work is on its way: the next one begins in another turn, once this one is
        taken."""
        self.server_state.total_requests += 1
        if self.transport.is_closing():
            return
        if self.body is not None:
            self.linger()
        elif not self.cycle.keep_alive and not self.flow.write_paused and self.has_unread():
            self.linger(LAST_LINGER_SECONDS)
        elif not self.cycle.keep_alive:
            self.is_closing = True
            self.deadline = self.loop.time() + TAKE_SECONDS
            self.crowd.wait_for(self)
            self.transport.close()
        else:
            self.rest()

    def rest(self) -> None:
        """Waits for the next request, or for the client to take the answer first."""
        self.is_busy = False
        if self.flow.write_paused:
            self.is_busy = True
            return
        self.crowd.wait_for(self)
        self.deadline = self.loop.time() + IDLE_SECONDS
        if self.at < len(self.held):
            # More is read only once all that is there is begun.
            self.loop.call_soon(self.begin)
        elif self.has_ended:
            self.transport.close()
        else:
            self.held, self.at = b"", 0
            self.flow.resume_reading()

    def refuse(self, status: int, error: str, headers: bytes = b"", *, code: str | None = None) -> None:
        """Answers what is no request, and closes; with a code in the form of OSRM's errors."""
        more, body = self.crowd.error(status, error, code)
        lines = b"".join(name + b": " + value + b"\r\n" for name, value in more)
        self.crowd.told("", status, 0.0)
        if self.crowd.log is not None:
            self.crowd.log(f"{self.client[0] if self.client else '-'} - - {status} 0.0")
        size = b"content-length: %d\r\nconnection: close\r\n\r\n" % len(body)
        self.transport.write(STATUS_LINE[status] + self.crowd.date + lines + headers + size + body * (not self.is_head))
        self.linger()

    def has_unread(self) -> bool:
        """Whether the system holds bytes of the client that aren't read yet: closed then, it would tell the client of a
        reset in place of what it has been sent."""
        held = bytearray(4)
        with contextlib.suppress(OSError):
            fcntl.ioctl(self.transport.get_extra_info("socket").fileno(), termios.FIONREAD, held)
        return any(held)

    def linger(self, seconds: float = LINGER_SECONDS) -> None:
        """Closes, but first lets go of what the client still sends, which would otherwise cost it the answer."""
        self.is_closing = True
        if self.has_ended:
            self.transport.close()
            return
        self.is_busy = True
        self.crowd.wait_for(self)
        self.held, self.at, self.body = b"", 0, None
        self.crowd.turns.forget(self)
        self.deadline = self.loop.time() + seconds
        with contextlib.suppress(OSError, RuntimeError, NotImplementedError):
            self.transport.write_eof()
        self.flow.resume_reading()

    # ---- time ----

    def is_due(self, now: float) -> None:
        """The deadline has come."""
        if self.flow.write_paused and not self.is_closing:
            unsent = self.transport.get_write_buffer_size()
            if unsent < self.unsent:
                self.unsent, self.deadline = unsent, now + TAKE_SECONDS
                return
        if self.is_closing or self.flow.write_paused or not (self.is_busy or self.has_begun):
            self.abort()
        elif self.body is not None and self.flow.read_paused:
            # What has come isn't taken yet: that isn't its client's fault.
            self.body_began += BODY_SECONDS
            self.deadline = now + BODY_SECONDS
        elif self.body is not None:
            self.break_off(408, "the request comes too slowly")
        elif not self.is_busy:
            self.refuse(408, "the request comes too slowly")

    def pause_writing(self) -> None:
        super().pause_writing()
        self.crowd.wait_for(self)
        self.unsent = self.transport.get_write_buffer_size()
        self.deadline = self.loop.time() + TAKE_SECONDS

    def resume_writing(self) -> None:
        super().resume_writing()
        self.crowd.holders.pop(self, None)
        if self.is_closing:
            return
        self.crowd.waiting.pop(self, None)
        self.deadline = float("inf")
        if self.is_busy and self.cycle is not None and self.cycle.response_complete:
            self.rest()

    def abort(self) -> None:
        """Lets the connection go at once, with what is on its way."""
        self.crowd.forget(self)
        self.is_closing = True
        self.transport.abort()

    def end(self, why: str) -> None:
        """The service ends: closes where no request is in work. One that is only begun, or the first one, may be on its
        way: its client is told."""
        if self.is_closing:
            return
        if self.has_begun or self.cycle is None:
            self.refuse(503, why, b"retry-after: 1\r\n")
            self.deadline = self.loop.time() + LAST_LINGER_SECONDS
        elif not self.is_busy and (self.at < len(self.held) or self.has_unread()):
            # A request has come just now. It is begun in the next turn, and the last one here.
            return
        elif not self.is_busy or self.cycle.response_complete:
            self.is_closing = True
            self.transport.close()
        else:
            self.cycle.keep_alive = False

    def give_up(self, why: str) -> None:
        """The service can't wait longer."""
        if not self.is_busy or self.is_closing or self.cycle.response_started:
            self.abort()
            return
        if self.scope["method"] not in READS:
            why += ": GET /edits says whether the edit was made"
        self.cycle.disconnected = True
        self.refuse(503, why, b"retry-after: 1\r\n")

    def timeout_keep_alive_handler(self) -> None:
        """Deadlines are looked at for all connections together."""
