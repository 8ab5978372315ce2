"""Connections of a service: what is a request and what is none, bodies in one piece and in chunks."""

from __future__ import annotations

import json
import os
import re
import socket
import time
from collections.abc import Iterator
from pathlib import Path
from typing import Any, BinaryIO

import pytest
from conftest import TOP
from hypothesis import given, settings
from hypothesis import strategies as st
from serving import Service, ask_program, read_all, send_all, wait_for

ROUTE = b"GET /route?from=5&to=151&depart=28800 HTTP/1.1\r\nHost: localhost\r\n\r\n"
HEALTH = b"GET /health HTTP/1.1\r\nHost: localhost\r\n\r\n"
H = b"Host: localhost\r\n"


@pytest.fixture(scope="module")
def service(town: Path) -> Iterator[Service]:
    with Service(town) as running:
        yield running


BAD_BYTES = [
    (b"GET /edits\r\n", "400 the request's head isn't whole"),
    (b"GET /edits HTTP/1.1\r\n" + H, "400 the request's head isn't whole"),
    (b"GET /edits\r\n\r\n", "400 the first line is no request"),
    (b"GET  /edits HTTP/1.1\r\n\r\n", "400 the first line is no request"),
    (b"get /edits HTTP/1.1\r\n\r\n", "400 the first line is no request"),
    (b"GET edits HTTP/1.1\r\n\r\n", "400 an address begins with /"),
    (b"GET http://localhost/edits HTTP/1.1\r\n" + H + b"\r\n", "400 an address begins with /"),
    (b"GET /edits HTTP/2.0\r\n\r\n", "505 HTTP/1.1 and HTTP/1.0 are known here"),
    (b"GET /e\0dits HTTP/1.1\r\n\r\n", "400 the request's head has bytes that have no place there"),
    (b"GET /\xe9 HTTP/1.1\r\n\r\n", "400 the request's head has bytes that have no place there"),
    (b"GET /edits HTTP/1.1\nHost: localhost\r\n\r\n", "400 the request's head has bytes that have no place there"),
    (b"GET /edits HTTP/1.1\nHost: localhost\n\n", "400 the request's head has bytes that have no place there"),
    (b"GET /edits HTTP/1.1\rHost: localhost\r\n\r\n", "400 the request's head has bytes that have no place there"),
    (b"GET /edits HTTP/1.1\r\nno header\r\n\r\n", "400 a header isn't one"),
    (b"GET /edits HTTP/1.1\r\nHost: localhost\r\n folded\r\n\r\n", "400 a header isn't one"),
    (b"GET /edits HTTP/1.1\r\nHost : localhost\r\n\r\n", "400 a header isn't one"),
    (b"GET /edits HTTP/1.1\r\n\r\n", "400 the header host is missing"),
    (b"GET /edits HTTP/1.1\r\nHost: localhost\r\nHost: localhost\r\n\r\n", "400 the header host is there twice"),
    (b"POST /edits HTTP/1.1\r\n" + H + b"Content-Length: 1\r\nContent-Length: 2\r\n\r\nab",
     "400 the request's head can't be read"),
    (b"POST /edits HTTP/1.1\r\n" + H + b"Content-Length: -1\r\n\r\n", "400 the request's head can't be read"),
    (b"POST /edits HTTP/1.1\r\n" + H + b"Content-Length: +5\r\n\r\nabcde", "400 the request's head can't be read"),
    (b"POST /edits HTTP/1.1\r\n" + H + b"Content-Length: 5\r\nTransfer-Encoding: chunked\r\n\r\n0\r\n\r\n",
     "400 the request's head can't be read"),
    (b"POST /edits HTTP/1.1\r\n" + H + b"Transfer-Encoding: gzip\r\n\r\n",
     "400 of transfer codings only chunked is known here, in HTTP/1.1"),
    (b"POST /edits HTTP/1.0\r\n" + H + b"Transfer-Encoding: chunked\r\n\r\n0\r\n\r\n",
     "400 of transfer codings only chunked is known here, in HTTP/1.1"),
    (b"POST /edits HTTP/1.1\r\n" + H + b"Transfer-Encoding: chunked\r\nTransfer-Encoding: chunked\r\n\r\n0\r\n\r\n",
     "400 the header transfer-encoding is there twice"),
    (b"\r\n" * 40 + b"GET /health HTTP/1.1\r\n" + H + b"\r\n", "400 the first line is no request"),
    (b"POST /edits HTTP/1.1\r\n" + H + b"Content-Length: 67108865\r\n\r\n", "413 a body has at most 67108864 bytes"),
    (b"POST /edits HTTP/1.1\r\n" + H + b"Content-Length: " + b"9" * 5000 + b"\r\n\r\n",
     "400 the request's head can't be read"),
    (b"POST /day HTTP/1.1\r\n" + H + b"Content-Length: 65537\r\n\r\n", "413 a body has at most 65536 bytes here"),
    (b"GET /" + b"a" * 17000 + b" HTTP/1.1\r\n\r\n", "414 an address has at most 16384 bytes"),
    (b"GET /" + b"a" * 70000 + b" HTTP/1.1\r\n\r\n", "414 an address has at most 16384 bytes"),
    (b"GET /edits HTTP/1.1\r\nA: " + b"a" * 70000 + b"\r\n\r\n", "431 a request's head has at most 32768 bytes"),
    (b"\x16\x03\x01\x02\x00\x01\x00\x01\xfc\x03\x03\r\n\r\n",
     "400 the request's head has bytes that have no place there"),
    (b"GET / HTTP/1.1\r\n" + H + b"Connection: Upgrade\r\nUpgrade: websocket\r\n\r\n",
     "400 no other protocol is spoken here"),
]


@pytest.mark.parametrize(("data", "wanted"), BAD_BYTES)
def test_bytes_that_are_no_request(service: Service, data: bytes, wanted: str) -> None:
    status, told = service.raw(data)
    assert f"{status.split()[0]} {told['error']}" == wanted
    assert re.fullmatch("[0-9a-f]{12}", told["version"])


@settings(max_examples=150)
@given(st.lists(st.one_of(st.binary(max_size=12), st.sampled_from(
    [b"\r\n", b"\r\n\r\n", b"GET ", b"/route", b" HTTP/1.1", b"Host: localhost", b"Content-Length: 3", b": ", b"\n"])),
    max_size=12))
def test_any_bytes_get_an_answer_or_a_close(service: Service, parts: list[bytes]) -> None:
    with service.connect() as client:
        send_all(client, b"".join(parts), end=True)
        found = read_all(client)
    assert not found or re.match(rb"HTTP/1\.1 (2|4|5)\d\d ", found)
    assert b"Traceback" not in found
    assert service.get("/health")["status"] == "ok"


@pytest.mark.parametrize("header", [b"Cookie: a=\xc3\xa4\xff", b"Cookie: a=\x01\x7f", b"X: \x80"])
def test_headers_that_nobody_reads_hold_any_bytes(service: Service, header: bytes) -> None:
    assert service.raw(b"GET /health HTTP/1.1\r\n" + H + header + b"\r\n\r\n")[0] == "200 OK"


def test_requests_behind_one_another_and_in_pieces(service: Service) -> None:
    with service.connect() as client:
        client.sendall(ROUTE[:7])
        time.sleep(0.1)
        client.sendall(ROUTE[7:] + ROUTE * 300)
        client.shutdown(socket.SHUT_WR)
        assert read_all(client).count(b"HTTP/1.1 200 OK") == 301
    assert service.raw(b"\r\n\r\n\n\r\n" + ROUTE)[0] == "200 OK"


def test_a_body_comes_in_pieces_with_a_request_behind_it(service: Service) -> None:
    head = b"POST /edits HTTP/1.1\r\n" + H + b"Content-Length: 10\r\n\r\n"
    with service.connect() as client:
        for piece in (head, b"q,0,", b"1,2,3\n" + HEALTH):
            client.sendall(piece)
            time.sleep(0.05)
        client.shutdown(socket.SHUT_WR)
        found = read_all(client)
    assert b"HTTP/1.1 400" in found and b'"word":"line"' in found and b'"status":"ok"' in found


@pytest.mark.parametrize("zeros", [1, 4300, 20_000])
def test_a_length_may_begin_with_zeros(service: Service, zeros: int) -> None:
    length = b"Content-Length: " + b"0" * zeros
    assert service.raw(b"GET /health HTTP/1.1\r\n" + H + length + b"\r\n\r\n")[0] == "200 OK"
    assert service.raw(b"GET /health HTTP/1.1\r\n" + H + length + b"5\r\n\r\nabcde")[0] == "200 OK"
    status, told = service.raw(b"POST /edits HTTP/1.1\r\n" + H + length + b"5\r\n\r\nabcde")
    assert (status, told["error"]) == ("400 Bad Request", "refused")
    status, told = service.raw(b"POST /edits HTTP/1.1\r\n" + H + length + b"67108865\r\n\r\nabcde")
    assert (status[:3], told["error"]) == ("413", "a body has at most 67108864 bytes")


def test_old_clients_are_answered_and_closed(service: Service) -> None:
    assert service.raw(b"GET /health HTTP/1.0\r\n" + H + b"\r\n", end=False)[0] == "200 OK"
    with service.connect() as client:
        client.sendall(b"GET /health HTTP/1.1\r\n" + H + b"Connection: close\r\n\r\n")
        assert b"connection: close" in read_all(client)
    with service.connect() as client:
        client.sendall((b"GET /health HTTP/1.0\r\n" + H + b"Connection: keep-alive\r\n\r\n") * 2)
        client.shutdown(socket.SHUT_WR)
        assert read_all(client).count(b"200 OK") == 2


def test_the_last_answer_of_a_connection_comes_whatever_stands_behind_its_request(service: Service) -> None:
    """The system would tell of a reset, which may come before the answer, where that isn't read."""
    with service.connect() as client:
        client.sendall(b"GET /day?from=5&to=151 HTTP/1.1\r\n" + H + b"Connection: close\r\n\r\n" + ROUTE * 2_000)
        found = b"".join(iter(lambda: client.recv(65_536), b""))
    assert found.startswith(b"HTTP/1.1 200 OK") and found.count(b"HTTP/1.1 ") == 1


def test_what_goes_on_for_ever_has_a_head_and_is_plain_for_old_clients(service: Service) -> None:
    with service.connect() as client:
        client.sendall(b"HEAD /page/events HTTP/1.1\r\n" + H + b"\r\n" + HEALTH)
        client.shutdown(socket.SHUT_WR)
        found = read_all(client)
    assert found.count(b"HTTP/1.1 200 OK") == 2 and b"retry" not in found and b'\r\n\r\n{"status":"ok"' in found
    with service.connect() as client:
        client.sendall(b"GET /page/events HTTP/1.0\r\n" + H + b"Connection: keep-alive\r\n\r\n")
        found = b""
        while b"event: version" not in found:
            found += client.recv(65_536)
    head, _, body = found.partition(b"\r\n\r\n")
    assert b"transfer-encoding" not in head and b"connection: close" in head and body.startswith(b"retry: 1000\n\nevent")


def test_a_body_is_asked_for_and_refused_before_it_is_sent(service: Service) -> None:
    head = b"POST /%b HTTP/1.1\r\n" + H + b"Expect: 100-continue\r\nContent-Length: 4\r\n\r\n"
    with service.connect() as client:
        client.sendall(head % b"edits")
        assert client.recv(100) == b"HTTP/1.1 100 Continue\r\n\r\n"
        client.sendall(b"a,,,")
        client.shutdown(socket.SHUT_WR)
        assert b" 400 " in read_all(client)
    with service.connect() as client:
        client.sendall(head % b"nothing")
        found = client.recv(1000)
        assert found.startswith(b"HTTP/1.1 404") and b"connection: close" in found


def test_many_clients_at_once(service: Service, town: Path) -> None:
    [reply] = ask_program(town, "q,5,151,28800")
    wanted = b'"arrive":%s,' % reply.split()[0].removeprefix("arrive=").encode()
    clients = [service.connect() for _ in range(1000)]
    for client in clients:
        client.sendall(ROUTE.replace(b"\r\n\r\n", b"\r\nConnection: close\r\n\r\n"))
    assert sum(wanted in read_all(client) for client in clients) == 1000
    for client in clients:
        client.close()
    for _ in range(300):
        with service.connect() as client:
            client.sendall(ROUTE)
    assert service.ask("/health")[0] == 200
    assert wait_for(lambda: open_files(service), lambda many: many < 40) < 40


def open_files(service: Service) -> int:
    [worker] = service.workers()
    return len(os.listdir(f"/proc/{worker}/fd"))


# ---- one connection and many ----

OTHER = b"GET /route?from=7&to=20&depart=08:30 HTTP/1.1\r\n"
# Those that end their connection come last.
HEADS = [
    ROUTE, OTHER + H + b"\r\n", OTHER + H + b"Accept: */*\r\n\r\n", OTHER + H + b"Content-Length: 0\r\n\r\n",
    OTHER + b"Host: example\x01\r\n\r\n", OTHER + b"Host: examples.\r\n\r\n", HEALTH,
    HEALTH[:-2] + b"Accept: */*\r\n\r\n", b"GET /health HTTP/1.1\r\nHost: examples.\r\n\r\n",
    b"GET /route?from=5&to=1&depart=86400 HTTP/1.1\r\n" + H + b"\r\n",
    b"GET /route?to=5&from=1&depart=0 HTTP/1.1\r\n" + H + b"\r\n", ROUTE.replace(b"GET", b"HEAD"),
    OTHER.replace(b"1.1\r", b"1.0\r") + b"Connection: keep-alive\r\n\r\n",
    b"POST /edits HTTP/1.1\r\n" + H + b"Content-Length: 3\r\n\r\n?,?",
    b"POST /route?from=5&to=151&depart=28800 HTTP/1.1\r\n" + H + b"\r\n"]
LAST_HEADS = [
    OTHER + H + b"Connection: close\r\n\r\n", OTHER + H + H + b"\r\n", OTHER + b"\r\n", OTHER + H + b" a\r\n\r\n"]


def answer_of(stream: BinaryIO, request: bytes) -> tuple[bytes, bytes]:
    """The status and the body of the next answer that comes."""
    status, length = stream.readline(), 0
    while (line := stream.readline().lower()).strip():
        length = int(line[15:]) if line.startswith(b"content-length:") else length
    return status, stream.read(length if not request.startswith(b"HEAD") else 0)


def answers_of(service: Service, requests: list[bytes], at_once: bool) -> list[tuple[bytes, bytes]]:
    """The answers to requests on one connection, of which each is sent when that before is answered, or all at once."""
    with service.connect() as client, client.makefile("rb") as stream:
        if at_once:
            client.sendall(b"".join(requests))
        found = []
        for request in requests:
            if not at_once:
                client.sendall(request)
            found.append(answer_of(stream, request))
    return found


@pytest.fixture(scope="module")
def alone(service: Service) -> dict[bytes, tuple[bytes, bytes]]:
    """What is answered to each request on a connection of its own."""
    return {request: answers_of(service, [request], False)[0] for request in [*HEADS, *LAST_HEADS]}


@settings(max_examples=60)
@given(st.lists(st.sampled_from(HEADS), max_size=9), st.sampled_from([*HEADS, *LAST_HEADS]), st.booleans())
def test_what_a_connection_has_asked_changes_no_answer(
        service: Service, alone: dict[bytes, tuple[bytes, bytes]], before: list[bytes], last: bytes,
        at_once: bool) -> None:
    requests = [*before, last]
    assert answers_of(service, requests, at_once) == [alone[request] for request in requests]


def test_the_same_headers_are_answered_by_what_they_say(
        service: Service, alone: dict[bytes, tuple[bytes, bytes]]) -> None:
    """Nor does a connection take a name that isn't served for one that it has seen."""
    good, bad, accepts = HEADS[1], HEADS[5], HEADS[2]
    assert [alone[each][0][9:12] for each in (good, accepts, bad)] == [b"200", b"200", b"421"]
    requests = [good, good, HEADS[8], good, bad, bad, good, accepts, HEADS[7], accepts, good, bad, HEADS[6], good]
    assert answers_of(service, requests, False) == [alone[request] for request in requests]


# What is told of the edits goes wrong in a way that nobody has thought of: before the answer begins, or behind that.
BROKEN = """
import sys

sys.path.insert(0, {python!r})
from catchup.service.jobs import Jobs
from catchup.service.page.events import Followers


def told(jobs):
    raise ValueError("by the test")


async def begun(followers, *_):
    yield b": it begins\\n\\n"
    raise ValueError("by the test")


Jobs.told, Followers._told = told, begun
"""


def answers_in(found: bytes) -> list[tuple[int, Any]]:
    """The statuses and the JSON of answers that follow one another, each as long as it says."""
    answers = []
    while found:
        head, _, found = found.partition(b"\r\n\r\n")
        size = int(re.findall(rb"content-length: (\d+)", head)[0])
        answers.append((int(head.split(b" ")[1]), json.loads(found[:size])))
        found = found[size:]
    return answers


def test_what_goes_wrong_within_is_one_answer(town: Path, tmp_path: Path) -> None:
    (tmp_path / "sitecustomize.py").write_text(BROKEN.format(python=str(TOP / "python")))
    with Service(town, PYTHONPATH=str(tmp_path)) as service:
        version = service.get("/health")["version"]
        with service.connect() as client:
            client.sendall(HEALTH.replace(b"/health", b"/edits") + HEALTH)
            client.shutdown(socket.SHUT_WR)
            assert answers_in(read_all(client)) == [
                (500, {"error": "an error of the service", "version": version}),
                (200, {"status": "ok", "version": version})]
        # An answer that has begun isn't made whole by what follows.
        with service.connect() as client:
            client.sendall(HEALTH.replace(b"/health", b"/page/events") + HEALTH)
            assert read_all(client).endswith(b"\r\n: it begins\n\n\r\n")
        said = service.end()[2].splitlines()
    assert [line.count("ValueError: by the test") for line in said] == [1, 1, 0] and "broken off" in said[2], said
