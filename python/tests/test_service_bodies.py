"""Bodies of requests: in one piece, in chunks, in any pieces, and what is none."""

from __future__ import annotations

import gzip
import re
import socket
import time
from collections.abc import Iterator
from pathlib import Path

import pytest
from hypothesis import example, given
from hypothesis import strategies as st
from serving import Service, digest_of, read_all

from catchup.service.bodies import BadBody, Chunked, Sized

HEAD = b"POST /edits HTTP/1.1\r\nHost: localhost\r\nTransfer-Encoding: chunked\r\n\r\n"
HEALTH = b"GET /health HTTP/1.1\r\nHost: localhost\r\n\r\n"


def chunked(pieces: list[bytes], end: bytes = b"0\r\n\r\n") -> bytes:
    """A body in chunks, none of them empty."""
    return b"".join(b"%x\r\n%b\r\n" % (len(piece), piece) for piece in pieces if piece) + end


def taken(body: Sized | Chunked, data: bytes, cuts: list[int]) -> tuple[bytes, bytes]:
    """What a body takes of bytes that come in pieces, and what is left behind it."""
    found, rest = b"", b""
    at = 0
    for cut in sorted({min(cut, len(data)) for cut in cuts} | {len(data)}):
        rest += data[at:cut]
        at = cut
        if not body.is_over:
            piece, behind = body.take(rest, 0)
            found += piece
            rest = rest[behind:]
    return found, rest


@given(st.lists(st.binary(max_size=40), max_size=6), st.lists(st.integers(0, 300), max_size=8), st.binary(max_size=9),
       st.sampled_from([b"0\r\n\r\n", b"000\r\n\r\n", b"0;a=b\r\nX: 1\r\nY:\r\n\r\n"]))
def test_chunks_are_put_together(pieces: list[bytes], cuts: list[int], behind: bytes, end: bytes) -> None:
    assert taken(Chunked(), chunked(pieces, end) + behind, cuts) == (b"".join(pieces), behind)
    whole = b"".join(pieces)
    assert taken(Sized(len(whole)), whole + behind, cuts) == (whole, behind)


@given(st.binary(max_size=60), st.lists(st.integers(0, 60), max_size=5))
@example(b"1\r\na\r\n0\r\n\r\n", [])
def test_any_bytes_are_chunks_or_refused(data: bytes, cuts: list[int]) -> None:
    body = Chunked()
    try:
        taken(body, data, cuts)
    except BadBody as problem:
        assert str(problem)
        return
    if body.is_over:
        assert re.search(rb"(?:^|\n)0+[ \t]*(?:;[^\n]*)?\r\n(?:[^\n]+\r\n)*\r\n", data)


BAD_CHUNKS = [
    (b"x\r\n", "a chunk's size isn't one"), (b"-1\r\n", "a chunk's size isn't one"),
    (b"+5\r\nabcde\r\n0\r\n\r\n", "a chunk's size isn't one"),
    (b"0x5\r\nabcde\r\n0\r\n\r\n", "a chunk's size isn't one"),
    (b" 5\r\nabcde\r\n0\r\n\r\n", "a chunk's size isn't one"),
    (b"\r\n", "a chunk's size isn't one"), (b"1_0\r\n", "a chunk's size isn't one"),
    (b"fffffffff\r\n", "a chunk's size isn't one"),
    (b"\xd9\xa1\r\n", "a chunk's size isn't one"), (b"5 5\r\nabcde\r\n", "a chunk's size isn't one"),
    (b"5\nabcde\r\n0\r\n\r\n", "a line between chunks has no end"),
    (b"2\r\nabc\r\n0\r\n\r\n", "a chunk is longer than it says"),
    (b"1\r\nabc\r\n0\r\n\r\n", "a chunk is longer than it says"),
    (b"1\r\na\n0\r\n\r\n", "a line between chunks has no end"),
    (b"0" * 2000, "a line between chunks is too long"),
    (b"1;" + b"a" * 2000 + b"\r\n", "a line between chunks is too long"),
    (b"0\r\nno header\r\n\r\n", "a line behind the last chunk isn't a header"),
    (b"0\r\n folded\r\n\r\n", "a line behind the last chunk isn't a header"),
    (b"0\r\n" + b"A: b\r\n" * 65 + b"\r\n", "a line behind the last chunk isn't a header")]


@pytest.fixture(scope="module")
def service(town: Path, tmp_path_factory: pytest.TempPathFactory) -> Iterator[Service]:
    path = tmp_path_factory.mktemp("bodies") / "town.cu"
    path.write_bytes(town.read_bytes())
    with Service(path) as running:
        running.path = path  # type: ignore[attr-defined]
        yield running


@pytest.mark.parametrize(("data", "said"), BAD_CHUNKS)
def test_bad_chunks_are_refused(service: Service, data: bytes, said: str) -> None:
    for whole in (HEAD + data, HEAD + chunked([b"s,0,0,travel,600\n"], data)):
        if data != b"\r\n" or whole == HEAD + data:
            status, told = service.raw(whole + HEALTH, end=False)
            assert (status.split()[0], told["error"]) == ("400", said)


def test_edits_come_in_chunks(service: Service) -> None:
    def pieces() -> Iterator[bytes]:
        for number in range(40):
            yield b"s,%d,0,travel,%d\n" % (number % 3, 600 + number)

    told = service.client.post("/edits", content=pieces())
    assert (told.status_code, told.json()["lines"]) == (200, 40)
    path: Path = service.path  # type: ignore[attr-defined]
    assert told.json()["version"] == digest_of(path)
    # What stands behind the body is another request, however it comes.
    whole = HEAD + chunked([b"q,0,", b"1,2\n"]) + HEALTH
    with service.connect() as client:
        for at in range(0, len(whole), 7):
            client.sendall(whole[at:at + 7])
            time.sleep(0.001)
        client.shutdown(socket.SHUT_WR)
        found = read_all(client)
    assert b"HTTP/1.1 400" in found and found.count(b"HTTP/1.1 ") == 2
    assert b'"word":"line"' in found and b'"status":"ok"' in found


def test_a_body_in_chunks_has_the_limits_of_others(service: Service) -> None:
    def post(pieces: list[bytes], kind: str) -> int:
        return service.client.post("/edits", content=iter(pieces), headers={"Content-Type": kind}).status_code

    assert post([b" " * 65_000, b" " * 536], "application/json") == 400
    assert post([b" " * 65_000, b" " * 537], "application/json") == 413
    assert post([b"s" * 4_194_304, b"\n"], "text/plain") == 400
    assert post([b"s" * 4_194_304, b"s"], "text/plain") == 413
    assert post([b"\n" * (1 << 20)] * 65, "text/plain") == 413
    status, told = service.raw(HEAD.replace(b"/edits", b"/nothing") + chunked([b"x"]))
    assert status.split()[0] == "404"
    assert service.get("/health")["status"] == "ok"


def test_a_body_of_many_pieces_is_taken_whole(service: Service) -> None:
    body = b"".join(b"q,0,%d,0\n" % number for number in range(200_000))
    assert len(body) > 1 << 21
    told = service.client.post("/edits", content=body)
    assert (told.status_code, told.json()["count"]) == (400, 200_000)


def test_a_packed_body_is_told_as_one(town: Path, tmp_path: Path) -> None:
    path = tmp_path / "town.cu"
    path.write_bytes(town.read_bytes())
    with Service(path) as service:
        for coding, body in (("gzip", gzip.compress(b"a,3,1")), ("Deflate", b"a,3,1"), ("identity, br", b"a,3,1")):
            status, told = service.ask("/edits", "POST", body, content_encoding=coding)
            assert (status, told["error"]) == (400, "a body is sent as it is, without Content-Encoding")
        assert service.ask("/edits", "POST", b"a,3,1", content_encoding="Identity")[0] == 200
