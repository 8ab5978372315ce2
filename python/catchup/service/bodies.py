"""A request's body as it comes: of a length that its head says, or in chunks that say theirs."""

from __future__ import annotations

import re
from typing import Final, Protocol

CHUNK: Final = re.compile(rb"([0-9A-Fa-f]{1,8})[ \t]*(?:;[\t -~\x80-\xff]*)?")
TRAILER: Final = re.compile(rb"[!#$%&'*+.^_`|~0-9A-Za-z-]+:[\t -~\x80-\xff]*")
LONGEST_LINE: Final = 1_024             # bytes of a line between chunks
MOST_LINES: Final = 64                  # behind the last chunk


class BadBody(Exception):
    """The chunks aren't such: str() says what is wrong."""


class Body(Protocol):
    """What is still to come of a body."""

    is_over: bool

    def take(self, data: bytes, at: int) -> tuple[bytes, int]:
        """What bytes from a place on have of the body, and the place behind it."""


class Sized:
    """A body of so many bytes."""

    def __init__(self, size: int) -> None:
        self.left = size
        self.is_over = not size

    def take(self, data: bytes, at: int) -> tuple[bytes, int]:
        piece = data[at:at + self.left]
        self.left -= len(piece)
        self.is_over = not self.left
        return piece, at + len(piece)


class Chunked:
    """A body in chunks: a line with a size in hexadecimal digits, so many bytes, and the end of a line; the last one
    is empty, and lines may follow it up to an empty one. BadBody where something else comes."""

    def __init__(self) -> None:
        self.is_over = False
        self.left = 0                   # of a chunk
        self.line = b""                 # the beginning of one
        self.is_behind = False          # a chunk's bytes are there, and the end of their line isn't
        self.trailers = -1              # lines behind the last chunk

    def take(self, data: bytes, at: int) -> tuple[bytes, int]:
        parts: list[bytes] = []
        while at < len(data) and not self.is_over:
            if self.left:
                part = data[at:at + self.left]
                parts.append(part)
                at += len(part)
                self.left -= len(part)
                self.is_behind = not self.left
            else:
                at = self.take_line(data, at)
        return b"".join(parts), at

    def take_line(self, data: bytes, at: int) -> int:
        """Takes a line between chunks as far as it is there, and answers the place behind it."""
        end = data.find(b"\n", at, at + LONGEST_LINE)
        piece = data[at:end + 1 if end >= 0 else at + LONGEST_LINE]
        self.line += piece
        if len(self.line) > LONGEST_LINE:
            raise BadBody("a line between chunks is too long")
        if end >= 0:
            line, self.line = self.line, b""
            if not line.endswith(b"\r\n"):
                raise BadBody("a line between chunks has no end")
            self.read_line(line[:-2])
        return at + len(piece)

    def read_line(self, line: bytes) -> None:
        if self.is_behind:
            if line:
                raise BadBody("a chunk is longer than it says")
            self.is_behind = False
        elif self.trailers >= 0:
            self.read_trailer(line)
        else:
            found = CHUNK.fullmatch(line)
            if found is None:
                raise BadBody("a chunk's size isn't one")
            self.left = int(found[1], 16)
            self.trailers = -1 if self.left else 0

    def read_trailer(self, line: bytes) -> None:
        self.trailers += 1
        self.is_over = not line
        if line and (self.trailers > MOST_LINES or TRAILER.fullmatch(line) is None):
            raise BadBody("a line behind the last chunk isn't a header")
