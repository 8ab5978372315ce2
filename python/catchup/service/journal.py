"""The journal of a file: a line of JSON for each version, with the digests before and after it and the edits
between."""

from __future__ import annotations

import contextlib
import json
import os
import time
from collections.abc import Iterator
from dataclasses import dataclass
from pathlib import Path
from typing import IO, Final

PIECE: Final = 1 << 20
HEAD: Final = 4096                      # bytes of a line within which all but its edits stand
EDITS: Final = b'"edits": ['


@dataclass(frozen=True, slots=True)
class Entry:
    """A line without its edits; `entry` is the stream's entry that made the version, where there is one."""

    before: str
    after: str
    time: str
    entry: str | None


def journal_of(path: Path) -> Path:
    """Where a file's journal is."""
    return path.with_name(path.name + ".journal")


def append(path: Path, entry: Entry, edits: Path) -> None:
    """Writes a line behind the others and flushes it to the disk; where that fails nothing of it is left."""
    with open(journal_of(path), "ab") as journal:
        size = journal.tell()
        try:
            head = json.dumps({"before": entry.before, "after": entry.after, "time": entry.time, "entry": entry.entry})
            journal.write(head[:-1].encode() + b", " + EDITS)
            copy_lines(edits, journal)
            journal.write(b"]}\n")
            journal.flush()
            os.fsync(journal.fileno())
        except BaseException:
            # What couldn't be written would be tried again as the file is closed.
            with contextlib.suppress(OSError):
                journal.flush()
            os.truncate(journal_of(path), size)
            raise


def copy_lines(edits: Path, journal: IO[bytes]) -> None:
    """Writes accepted edit lines as JSON texts with commas between. They hold digits, letters and commas alone."""
    is_first = True
    with open(edits, "rb") as lines:
        rest = b""
        while piece := lines.read(PIECE):
            piece = rest + piece
            cut = piece.rfind(b"\n") + 1
            rest = piece[cut:]
            if cut:
                journal.write(listed(piece[:cut - 1], is_first))
                is_first = False
        if rest:
            journal.write(listed(rest, is_first))


def listed(lines: bytes, is_first: bool) -> bytes:
    text = lines.replace(b"\r", b"").replace(b"\n", b'", "')
    return b'%b"%b"' % (b"" if is_first else b", ", text)


def now() -> str:
    """The time of now as a journal tells it, in UTC."""
    return time.strftime("%Y-%m-%dT%H:%M:%SZ", time.gmtime())


def drop_last_where_not(path: Path, digest: str) -> None:
    """Drops a last line that is half, or whose version never came into the file's place."""
    journal = journal_of(path)
    with contextlib.suppress(FileNotFoundError), open(journal, "r+b") as file:
        size = file.seek(0, os.SEEK_END)
        if not size:
            return
        file.seek(size - 1)
        whole = file.read(1) == b"\n"
        start = line_before(file, size - 1 if whole else size)
        file.seek(start)
        entry = entry_of(file.read(HEAD))
        if not whole or entry is None or entry.after != digest:
            file.truncate(start)
            file.flush()
            os.fsync(file.fileno())


def line_before(file: IO[bytes], end: int) -> int:
    """Where the line begins that ends before a place."""
    while end > 0:
        start = max(end - PIECE, 0)
        file.seek(start)
        found = file.read(end - start).rfind(b"\n")
        if found >= 0:
            return start + found + 1
        end = start
    return 0


def entry_of(line: bytes) -> Entry | None:
    """What the head of a line says."""
    head, found, _ = line.partition(EDITS)
    if not found:
        return None
    try:
        told = json.loads(head.rstrip(b", ") + b"}")
        return Entry(told["before"], told["after"], told["time"], told["entry"])
    except (ValueError, KeyError, TypeError):
        return None


def entries(path: Path) -> Iterator[Entry]:
    """The lines of a file's journal, the oldest first, without their edits."""
    try:
        with open(journal_of(path), "rb") as journal:
            for line in journal:
                entry = entry_of(line[:HEAD])
                if entry is not None:
                    yield entry
    except FileNotFoundError:
        return
