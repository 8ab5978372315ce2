"""What an edit needs in the folder of its file, and how that goes away where a service is killed.

A body is written to `.catchup-edits-ID` as it comes, and stays locked as long as its job lives. The next file is made
as `.catchup-next-ID`, only by the holder of the folder's lock. So whoever holds that lock can tell what killed ones
left.
"""

from __future__ import annotations

import contextlib
import fcntl
import os
from pathlib import Path
from typing import Final

from catchup.service import journal, packed
from catchup.service.errors import Refusal
from catchup.service.jobs import DONE, ENDED, Job, Jobs
from catchup.service.limits import LONGEST_LINE
from catchup.service.process import try_lock

EDITS: Final = ".catchup-edits-"
NEXT: Final = ".catchup-next-"
STORED: Final = ".catchup-stored-"      # as `catchup edit` writes it before it renames


class Spool:
    """A body of edits in a file."""

    def __init__(self, path: Path, name: str, most: int) -> None:
        self.name = name
        self.path = path.with_name(EDITS + name)
        self.most = most
        self.size = 0
        self.run = 0                    # bytes since the last end of a line
        self.descriptor = self.open_locked()

    def open_locked(self) -> int:
        """Makes the file. Whoever takes away what is left may take it for that until it is locked; then it is made
        again."""
        while True:
            descriptor = os.open(self.path, os.O_RDWR | os.O_CREAT | os.O_CLOEXEC, 0o600)
            fcntl.flock(descriptor, fcntl.LOCK_EX)
            if os.fstat(descriptor).st_nlink:
                return descriptor
            os.close(descriptor)

    def write(self, piece: bytes, *, has_lines: bool) -> None:
        """Takes a piece of the body. It is looked at no closer than for its size and that of its lines."""
        self.size += len(piece)
        if self.size > self.most:
            raise Refusal(413, f"a body of this kind has at most {self.most} bytes")
        if has_lines:
            self.measure(piece)
        while piece:
            piece = piece[os.write(self.descriptor, piece):]

    def measure(self, piece: bytes) -> None:
        first = piece.find(b"\n")
        longest = self.run + (len(piece) if first < 0 else first)
        self.run = longest if first < 0 else len(piece) - piece.rfind(b"\n") - 1
        if longest > LONGEST_LINE:
            raise Refusal(413, f"a line has at most {LONGEST_LINE} bytes")

    def read(self) -> bytes:
        """All of it; for bodies that are short."""
        return os.pread(self.descriptor, self.size, 0)

    def close(self) -> None:
        """Removes it."""
        with contextlib.suppress(OSError):
            self.path.unlink()
        if self.descriptor >= 0:
            os.close(self.descriptor)
            self.descriptor = -1


def next_of(path: Path, name: str) -> Path:
    """Where the next file of a job is made."""
    return path.with_name(NEXT + name)


def recover(path: Path, jobs: Jobs, *, is_of_stream: bool = False) -> None:
    """Takes away what killed services left in a file's folder, and says what became of their jobs, but for those of a
    stream, which may be made yet. For the holder of the folder's lock alone."""
    sweep(path)
    try:
        digest = packed.digest_of(str(path))
    except packed.NotPacked:
        # Of a file that can't be served nobody knows which edits made it.
        return
    journal.drop_last_where_not(path, digest)
    if not is_of_stream:
        settle(path, jobs, left_of(path, jobs), digest)


def sweep(path: Path) -> None:
    """Removes files of edits that nobody works at. For the holder of the folder's lock alone."""
    for name in os.listdir(path.parent):
        if name.startswith(NEXT):
            remove(path.with_name(name))
        elif name.startswith((EDITS, STORED)):
            remove_unlocked(path.with_name(name))


def left_of(path: Path, jobs: Jobs) -> list[Job]:
    """The jobs that aren't over, and at which nobody works any more."""
    return [job for job in jobs.active() if is_left(path, job)]


def is_left(path: Path, job: Job) -> bool:
    """Whether nobody works at a job any more that isn't over."""
    return not job.is_over and not path.with_name(EDITS + job.id).exists()


def settle(path: Path, jobs: Jobs, left: list[Job], digest: str) -> None:
    """Says what became of jobs whose process is gone."""
    for job in left:
        made = job.after is not None and (job.after == digest or any(
            entry.after == job.after for entry in journal.entries(path)))
        if made and job.after is not None:
            jobs.end(job, DONE, {"version": job.after[:packed.SHORT]})
        else:
            jobs.end(job, ENDED, {"error": "the service was ended before the edit was made"})


def remove(path: Path) -> None:
    with contextlib.suppress(FileNotFoundError):
        path.unlink()


def remove_unlocked(path: Path) -> None:
    """Removes a file that no running process holds a lock on."""
    try:
        descriptor = os.open(path, os.O_RDONLY | os.O_CLOEXEC)
    except FileNotFoundError:
        return
    try:
        if try_lock(descriptor):
            remove(path)
    finally:
        os.close(descriptor)
