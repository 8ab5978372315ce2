"""The edits of a file that were asked for, each with what became of it: an SQLite database beside the file, so that
every worker knows them and the next start too."""

from __future__ import annotations

import contextlib
import json
import os
import secrets
import sqlite3
import time
from collections.abc import Iterator
from dataclasses import dataclass, field
from pathlib import Path
from typing import Final

from catchup.service.limits import KEPT_JOBS

WAITING, WORKING, DONE, REFUSED, ENDED = "waiting", "working", "done", "refused", "ended"
STATES: Final = (WAITING, WORKING, DONE, REFUSED, ENDED)
ACTIVE: Final = (WAITING, WORKING)
DAMAGED: Final = ("SQLITE_NOTADB", "SQLITE_CORRUPT")    # how such errors' names begin

TABLE: Final = """
CREATE TABLE IF NOT EXISTS jobs (
    number INTEGER PRIMARY KEY AUTOINCREMENT,
    id TEXT NOT NULL UNIQUE,
    state TEXT NOT NULL,
    asked REAL NOT NULL,
    cancel INTEGER NOT NULL DEFAULT 0,
    after TEXT,
    told TEXT NOT NULL DEFAULT '{}'
)"""


@dataclass(slots=True)
class Job:
    """One edit: `told` is what its answer says besides its state, `after` the digest of the file that it was about
    to make."""

    id: str
    state: str
    asked: float
    is_cancelled: bool = False
    after: str | None = None
    told: dict[str, object] = field(default_factory=dict)

    @property
    def is_over(self) -> bool:
        """Whether nothing will become of it any more."""
        return self.state not in ACTIVE

    def answer(self) -> dict[str, object]:
        """The job's object, without the version of whoever answers: that of a job which is done is its own."""
        return {"job": self.id, "state": self.state, **self.told}


def new_name() -> str:
    """An ID that nobody guesses."""
    return secrets.token_hex(8)


def is_damaged(problem: sqlite3.Error) -> bool:
    """Whether an error says that the file is no database, or no whole one."""
    return getattr(problem, "sqlite_errorname", "").startswith(DAMAGED)


class Jobs:
    """The jobs of one file. Its calls wait for the disk, and are made in threads."""

    def __init__(self, path: Path) -> None:
        self.path = path.with_name(path.name + ".jobs")

    @contextlib.contextmanager
    def opened(self) -> Iterator[sqlite3.Connection]:
        """The database, in a transaction."""
        base = sqlite3.connect(self.path, timeout=10)
        try:
            # A process that is killed loses nothing by this; a machine that stops may lose jobs, and no edit.
            base.execute("PRAGMA synchronous=OFF")
            base.execute(TABLE)
            with base:
                yield base
        finally:
            base.close()

    def is_whole(self) -> bool:
        """Whether the file is a whole database, or isn't there yet."""
        if not self.path.exists():
            return True
        try:
            with self.opened() as base:
                return bool(base.execute("PRAGMA quick_check(1)").fetchone() == ("ok",))
        except sqlite3.Error as problem:
            if not is_damaged(problem):
                raise
            return False

    def put_aside(self) -> Path:
        """Renames the file, so that the next job begins another, and answers its new name. What was to be undone in it
        goes first: it would be undone in the next one. For the holder of the folder's lock alone."""
        self.path.with_name(self.path.name + "-journal").unlink(missing_ok=True)
        aside = self.path.with_name(self.path.name + ".damaged")
        os.replace(self.path, aside)
        return aside

    def add(self, name: str) -> Job:
        """A new job that waits; those past the last thousand are forgotten."""
        job = Job(name, WAITING, time.time())
        with self.opened() as base:
            base.execute("INSERT INTO jobs (id, state, asked) VALUES (?, ?, ?)", (job.id, job.state, job.asked))
            base.execute("DELETE FROM jobs WHERE number <= (SELECT MAX(number) FROM jobs) - ? AND state NOT IN (?, ?)",
                         (KEPT_JOBS, *ACTIVE))
        return job

    def find(self, name: str) -> Job | None:
        """The job of an ID."""
        if not self.path.exists():
            return None
        with self.opened() as base:
            row = base.execute("SELECT id, state, asked, cancel, after, told FROM jobs WHERE id = ?",
                               (name,)).fetchone()
        return None if row is None else job_of(row)

    def active(self) -> list[Job]:
        """Those of which nothing has become yet."""
        if not self.path.exists():
            return []
        with self.opened() as base:
            rows = base.execute("SELECT id, state, asked, cancel, after, told FROM jobs WHERE state IN (?, ?) "
                                "ORDER BY number DESC", ACTIVE).fetchall()
        return [job_of(row) for row in rows]

    def all(self) -> list[Job]:
        """All that are kept, the newest first."""
        if not self.path.exists():
            return []
        with self.opened() as base:
            rows = base.execute("SELECT id, state, asked, cancel, after, told FROM jobs ORDER BY number DESC LIMIT ?",
                                (KEPT_JOBS,)).fetchall()
        return [job_of(row) for row in rows]

    def told(self) -> bytes:
        """The objects of all that are kept as a list in JSON, the newest first; what was told of each is JSON
        already."""
        if not self.path.exists():
            return b"[]"
        with self.opened() as base:
            rows = base.execute("SELECT id, state, told FROM jobs ORDER BY number DESC LIMIT ?",
                                (KEPT_JOBS,)).fetchall()
        return ("[" + ",".join(object_of(*row) for row in rows) + "]").encode()

    def counts(self) -> dict[str, int]:
        """How many jobs there are in each state."""
        found = dict.fromkeys(STATES, 0)
        if self.path.exists():
            with self.opened() as base:
                found.update(base.execute("SELECT state, COUNT(*) FROM jobs GROUP BY state").fetchall())
        return found

    def begin(self, job: Job, after: str | None = None) -> bool:
        """Notes that a job is worked at, and what file it is about to put in place; not where it is to be ended."""
        with self.opened() as base:
            done = base.execute("UPDATE jobs SET state = ?, after = ? WHERE id = ? AND cancel = 0 AND state IN (?, ?)",
                                (WORKING, after, job.id, *ACTIVE))
            return done.rowcount == 1

    def end(self, job: Job, state: str, told: dict[str, object] | None = None) -> None:
        """Notes what became of a job."""
        job.state, job.told = state, told or {}
        text = json.dumps(job.told, separators=(",", ":"))
        with self.opened() as base:
            base.execute("UPDATE jobs SET state = ?, told = ? WHERE id = ?", (state, text, job.id))

    def cancel(self, name: str) -> None:
        """Asks whoever works at a job to end it."""
        with self.opened() as base:
            base.execute("UPDATE jobs SET cancel = 1 WHERE id = ? AND after IS NULL", (name,))


def object_of(name: str, state: str, told: str) -> str:
    """A job's object in JSON."""
    return f'{{"job":"{name}","state":"{state}"{"," * (told != "{}")}{told[1:]}'


def job_of(row: tuple[str, str, float, int, str | None, str]) -> Job:
    name, state, asked, cancel, after, told = row
    return Job(name, state, asked, bool(cancel), after, json.loads(told))
