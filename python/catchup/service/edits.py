"""Edits over HTTP: a batch of lines or of JSON, all of which is made or nothing; jobs to ask for and to end."""

from __future__ import annotations

import asyncio
import contextlib
import sqlite3
from collections.abc import Iterator
from pathlib import Path
from typing import Any

from fastapi import APIRouter, Request
from starlette.requests import ClientDisconnect
from starlette.responses import Response

from catchup.service import openapi
from catchup.service.answers import answer, refusal_answer
from catchup.service.editor import Editor, Made, Refused, Work, cancelled, why
from catchup.service.errors import Refusal, told_briefly
from catchup.service.jobs import ENDED, Job, is_damaged, new_name
from catchup.service.limits import CANCEL_SECONDS, LARGE_BODY, LONGEST_JSON, LONGEST_LINES, MOST_WAITING
from catchup.service.roadedits import Edit, edits_of
from catchup.service.spool import Spool, is_left, left_of
from catchup.service.streets import Streets
from catchup.service.words import take
from catchup.service.worker import Worker, worker_of

router = APIRouter()
LOOK_PAUSE = 0.05
ASIDE = "a reload by SIGHUP puts the damaged list of edits aside, and begins another"
OLD = "edits are made by POST /edits: the body is edit lines, or JSON; GET /edits lists them"


def wait_of(word: str) -> bool:
    """Whether the answer waits until the edit is made."""
    if word not in ("0", "1"):
        raise Refusal(400, "wait must be 0 or 1")
    return word == "1"


def is_json(request: Request) -> bool:
    """Whether a body says that it is JSON; whatever else it says, it is lines."""
    return request.headers.get("content-type", "").partition(";")[0].strip().lower() == "application/json"


def check_coding(request: Request) -> None:
    """Refuses a body that is packed, whose lines would be told as wrong ones."""
    if request.headers.get("content-encoding", "").strip().lower() not in ("", "identity"):
        raise Refusal(400, "a body is sent as it is, without Content-Encoding")


@router.post("/edits", **openapi.POST_EDITS)
async def post_edits(request: Request) -> Response:
    """Makes a batch of edits: all of them, or none."""
    asked = take(request.scope["query_string"], {}, {"wait": wait_of})
    check_coding(request)
    worker = worker_of(request)
    network = worker.network(asked.get("profile"))
    editor = worker.editors[network]
    if len(editor.works) >= MOST_WAITING:
        raise Refusal(503, "too many edits wait", hint="ask again once some are made")
    if worker.log is not None:
        worker.log.check(network)
    spool = await take_body(request, editor)
    try:
        edits = await asyncio.to_thread(read_edits, spool, worker.streets[network]) if is_json(request) else None
        if not spool.size:
            raise Refusal(400, "there is no edit line in the body")
        job = await asyncio.to_thread(editor.jobs.add, spool.name)
    except (OSError, sqlite3.Error) as problem:
        await let_go(spool)
        raise Refusal(503, why(problem), hint=hint_of(problem)) from None
    except BaseException:
        await let_go(spool)
        raise
    work = Work(job, spool, edits)
    made = worker.keep(worker.log.make(editor, work) if worker.log is not None else editor.work(work))
    if not asked.get("wait", True):
        return answer(job.answer(), network.current.name, status=202, headers={"Location": f"/edits/{job.id}"})
    return await confirmed(made, worker, editor)


async def take_body(request: Request, editor: Editor) -> Spool:
    """Writes a body to a file as it comes."""
    most = LONGEST_JSON if is_json(request) else LONGEST_LINES
    if int(request.scope["catchup.read"].get(b"content-length", b"0")) > most:
        raise Refusal(413, f"a body of this kind has at most {most} bytes")
    path = editor.network.path
    spool: Spool | None = None
    pieces: list[bytes] = []
    try:
        # In threads: where the disk is busy, a write waits for it.
        async for piece in request.stream():
            pieces.append(piece)
            if sum(map(len, pieces)) >= LARGE_BODY:
                spool = await asyncio.to_thread(stored, spool, path, most, b"".join(pieces))
                pieces = []
        return await asyncio.to_thread(stored, spool, path, most, b"".join(pieces))
    except OSError as problem:
        await let_go(spool)
        raise Refusal(503, why(problem), hint=f"see to {path.parent}") from None
    except ClientDisconnect:
        await let_go(spool)
        raise Refusal(400, "the client went before its body was there") from None
    except BaseException:
        await let_go(spool)
        raise


def stored(spool: Spool | None, path: Path, most: int, piece: bytes) -> Spool:
    """A body's file with one more piece of it; it is made for the first one."""
    found = spool or Spool(path, new_name(), most)
    try:
        found.write(piece, has_lines=most == LONGEST_LINES)
    except BaseException:
        found.close()
        raise
    return found


async def let_go(spool: Spool | None) -> None:
    if spool is not None:
        await asyncio.to_thread(spool.close)


def read_edits(spool: Spool, streets: Streets) -> list[Edit]:
    """The edits of a body of JSON."""
    return edits_of(spool.read(), streets.find)


async def confirmed(made: asyncio.Task[Made], worker: Worker, editor: Editor) -> Response:
    """The answer once this worker serves what was made."""
    version = editor.network.current.name
    try:
        found = await asyncio.shield(made)
    except Refused as refused:
        told: dict[str, Any] = {"error": "refused", **refused.told}
        return answer(told, editor.network.current.name, status=400)
    except Refusal as refusal:
        return refusal_answer(refusal, version)
    now = editor.network.current
    if editor.network.refused is not None and now.digest == found.before:
        raise Refusal(503, f"version {found.after[:12]} is stored and isn't served yet: {editor.network.refused}")
    return answer(found.told(), found.after[:12])


def hint_of(problem: Exception) -> str | None:
    """What is to be done where the list of edits fails."""
    return ASIDE if isinstance(problem, sqlite3.Error) and is_damaged(problem) else None


@contextlib.contextmanager
def read_jobs() -> Iterator[None]:
    """Says so where the list of edits can't be read."""
    try:
        yield
    except sqlite3.Error as problem:
        raise Refusal(503, f"the list of edits can't be read: {problem}", hint=hint_of(problem)) from None


@router.get("/edits", **openapi.GET_EDITS)
async def list_edits(request: Request) -> Response:
    """The jobs of a file, the newest first."""
    asked = take(request.scope["query_string"], {})
    worker = worker_of(request)
    network = worker.network(asked.get("profile"))
    editor = worker.editors[network]
    with read_jobs():
        if await asyncio.to_thread(left_of, editor.network.path, editor.jobs):
            await editor.start()
        jobs = await asyncio.to_thread(editor.jobs.told)
    return answer({}, network.current.name, raw=("jobs", jobs))


async def find_job(worker: Worker, name: str) -> tuple[Editor, Job]:
    """A job with whoever makes it."""
    for editor in worker.editors.values():
        job = await asyncio.to_thread(editor.jobs.find, name)
        if job is None:
            continue
        if is_left(editor.network.path, job):
            # What became of it can be told.
            await editor.start()
            job = await asyncio.to_thread(editor.jobs.find, name) or job
        return editor, job
    raise Refusal(404, f"there is no edit {told_briefly(name)}", hint="GET /edits lists them")


def job_answer(job: Job, editor: Editor) -> Response:
    told = job.answer()
    return answer(told, str(told.pop("version", editor.network.current.name)))


@router.get("/edits/{name}", **openapi.GET_EDIT)
async def get_edit(request: Request) -> Response:
    """What became of a job."""
    take(request.scope["query_string"], {})
    with read_jobs():
        editor, job = await find_job(worker_of(request), request.path_params["name"])
    return job_answer(job, editor)


@router.delete("/edits/{name}", **openapi.DELETE_EDIT)
async def delete_edit(request: Request) -> Response:
    """Ends a job that isn't over."""
    take(request.scope["query_string"], {})
    with read_jobs():
        editor, job = await end_job(worker_of(request), request.path_params["name"])
    return job_answer(job, editor)


async def end_job(worker: Worker, name: str) -> tuple[Editor, Job]:
    """Ends a job, and waits until that is so; a Refusal where it comes to another end."""
    editor, job = await find_job(worker, name)
    if job.is_over:
        raise Refusal(409, f"the edit is {job.state}")
    if worker.log is not None and editor is worker.log.editor:
        raise Refusal(409, "the edit is in the stream", hint="each replica makes it: another edit undoes it")
    if job.id in editor.works:
        editor.works[job.id].cancel(cancelled())
    else:
        await asyncio.to_thread(editor.jobs.cancel, job.id)
    loop = asyncio.get_running_loop()
    last = loop.time() + CANCEL_SECONDS
    while not job.is_over and loop.time() < last:
        await asyncio.sleep(LOOK_PAUSE)
        _, job = await find_job(worker, job.id)
    if not job.is_over:
        raise Refusal(503, "the edit is being ended", hint="ask for it again in a moment")
    if job.state != ENDED:
        raise Refusal(409, f"the edit is {job.state}")
    return editor, job


@router.api_route("/edit", methods=["GET", "POST", "DELETE"], include_in_schema=False)
async def old_edit(request: Request) -> Response:
    """Where edits were made before."""
    raise Refusal(410, "edits are no longer made here", hint=OLD)
