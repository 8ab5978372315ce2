"""What a service says of itself: whether it is well, its counts, the page and the network that the page draws."""

from __future__ import annotations

import asyncio
from typing import Any

from fastapi import APIRouter, Request
from fastapi.openapi.docs import get_swagger_ui_html
from starlette.responses import Response

from catchup.service import openapi
from catchup.service.answers import KIND, answer, as_json
from catchup.service.errors import Refusal
from catchup.service.versions import Network
from catchup.service.words import take
from catchup.service.worker import worker_of

router = APIRouter()


@router.get("/health", **openapi.HEALTH)
async def health(request: Request) -> Response:
    """Whether the service is well."""
    take(request.scope["query_string"], {})
    worker = worker_of(request)
    well = await asyncio.gather(*(answers(network) for network in worker.networks))
    told: dict[str, Any] = {"status": "ok"}
    refused = [network.refused for network in worker.networks if network.refused is not None]
    if refused:
        told["refused"] = refused[0]
    if len(worker.networks) > 1:
        told["profiles"] = {str(network.name or ""): network.current.name for network in worker.networks}
    status = 200
    if not all(well):
        status, told = 503, {**told, "status": "down", "error": "a child of this worker doesn't answer"}
    elif worker.is_ending:
        status, told = 503, {**told, "status": "ending", "error": "the service ends"}
    elif worker.log is not None:
        said = worker.log.health()
        told.update(said)
        status = 503 if said.get("status") not in (None, "ok") else 200
    return answer(told, worker.version(), status=status, headers={"Retry-After": "1"} if status == 503 else None)


async def answers(network: Network) -> bool:
    """Whether a network's children answer; those of a version that is replaced meanwhile don't count."""
    version = network.current
    return await version.answers() or (network.current is not version and await network.current.answers())


@router.get("/metrics", **openapi.METRICS)
async def metrics(request: Request) -> Response:
    """The counts of all workers."""
    take(request.scope["query_string"], {})
    worker = worker_of(request)
    versions = [(network.name or "", network.current.name) for network in worker.networks]
    jobs = await asyncio.to_thread(worker.job_counts)
    body = await asyncio.to_thread(worker.metrics.text, versions, jobs)
    return Response(body, media_type="text/plain; version=0.0.4", headers={"Catchup-Version": worker.version()})


@router.get("/network", **openapi.NETWORK)
async def network(request: Request) -> Response:
    """The places of nodes and the ends of roads."""
    asked = take(request.scope["query_string"], {})
    worker = worker_of(request)
    found = worker.network(asked.get("profile"))
    if found not in worker.drawn:
        raise Refusal(404, "the service knows no places",
                      hint="start it with --tables DIR, the folder of its nodes.csv and roads.csv")
    version = found.current.name
    # The places are the same for all versions.
    body = b'%b,"version":"%b"}' % (worker.drawn[found][:-1], version.encode())
    return Response(body, media_type="application/json", headers={"Catchup-Version": version})


@router.get("/openapi.json", include_in_schema=False)
async def described(request: Request) -> Response:
    """What each path takes and answers."""
    take(request.scope["query_string"], {})
    body = as_json(request.app.openapi())
    return Response(body, media_type=KIND, headers={"Catchup-Version": worker_of(request).version()})


@router.get("/docs", include_in_schema=False)
async def docs(request: Request) -> Response:
    """The same for people, by scripts from elsewhere."""
    take(request.scope["query_string"], {})
    if not worker_of(request).options.has_docs:
        raise Refusal(404, "there is nothing of this path", hint="--docs shows it")
    return get_swagger_ui_html(openapi_url="openapi.json", title="catchup")
