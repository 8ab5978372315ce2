"""The page's paths. They serve the page alone, and may change with it."""

from __future__ import annotations

from typing import Any, Final

from fastapi import APIRouter, Request
from starlette.responses import Response

from catchup.errors import how_to_get
from catchup.service.answers import answer
from catchup.service.errors import Refusal
from catchup.service.page.events import Followers
from catchup.service.page.files import STATIC, file_of, leaflet_folder, policy
from catchup.service.words import take
from catchup.service.worker import worker_of

router = APIRouter(include_in_schema=False)
PREFIX: Final = "/page/"


def known_to(request: Request) -> str | None:
    """The files that a browser says it has."""
    found: str | None = request.headers.get("if-none-match")
    return found


@router.get("/")
async def page(request: Request) -> Response:
    """The page."""
    take(request.scope["query_string"], {})
    allowed = policy(worker_of(request).options.tiles)
    found = file_of(STATIC, "page.html", known_to(request), allowed)
    found.headers["Content-Security-Policy"] = allowed
    found.headers["Referrer-Policy"] = "strict-origin-when-cross-origin"
    return found


@router.get(PREFIX + "leaflet/{name:path}")
async def leaflet(request: Request) -> Response:
    """A file of Leaflet's."""
    folder = leaflet_folder(worker_of(request).options.leaflet)
    if folder is None:
        raise Refusal(404, "Leaflet isn't installed", hint="apt-get install libjs-leaflet, or --leaflet DIR")
    return file_of(folder, request.path_params["name"], known_to(request))


@router.get(PREFIX + "file/{name}")
async def file(request: Request) -> Response:
    """A file of the page's."""
    return file_of(STATIC, request.path_params["name"], known_to(request))


@router.get(PREFIX + "setting")
async def setting(request: Request) -> Response:
    """What the page has to know before it draws anything."""
    asked = take(request.scope["query_string"], {})
    worker = worker_of(request)
    network, options = worker.network(asked.get("profile")), worker.options
    told: dict[str, Any] = {
        "profiles": [each.name for each in worker.networks if each.name is not None], "now": options.now(),
        "token": options.token is not None, "tiles": options.tiles, "attribution": options.attribution, "map": None}
    if network.ground is not None or network in worker.drawn:
        try:
            # Only what is drawn needs numpy.
            from catchup.service.page.answers import map_told
        except ModuleNotFoundError as problem:
            raise Refusal(404, f"the page needs {problem.name}", hint=how_to_get(problem.name or "numpy")) from None
        told["map"] = await map_told(worker, network)
    return answer(told, network.current.name)


@router.get(PREFIX + "events")
async def events(request: Request) -> Response:
    """Which version is served, whenever it changes."""
    asked = take(request.scope["query_string"], {})
    worker, state = worker_of(request), request.app.state
    if not hasattr(state, "followers"):
        state.followers = Followers()
    followers: Followers = state.followers
    return followers.follow(worker, worker.network(asked.get("profile")), request)


async def answered(request: Request) -> Response:
    """What is asked of a drawn network."""
    from catchup.service.page.answers import ANSWERS

    found: Response = await ANSWERS[request.scope["path"].split("/")[2]](request)
    return found


for name in ("traffic", "street", "search", "near", "route", "reach", "ground", "profile"):
    router.add_api_route(PREFIX + name, answered)
router.add_api_route(PREFIX + "roads/{zoom}/{column}/{row}", answered)
