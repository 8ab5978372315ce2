"""The paths of OSRM's API: /nearest/v1/.., /route/v1/.. and /table/v1/.., and what is answered to others like these."""

from __future__ import annotations

import json
from collections.abc import Callable, Sequence
from dataclasses import dataclass, field
from typing import TYPE_CHECKING, Any, Final

from fastapi import APIRouter, Request
from starlette.responses import Response

from catchup.service.errors import Refusal
from catchup.service.osrm import described
from catchup.service.osrm.address import SERVICES, UNANSWERED, AskedNearest, AskedRoute, AskedTable, parse
from catchup.service.osrm.faults import Fault

if TYPE_CHECKING:
    from catchup.service.placed import Placed

KIND: Final = "application/json; charset=UTF-8"
# Whatever begins as an address of OSRM's gets an answer in its form, be it an error.
OTHERS: Final = ("/{service}/v{version:int}/{rest:path}", *(
    f"/{service}/{{first}}{rest}" for service in (*SERVICES, *UNANSWERED) for rest in ("", "/{rest:path}")))
CODES: Final = {500: "InternalError", 503: "Unavailable"}

Find = Callable[[str], "Placed | None"]
"""The places of a profile's network, None where it has none; a Refusal where there is no such profile."""


@dataclass(frozen=True, slots=True)
class Answer:
    """An answer's status and body, the name of the version that it is of, and what other headers it has."""

    status: int
    body: bytes
    version: str
    headers: dict[str, str] = field(default_factory=dict)


@dataclass(frozen=True, slots=True)
class Osrm:
    """OSRM's services over the served networks. now: the second of the day that it is. version: the name of the version
    that an error is of which comes before any network is known."""

    find: Find
    now: Callable[[], int]
    version: Callable[[], str]

    async def answer(self, path: bytes, query: bytes) -> Answer:
        """What is answered to an address, of whose path and query this is the text as it came."""
        version = self.version()
        try:
            asked = parse(path, query)
            placed = self.placed(asked.profile)
            version = placed.version.name
            with placed.version.held():
                members = await self.members(asked, placed)
        except (Fault, Refusal) as problem:
            return refused(problem, version)
        return found(members, version)

    def answer_nearest(self, path: bytes, query: bytes) -> Answer:
        """The same of an address of /nearest, for which the program is asked nothing, so nobody waits."""
        version = self.version()
        try:
            asked = parse(path, query)
            assert isinstance(asked, AskedNearest)
            placed = self.placed(asked.profile)
            version = placed.version.name
            # Only a service with maps needs what these need.
            from catchup.service.osrm import answers, guide

            members = answers.nearest(asked, placed, guide.guide_of(placed.places.ground))
        except (Fault, Refusal) as problem:
            return refused(problem, version)
        return found(members, version)

    def placed(self, profile: str) -> Placed:
        """The places of a profile's network. Raises Fault."""
        try:
            placed = self.find(profile)
        except Refusal as refusal:
            raise Fault("InvalidValue", refusal.hint or refusal.error) from None
        if placed is None:
            raise Fault("NotImplemented", "the service knows no places: start it with --tables DIR, the folder that "
                        "catchup-import made")
        return placed

    async def members(self, asked: AskedNearest | AskedRoute | AskedTable, placed: Placed) -> Sequence[str]:
        """What a service answers, as members of a JSON object, in parts of a text."""
        # Only a service with maps needs what these need.
        from catchup.service.osrm import answers, guide

        ground = guide.guide_of(placed.places.ground)
        now = self.now() if asked.depart is None else asked.depart
        if isinstance(asked, AskedRoute):
            return await answers.drive(asked, placed, ground, now)
        if isinstance(asked, AskedTable):
            return await answers.table(asked, placed, ground, now)
        return answers.nearest(asked, placed, ground)


def found(members: Sequence[str], version: str) -> Answer:
    """An answer that is none of an error."""
    body = "".join(['{"code":"Ok","data_version":"', version, '",', *members, "}"])
    return Answer(200, body.encode("ascii"), version)


def refused(problem: Fault | Refusal, version: str) -> Answer:
    """What is answered in place of one."""
    if isinstance(problem, Fault):
        return told(problem.status, problem.told(), version)
    hint = f": {problem.hint}" if problem.hint else ""
    code = CODES.get(problem.status, "InvalidValue")
    return told(problem.status, {"code": code, "message": f"{problem.error}{hint}"}, version, problem.headers)


def told(status: int, said: dict[str, Any], version: str, headers: dict[str, str] | None = None) -> Answer:
    """An answer that is an error."""
    body = json.dumps({**said, "data_version": version}, separators=(",", ":"))
    return Answer(status, body.encode("ascii"), version, headers or {})


def make_router(osrm: Osrm) -> APIRouter:
    """The routes of OSRM's paths."""
    router = APIRouter()

    async def answer(request: Request) -> Response:
        """What is answered to an address of OSRM's."""
        said = await osrm.answer(request.scope["raw_path"], request.scope["query_string"])
        return Response(said.body, said.status, {**said.headers, "Catchup-Version": said.version}, media_type=KIND)

    for service, words in described.SERVICES.items():
        router.get(f"/{service}/v1/{{profile}}/{{coordinates:path}}", name=service, **words)(answer)
    for path in OTHERS:
        router.get(path, include_in_schema=False)(answer)
    return router
