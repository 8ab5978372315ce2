"""What /openapi.json says of each path: its words and its answers, with examples."""

from __future__ import annotations

from typing import Any, Final

from starlette.responses import PlainTextResponse

DESCRIPTION: Final = (
    "The least arrivals on roads whose travel times change over the day. Each answer says which version of the network "
    "it is of, in `version` and in the header `Catchup-Version`. Errors have `error` and, where it helps, `hint`.")
# The paths are below the folder of /openapi.json, which a proxy may have put below a path of its own.
SERVERS: Final[list[dict[str, Any]]] = [{"url": "."}]

VERSION: Final = "3f2a9c01b7de"
DRIVE: Final[dict[str, Any]] = {
    "answer": "arrive", "from": 5, "to": 151, "depart": 28800, "depart_time": "08:00:00", "arrive": 29575,
    "arrive_time": "08:12:55", "days_later": 0, "travel": 775, "roads": [22, 80, 136],
    "legs": [{"from": 5, "to": 151, "depart": 28800, "arrive": 29575, "travel": 775, "roads": [22, 80, 136],
              "seconds": [28800, 28845, 29100]}], "version": VERSION}
CHOICE: Final[dict[str, Any]] = {
    "depart": 28739, "depart_time": "07:58:59", "arrive": 28899, "arrive_time": "08:01:39", "days_later": 0,
    "travel": 160}
NODE: Final = "a node by its number, as 17 or node:17; over a map also lon,lat in degrees, or osm:1234"
NODES: Final = "nodes with commas between, or such places with semicolons between"
TIME: Final = "a second, or a time of day as 08:00 or 08:00:00"
ERRORS: Final = {
    400: ("words that aren't as they must be, or that the program refuses",
          {"error": "refused: node", "version": VERSION}),
    421: ("a Host that isn't served", {"error": "this name isn't served here", "version": VERSION}),
    503: ("the program was ended or has no memory: ask again", {"error": "the program has ended", "version": VERSION}),
}
WRITE_ERRORS: Final = {
    401: ("no token, or a wrong one", {"error": "a write needs the service's token", "version": VERSION}),
    403: ("a page of another origin", {"error": "this comes from a page of another origin", "version": VERSION}),
}

Responses = dict[int, tuple[str, dict[str, Any]]]


def word(name: str, said: str, example: object, *, needed: bool = True, where: str = "query") -> dict[str, Any]:
    """A word of an address."""
    return {"name": name, "in": where, "required": needed, "description": said, "schema": {"type": "string"},
            "example": example}


def response(said: str, example: object) -> dict[str, Any]:
    """An answer in JSON."""
    return {"description": said, "content": {"application/json": {"example": example}}}


def path(summary: str, words: list[dict[str, Any]], example: object, said: str = "the answer", *,
         more: Responses | None = None, body: dict[str, Any] | None = None) -> dict[str, Any]:
    """What a path's route is told: its words, its answers and its body."""
    profile = word("profile", "the name of a served file, the first where none is said", "car", needed=False)
    responses: dict[int | str, dict[str, Any]] = {200: response(said, example)}
    for number, (text, error) in {**ERRORS, **(more or {})}.items():
        responses[number] = response(text, error)
    extra: dict[str, Any] = {"parameters": [*words, profile]}
    if body is not None:
        extra["requestBody"] = body
    return {"summary": summary, "responses": responses, "openapi_extra": extra}


ENDS: Final = [word("from", NODE, "5"), word("to", NODE, "151")]
DEPART: Final = word("depart", TIME, "08:00")
SHAPES: Final = [
    word("geometry", "over a map the form of lines: geojson, polyline6 or none", "geojson", needed=False),
    word("format", "over a map json, or a download: geojson or gpx; Accept may say so too", "json", needed=False)]
VIA: Final = word("via", "places between, in this order, with semicolons between", "20;80", needed=False)
UNREACHED: Final[Responses] = {404: ("there is no route to download", {"error": "unreachable", "version": VERSION})}
PLACED: Final = "the answer; over a map with `places`, and legs with `seconds`, `names`, `metres` and `geometry`"

ROUTE: Final = path("The best drive", [
    *ENDS, VIA, word("depart", TIME + "; or `arrive`", "08:00", needed=False),
    word("arrive", "by when to be there, in place of `depart`; a second counts from the midnight before leaving",
         "09:00", needed=False), *SHAPES],
    DRIVE, PLACED, more=UNREACHED)
LATEST: Final = path(
    "The last departure in time",
    [*ENDS, word("by", TIME + ", counted from the midnight before leaving", "09:00"), *SHAPES],
    {**DRIVE, "answer": "depart", "by": 32400}, PLACED, more=UNREACHED)
DAY: Final = path("The whole day", ENDS, {
    "answer": "day", "from": 5, "to": 151, "pieces": [{"from": 0, "kind": "travel", "value": 160}], "version": VERSION})
BEST: Final = path("The shortest drive that leaves in a window", [
    *ENDS, word("after", TIME, "07:00"), word("before", TIME, "09:00")], {
        "answer": "best", "from": 5, "to": 151, "after": 25200, "before": 32400, "best": CHOICE, "choices": [CHOICE],
        "version": VERSION})
REACH: Final = path("How soon each node is reached", [
    word("from", NODE, "5"), DEPART,
    word("within", "over a map a time, 1 to 86400: the answer is GeoJSON of roads and ground", "900", needed=False),
    word("bands", "in how many parts the time is shown, 0 to 12", "3", needed=False)], {
    "answer": "reach", "from": 5, "depart": 28800, "depart_time": "08:00:00", "arrive": [29025, None, 28800],
    "version": VERSION})
TABLE: Final = path("How soon each target is reached from each source", [
    word("from", NODES, "5,20"), word("to", NODES, "0,80,151"), DEPART], {
        "answer": "table", "from": [5, 20], "to": [0, 80, 151], "depart": 28800, "depart_time": "08:00:00",
        "arrive": [[29025, 29445, 29575], [29055, 29400, 29530]], "version": VERSION})
NETWORK: Final = path("Places of nodes and ends of roads", [], {
    "nodes": [[0, 0], [100, 50]], "roads": [[0, 1], [1, 0]], "version": VERSION},
    more={404: ("the service has no tables", {"error": "the service knows no places", "version": VERSION})})
HEALTH: Final = path("Whether the service is well", [], {"status": "ok", "version": VERSION})
METRICS: Final[dict[str, Any]] = {
    "summary": "Counts for Prometheus", "response_class": PlainTextResponse,
    "responses": {200: {"description": "Prometheus' text", "content": {"text/plain": {
        "example": 'catchup_requests_total{path="/route",status="200"} 1.0'}}}}}

JOB: Final[dict[str, Any]] = {"job": "9f86d081884c7d65", "state": "waiting", "version": VERSION}
LINES: Final = "s,0,0,travel,600\na,12,3\n"
EDITS: Final = {"edits": [
    {"road": 12, "closed": True}, {"road": "osm:1234", "closed": True},
    {"road": 13, "pieces": [{"from": 0, "kind": "travel", "value": 60}]},
    {"road": 14, "profile": 3}, {"profile": 5, "pieces": [{"from": 0, "kind": "travel", "value": 90}]}]}
POST_EDITS: Final = path(
    "Makes a batch of edits: all of them, or none",
    [word("wait", "0 answers at once, with a job to ask for", "1", needed=False)],
    {"before": "0a1b2c3d4e5f", "lines": 2, "version": VERSION}, "the edits are made, stored and served",
    more={**WRITE_ERRORS, 202: ("with wait=0: a job", JOB), 400: ("lines that are refused, so nothing is made", {
        "error": "refused", "refused": [{"line": 3, "word": "fifo 99"}], "count": 1, "version": VERSION}),
        409: ("no profile is spare for a road of its own", {"error": "no spare profile", "version": VERSION}),
        413: ("too long", {"error": "a line has at most 4194304 bytes", "version": VERSION})},
    body={"required": True, "content": {"text/plain": {"example": LINES}, "application/json": {"example": EDITS}}})
GET_EDITS: Final = path("The jobs, newest first", [], {
    "jobs": [{"job": "9f86d081884c7d65", "state": "done", "version": VERSION}], "version": VERSION})
NAME: Final = word("name", "the job's ID", "9f86d081884c7d65", where="path")
UNKNOWN: Final[Responses] = {404: ("no such job", {"error": "there is no edit 9f86", "version": VERSION})}
GET_EDIT: Final = path("What became of a job", [NAME], {**JOB, "state": "done"}, more=UNKNOWN)
DELETE_EDIT: Final = path(
    "Ends a job", [NAME], {**JOB, "state": "ended"}, "it is ended, and nothing has changed", more={
        **UNKNOWN, **WRITE_ERRORS, 409: ("it is over", {"error": "the edit is done", "version": VERSION})})
