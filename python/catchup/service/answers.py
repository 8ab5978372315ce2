"""Answers in JSON, and what the program's replies say in it."""

from __future__ import annotations

import json
from typing import Any, Final

from starlette.responses import Response

from catchup.service.errors import Refusal
from catchup.service.words import DAY

_ENCODER: Final = json.JSONEncoder(separators=(",", ":"), ensure_ascii=True)
KIND: Final = "application/json"


def as_json(value: object) -> bytes:
    """Compact JSON, in ASCII."""
    return _ENCODER.encode(value).encode()


def time_of_day(second: int) -> str:
    """`08:00:00`, of a second of any day."""
    rest = second % DAY
    return f"{rest // 3600:02}:{rest // 60 % 60:02}:{rest % 60:02}"


def timed(name: str, second: int) -> dict[str, object]:
    """A second, and the time of day that it is."""
    return {name: second, name + "_time": time_of_day(second)}


def listed(reply: bytes) -> bytes:
    """The entries behind a reply's first word, as a JSON list: arrivals, `null` where no walk leads."""
    return b"[" + reply.partition(b" ")[2].replace(b" ", b",").replace(b"-", b"null") + b"]"


def checked(reply: bytes) -> bytes:
    """A reply that is an answer; of any other it raises what the client gets."""
    if reply.startswith(b"refused: "):
        raise Refusal(400, reply.decode("ascii", "replace"))
    if reply == b"no memory":
        raise Refusal(503, "no memory", hint="another try may find some")
    if b"damaged " in reply[-64:]:
        said = reply[reply.rindex(b"damaged "):].decode("ascii", "replace")
        raise Refusal(500, said, hint="this file wasn't made by `catchup build`: build it anew")
    return reply


def answer(told: dict[str, Any], version: str, *, status: int = 200, headers: dict[str, str] | None = None,
           raw: tuple[str, bytes] | None = None) -> Response:
    """An answer with its version behind all else. `raw` is a member whose value is JSON already."""
    if raw is None:
        body = as_json({**told, "version": version})
    else:
        last = as_json({"version": version})[1:]
        body = b'%b%b"%b":%b,%b' % (as_json(told)[:-1], b"," * bool(told), raw[0].encode(), raw[1], last)
    return Response(body, status, {"Catchup-Version": version, **(headers or {})}, media_type=KIND)


def refusal_answer(refusal: Refusal, version: str) -> Response:
    """What a client gets of a refusal."""
    return answer(refusal.told(), version, status=refusal.status, headers=refusal.headers)
