"""The files of the page, and those of Leaflet, which stands where the system has it."""

from __future__ import annotations

import re
from functools import lru_cache
from hashlib import blake2b
from pathlib import Path
from typing import Final
from urllib.parse import urlsplit

from starlette.responses import Response

from catchup.service.errors import Refusal

STATIC: Final = Path(__file__).with_name("static")
LEAFLET: Final = (Path("/usr/share/javascript/leaflet"), Path("/usr/share/nodejs/leaflet/dist"))
"""Where Debian has Leaflet."""
KINDS: Final = {".html": "text/html", ".js": "text/javascript", ".css": "text/css",
                ".png": "image/png", ".svg": "image/svg+xml"}
NAME: Final = re.compile(r"(?:images/)?[A-Za-z0-9][A-Za-z0-9_-]*(?:\.min)?\.[a-z]{2,4}")


@lru_cache
def policy(tiles: str | None) -> str:
    """What the page's browser may load: this service's files alone, and a base map's tiles where there is one."""
    return ("default-src 'none'; script-src 'self'; style-src 'self'; connect-src 'self'; "
            f"img-src 'self' data:{origin_of(tiles)}; base-uri 'none'; form-action 'none'; frame-ancestors 'none'")


def origin_of(tiles: str | None) -> str:
    """The origin of a base map's tiles behind a blank, empty where they are this service's or there are none."""
    if tiles is None or tiles.startswith("/"):
        return ""
    parts = urlsplit(tiles)
    return f" {parts.scheme}://{parts.netloc.replace('{s}', '*')}"


def file_of(folder: Path, name: str, known: str | None, beside: str = "") -> Response:
    """A file of a folder by its name; a Refusal where there is none. `known` is what a browser says that it has
    (If-None-Match): of that file it is only told that it is still the same, and so is what stands `beside` it in
    headers, which browsers may keep."""
    kind = KINDS.get(Path(name).suffix)
    if kind is None or not NAME.fullmatch(name):
        raise Refusal(404, "there is nothing of this path")
    try:
        body = (folder / name).read_bytes()
    except OSError:
        raise Refusal(404, "there is nothing of this path") from None
    # Asked for anew each time, so that a page never has parts of two releases.
    tag = tag_of(body + beside.encode())
    headers = {"Cache-Control": "no-cache", "ETag": tag, "X-Content-Type-Options": "nosniff"}
    if is_among(tag, known):
        return Response(status_code=304, headers=headers)
    return Response(body, media_type=kind, headers=headers)


def tag_of(body: bytes) -> str:
    """What tells a file's bytes from all others (ETag)."""
    return f'"{blake2b(body, digest_size=12).hexdigest()}"'


def is_among(tag: str, known: str | None) -> bool:
    """Whether a tag is one of those that a browser has. A proxy that packs an answer calls its tag a weak one."""
    if known is None:
        return False
    return known.strip() == "*" or tag in (each.strip().removeprefix("W/") for each in known.split(","))


def leaflet_folder(said: Path | None) -> Path | None:
    """Where Leaflet is: in a folder that was named, or where Debian puts it; None where it isn't installed."""
    for folder in (said,) if said is not None else LEAFLET:
        if (folder / "leaflet.js").is_file():
            return folder
    return None
