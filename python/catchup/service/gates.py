"""Who gets in: the names that are served, pages of other origins, and who may write."""

from __future__ import annotations

import hmac
import ipaddress
import re
from collections.abc import Iterable, Mapping
from dataclasses import dataclass, field
from typing import Final

from catchup.service.errors import Refusal

OWN_NAMES: Final = ("localhost", "127.0.0.1", "[::1]")
READS: Final = frozenset(["GET", "HEAD", "OPTIONS"])
DEFAULT_PORTS: Final = {"http": 80, "https": 443}
LAST_PORT: Final = 65_535
HOST: Final = re.compile(
    r"(?:\[(?P<address>[0-9a-f:.%]+)\]|(?P<name>[a-z0-9_-][a-z0-9_.-]*))(?::(?P<port>[0-9]{0,5}))?", re.ASCII)
MOST_SEEN: Final = 256
EXPOSED: Final = "Catchup-Version, Location, Retry-After"

Read = Mapping[bytes, bytes]


def as_compared(host: str) -> tuple[str, int | None] | None:
    """What a Host, or a name that is to be served, is compared by: its name and its port, None where it says none.
    Names are in small letters and without the dot that may stand at their end, addresses of IPv6 in their shortest
    form. None where it is no Host."""
    found = HOST.fullmatch(host.strip().lower())
    if found is None or found["port"] and int(found["port"]) > LAST_PORT:
        return None
    port = int(found["port"]) if found["port"] else None
    if found["address"] is None:
        return found["name"].removesuffix("."), port
    address = as_address(found["address"])
    return None if address is None else (address, port)


def as_address(text: str) -> str | None:
    """An address of IPv6 as a Host has it: in brackets, and without the part that only its own machine knows. None
    where it is none."""
    try:
        return f"[{ipaddress.IPv6Address(text.partition('%')[0])}]"
    except ValueError:
        return None


def name_as_compared(name: str) -> str | None:
    """What a name that is to be served is compared by; an address of IPv6 may stand without brackets. None where it is
    no name, or has a port."""
    if (address := as_address(name)) is not None:
        return address
    found = as_compared(name)
    return found[0] if found is not None and found[1] is None else None


def origin_as_compared(origin: str) -> tuple[str, str, int] | None:
    """What an origin is compared by: how it is spoken with, its name and its port. None where it is none."""
    scheme, _, rest = origin.partition("://")
    default, found = DEFAULT_PORTS.get(scheme.lower()), as_compared(rest)
    if default is None or found is None:
        return None
    return scheme.lower(), found[0], found[1] or default


@dataclass(slots=True)
class Gates:
    """What a service lets in. `token` is None where writes need none; `origins` are other origins that may read and
    write. Names and origins are as they are compared."""

    names: frozenset[str]
    origins: frozenset[tuple[str, str, int]]
    token: bytes | None
    seen: set[bytes] = field(default_factory=set)

    @classmethod
    def of(cls, names: Iterable[str], origins: Iterable[str], token: bytes | None) -> Gates:
        """The gates of names and origins as somebody wrote them; what is none is passed over."""
        return cls(frozenset(filter(None, map(name_as_compared, names))),
                   frozenset(filter(None, map(origin_as_compared, origins))), token)

    def check_host(self, read: Read) -> None:
        """Refuses a Host that isn't served, as a page has that made its own name lead here."""
        host = read.get(b"host", b"")
        if host in self.seen:
            return
        found = as_compared(host.decode("latin-1"))
        if found is None or found[0] not in self.names:
            raise Refusal(421, "this name isn't served here", hint="--name NAME serves another one")
        if len(self.seen) >= MOST_SEEN:
            self.seen.clear()
        self.seen.add(host)

    def check_write(self, read: Read) -> None:
        """Refuses a write that a page of elsewhere sends, or that has no token where one is needed."""
        origin = read.get(b"origin")
        if origin is not None and self.is_elsewhere(origin.decode("latin-1"), read.get(b"host", b"").decode("latin-1")):
            raise Refusal(403, "this comes from a page of another origin", hint="--origin ORIGIN lets one in")
        if self.token is None:
            return
        kind, _, given = read.get(b"authorization", b"").partition(b" ")
        if kind.lower() != b"bearer" or not hmac.compare_digest(given.strip(), self.token):
            raise Refusal(401, "a write needs the service's token", hint="send the header Authorization: Bearer TOKEN",
                          headers={"WWW-Authenticate": "Bearer"})

    def is_elsewhere(self, origin: str, host: str) -> bool:
        """Whether an origin is neither this service's nor one that was named."""
        found, own = origin_as_compared(origin), as_compared(host)
        if found is not None and found in self.origins:
            return False
        # Where a Host says no port it is that of the page: who stands before the service may speak TLS.
        return found is None or own is None or found[1:] != (own[0], own[1] or DEFAULT_PORTS[found[0]])

    def shared(self, read: Read) -> dict[str, str]:
        """The headers that let a page of a named origin read an answer."""
        origin = read.get(b"origin", b"").decode("latin-1")
        if not self.origins:
            return {}
        if (found := origin_as_compared(origin)) is None or found not in self.origins:
            return {"Vary": "Origin"}
        return {"Vary": "Origin", "Access-Control-Allow-Origin": origin, "Access-Control-Expose-Headers": EXPOSED}


PREFLIGHT: Final = {
    "Access-Control-Allow-Methods": "GET, HEAD, POST, DELETE",
    "Access-Control-Allow-Headers": "Authorization, Content-Type",
    "Access-Control-Max-Age": "600",
}
