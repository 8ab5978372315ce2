"""What a service is told as it is started."""

from __future__ import annotations

import ipaddress
import re
from collections.abc import Sequence
from dataclasses import dataclass
from datetime import datetime
from functools import lru_cache
from pathlib import Path
from typing import Final
from zoneinfo import ZoneInfo, ZoneInfoNotFoundError

from catchup.errors import Failure, WrongWords
from catchup.service.gates import OWN_NAMES, Gates, as_compared, name_as_compared, origin_as_compared

NAMED: Final = re.compile(r"([A-Za-z0-9_.-]{1,64})=(.+)", re.DOTALL)
TILES: Final = re.compile(r"(?:https?://(?:\{s\}\.)?[A-Za-z0-9_.\[\]:-]{1,255})?/[A-Za-z0-9_.~%/{}@?=&+-]{1,1000}")
TOKEN: Final = re.compile(rb"[!-~]{16,4096}")


@dataclass(frozen=True, slots=True)
class Served:
    """A packed file with its name, and the folder of its tables where the page may draw it."""

    name: str | None
    path: Path
    tables: Path | None = None


@dataclass(frozen=True, slots=True)
class Options:
    """A service's options, each looked through."""

    files: tuple[Served, ...] = ()
    host: str = "127.0.0.1"
    port: int = 8080
    workers: int = 1
    names: tuple[str, ...] = ()
    origins: tuple[str, ...] = ()
    token: Path | None = None
    log: str | None = None
    has_access_log: bool = False
    has_docs: bool = False
    zone: str | None = None
    tiles: str | None = None            # where the page's base map is
    attribution: str | None = None      # whose it is
    leaflet: Path | None = None         # a folder with Leaflet, where it isn't the system's

    def now(self) -> int:
        """The second of the day that it is, in the zone of the roads; in this machine's where none is said."""
        time = datetime.now(None if self.zone is None else zone_of(self.zone))
        return time.hour * 3600 + time.minute * 60 + time.second

    def gates(self) -> Gates:
        """Who gets in. The token is read anew at each start of a worker, so a new one comes in by SIGHUP."""
        return Gates.of((*OWN_NAMES, self.host, *self.names), self.origins, read_token(self.token))


@lru_cache
def zone_of(name: str) -> ZoneInfo:
    """A time zone by its name."""
    try:
        return ZoneInfo(name)
    except (ValueError, OSError, ZoneInfoNotFoundError):
        raise WrongWords(f"--zone {name!r} is no time zone of this machine: write it as Europe/Zurich") from None


def is_loopback(host: str) -> bool:
    """Whether an address is this machine's alone."""
    if host == "localhost":
        return True
    try:
        return ipaddress.ip_address(host).is_loopback
    except ValueError:
        return False


def read_token(path: Path | None) -> bytes | None:
    """The token of a file: one line."""
    if path is None:
        return None
    try:
        with open(path, "rb") as file:
            token = file.read(8192).strip()
    except OSError as problem:
        raise Failure(f"the token {path} can't be read: {problem.strerror}") from None
    if not TOKEN.fullmatch(token):
        raise Failure(f"{path} holds no token: one line of 16 to 4096 letters, digits and signs (openssl rand -hex 32)")
    return token


def served_of(words: Sequence[str], tables: Sequence[str]) -> tuple[Served, ...]:
    """The files of `FILE` or `NAME=FILE`, with the folders of `DIR` or `NAME=DIR`: one without a name is of each file
    that has none of its own."""
    paths = paths_of(words)
    folders = dict(parted(word) for word in tables)
    of_others = folders.pop(None, None)
    tables_of = {name: folders.pop(name, of_others) if name is not None else of_others for name in paths}
    if of_others is not None and of_others not in tables_of.values():
        folders[None] = of_others
    if folders:
        raise WrongWords(f"--tables names no served file: {next(iter(folders.values()))}")
    return tuple(Served(name, resolved(path), tables_of[name]) for name, path in paths.items())


def paths_of(words: Sequence[str]) -> dict[str | None, Path]:
    """The files of `FILE` or `NAME=FILE`, by their names."""
    paths: dict[str | None, Path] = {}
    for word in words:
        name, path = parted(word)
        if name in paths:
            raise WrongWords(f"{name or path} is named twice: give each file a name of its own, as car={path}")
        paths[name] = path
    return paths


def parted(word: str) -> tuple[str | None, Path]:
    if not word:
        raise WrongWords("write FILE or NAME=FILE, and not an empty word")
    named = NAMED.fullmatch(word)
    return (named[1], Path(named[2])) if named else (None, Path(word))


def resolved(path: Path) -> Path:
    """Where a file is, behind all links: the next versions are put there."""
    try:
        found = path.resolve(strict=True)
    except (OSError, RuntimeError) as problem:
        said = problem.strerror if isinstance(problem, OSError) else "its links lead in a circle"
        raise Failure(f"{path} can't be read: {said}") from None
    if not is_text(found):
        raise Failure(f"{ascii(str(found))} has a name that isn't UTF-8, which the program doesn't take: rename it")
    if not found.is_file():
        raise Failure(f"{path} is no file: the packed file that `catchup build` makes is needed")
    return found


def is_text(path: Path) -> bool:
    """Whether a path is UTF-8."""
    try:
        str(path).encode()
    except UnicodeEncodeError:
        return False
    return True


def check_words(options: Options) -> None:
    """Refuses options that are wrong, or don't go together, whatever the files hold."""
    check_host(options)
    for name in options.names:
        check_name(name)
    for origin in options.origins:
        if origin_as_compared(origin) is None:
            raise WrongWords(f"--origin {origin!r} is no origin: write it as https://maps.example.org")
    if options.tiles is not None and not (TILES.fullmatch(options.tiles) and all(
            word in options.tiles for word in ("{z}", "{x}", "{y}"))):
        raise WrongWords(f"--tiles {options.tiles!r} is no address of tiles: "
                         "write it as https://tiles.example.org/{z}/{x}/{y}.png")
    if options.zone is not None:
        zone_of(options.zone)
    if options.log is not None:
        # Only a service with a stream needs Redis.
        from catchup.service.replicas import parted as parted_log

        parted_log(options.log)


def check_name(name: str) -> None:
    """Refuses a name that no Host could be compared with."""
    if name_as_compared(name) is not None:
        return
    if (found := as_compared(name)) is not None:
        raise WrongWords(f"--name {name} has a port in it: write it as --name {found[0]}, which serves it at each port")
    found = as_compared(name.rpartition("://")[2].partition("/")[0])
    meant = found[0] if found is not None else "maps.example.org"
    raise WrongWords(f"--name {name!r} is no name of a machine: write it as {meant}")


def check_host(options: Options) -> None:
    """Refuses an address that nobody can listen on, and one that is open to others without a token."""
    if not options.host:
        raise WrongWords("--host is empty: write an address, as 127.0.0.1")
    if options.host.startswith("["):
        raise WrongWords(f"--host {options.host} is an address in brackets: write it as {options.host.strip('[]')}")
    if not is_loopback(options.host) and options.token is None:
        raise WrongWords(f"on {options.host} others could edit the network: --token FILE is needed")


def check_files(options: Options) -> None:
    """Refuses files of options that can't be used."""
    read_token(options.token)
    if options.leaflet is not None and not (options.leaflet / "leaflet.js").is_file():
        raise Failure(f"--leaflet {options.leaflet} has no leaflet.js")
