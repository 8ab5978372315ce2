"""The folder that an import makes: whole, or not at all."""
from __future__ import annotations

import os
import secrets
import shutil
import signal
from collections.abc import Callable, Iterator
from contextlib import contextmanager
from pathlib import Path

from catchup import tables
from catchup.errors import Failure
from catchup.mapfile import write_map
from catchup.maps.importing import Made
from catchup.order import MetisMissing, metis_order
from catchup.program import run_program

Tell = Callable[[str], None]

NODES, ROADS, PROFILES, ORDER = "nodes.csv", "roads.csv", "profiles.csv", "order.csv"
MAP, REPORT, PACKED = "map.gpkg", "report.txt", "map.cu"
_ROOM = ".catchup-import"


def check_folder(folder: Path, force: bool) -> None:
    """Failure where a folder is in the way; with `force` one that has something in it isn't."""
    if folder.exists() and not folder.is_dir():
        raise Failure(f"{folder}: this is a file, and no folder")
    if not folder.resolve().parent.is_dir():
        raise Failure(f"{folder}: there is no folder to make it in")
    if folder.is_dir() and not force and _holds_more(folder):
        raise Failure(f"{folder}: this folder isn't empty; name another, or replace what an import makes in it by "
                      "--force")


def _holds_more(folder: Path) -> bool:
    """Whether a folder has anything but what imports in work have there, or what one left that was killed."""
    return any(not entry.match(f"{_ROOM}.*.part") for entry in folder.iterdir())


@contextmanager
def making(folder: Path, force: bool) -> Iterator[Path]:
    """A folder to make all in, which becomes `folder` when the block has ended well, and else goes.

    Where `folder` is there already it stays the same one, and gets all that was made: it may be the folder that somebody
    is in, or a mounted one. With `force` what is in it and isn't made anew, but for a packed file, is kept.
    """
    target = folder.resolve()
    is_there = target.is_dir()
    mark = secrets.token_hex(4)
    room = target / f"{_ROOM}.{mark}.part" if is_there else target.with_name(f".{target.name}.{mark}.part")
    try:
        room.mkdir()
    except OSError as fault:
        raise Failure(f"{folder} can't be {'written' if is_there else 'made'}: {fault.strerror}") from fault
    try:
        yield room
        if is_there:
            _fill(room, target, force)
        else:
            os.rename(room, target)
    except Failure as fault:
        # Nobody but this function knows of the other folder.
        raise Failure(str(fault).replace(str(room), str(folder))) from fault
    except OSError as fault:
        raise Failure(f"{folder} can't be written: {fault.strerror or fault}") from fault
    finally:
        shutil.rmtree(room, ignore_errors=True)


def _fill(room: Path, target: Path, force: bool) -> None:
    """Puts all that is in a folder into the one around it, in the place of what an import made there before."""
    if not force and _holds_more(target):
        raise Failure(f"{target}: this folder was empty, and now isn't")
    made = [entry.name for entry in room.iterdir()]
    old = room.with_suffix(".old")
    # Who interrupts it now does so once all is put.
    blocked = signal.pthread_sigmask(signal.SIG_BLOCK, (signal.SIGINT, signal.SIGTERM, signal.SIGHUP))
    try:
        old.mkdir()
        _swap(room, target, old, made)
        shutil.rmtree(old)
    finally:
        signal.pthread_sigmask(signal.SIG_SETMASK, blocked)


def _swap(room: Path, target: Path, old: Path, made: list[str]) -> None:
    """Moves what a folder has of these names, and a packed file, to `old`, and then all that was made into it; or where
    that fails all back."""
    moved: list[tuple[Path, Path]] = []
    try:
        for name in {*made, PACKED}:
            if os.path.lexists(target / name):
                os.rename(target / name, old / name)
                moved.append((target / name, old / name))
        for name in made:
            os.rename(room / name, target / name)
            moved.append((room / name, target / name))
    except OSError:
        for before, now in reversed(moved):
            os.rename(now, before)
        old.rmdir()
        raise


def write_all(made: Made, folder: Path, build: bool, tell: Tell) -> list[str]:
    """Writes tables, order, map and report of a network, and the packed file where that is asked for.

    Returns what whoever asked should hear.
    """
    said: list[str] = []
    tell("writing tables")
    tables.write_network(folder, made.network)
    tell("writing map.gpkg")
    write_map(folder / MAP, made.map, made.names, made.point_osm)
    tell("ordering the nodes")
    roads = made.network.roads
    try:
        tables.write_order(folder / ORDER, metis_order(len(made.network.nodes), roads.tail, roads.head))
    except MetisMissing:
        _run("order", folder, ORDER)
        said.append("metis isn't installed, so the order is that of a plain dissection: answers take longer. "
                    "'apt-get install metis', and import again")
    (folder / REPORT).write_text(made.report, encoding="utf-8")
    if build:
        tell("building map.cu")
        _run("build", folder, ORDER, PACKED)
    return said


def _run(command: str, folder: Path, *names: str) -> None:
    """Runs the program over the tables of a folder; Failure where it ends ill."""
    words = [command, *(str(folder / name) for name in (NODES, ROADS, PROFILES, *names))]
    done = run_program(words)
    if done.status:
        text = " ".join((done.output + " " + done.error).split())
        raise Failure(f"catchup {command} ended with status {done.status}: {text or 'without a word'}")
