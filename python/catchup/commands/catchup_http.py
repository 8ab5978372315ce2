"""`catchup-http`: serves packed files over HTTP."""

from __future__ import annotations

import os
from dataclasses import replace
from pathlib import Path
from typing import NoReturn

import click

from catchup.commands._run import run
from catchup.commands._words import FileWord, Number

NAME = "catchup-http"


def processors() -> int:
    """How many processors this process may use."""
    return len(os.sched_getaffinity(0))


@click.command(name=NAME, epilog="Example: catchup-http --tables town town/map.cu\n\ndocs/SERVICE.md tells how to run, watch, update and scale a service; docs/FORMATS.md its answers.")
@click.argument("files", metavar="[NAME=]FILE...", nargs=-1, required=True)
@click.option("--port", type=Number(0, 65_535), default="8080", show_default=True, help="The port; 0 takes a free one.")
@click.option("--host", default="127.0.0.1", show_default=True, metavar="ADDRESS", help="Where to listen: this machine alone.")
@click.option("--workers", type=Number(1, 256), default=None, help="Worker processes; one a processor where none is said.")
@click.option("--tables", multiple=True, metavar="[NAME=]DIR",
              help="A folder with the file's tables, for the page; with its map.gpkg places may be coordinates.")
@click.option("--name", "names", multiple=True, metavar="NAME", help="A name under which it is reached; may be said again.")
@click.option("--origin", "origins", multiple=True, metavar="ORIGIN", help="Another page's origin that may read and write.")
@click.option("--token", type=FileWord(), metavar="FILE", help="A file with the token that writes need.")
@click.option("--zone", metavar="ZONE", help="The time zone of the roads, as Europe/Zurich; this machine's by default.")
@click.option("--tiles", metavar="URL",
              help="A base map for the page, as https://tiles.example.org/{z}/{x}/{y}.png; none by default.")
@click.option("--attribution", metavar="TEXT", help="Whose base map that is; OpenStreetMap's where nothing is said.")
@click.option("--leaflet", type=FileWord(), metavar="DIR",
              help="A folder with Leaflet, where the system has none.")
@click.option("--log", metavar="redis://HOST:PORT/0/NAME", help="A stream between replicas.")
@click.option("--access-log/--no-access-log", default=False, help="A line on standard error for each answer; none by default.")
@click.option("--docs", is_flag=True, help="Shows the paths at /docs, by scripts from elsewhere.")
@click.pass_context
def command(
    context: click.Context, files: tuple[str, ...], names: tuple[str, ...], origins: tuple[str, ...],
    tables: tuple[str, ...], **words: object,
) -> None:
    """Serves packed files to many clients over HTTP and JSON, and makes edits of them, each of which is on the disk
    before it is confirmed. FILE is a packed file that `catchup build` made; with NAME=FILE several are served, each as
    a profile."""
    # What only a service needs is read only here: `--help` and wrong words need none of it.
    from catchup.service.options import Options, check_files, check_words, served_of

    options = Options(
        host=str(words["host"]), port=int(str(words["port"])),
        workers=int(str(words["workers"] or processors())), names=names, origins=origins,
        token=words["token"] if isinstance(words["token"], Path) else None,
        log=None if words["log"] is None else str(words["log"]),
        zone=None if words["zone"] is None else str(words["zone"]),
        tiles=None if words["tiles"] is None else str(words["tiles"]),
        attribution=None if words["attribution"] is None else str(words["attribution"]),
        leaflet=words["leaflet"] if isinstance(words["leaflet"], Path) else None,
        has_access_log=bool(words["access_log"]),
        has_docs=bool(words["docs"]))
    check_words(options)
    options = replace(options, files=served_of(files, tables))
    check_files(options)
    from catchup.service.supervisor import start

    start(options)


def main() -> NoReturn:
    """The program."""
    run(command, NAME, serves=True)
