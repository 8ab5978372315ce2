"""catchup-tables: makes the three tables of places and streets of one's own."""

from __future__ import annotations

import shlex
from pathlib import Path
from typing import TYPE_CHECKING, NoReturn

import click

from catchup.commands._run import run
from catchup.commands._words import FileWord

if TYPE_CHECKING:
    from catchup.own_data import OwnNetwork

# Up to so many nodes the order that needs no tool is good enough.
SMALL = 5_000


@click.command(epilog="Example: catchup-tables --share places.csv streets.csv")
@click.argument("places", type=FileWord())
@click.argument("streets", type=FileWord())
@click.option("--out", type=FileWord(), default=Path("."), help="The folder to write into; here by default.")
@click.option("--share", is_flag=True, help="Streets that take the same share a profile: an edit changes them all.")
@click.option("--degrees", is_flag=True, help="Shrink x by the latitude, so that drawings look as a map does.")
def command(places: Path, streets: Path, out: Path, share: bool, degrees: bool) -> None:
    """Makes nodes.csv, roads.csv and profiles.csv for 'catchup build', and ids.csv, which tells each node's id.

    PLACES is a CSV of id,longitude,latitude; an id is any text. STREETS is one of from,to and the seconds that the street
    takes in each of the 24 hours (columns 0 to 23), or all day (one column seconds); a street is one way. With a header
    there may be two more columns: closed (yes, or times as 22:00-06:00, at whose end the street opens for who waits) and
    ferry (departures as 06:00 07:30). Without a header the columns are in this order.

    Who leaves later never arrives earlier: who would be overtaken arrives with the first who wouldn't.
    """
    from catchup.own_data import check_apart, make_network, write_own

    check_apart(out, places, streets)
    made = make_network(places, streets, share=share, in_metres=degrees)
    _check_limits(made)
    write_own(made, out)
    network = made.network
    click.echo(f"made {len(network.nodes)} nodes, {len(network.roads)} roads, {len(network.profiles)} profiles")
    click.echo(f"next: {_next_command(out, len(network.nodes))}")


def main() -> NoReturn:
    """The command as a program."""
    run(command, "catchup-tables")


def _check_limits(made: OwnNetwork) -> None:
    from catchup.tables import MOST_NODES, MOST_PROFILES, MOST_ROADS

    network = made.network
    for what, count, most in (
        ("places", len(network.nodes), MOST_NODES),
        ("streets", len(network.roads), MOST_ROADS),
        ("profiles", len(network.profiles), MOST_PROFILES),
    ):
        if count > most:
            click.echo(f"catchup-tables: {count} {what} are more than catchup takes ({most}): see docs/USING.md", err=True)


def _next_command(folder: Path, nodes: int) -> str:
    from catchup.tables import NODES_FILE, PROFILES_FILE, ROADS_FILE

    at = "" if folder == Path(".") else f"{shlex.quote(str(folder))}/"
    tables = f"{at}{NODES_FILE} {at}{ROADS_FILE}"
    if nodes <= SMALL:
        return f"catchup build {tables} {at}{PROFILES_FILE} dissect {at}map.cu"
    return f"catchup-order {tables} > {at}order.csv && catchup build {tables} {at}{PROFILES_FILE} {at}order.csv {at}map.cu"
