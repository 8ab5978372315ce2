"""catchup-order: prints an order of the nodes that keeps the hierarchy small."""

from __future__ import annotations

import sys
from pathlib import Path
from typing import NoReturn

import click

from catchup.commands._run import run
from catchup.commands._words import FileWord


@click.command(epilog="Example: catchup-order nodes.csv roads.csv > order.csv")
@click.argument("nodes", type=FileWord())
@click.argument("roads", type=FileWord())
@click.argument("profiles", type=FileWord(), required=False)
@click.option("--plain", is_flag=True, help="Let ndmetis order all nodes, with none put first.")
@click.option("--figures", "tell", is_flag=True, help="Tell on standard error what the order makes of the network.")
def command(nodes: Path, roads: Path, profiles: Path | None, plain: bool, tell: bool) -> None:
    """Prints an order of the nodes for 'catchup build': one node a line, the lowest rank first.

    NODES and ROADS are the tables; with PROFILES the roads' profiles are checked too. Nodes of at most two neighbours go
    first, the others as ndmetis (Debian's package metis) orders them. The order decides the speed, and never an arrival.
    """
    from catchup.order import figures, metis_order, order_by_ndmetis
    from catchup.tables import order_text, read_nodes, read_profiles, read_roads

    places = read_nodes(nodes)
    table = read_roads(roads, len(places), len(read_profiles(profiles)) if profiles else None)
    make = order_by_ndmetis if plain else metis_order
    order = make(len(places), table.tail, table.head)
    sys.stdout.buffer.write(order_text(order))
    if tell:
        sys.stdout.flush()
        found = figures(len(places), table.tail, table.head, order)
        click.echo(
            f"edges {found.edges}, triangles {found.triangles},"
            f" edges on the way up from a node {found.mean_ahead:.0f} on average, {found.most_ahead} at most",
            err=True,
        )


def main() -> NoReturn:
    """The command as a program."""
    run(command, "catchup-order")
