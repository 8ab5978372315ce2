"""order-by-metis: prints the order of ndmetis alone."""

from __future__ import annotations

import sys
from pathlib import Path
from typing import NoReturn

import click

from catchup.commands._run import run
from catchup.commands._words import FileWord


@click.command(epilog="Example: order-by-metis nodes.csv roads.csv > order.csv")
@click.argument("nodes", type=FileWord())
@click.argument("roads", type=FileWord())
def command(nodes: Path, roads: Path) -> None:
    """Prints an order of the nodes by ndmetis (Debian's package metis): one node a line, the lowest rank first.

    NODES and ROADS are the tables node,x,y and arc,tail,head,profile. Nodes without roads get the lowest ranks.
    'catchup-order' makes a better one in less time.
    """
    from catchup.order import order_by_ndmetis
    from catchup.tables import order_text, read_nodes, read_roads

    places = read_nodes(nodes)
    table = read_roads(roads, len(places))
    sys.stdout.buffer.write(order_text(order_by_ndmetis(len(places), table.tail, table.head)))


def main() -> NoReturn:
    """The command as a program."""
    run(command, "order-by-metis")
