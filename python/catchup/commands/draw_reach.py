"""`draw-reach`: a map that is coloured by how soon each node is reached."""

from __future__ import annotations

from pathlib import Path
from typing import NoReturn

import click

from catchup.commands._run import run
from catchup.commands._words import FileWord
from catchup.draw.output import read_input, write_picture
from catchup.draw.reach import draw_reach
from catchup.draw.replies import read_reach
from catchup.draw.tables import read_nodes, read_roads


@click.command(context_settings={"help_option_names": ["-h", "--help"]})
@click.argument("nodes", type=FileWord())
@click.argument("roads", type=FileWord())
def command(nodes: Path, roads: Path) -> None:
    """Draws a map that is coloured by how soon each node is reached, as SVG on standard output.

    \b
    NODES, ROADS   the tables node,x,y and arc,tail,head,profile; x to the right, y upwards

    Standard input has the reply that 'catchup serve' or 'catchup ask' printed for one line r,FROM,SECOND over these tables.

    Each node has the colour of the minutes that it takes to get there, and each road those of its ends, up to its middle.
    Nodes that aren't reached are grey. The start is the one node that is reached at once, where there is one such node.
    There are up to eight bands of 1, 2, 3, 5, 10, .. minutes each: the least by which at most a twentieth of the nodes
    reached are later than all bands; these count to the last one, which says so.

    \b
    Example:
      echo r,5,28800 | catchup ask town.cu | draw-reach nodes.csv roads.csv > reach.svg
    """
    node_table = read_nodes(nodes)
    road_table = read_roads(roads, len(node_table))
    write_picture(draw_reach(node_table, road_table, read_reach(read_input("the reply"))))


def main() -> NoReturn:
    run(command, "draw-reach")
