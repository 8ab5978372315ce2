"""`draw-route`: routes, as the program's replies name them, on a map of the roads around them."""

from __future__ import annotations

from pathlib import Path
from typing import NoReturn

import click

from catchup.commands._run import run
from catchup.commands._words import FileWord
from catchup.draw.output import read_input, read_lines, write_picture
from catchup.draw.replies import read_answers
from catchup.draw.route import draw_routes
from catchup.draw.tables import read_nodes, read_profiles, read_roads


@click.command(context_settings={"help_option_names": ["-h", "--help"]})
@click.option("--script", metavar="SCRIPT", type=FileWord(), help="The lines that were answered: departures stand beside the arrivals then.")
@click.argument("nodes", type=FileWord())
@click.argument("roads", type=FileWord())
@click.argument("profiles", type=FileWord(), required=False)
def command(script: Path | None, nodes: Path, roads: Path, profiles: Path | None) -> None:
    """Draws the routes of replies on the roads around them, as SVG on standard output.

    \b
    NODES, ROADS   the tables node,x,y and arc,tail,head,profile; x to the right, y upwards
    PROFILES       the table profile,from,kind,value: closed roads are marked

    Standard input has the replies that 'catchup serve', 'ask' or 'wait' printed over these tables. Without a reply the
    map is of the whole network.

    Up to 20 routes have a colour and a number each, and the wider a line, the more of them go there. More routes are drawn
    together, without names, thin and see-through: the darker, the more go there. Replies without a route are in the legend
    alone. More than 10000 replies are refused. Replies to 'v' lines say when each road is entered: these times stand
    beside the nodes where there is room, and each wait is marked.

    \b
    Example:
      catchup ask town.cu < script.txt | draw-route --script script.txt nodes.csv roads.csv profiles.csv > routes.svg
      draw-route nodes.csv roads.csv profiles.csv < /dev/null > network.svg
    """
    node_table = read_nodes(nodes)
    closed = None if profiles is None else read_profiles(profiles)
    road_table = read_roads(roads, len(node_table), closed)
    asked = None if script is None else read_lines(script)
    answers = read_answers(read_input("the replies"), road_table, asked)
    write_picture(draw_routes(node_table, road_table, answers, has_profiles=profiles is not None))


def main() -> NoReturn:
    run(command, "draw-route")
