"""`draw-day`: travel time over departure, from the program's answer for a whole day."""

from __future__ import annotations

import re
from typing import NoReturn

import click

from catchup.commands._run import run
from catchup.commands._words import Number
from catchup.draw.asking import ask_day, make_ready
from catchup.draw.day import draw_day
from catchup.draw.output import write_picture
from catchup.program import Child

_METAVAR = "(HIERARCHY | NODES ROADS PROFILES ORDER) FROM TO"


@click.command(context_settings={"help_option_names": ["-h", "--help"]})
@click.option("--every", metavar="SECONDS", type=Number(1, 3600), default=300, show_default=True, help="Asks for the route at each so many seconds, from 1 to 3600.")
@click.argument("words", nargs=-1, metavar=_METAVAR)
def command(every: int, words: tuple[str, ...]) -> None:
    """Draws travel time over departure as SVG on standard output, exact at all 86400 seconds of the day.

    \b
    HIERARCHY                       the packed file of 'catchup ask'
    NODES, ROADS, PROFILES, ORDER   the tables and the order of 'catchup serve'
    FROM, TO                        two nodes

    The colour of the curve changes where the route does. Routes are asked at the curve's corners and at each SECONDS, and
    between two that differ until the second of the change is found; so a route that comes and goes in between, and changes
    no travel time, is seen with --every 1 alone.

    CATCHUP in the environment may name a program in bin/catchup's place.

    \b
    Example:
      draw-day town.cu 5 151 > day.svg
    """
    if len(words) not in (3, 6) or "" in words[:-2]:
        raise click.UsageError(f"the words are {_METAVAR}.")
    if not all(re.fullmatch("[0-9]{1,18}", node, re.ASCII) for node in words[-2:]):
        raise click.UsageError("FROM and TO must be node numbers.")
    start, end = map(int, words[-2:])
    if not make_ready():
        raise click.exceptions.Exit(1)
    with Child(["ask" if len(words) == 3 else "serve", *words[:-2]]) as child:
        asked = ask_day(child.ask_all, start, end, every)
    write_picture(draw_day(asked, start, end, every))


def main() -> NoReturn:
    run(command, "draw-day")
