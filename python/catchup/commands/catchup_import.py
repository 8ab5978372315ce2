"""catchup-import: a map of OpenStreetMap made into a network."""
from __future__ import annotations

import math
import resource
import shlex
import shutil
import sys
import time
from collections.abc import Iterator
from contextlib import contextmanager
from pathlib import Path
from typing import Any, NoReturn

import click

from catchup.commands._run import run
from catchup.commands._words import FileWord, Number

VEHICLES = ("car", "truck", "bicycle", "foot")
WEEKDAYS = ("mo", "tu", "we", "th", "fr", "sa", "su")


class Steps:
    """What is done, on a terminal: the step with a turning sign, and how long it took."""

    def __init__(self) -> None:
        self._status: Any = None

    def say(self, text: str) -> None:
        """The next step begins."""
        if self._status is not None:
            self._status.update(text)

    @contextmanager
    def shown(self) -> Iterator["Steps"]:
        """Shows steps on standard error, where that is a terminal."""
        if not sys.stderr.isatty():
            yield self
            return
        from rich.console import Console
        with Console(stderr=True).status("beginning") as self._status:
            yield self
        self._status = None


class Box(click.ParamType):
    """WEST,SOUTH,EAST,NORTH in degrees."""
    name = "box"

    def convert(self, value: Any, param: click.Parameter | None, ctx: click.Context | None) -> Any:
        if isinstance(value, tuple):
            return value
        try:
            west, south, east, north = (float(part) for part in str(value).split(","))
        except ValueError:
            self.fail(f"write four numbers WEST,SOUTH,EAST,NORTH, as 9.4,47,9.7,47.3, and not {value!r}", param, ctx)
        if not (-180 <= west < east <= 180 and -90 <= south < north <= 90):
            self.fail("write WEST,SOUTH,EAST,NORTH in degrees, west before east and south before north,"
                      f" and not {value!r}", param, ctx)
        return west, south, east, north


class Delay(click.FloatRange):
    """Seconds, 0 to 600."""

    def __init__(self) -> None:
        super().__init__(0, 600)

    def convert(self, value: Any, param: click.Parameter | None, ctx: click.Context | None) -> Any:
        try:
            seconds = float(value)
        except ValueError:
            seconds = math.nan
        if not 0 <= seconds <= 600:
            self.fail(f"write seconds from 0 to 600, as 4.5, and not {value!r}", param, ctx)
        return seconds


@click.group(context_settings={"help_option_names": ["-h", "--help"]}, no_args_is_help=False)
def command() -> None:
    """Makes networks of what others have.

    Example: catchup-import osm MAP.osm.pbf town --build
    """


@command.command("osm", short_help="Makes tables, order and map.gpkg of a map of OpenStreetMap.")
@click.argument("map_file", metavar="MAP", type=FileWord())
@click.argument("folder", metavar="DIR", type=FileWord())
@click.option("--build", is_flag=True, help="Make the packed file map.cu too.")
@click.option("--vehicle", type=click.Choice(VEHICLES), default="car", show_default=True, help="Whose roads.")
@click.option("--weekday", type=click.Choice(WEEKDAYS), default="mo", show_default=True, help="Whose hours.")
@click.option("--speeds", metavar="FILE", type=FileWord(), help="Speeds of one's own, as TOML.")
@click.option("--rush", is_flag=True, help="Slow roads down at rush hours, by figures that nobody measured.")
@click.option("--spare", metavar="N", type=Number(0, 100_000), default=16, show_default=True,
              help="Profiles of no road, to close or slow single roads by.")
@click.option("--signals", metavar="S", type=Delay(), default=0.0, help="Seconds at each traffic signal.")
@click.option("--crossings", metavar="S", type=Delay(), default=0.0,
              help="Seconds at each crossing without a signal, and at each level crossing.")
@click.option("--left", metavar="S", type=Number(0, 600), default=0, help="Seconds for each turn to the left.")
@click.option("--right", metavar="S", type=Number(0, 600), default=0, help="Seconds for each turn to the right.")
@click.option("--without", metavar="CLASS,..", default="", help="Leave out these classes of roads, as service,track.")
@click.option("--bbox", metavar="W,S,E,N", type=Box(), help="Take this part alone, in degrees.")
@click.option("--no-private", is_flag=True, help="Bar private roads, and don't take them as roads for destinations.")
@click.option("--through", is_flag=True, help="Let everybody through on roads for destinations alone.")
@click.option("--turn-back", is_flag=True, help="Let drives turn round behind a turn that is forbidden.")
@click.option("--islands", is_flag=True, help="Keep the parts that aren't joined with the largest.")
@click.option("--force", is_flag=True, help="Replace what an import has made in DIR.")
def osm(map_file: Path, folder: Path, build: bool, force: bool, **words: Any) -> None:
    """Makes tables, order and map.gpkg in DIR of a MAP of OpenStreetMap: .osm.pbf, .osm.bz2 or .osm."""
    from catchup.maps.importing import Options, import_osm, vehicle_of
    from catchup.maps.writing import check_folder, making, write_all
    from catchup.program import find_program
    begin = time.monotonic()
    classes = frozenset(word.strip() for word in words.pop("without").split(",") if word.strip())
    options = Options(without=classes, private=not words.pop("no_private"), **words)
    # Wrong words are told before what is wrong with the folder.
    vehicle_of(options)
    check_folder(folder, force)
    if build:
        find_program()
    with Steps().shown() as steps:
        made = import_osm(map_file, options, steps.say)
        with making(folder, force) as beside:
            said = write_all(made, beside, build, steps.say)
    _tell(made.lines, said, time.monotonic() - begin, folder, build)


def _tell(lines: list[str], said: list[str], seconds: float, folder: Path, build: bool) -> None:
    """Prints the report, what it took, and the command that comes next."""
    for line in lines:
        click.echo(line)
    for line in said:
        click.echo(f"catchup-import: {line}", err=True)
    peak = max(resource.getrusage(who).ru_maxrss for who in (resource.RUSAGE_SELF, resource.RUSAGE_CHILDREN)) / 1024
    click.echo(f"{'made':<10}{folder} in {seconds:.1f} s and {peak:,.0f} MB")
    place = shlex.quote(str(folder))
    if build:
        click.echo(f"{'next':<10}{_called('catchup-http')} {place}/map.cu --tables {place}")
    else:
        tables = " ".join(f"{place}/{name}.csv" for name in ("nodes", "roads", "profiles", "order"))
        click.echo(f"{'next':<10}{_called('catchup')} build {tables} {place}/map.cu")


def _called(name: str) -> str:
    """Another command of the folder that this one was called from: by its name where that finds it, else by its path."""
    beside = Path(sys.argv[0]).with_name(name)
    found = shutil.which(name)
    here = beside.exists() and not (found and beside.samefile(found))
    return shlex.quote(str(beside)) if here else name


def main() -> NoReturn:
    """The program catchup-import."""
    run(command, "catchup-import")
