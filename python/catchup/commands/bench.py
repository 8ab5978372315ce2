"""catchup-bench: measures the program on networks that look like roads."""

from __future__ import annotations

import tempfile
from contextlib import ExitStack
from pathlib import Path
from typing import TYPE_CHECKING, NoReturn

import click

from catchup.commands._run import run
from catchup.commands._words import FileWord, Number
from catchup.errors import Failure

if TYPE_CHECKING:
    from catchup.bench.measure import Figures

_COLUMNS = (
    "nodes", "roads", "edges", "file MB", "order s", "build s", "build MB", "queries/s", "ask MB", "edit s", "edit MB",
    "Dijkstra/s", "times",
)  # fmt: skip
_SMALLEST = 20


def _sizes(context: click.Context, parameter: click.Parameter, text: str) -> list[int]:
    from catchup.tables import MOST_NODES

    try:
        sizes = [int(word) for word in text.split(",")]
    except ValueError:
        sizes = []
    if not sizes or not all(_SMALLEST <= size <= MOST_NODES for size in sizes):
        raise click.BadParameter(f"write numbers of nodes, {_SMALLEST} to {MOST_NODES}, as 5000,20000")
    return sizes


def _make_folder(folder: Path) -> Path:
    try:
        folder.mkdir(parents=True, exist_ok=True)
    except OSError as problem:
        raise Failure(f"{folder} can't be made: {problem.strerror}") from None
    return folder


@click.command(epilog="Example: catchup-bench --sizes 5000,20000,73000,240000")
@click.option("--sizes", callback=_sizes, default="5000,20000", show_default=True, help="About how many nodes, as 5000,20000.")
@click.option("--queries", type=Number(100), default=8000, show_default=True, help="Random queries of each network.")
@click.option("--seed", type=Number(0), default=1, show_default=True, help="Another seed makes other networks.")
@click.option("--keep", type=FileWord(), help="A folder that keeps the tables and packed files.")
def command(sizes: list[int], queries: int, seed: int, keep: Path | None) -> None:
    """Makes networks that look like roads, with rush hours, and measures the program on them.

    It prints how large the packed file is, what its order (by METIS) and its build cost, how many random queries a second
    are answered behind the first quarter of them, and what an edit of one profile costs; beside plain time-dependent
    Dijkstra, where a C compiler is installed. Arrivals must be equal. Times are seconds of one processor.
    """
    from catchup.bench.measure import compile_dijkstra, measure

    with ExitStack() as stack:
        room = Path(stack.enter_context(tempfile.TemporaryDirectory(prefix="catchup-bench-")))
        folders = [_make_folder((keep or room) / str(size)) for size in sizes]
        dijkstra = compile_dijkstra(room)
        if dijkstra is None:
            click.echo("no C compiler (cc) is installed, so there is no Dijkstra to compare with", err=True)
        click.echo("  ".join(f"{name:>10}" for name in _COLUMNS))
        for size, folder in zip(sizes, folders):
            click.echo(_row(measure(size, seed, queries, folder, dijkstra)))


def main() -> NoReturn:
    """The command as a program."""
    run(command, "catchup-bench")


def _row(figures: Figures) -> str:
    beside = figures.dijkstra
    fields = [
        f"{figures.nodes}",
        f"{figures.roads}",
        f"{figures.edges}",
        f"{figures.file_bytes / 1e6:.1f}",
        f"{figures.order_seconds:.2f}",
        f"{figures.build.seconds:.2f}",
        f"{figures.build.memory / 1e6:.0f}",
        f"{figures.queries:.0f}",
        f"{figures.ask_memory / 1e6:.0f}",
        f"{figures.edit.seconds:.2f}",
        f"{figures.edit.memory / 1e6:.0f}",
        "-" if beside is None else f"{beside:.0f}",
        "-" if beside is None else f"{figures.queries / beside:.1f}",
    ]
    return "  ".join(f"{field:>10}" for field in fields)
