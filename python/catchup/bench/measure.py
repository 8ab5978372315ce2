"""Measures the program over a network: times are of the processor, net of starting, and memory is the peak.

Beside it stands plain time-dependent Dijkstra in C (dijkstra.c), which is compiled where there is a compiler.
"""

from __future__ import annotations

import os
import random
import resource
import shutil
import subprocess
import time
from collections.abc import Sequence
from dataclasses import dataclass
from pathlib import Path

from catchup.bench.networks import make_network
from catchup.errors import Failure
from catchup.order import figures, metis_order
from catchup.program import find_program
from catchup.replies import Drive, Unreachable, parse
from catchup.tables import NODES_FILE, PROFILES_FILE, ROADS_FILE, Network, write_network, write_order

TABLES = (NODES_FILE, ROADS_FILE, PROFILES_FILE)
# A plain Dijkstra is asked this share of the queries.
_FEWER = 20


@dataclass(frozen=True)
class Spent:
    """Seconds of the processor, and the peak of memory in bytes."""

    seconds: float
    memory: int


@dataclass(frozen=True)
class Figures:
    """What was measured over one network. Rates are queries a second; a rate of Dijkstra is None without a compiler."""

    nodes: int
    roads: int
    edges: int
    order_seconds: float
    build: Spent
    file_bytes: int
    queries: float
    ask_memory: int
    edit: Spent
    dijkstra: float | None


def compile_dijkstra(folder: Path) -> Path | None:
    """The program of dijkstra.c, or None where there is no compiler."""
    compiler = os.environ.get("CC") or shutil.which("cc") or shutil.which("gcc")
    if compiler is None:
        return None
    source = Path(__file__).with_name("dijkstra.c")
    program = folder / "dijkstra"
    run = subprocess.run([compiler, "-O3", "-o", program, source], capture_output=True, text=True)
    if run.returncode:
        raise Failure(f"{compiler} can't compile {source}: {(run.stderr.splitlines() or ['it says nothing'])[0]}")
    return program


def measure(size: int, seed: int, queries: int, folder: Path, dijkstra: Path | None) -> Figures:
    """Makes a network of about `size` nodes in the folder and measures over it. Raises Failure where a run fails or the
    arrivals of the two programs differ."""
    network = make_network(size, seed)
    write_network(folder, network)
    roads = network.roads
    begin = time.process_time() + _children()
    order = metis_order(len(network.nodes), roads.tail, roads.head)
    order_seconds = time.process_time() + _children() - begin
    write_order(folder / "order.csv", order)
    catchup = str(find_program())
    packed = folder / "map.cu"
    tables = [folder / name for name in TABLES]
    build = _run([catchup, "build", *tables, folder / "order.csv", packed], None, folder)
    script = _script(network, queries, seed)
    ask: list[str | Path] = [catchup, "ask", packed]
    rate, memory, said = _rate(ask, script, folder)
    return Figures(
        len(network.nodes),
        len(roads),
        figures(len(network.nodes), roads.tail, roads.head, order).edges,
        order_seconds,
        build,
        packed.stat().st_size,
        rate,
        memory,
        _edit(catchup, network, packed, folder),
        None if dijkstra is None else _rate_of_dijkstra([dijkstra, *tables], script, said, folder),
    )


def _script(network: Network, queries: int, seed: int) -> list[str]:
    draw = random.Random(seed)
    nodes = len(network.nodes)
    return [f"q,{draw.randrange(nodes)},{draw.randrange(nodes)},{draw.randrange(86_400)}" for _ in range(queries)]


def _rate(words: Sequence[str | Path], script: list[str], folder: Path) -> tuple[float, int, list[str]]:
    """Queries a second behind the first quarter of the script, the peak of memory, and the replies."""
    first = len(script) // 4
    short = _run(words, script[:first], folder)
    whole = _run(words, script, folder)
    replies = (folder / "replies").read_text().splitlines()
    if len(replies) != len(script):
        raise Failure(f"{words[0]} answered {len(replies)} of {len(script)} queries")
    return (len(script) - first) / max(whole.seconds - short.seconds, 1e-3), whole.memory, replies


def _rate_of_dijkstra(words: Sequence[str | Path], script: list[str], said: list[str], folder: Path) -> float:
    rate, _, arrivals = _rate(words, script[: max(8, len(script) // _FEWER)], folder)
    for line, arrival, reply in zip(script, arrivals, said):
        found = parse(reply)
        wanted = str(found.arrive) if isinstance(found, Drive) else "-" if isinstance(found, Unreachable) else reply
        if arrival != wanted:
            raise Failure(f"the arrivals differ: {line} is answered {reply[:40]!r}, and by Dijkstra {arrival}: please report it")
    return rate


def _edit(catchup: str, network: Network, packed: Path, folder: Path) -> Spent:
    """What it costs to store the packed file with one profile of rush hours closed."""
    pieces = [int(network.profiles.first[number + 1] - network.profiles.first[number]) for number in range(len(network.profiles))]
    edits = folder / "edits"
    edits.write_text(f"s,{pieces.index(max(pieces))},0,closed,0\n")
    return _run([catchup, "edit", packed, edits, folder / "edited.cu"], None, folder)


def _run(words: Sequence[str | Path], script: list[str] | None, folder: Path) -> Spent:
    """Runs a program; its output goes to the file `replies`."""
    asked = folder / "script"
    asked.write_text("".join(line + "\n" for line in script or []))
    before = _children()
    with open(asked, "rb") as source, open(folder / "replies", "wb") as sink:
        process = subprocess.Popen([str(word) for word in words], stdin=source, stdout=sink)
        try:
            memory = _peak(process)
        except BaseException:
            process.kill()
            process.wait()
            raise
    if process.returncode:
        said = (folder / "replies").read_text(errors="replace").splitlines()[-1:]
        raise Failure(f"{Path(words[0]).name} {words[1]} ended with status {process.returncode}: {' '.join(said)}")
    return Spent(_children() - before, memory)


def _peak(process: subprocess.Popen[bytes]) -> int:
    """Waits for the end; the most memory that was in use, as the system says while it runs (0 where it doesn't)."""
    memory = 0
    while process.poll() is None:
        try:
            with open(f"/proc/{process.pid}/status", encoding="ascii") as status:
                lines = [line for line in status if line.startswith("VmHWM:")]
        except OSError:
            lines = []
        if lines:
            memory = max(memory, int(lines[0].split()[1]) * 1024)
        time.sleep(0.005)
    return memory


def _children() -> float:
    """Seconds of the processor that children which have ended took."""
    used = resource.getrusage(resource.RUSAGE_CHILDREN)
    return used.ru_utime + used.ru_stime
