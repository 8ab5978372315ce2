"""table-csv: makes a CSV of a `t` line and the program's reply to it."""

from __future__ import annotations

import re
import sys
from collections.abc import Iterator
from dataclasses import dataclass
from pathlib import Path
from typing import NoReturn

import click

from catchup.commands._run import run
from catchup.commands._words import FileWord
from catchup.draw.output import NO_INPUT
from catchup.errors import Failure

# Numbers of more than 15 digits are no seconds.
_NUMBER = re.compile(r"0*([0-9]{1,15})", re.ASCII)
_ARRIVAL = re.compile(r"-|[0-9]{1,15}", re.ASCII)


@dataclass(frozen=True)
class Question:
    """What a `t` line asks: the second of the day, the sources and the targets."""

    second: int
    sources: list[int]
    targets: list[int]


@click.command(epilog="Example: table-csv line.txt < table.txt > table.csv")
@click.option("--rows", is_flag=True, help="A row for each entry, below 'source,target,departure,arrival'.")
@click.argument("line", type=FileWord())
def command(rows: bool, line: Path) -> None:
    """Makes a CSV of the program's reply to a t line, which comes on standard input.

    LINE is a file with one line t,SECOND,K,SOURCE,..,TARGET,.. of K sources, as the program was asked. The first row is
    'source' and the targets. Then each source has a row: its number, and when one who leaves it at SECOND arrives at each
    target, in seconds counted from the midnight before, or nothing where no way leads there.
    """
    question = read_question(_file_line(line))
    arrivals = read_arrivals(_input_line(), question)
    write = _rows_of_entries if rows else _rows_of_sources
    sys.stdout.writelines(write(question, arrivals))


def main() -> NoReturn:
    """The command as a program."""
    run(command, "table-csv")


def read_question(line: str) -> Question:
    """What a t line asks. Raises Failure where it is none."""
    word, *fields = line.split(",")
    found = [_NUMBER.fullmatch(field) for field in fields]
    numbers = [int(each[1]) for each in found if each]
    if word != "t" or len(numbers) != len(fields) or len(numbers) < 2 or len(numbers) - 2 < numbers[1]:
        raise Failure("the line must be t,SECOND,K, then K sources and any targets, all of them numbers")
    second, count, *nodes = numbers
    return Question(second, nodes[:count], nodes[count:])


def read_arrivals(reply: str, question: Question) -> list[str]:
    """The reply's entries, `-` where no way leads. Raises Failure where it is no reply to the question."""
    word, *entries = reply.split(" ")
    if word != "table":
        raise Failure(f"this is no reply to a t line: {_printable(reply)}")
    wanted = len(question.sources) * len(question.targets)
    if "damaged" in entries:
        at = entries.index("damaged")
        raise Failure(f"the reply ends behind {at} of {wanted} entries: {_printable(' '.join(entries[at:]))}")
    for number, entry in enumerate(entries):
        if not _ARRIVAL.fullmatch(entry):
            raise Failure(f"entry {number} of the reply must be an arrival or -: {_printable(entry)}")
    if len(entries) != wanted:
        raise Failure(f"the reply has {len(entries)} entries, and the line asks for {wanted}")
    _check_arrivals(entries, question)
    return entries


def _check_arrivals(entries: list[str], question: Question) -> None:
    """Nobody arrives before he leaves, and whoever asks for a node from itself is there at once."""
    second = question.second
    pairs = ((source, target) for source in question.sources for target in question.targets)
    for (source, target), entry in zip(pairs, entries):
        if (entry != "-" and int(entry) < second) or (source == target and entry != str(second)):
            raise Failure(f"the reply isn't to this line: who leaves {source} at {second} isn't at {target} at {entry}")


def _rows_of_sources(question: Question, arrivals: list[str]) -> Iterator[str]:
    yield ",".join(["source", *map(str, question.targets)]) + "\n"
    width = len(question.targets)
    for row, source in enumerate(question.sources):
        entries = ("" if entry == "-" else entry for entry in arrivals[row * width : (row + 1) * width])
        yield ",".join([str(source), *entries]) + "\n"


def _rows_of_entries(question: Question, arrivals: list[str]) -> Iterator[str]:
    yield "source,target,departure,arrival\n"
    pairs = ((source, target) for source in question.sources for target in question.targets)
    for (source, target), entry in zip(pairs, arrivals):
        yield f"{source},{target},{question.second},{'' if entry == '-' else entry}\n"


def _file_line(path: Path) -> str:
    try:
        return _one_line(path.read_bytes(), str(path))
    except OSError as error:
        raise Failure(f"{path} can't be read: {error.strerror or error}") from None


def _input_line() -> str:
    if sys.stdin is None:
        raise Failure(f"the reply can't be read: {NO_INPUT}")
    try:
        return _one_line(sys.stdin.buffer.read(), "the reply")
    except OSError as error:
        raise Failure(f"the reply can't be read: {error.strerror or error}") from None


def _one_line(said: bytes, what: str) -> str:
    if not said:
        raise Failure(f"{what} is missing: there is no line")
    line, _, more = said.partition(b"\n")
    if more:
        raise Failure(f"{what} must be one line, and there are more")
    return line.removesuffix(b"\r").decode("ascii", "replace")


def _printable(text: str) -> str:
    return "".join(each if " " <= each <= "~" else "?" for each in text[:60])
