"""bin/table-csv: with replies made here, and with those of the program."""

from __future__ import annotations

import csv
import io
import os
import signal
import subprocess
from pathlib import Path

import pytest
from commands import BIN, Ran, call, check_refused, run, run_into_closed_pipe

from catchup.program import run_program

LINE = "t,28800,2,5,0,7,20,0\n"
REPLY = "table 29575 28935 29025 29900 - 28800\n"


@pytest.fixture
def folder(tmp_path: Path, monkeypatch: pytest.MonkeyPatch) -> Path:
    monkeypatch.chdir(tmp_path)
    return tmp_path


def table(line: str, reply: str, *words: str) -> Ran:
    Path("line").write_text(line, newline="")
    return call("table-csv", *words, "line", input=reply)


TABLES = [
    (LINE, REPLY, "source,7,20,0|5,29575,28935,29025|0,29900,,28800|"),
    ("t,0,1,5,7\r\n", "table 9\r\n", "source,7|5,9|"),
    ("t,0,1,5,7", "table 9", "source,7|5,9|"),
    ("t,00,01,005,07,000\n", "table 9 -\n", "source,7,0|5,9,|"),
    ("t,0,2,5,5,7,7\n", "table 9 9 9 9\n", "source,7,7|5,9,9|5,9,9|"),
    ("t,0,2,5,7\n", "table\n", "source|5|7|"),
    ("t,0,0,5,7\n", "table\n", "source,5,7|"),
    ("t,0,0\n", "table\n", "source|"),
]


@pytest.mark.parametrize("line, reply, wanted", TABLES)
def test_a_row_for_each_source(folder: Path, line: str, reply: str, wanted: str) -> None:
    assert table(line, reply) == (0, wanted.replace("|", "\n"), "")


def test_a_row_for_each_entry(folder: Path) -> None:
    ran = table(LINE, REPLY, "--rows")
    rows = list(csv.reader(io.StringIO(ran.output)))
    assert rows[0] == ["source", "target", "departure", "arrival"]
    assert rows[1:3] == [["5", "7", "28800", "29575"], ["5", "20", "28800", "28935"]]
    assert rows[5:] == [["0", "20", "28800", ""], ["0", "0", "28800", "28800"]]
    assert table("t,0,2,5,7\n", "table\n", "--rows").output == "source,target,departure,arrival\n"


def test_the_largest_table(folder: Path) -> None:
    line = "t,7,1024," + ",".join(map(str, range(2048))) + "\n"
    Path("line").write_text(line)
    ran = run("table-csv", "line", input="table " + " ".join(str(7 + entry) for entry in range(2**20)) + "\n")
    rows = ran.output.splitlines()
    assert ran.status == 0 and len(rows) == 1025 and rows[-1].startswith("1023,1047559,")


NO_LINE = "the line must be t,SECOND,K, then K sources and any targets, all of them numbers"
REFUSALS = [
    ("t,0,2,1,2,3,4\n", "table 5 6 7\n", "the reply has 3 entries, and the line asks for 4"),
    ("t,0,2,1,2,3,4\n", "table 5 6 7 8 9\n", "the reply has 5 entries, and the line asks for 4"),
    ("t,0,1,1\n", "table 5\n", "the reply has 1 entries, and the line asks for 0"),
    ("t,9,1,1,2\n", "table 8\n", "the reply isn't to this line: who leaves 1 at 9 isn't at 2 at 8"),
    ("t,0,2,1,2,3,2\n", "table 5 6 7 -\n", "the reply isn't to this line: who leaves 2 at 0 isn't at 2 at -"),
    ("t,0,1,3,3,4\n", "table 5 6\n", "the reply isn't to this line: who leaves 3 at 0 isn't at 3 at 5"),
    ("t,0,2,1,2,3,4\n", "table 5 6 damaged 5 up 0\n", "the reply ends behind 2 of 4 entries: damaged 5 up 0"),
    ("t,0,2,1,2,3,4\n", "table 5", "the reply has 1 entries, and the line asks for 4"),
    ("t,0,2,1,2,3,4\n", "refused: limit\n", "this is no reply to a t line: refused: limit"),
    ("t,0,1,1,2,3\n", "reach 5 6 7\n", "this is no reply to a t line: reach 5 6 7"),
    ("t,0,1,1,2,3\n", "table\x001\n", "this is no reply to a t line: table?1"),
    ("t,0,1,1,2,3\n", "table 5 6.5\n", "entry 1 of the reply must be an arrival or -: 6.5"),
    ("t,0,1,1,2\n", "table 1000000000000000\n", "entry 0 of the reply must be an arrival or -: 1000000000000000"),
    ("t,0,1,1,2,3\n", "table 5 6 \n", "entry 2 of the reply must be an arrival or -:"),
    ("r,0,1\n", "table 5\n", NO_LINE),
    ("t,0\n", "table\n", NO_LINE),
    ("t,0,5,0\n", "table\n", NO_LINE),
    ("t,0,1,x,2\n", "table 5\n", NO_LINE),
    ("t,0,1,-1,2\n", "table 5\n", NO_LINE),
    ("t,0,1,1000000000000000,2\n", "table 5\n", NO_LINE),
    ("\n", "table 5\n", NO_LINE),
    ("t,0,1,1,2\nt,0,1,1,2\n", "table 5\n", "line must be one line, and there are more"),
    ("t,0,1,1,2\n", "table 5\ntable 5\n", "the reply must be one line, and there are more"),
    ("", "table 5\n", "line is missing: there is no line"),
    ("t,0,1,1,2\n", "", "the reply is missing: there is no line"),
]


@pytest.mark.parametrize("line, reply, said", REFUSALS)
def test_refusals(folder: Path, line: str, reply: str, said: str) -> None:
    check_refused(table(line, reply), 1, f"table-csv: {said}")


def test_words(folder: Path) -> None:
    check_refused(run("table-csv", "not there"), 1, "table-csv: not there can't be read: No such file")
    check_refused(call("table-csv", "."), 1, "table-csv: . can't be read: Is a directory")
    for words in ([], ["a", "b"], ["--rows"], ["--none", "line"]):
        check_refused(call("table-csv", *words), 2, "See: table-csv --help")


def test_a_closed_pipe_is_silent(folder: Path) -> None:
    Path("line").write_text(LINE)
    assert run_into_closed_pipe("table-csv", "line", input=REPLY.encode()) == (141, "", "")


def test_an_interrupt_is_silent(folder: Path) -> None:
    os.mkfifo("line")
    process = subprocess.Popen([BIN / "table-csv", "line"], stdin=subprocess.PIPE, stderr=subprocess.PIPE)
    with open("line", "w"):
        process.send_signal(signal.SIGINT)
        _, error = process.communicate(timeout=600)
    assert (process.returncode, error) == (130, b"")


def test_tables_of_the_program_are_the_queries(town: Path, folder: Path) -> None:
    sources, targets = (5, 151, 20), (0, 5, 80, 151)
    queries = "".join(f"q,{source},{target},61500\n" for source in sources for target in targets)
    replies = run_program(["ask", town], input=queries).output.splitlines()
    arrivals = [reply.split()[0].removeprefix("arrive=").replace("unreachable", "") for reply in replies]
    line = f"t,61500,3,{','.join(map(str, sources + targets))}\n"
    ran = table(line, run_program(["ask", town], input=line).output)
    rows = [",".join([str(source), *arrivals[4 * row : 4 * row + 4]]) for row, source in enumerate(sources)]
    assert ran.output.splitlines() == ["source,0,5,80,151", *rows]
