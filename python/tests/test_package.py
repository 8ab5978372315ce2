"""The package as a whole: commands of bin/ and of pyproject.toml are the same, and each tells its words."""

from __future__ import annotations

import re
import tomllib
from importlib import import_module
from pathlib import Path

import pytest
from commands import BIN, call, check_refused, run

PROJECT = tomllib.loads((BIN.parent / "python" / "pyproject.toml").read_text())["project"]
SCRIPTS: dict[str, str] = PROJECT["scripts"]

# All that a script of bin/ does: whatever else a command needs is in the package, which installed copies have too.
SCRIPT = """import os, signal, sys
# While modules load, an interrupt ends it at once: Python would print a trace.
if signal.getsignal(signal.SIGINT) != signal.SIG_IGN: signal.signal(signal.SIGINT, signal.SIG_DFL)
sys.path.insert(0, os.path.join(os.path.dirname(os.path.realpath(__file__)), "..", "python")); from catchup.commands import {0}; {0}.main()
"""
# How it begins; and how one does that reads standard input.
BY_PYTHON = "#!/usr/bin/python3\n"
BY_THE_SHELL = '''#!/bin/sh
""":" # Python can't start where its standard input is a folder: it is closed then.
[ ! -d /dev/stdin ] || exec <&-
exec /usr/bin/python3 "$0" "$@"
"""
'''
READERS = {"draw-reach", "draw-route", "table-csv"}


def test_the_version_is_said_once() -> None:
    assert import_module("catchup").__version__ == PROJECT["version"]


def test_each_script_of_bin_calls_the_function_of_the_project() -> None:
    calls = {}
    for path in BIN.iterdir():
        text = path.read_text(errors="replace") if path.is_file() else ""
        if "from catchup.commands import" in text:
            module = text.rpartition("import ")[2].partition(";")[0]
            assert text == (BY_THE_SHELL if path.name in READERS else BY_PYTHON) + SCRIPT.format(module), path
            calls[path.name] = f"catchup.commands.{module}:main"
    assert calls == SCRIPTS


@pytest.mark.parametrize("name", sorted(SCRIPTS))
def test_each_command_tells_its_words_with_an_example(name: str) -> None:
    ran = call(name, "--help")
    assert ran.status == 0 and ran.error == "" and ran.output.startswith(f"Usage: {name} ")
    words = " ".join(ran.output.split())
    assert re.search(rf"Example: [^:]*\b{re.escape(name)} ", words)


def test_without_click(tmp_path: Path) -> None:
    (tmp_path / "click.py").write_text("raise ModuleNotFoundError(\"No module named 'click'\", name='click')\n")
    ran = run("table-csv", "--help", env={"PYTHONPATH": str(tmp_path)})
    check_refused(ran, 1, "table-csv: the Python module click isn't installed: 'apt-get install python3-click' does it")


def test_modules_are_small() -> None:
    for path in Path(BIN.parent / "python").rglob("*.py"):
        assert len(path.read_text().splitlines()) < 800, path
