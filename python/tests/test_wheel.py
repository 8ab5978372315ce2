"""The wheel of the Python package: what it says of itself, what it holds, and what its extras bring."""

from __future__ import annotations

import ast
import re
import subprocess
import sys
import zipfile
from email.message import Message
from email.parser import Parser
from pathlib import Path

import pytest
from scripts import TOP, list_files

PYTHON = TOP / "python"
BUILD = "import sys, wheel; from setuptools import build_meta; build_meta.build_wheel(sys.argv[1])"
# What is called otherwise where packages are installed from than where it is imported.
NAMES = {"prometheus_client": "prometheus-client", "starlette": "fastapi"}
# The modules of each extra: those that are loaded for a command of that kind alone.
PARTS = {
    "maps": ["maps", "commands/catchup_import.py"],
    "bench": ["bench", "commands/bench.py"],
    "service": ["service", "places", "geometry.py", "commands/catchup_http.py"],
}


@pytest.fixture(scope="module")
def wheel(tmp_path_factory: pytest.TempPathFactory) -> zipfile.ZipFile:
    """The wheel, made of a copy of the files of python/ as pip does without an index."""
    folder = tmp_path_factory.mktemp("wheel")
    for name in list_files():
        if name.startswith("python/") and not name.startswith("python/tests/"):
            place = folder / name
            place.parent.mkdir(parents=True, exist_ok=True)
            place.write_bytes((TOP / name).read_bytes())
    made = subprocess.run(
        [sys.executable, "-c", BUILD, folder], cwd=folder / "python", capture_output=True, text=True, timeout=600
    )
    assert made.returncode == 0, made.stderr
    return zipfile.ZipFile(*folder.glob("*.whl"))


@pytest.fixture(scope="module")
def said(wheel: zipfile.ZipFile) -> Message:
    """What the wheel says of itself."""
    (name,) = (name for name in wheel.namelist() if name.endswith(".dist-info/METADATA"))
    return Parser().parsestr(wheel.read(name).decode())


def test_the_licence(wheel: zipfile.ZipFile, said: Message) -> None:
    assert said["License"] == "MIT" and said["License-File"] == "LICENSE"
    assert "License :: OSI Approved :: MIT License" in said.get_all("Classifier", [])
    (name,) = (name for name in wheel.namelist() if name.endswith("/LICENSE"))
    assert wheel.read(name) == (TOP / "LICENSE").read_bytes()


def test_who_made_it_and_its_page(said: Message) -> None:
    assert f"(c) 2026 {said['Author']}\n" in (TOP / "LICENSE").read_text()
    assert said["Description-Content-Type"] == "text/markdown"
    assert said.get_payload() == (PYTHON / "README.md").read_text()


def test_it_holds_the_whole_package_and_nothing_else(wheel: zipfile.ZipFile) -> None:
    held = {name for name in wheel.namelist() if ".dist-info/" not in name}
    assert held == {name.removeprefix("python/") for name in list_files() if name.startswith("python/catchup/")}


def imported(place: Path) -> set[str]:
    """What a module, or those of a folder, import of others."""
    files = sorted(place.rglob("*.py")) if place.is_dir() else [place]
    nodes = [node for file in files for node in ast.walk(ast.parse(file.read_text()))]
    names = {alias.name for node in nodes if isinstance(node, ast.Import) for alias in node.names}
    names |= {node.module for node in nodes if isinstance(node, ast.ImportFrom) and node.module and not node.level}
    return {name.partition(".")[0] for name in names} - sys.stdlib_module_names - {"catchup"}


def brought(said: Message) -> dict[str, set[str]]:
    """What each extra brings; what comes without one by the empty word."""
    found: dict[str, set[str]] = {}
    for line in said.get_all("Requires-Dist", []):
        extra = re.search(r"extra == '(\w+)'", line)
        found.setdefault(extra[1] if extra else "", set()).add(re.split(r"[ (;<>=]", line)[0])
    return found


@pytest.mark.parametrize("extra", PARTS)
def test_an_extra_brings_all_that_its_modules_import_and_no_more(said: Message, extra: str) -> None:
    asked = {NAMES.get(name, name) for part in PARTS[extra] for name in imported(PYTHON / "catchup" / part)}
    always, by_extra = brought(said)[""], brought(said)[extra]
    # What uvicorn takes by itself where it is there.
    assert asked - always == by_extra - {"uvloop"}


def test_without_an_extra_it_brings_what_all_other_modules_import(said: Message) -> None:
    left = {part.split("/")[0] for parts in PARTS.values() for part in parts} - {"commands"}
    places = [place for place in (PYTHON / "catchup").iterdir() if place.name not in left and place.name != "commands"]
    places += [place for place in (PYTHON / "catchup/commands").iterdir()
               if f"commands/{place.name}" not in [part for parts in PARTS.values() for part in parts]]
    assert {name for place in places for name in imported(place)} == brought(said)[""]


@pytest.fixture(scope="module")
def alone(wheel: zipfile.ZipFile, tmp_path_factory: pytest.TempPathFactory) -> Path:
    """The folder of modules of an environment that has the wheel, and nothing of Debian's."""
    folder = tmp_path_factory.mktemp("alone")
    subprocess.run([sys.executable, "-m", "venv", "--without-pip", folder], check=True, timeout=600)
    (modules,) = folder.glob("lib/python3*/site-packages")
    wheel.extractall(modules)
    return modules


def run_alone(modules: Path, code: str) -> tuple[int, str]:
    """Runs some lines of Python in that environment; the status, and what it wrote with {python} for that Python's path."""
    python = modules.parents[2] / "bin/python"
    ran = subprocess.run([python, "-c", code], stdout=-1, stderr=subprocess.STDOUT, text=True, timeout=600, cwd=modules)
    return ran.returncode, ran.stdout.replace(str(python), "{python}")


def test_what_is_missing_in_an_environment_is_told_for_that_one(alone: Path) -> None:
    """apt-get would change nothing there."""
    call = "import sys; sys.argv = ['catchup-tables', 'a', 'b']; from catchup.commands import tables; tables.main()"
    said = "catchup-tables: the Python module {0} isn't installed: '{1} -m pip install {0}' does it\n"
    assert run_alone(alone, call) == (1, said.format("click", "{python}"))
    (alone / "click").symlink_to(Path(pytest.importorskip("click").__file__).parent)
    assert run_alone(alone, call) == (1, said.format("numpy", "{python}"))
    (alone / "click").unlink()


def test_replies_and_times_need_nothing_else(alone: Path) -> None:
    code = "import catchup.clock, catchup.program, catchup.replies as of; print(of.parse('arrive=3 arcs=1'), catchup.Refused)"
    status, said = run_alone(alone, code)
    assert status == 0 and said == "arrive=3 arcs=1 <class 'catchup.errors.Refused'>\n"
