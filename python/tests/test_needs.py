"""packaging/needs.txt: what the Python package imports is supplied by a package of the list."""

from __future__ import annotations

import ast
import importlib.util
import re
import shutil
import sys
from collections.abc import Iterator
from functools import cache
from pathlib import Path

import pytest
from scripts import TOP, run

NEEDS = [line.split(None, 2) for line in (TOP / "packaging/needs.txt").read_text().splitlines() if not line.startswith("#")]
KINDS = {"depends", "recommends", "suggests", "tests"}
# What a service loads of the Python package, at once or for some answers.
SERVED = ["service/**/*.py", "places/*.py", "geometry.py", "mapfile.py", "tables.py", "planner.py", "commands/_run.py",
          "commands/catchup_http.py"]
# What a service uses without an import.
BESIDE = {"python3", "python3-uvloop", "gunicorn", "libjs-leaflet", "tzdata"}


def imported(place: Path) -> Iterator[str]:
    """The first words of what a module imports, wherever in it."""
    for node in ast.walk(ast.parse(place.read_text())):
        if isinstance(node, ast.Import):
            yield from (alias.name.partition(".")[0] for alias in node.names)
        elif isinstance(node, ast.ImportFrom) and node.module and not node.level:
            yield node.module.partition(".")[0]


@cache
def others(folder: Path) -> list[str]:
    """What the modules of a folder import of others: not of Python itself, nor of the folder and its neighbours."""
    own = {place.stem for place in folder.iterdir()} | {"catchup"}
    names = {name for place in folder.rglob("*.py") for name in imported(place)}
    return sorted(names - own - sys.stdlib_module_names)


def place_of(module: str) -> str:
    """Where a module stands; nothing where it isn't installed."""
    found = importlib.util.find_spec(module)
    return found.origin or next(iter(found.submodule_search_locations or []), "") if found else ""


@cache
def files_of(package: str) -> frozenset[str]:
    """What an installed package put in place. To ask whose a file is would take longer: all packages' lists are read for it."""
    return frozenset(run(["dpkg-query", "-L", package]).out.splitlines())


def test_lines() -> None:
    assert all(len(line) == 3 and line[1] in KINDS for line in NEEDS)
    names = [line[0] for line in NEEDS]
    assert len(set(names)) == len(names)


@pytest.mark.parametrize(
    ("module", "kinds"),
    [
        *((name, KINDS - {"tests"}) for name in others(TOP / "python/catchup")),
        *((name, KINDS) for name in others(TOP / "python/tests") if name not in others(TOP / "python/catchup")),
    ],
)
def test_what_is_imported_is_in_the_list(module: str, kinds: set[str]) -> None:
    if not shutil.which("dpkg-query"):
        pytest.skip("dpkg-query isn't installed, which tells whose a module is")
    place = place_of(module)
    if not place:
        pytest.skip(f"the module {module} isn't installed")
    owners = {package: kind for package, kind, _ in NEEDS if place in files_of(package)}
    assert len(owners) == 1 and kinds.issuperset(owners.values()), f"{module} is of {owners or 'no package of the list'}"


def owner_of(module: str) -> str:
    """The package of the list that supplies a module; nothing where none does."""
    place = place_of(module)
    return next((package for package, _, _ in NEEDS if place and place in files_of(package)), "")


def test_the_container_has_all_that_a_service_uses_and_no_more() -> None:
    if not shutil.which("dpkg-query"):
        pytest.skip("dpkg-query isn't installed, which tells whose a module is")
    package = TOP / "python/catchup"
    names = {name for form in SERVED for place in package.glob(form) for name in imported(place)}
    modules = sorted(names - {"catchup"} - sys.stdlib_module_names)
    missing = [module for module in modules if not place_of(module)]
    if missing:
        pytest.skip(f"the module {missing[0]} isn't installed")
    installed = re.search(r"--no-install-recommends (.*?)&&", (TOP / "packaging/service/Dockerfile").read_text(), re.DOTALL)
    assert installed and set(installed[1].replace("\\", " ").split()) - {"/tmp/catchup.deb"} == {
        *map(owner_of, modules), *BESIDE
    }
