"""The types of the Python package, as mypy checks them."""

from __future__ import annotations

import importlib.util
import os
import sys

import pytest
from scripts import TOP, run


# Debian's bytecode of mypy's many modules serves: no folder of our own has to be filled with it.
FOR_MYPY = {"PYTHONPYCACHEPREFIX": ""}


@pytest.mark.first
def test_mypy_finds_nothing() -> None:
    if importlib.util.find_spec("mypy") is None:
        pytest.skip("mypy isn't installed (mypy)")
    words = ["--strict", "--config-file", "python/pyproject.toml", "--cache-dir", os.devnull, "python/catchup"]
    status, out, err = run([sys.executable, "-m", "mypy", *words], folder=TOP, seconds=3600, env=FOR_MYPY)
    assert (status, err) == (0, ""), out
