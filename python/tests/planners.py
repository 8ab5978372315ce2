"""What tests of planners share: programs that are none, and threads."""

from __future__ import annotations

import stat
import threading
from collections.abc import Callable
from pathlib import Path

import pytest


def stub(folder: Path, text: str, monkeypatch: pytest.MonkeyPatch) -> None:
    """A program that answers each line as a shell script says, whose first word is its number of start."""
    path = folder / "stub"
    path.write_text(f"#!/bin/sh\nset -- $(ls '{folder}' | grep -c started)\n: >'{folder}'/started$1\n{text}")
    path.chmod(path.stat().st_mode | stat.S_IXUSR)
    monkeypatch.setenv("CATCHUP", str(path))


def in_threads(count: int, work: Callable[[int], None]) -> list[BaseException]:
    """Runs the work in so many threads at once; what they raised."""
    raised: list[BaseException] = []

    def run(number: int) -> None:
        try:
            work(number)
        except BaseException as error:
            raised.append(error)

    threads = [threading.Thread(target=run, args=(number,)) for number in range(count)]
    for thread in threads:
        thread.start()
    for thread in threads:
        thread.join(600)
        assert not thread.is_alive()
    return raised
