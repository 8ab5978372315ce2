"""Hooks of pytest that conftest takes over: nothing is skipped in silence, and bin/check gets the counts."""

from __future__ import annotations

import importlib.util
import os
import re
import shutil
from collections.abc import Generator
from pathlib import Path

import pytest

# Where bin/check wants the counts: 'PASSED FAILED SKIPPED'.
COUNTS = "CATCHUP_CHECK_COUNTS"
NEEDS = Path(__file__).resolve().parents[2] / "packaging" / "needs.txt"
PACKAGES = frozenset(re.findall(r"^([a-z][^ ]*) ", NEEDS.read_text(), re.M))
# What is called otherwise than its package.
MODULES = {"osmium": "python3-pyosmium"}
TOOLS = {"ndmetis": "metis", "nginx": "nginx-light", "man": "man-db", "cc": "gcc"}
SAYS_MODULE = re.compile(r"No module named '(\w+)|the Python module (\w+) isn't installed")
SAYS_TOOL = re.compile(r"No such file or directory: '([\w-]+)'|\b([\w-]+): (?:command )?not found")


def find_missing(text: str) -> str | None:
    """What a failure says is missing, where that is of a package of the list and isn't installed here; or None."""
    for found in SAYS_MODULE.finditer(text):
        module = found[1] or found[2]
        package = MODULES.get(module, f"python3-{module.replace('_', '-')}")
        if package in PACKAGES and importlib.util.find_spec(module) is None:
            return f"the Python module {module} isn't installed ({package})"
    for found in SAYS_TOOL.finditer(text):
        tool = found[1] or found[2]
        package = TOOLS.get(tool, tool)
        if package in PACKAGES and shutil.which(tool) is None:
            return f"{tool} isn't installed ({package})"
    return None


@pytest.hookimpl(hookwrapper=True)  # type: ignore[misc]
def pytest_runtest_makereport(item: pytest.Item) -> Generator[None, object, None]:
    """A test that fails since a package of the list isn't installed is skipped with that reason. Where all are, none is."""
    outcome = yield
    report: pytest.TestReport = outcome.get_result()  # type: ignore[attr-defined]
    missing = find_missing(str(report.longrepr)) if report.failed else None
    if missing:
        report.outcome = "skipped"
        report.longrepr = (str(item.path), 0, f"Skipped: {missing}")


@pytest.hookimpl(hookwrapper=True)  # type: ignore[misc]
def pytest_make_collect_report(collector: pytest.Collector) -> Generator[None, object, None]:
    """A file of tests that imports what isn't installed is skipped with that reason; any other fault stays a fault."""
    outcome = yield
    report: pytest.CollectReport = outcome.get_result()  # type: ignore[attr-defined]
    missing = re.search(r"ModuleNotFoundError: No module named '(\w+)", str(report.longrepr)) if report.failed else None
    if missing and missing[1] != "catchup":
        report.outcome = "skipped"
        report.longrepr = (str(collector.path), 0, f"Skipped: the Python module {missing[1]} isn't installed")


def pytest_terminal_summary(terminalreporter: pytest.TerminalReporter) -> None:
    """Names each test that was skipped, with the reason, and leaves the counts where bin/check asks for them."""
    stats = terminalreporter.stats
    skipped = stats.get("skipped", [])
    for report in skipped:
        reason = report.longrepr[2] if isinstance(report.longrepr, tuple) else str(report.longrepr)
        terminalreporter.write_line(f"skipped: {report.nodeid}: {reason.removeprefix('Skipped: ')}")
    place = os.environ.get(COUNTS)
    if place:
        failed = len(stats.get("failed", [])) + len(stats.get("error", []))
        with open(place, "w") as file:
            file.write(f"{len(stats.get('passed', []))} {failed} {len(skipped)}\n")
