"""The commands of docs/SERVICE.md, and what is packed for operators."""

from __future__ import annotations

import os
import re
import shutil
import signal
import subprocess
import sys
from pathlib import Path

import pytest
from conftest import TOP
from serving import SECONDS, client_of, free_ports, wait_for

PAGE = TOP / "docs" / "SERVICE.md"
UNIT = TOP / "packaging" / "service" / "catchup-http.service"


def commands() -> list[tuple[str, str]]:
    """Each command of the page's shell blocks, with what is printed of it."""
    found: list[tuple[str, str]] = []
    for block in re.findall(r"^```sh\n(.*?)^```", PAGE.read_text(), re.DOTALL | re.MULTILINE):
        for line in block.splitlines():
            if line.startswith("$ "):
                found.append((line[2:], ""))
            else:
                command, printed = found[-1]
                found[-1] = command, printed + line + "\n"
    return found


def as_pattern(printed: str) -> str:
    """`..` stands for anything."""
    return ".*".join(re.escape(part) for part in printed.strip().split(".."))


def test_the_pages_commands_do_what_is_printed(program: Path, tmp_path: Path) -> None:
    if shutil.which("curl") is None:
        pytest.skip("curl isn't installed (curl)")
    (tmp_path / "bin").mkdir()
    commands_of = {name: TOP / "bin" / name for name in ("catchup-http", "catchup-import")}
    for name, path in {"catchup": program, **commands_of}.items():
        (tmp_path / "bin" / name).write_text(f'#!/bin/sh\nexec {path} "$@"\n')
        (tmp_path / "bin" / name).chmod(0o755)
    shutil.copytree(TOP / "examples", tmp_path / "examples", ignore=shutil.ignore_patterns("out"))
    # A free one for each that the page prints.
    ports = {printed: str(own) for printed, own in zip(("8080", "8081"), free_ports(2))}
    port = ports["8080"]
    services: list[subprocess.Popen[str]] = []
    folder, environment = tmp_path, {**os.environ, "CATCHUP": str(program)}
    try:
        for command, printed in commands():
            command, printed = (
                re.sub("|".join(ports), lambda port: ports[port[0]], text) for text in (command, printed))
            if command.startswith("cd "):
                folder = folder / command[3:]
            elif command.endswith(" &"):
                words = command[:-2].split()
                if "--port" not in words:
                    words[1:1] = ["--port", port]
                service = subprocess.Popen(words, cwd=folder, env=environment, stdout=subprocess.PIPE, text=True,
                                           start_new_session=True)
                services.append(service)
                assert service.stdout is not None
                assert service.stdout.readline() == printed
            else:
                done = subprocess.run(["bash", "-c", command], cwd=folder, env=environment, capture_output=True,
                                      text=True,
                                      timeout=SECONDS, check=False)
                assert done.returncode == 0, (command, done)
                assert re.match(as_pattern(printed), done.stdout.strip(), re.DOTALL), (command, done.stdout)
        check_client(port)
    finally:
        for service in services:
            os.killpg(service.pid, signal.SIGKILL)
            service.communicate()


def check_client(port: str) -> None:
    """The page's client in Python does what it says."""
    [text] = re.findall(r"^```python\n(.*?)^```", PAGE.read_text(), re.DOTALL | re.MULTILINE)
    done = subprocess.run([sys.executable, "-c", text.replace("8080", port)], capture_output=True, text=True,
                          timeout=SECONDS, check=False)
    assert done.returncode == 0, done.stderr
    assert re.fullmatch(r"\d\d:\d\d:\d\d \[[0-9, ]+\]\nserved now: [0-9a-f]{12}\n", done.stdout), done.stdout


def test_each_option_is_on_the_page() -> None:
    said = subprocess.run([TOP / "bin" / "catchup-http", "--help"], capture_output=True, text=True, check=True).stdout
    page = PAGE.read_text()
    for option in set(re.findall(r"--[a-z-]+", said)) - {"--help", "--no-access-log"}:
        assert f"`{option}" in page or f"{option} " in page, option


def test_the_unit_is_one_that_systemd_takes(tmp_path: Path) -> None:
    if shutil.which("systemd-analyze") is None:
        pytest.skip("systemd-analyze isn't installed")
    unit = tmp_path / UNIT.name
    unit.write_text(UNIT.read_text().replace("/usr/bin/catchup-http", str(TOP / "bin" / "catchup-http")))
    found = subprocess.run(["systemd-analyze", "verify", "--man=no", unit], capture_output=True, text=True,
                           timeout=SECONDS, check=False)
    assert (found.returncode, found.stderr) == (0, "")
    text = UNIT.read_text()
    for wanted in ("DynamicUser=yes", "ProtectSystem=strict", "NoNewPrivileges=yes", "KillMode=mixed"):
        assert f"\n{wanted}\n" in text


def test_a_log_that_is_cut_is_written_on_at_its_new_end(town: Path, tmp_path: Path) -> None:
    """As logrotate does by `copytruncate`, of a file that lines are appended to."""
    log, [port] = tmp_path / "catchup.log", free_ports(1)
    with open(log, "ab") as lines, subprocess.Popen(
            [TOP / "bin" / "catchup-http", "--port", str(port), "--workers", "2", "--access-log", town], stderr=lines,
            stdout=subprocess.PIPE, start_new_session=True) as service, client_of(port) as client:
        try:
            assert service.stdout is not None and service.stdout.readline()
            for _ in range(2):
                assert client.get("/nothing").status_code == 404
                assert wait_for(lambda: log.read_bytes().startswith(b"127.0.0.1 GET /nothing 404 "))
                os.truncate(log, 0)
        finally:
            os.killpg(service.pid, signal.SIGKILL)
