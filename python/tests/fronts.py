"""nginx before services, by the very lines that operators are told."""

from __future__ import annotations

import os
import re
import shutil
import signal
import socket
import subprocess
from pathlib import Path

import httpx
import pytest
from conftest import TOP
from serving import client_of, wait_for

PAGE = TOP / "docs" / "SERVICE.md"
SITE = TOP / "packaging" / "service" / "nginx.conf"
NGINX = Path("/usr/sbin/nginx")
# What Debian's own file has around a site, with all that is written in a folder of the test's.
AROUND = """
user root; pid {room}/nginx.pid; error_log {room}/nginx.log; daemon off; worker_processes 1;
events {{ worker_connections 256; }}
http {{
  log_format who '$remote_addr $status $request'; access_log {room}/access.log who;
  client_body_temp_path {room}/body; proxy_temp_path {room}/proxy; fastcgi_temp_path {room}/f;
  uwsgi_temp_path {room}/u; scgi_temp_path {room}/s;
{site}
}}
"""


def need_nginx() -> None:
    """Skips where there is no nginx."""
    if shutil.which("nginx") is None and not NGINX.exists():
        pytest.skip("nginx isn't installed")


def put(text: str, **changes: tuple[str, str]) -> str:
    """A configuration with some of its words changed, each of which has to be there."""
    for name, (old, new) in changes.items():
        assert old in text, name
        text = text.replace(old, new)
    return text


def site_of_two(ports: list[int], port: int) -> str:
    """The example site, for two ports of this machine."""
    return put(SITE.read_text(), first=("10.0.0.1:8080", f"127.0.0.1:{ports[0]}"),
               second=("10.0.0.2:8080", f"127.0.0.1:{ports[1]}"), listen=("listen 80;", f"listen 127.0.0.1:{port};"))


def site_below_a_path(own: int, port: int) -> str:
    """The lines of SERVICE for a path of a site, in a site that has nothing else."""
    [section] = re.findall(r"^### Behind a proxy\n(.*?)^##", PAGE.read_text(), re.DOTALL | re.MULTILINE)
    [lines] = re.findall(r"^```nginx\n(.*?)^```", section, re.DOTALL | re.MULTILINE)
    lines = put(lines, service=("127.0.0.1:8080", f"127.0.0.1:{own}"))
    return f"server {{ listen 127.0.0.1:{port}; {lines} }}"


def is_open(port: int) -> bool:
    """Whether somebody listens there."""
    try:
        socket.create_connection(("127.0.0.1", port), timeout=1).close()
    except OSError:
        return False
    return True


class Front:
    """nginx with a site, which listens on a port."""

    def __init__(self, room: Path, site: str, port: int) -> None:
        self.room, self.port = room, port
        self.config = room / "nginx.conf"
        self.config.write_text(AROUND.format(room=room, site=site))
        self.start()

    def start(self) -> None:
        """Starts it, again with the same words."""
        self.process = subprocess.Popen([NGINX, "-c", self.config, "-p", self.room], stdout=subprocess.DEVNULL,
                                        stderr=subprocess.DEVNULL, start_new_session=True)
        assert wait_for(lambda: is_open(self.port) or self.process.poll() is not None)
        assert self.process.poll() is None, self.said()

    def kill(self) -> None:
        """Ends it by SIGKILL, its workers too, which don't end with it, and waits until nobody listens there."""
        os.killpg(self.process.pid, signal.SIGKILL)
        self.process.wait()
        assert not wait_for(lambda: is_open(self.port), lambda found: not found)

    def __enter__(self) -> Front:
        return self

    def __exit__(self, *_: object) -> None:
        self.kill()

    def said(self) -> str:
        """What it says went wrong."""
        log = self.room / "nginx.log"
        return log.read_text() if log.exists() else ""

    def told(self) -> list[str]:
        """Who asked what, and how it was answered: a line each."""
        return (self.room / "access.log").read_text().splitlines()

    def client_of(self) -> httpx.Client:
        """A client."""
        return client_of(self.port)
