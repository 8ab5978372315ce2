"""A service behind nginx, set up by the lines of SERVICE and of the example site: its page in a browser, its paths, edits,
and what comes of them as the service is reloaded or started again."""

from __future__ import annotations

import json
import re
import signal
import socket
import threading
from collections.abc import Iterator
from pathlib import Path
from urllib.parse import urljoin

import httpx
import pytest
from browsing import Browser, import_village
from fronts import Front, need_nginx, site_below_a_path, site_of_two
from serving import SECONDS, Service, client_of, free_ports, wait_for

pytestmark = [pytest.mark.first, pytest.mark.xdist_group("proxies")]
TOKEN = "0123456789abcdef0123456789abcdef"
NAME = "maps.example.org"
PATH = "/catchup"
START, END = "9.5201,47.1352", "9.5262,47.1403"


@pytest.fixture(scope="module")
def village(program: Path, tmp_path_factory: pytest.TempPathFactory) -> Iterator[Service]:
    """A service over the village's map, with a token, as one has it behind a proxy."""
    folder = import_village(tmp_path_factory.mktemp("village") / "map")
    token = folder / "token"
    token.write_text(TOKEN)
    with Service(folder / "map.cu", "--tables", folder, "--token", token, "--name", NAME, "--docs", "--access-log") as found:
        yield found


@pytest.fixture(scope="module")
def front(village: Service, tmp_path_factory: pytest.TempPathFactory) -> Iterator[Front]:
    """nginx with the service below a path."""
    need_nginx()
    [port] = free_ports(1)
    with Front(tmp_path_factory.mktemp("front"), site_below_a_path(village.port, port), port) as found:
        yield found


@pytest.fixture
def client(front: Front) -> Iterator[httpx.Client]:
    with front.client_of() as found:
        yield found


def allowed(**more: str) -> dict[str, str]:
    """The headers of who may write, and some more."""
    return {"Authorization": f"Bearer {TOKEN}", **more}


def test_the_page_works_below_a_path(front: Front, tmp_path: Path) -> None:
    browser = Browser(tmp_path)
    try:
        browser.open(front, f"{PATH[1:]}/#from={START}&to={END}&depart=08:00")
        browser.wait_text("answer", "→")
        browser.wait_text("streets", "Dorfstrasse")
        for name in ("gpx", "geojson"):
            reply = httpx.get(browser.run("return document.getElementById(arguments[0]).href", name), verify=False)
            assert reply.status_code == 200 and "Dorfstrasse" in reply.text
        # The page's own way to edit, as from the form of a road.
        browser.run("import('./page/file/service.js').then(service => service.edit([arguments[0]], arguments[1]))",
                    {"road": 0, "pieces": [{"from": 0, "kind": "travel", "value": 600}]}, TOKEN)
        browser.wait_text("notice", "The network has changed")
        shared = browser.run("return location.href")
        assert shared.startswith(f"http://127.0.0.1:{front.port}{PATH}/#")
        browser.open(front, shared.partition(f":{front.port}/")[2])
        browser.wait_text("answer", "→")
        asked = browser.run("return performance.getEntriesByType('resource').map(each => new URL(each.name).pathname)")
        assert len(asked) > 20 and [path for path in asked if not path.startswith(PATH + "/")] == []
        assert browser.problems() == []
        # It had them all.
        files = [line for line in front.told() if f"GET {PATH}/page/file/" in line]
        assert [line for line in files[len(files) // 2:] if " 304 " not in line] == []
    finally:
        browser.close()


@pytest.mark.parametrize(("path", "part"), [
    ("/", "<title>catchup</title>"), ("/health", '"status":"ok"'), ("/route?from=0&to=2&depart=08:00", '"arrive"'),
    (f"/route?from={START}&to={END}&depart=08:00", "Dorfstrasse"),
    (f"/route/v1/car/{START};{END}?steps=true&depart=08:00", "Dorfstrasse"),
    ("/route/v1/car/polyline(_bu~Gskby@%7B%5Ece@)?depart=08:00", '"code":"Ok"'),
    ("/page/search?q=M%C3%BChleweg", "M\\u00fchleweg"), ("/page/file/main.js", "import"), ("/edits", '"jobs"')])
def test_the_paths_below_a_path(client: httpx.Client, village: Service, path: str, part: str) -> None:
    reply = client.get(PATH + path, headers={"Host": NAME})
    assert reply.status_code == 200 and part in reply.text, reply.text
    assert reply.headers["Catchup-Version"] == village.client.get("/health").headers["Catchup-Version"]


def test_what_isnt_served_there(client: httpx.Client) -> None:
    assert client.get(PATH + "/health", headers={"Host": "evil.example"}).status_code == 421
    assert client.get(PATH + "/metrics").status_code == 403
    assert client.get("/health").status_code == 404
    moved = client.get(PATH, headers={"Host": f"{NAME}:99"})
    assert (moved.status_code, moved.headers["Location"]) == (301, PATH + "/")


def test_the_described_paths_are_below_the_path(client: httpx.Client) -> None:
    shown = client.get(PATH + "/docs")
    [name] = re.findall(r"url: '([^']*)'", shown.text)
    described = urljoin(str(shown.url), name)
    told = client.get(described).json()
    [server] = told["servers"]
    base = urljoin(described, server["url"]).rstrip("/")
    assert "/health" in told["paths"] and client.get(base + "/health").json()["status"] == "ok"


# ---- edits ----


@pytest.mark.parametrize("is_chunked", [False, True], ids=["length", "chunked"])
def test_edits_below_a_path(client: httpx.Client, village: Service, is_chunked: bool) -> None:
    line, many = b"s,0,0,travel,%d\n" % (60 + is_chunked), 100_000
    assert len(line) * many > 1 << 20
    reply = client.post(PATH + "/edits", content=iter([line * many]) if is_chunked else line * many, headers=allowed())
    assert (reply.status_code, reply.json()["lines"]) == (200, many)
    assert reply.json()["version"] == village.get("/health")["version"]


def test_a_job_is_where_the_proxy_says(client: httpx.Client) -> None:
    reply = client.post(PATH + "/edits?wait=0", content="s,0,0,travel,77", headers=allowed())
    assert (reply.status_code, reply.headers["Location"]) == (202, f"{PATH}/edits/{reply.json()['job']}")
    place = reply.headers["Location"]
    assert wait_for(lambda: client.get(place).json()["state"], lambda state: state == "done") == "done"
    assert client.delete(place, headers=allowed()).status_code == 409


def test_who_may_edit_behind_a_proxy(client: httpx.Client, front: Front) -> None:
    """A page's origin has the proxy's port, and behind TLS another scheme than the service speaks."""
    own = f"http://127.0.0.1:{front.port}"
    for headers, wanted in (
            ({}, 401), (allowed(Origin=own), 400), (allowed(Origin="http://127.0.0.1"), 403),
            (allowed(Origin=f"https://{NAME}", Host=NAME), 400), (allowed(Origin=f"http://{NAME}", Host=NAME), 400),
            (allowed(Origin="https://elsewhere.example", Host=NAME), 403)):
        assert client.post(PATH + "/edits", content="?", headers=headers).status_code == wanted, headers


def test_the_service_sees_the_proxy_as_its_client(front: Front, village: Service) -> None:
    """Whatever a client says of itself; whose address it is nginx tells in its own log."""
    with socket.create_connection(("127.0.0.1", front.port), source_address=("127.0.0.9", 0), timeout=SECONDS) as own:
        own.sendall(b"GET /catchup/health HTTP/1.0\r\nHost: localhost\r\nX-Forwarded-For: 203.0.113.9\r\n"
                    b"Forwarded: for=203.0.113.9\r\nUser-Agent: seen\r\n\r\n")
        assert own.makefile("rb").readline().split()[1] == b"200"
    said = village.process.stderr
    assert said is not None
    # Lines of tests before this one stand before.
    while not (line := said.readline()).startswith("127.0.0.1 GET /health 200 "):
        assert line, "the access log has no such line"
    assert wait_for(lambda: "127.0.0.9 200 GET /catchup/health HTTP/1.0" in front.told())


# ---- who gets what ----


class Fake:
    """Who listens in the place of a service, and notes what it gets: by which of its connections, and which request.
    It answers 200, or closes where a request has come whole."""

    def __init__(self, *, has_answers: bool = True) -> None:
        self.has_answers = has_answers
        self.asked: list[tuple[int, str]] = []
        self.listener = socket.create_server(("127.0.0.1", 0))
        self.port: int = self.listener.getsockname()[1]
        threading.Thread(target=self.accept, daemon=True).start()

    def accept(self) -> None:
        number = 0
        while True:
            try:
                own, _ = self.listener.accept()
            except OSError:
                return
            number += 1
            threading.Thread(target=self.answer, args=(own, number), daemon=True).start()

    def answer(self, own: socket.socket, number: int) -> None:
        with own, own.makefile("rb") as lines:
            while first := lines.readline():
                length = 0
                while (line := lines.readline().strip().lower()):
                    length = int(line.partition(b":")[2]) if line.startswith(b"content-length:") else length
                lines.read(length)
                self.asked.append((number, " ".join(first.decode().split()[:2])))
                if not self.has_answers:
                    return
                own.sendall(b"HTTP/1.1 200 OK\r\nContent-Length: 2\r\n\r\n{}")

    def close(self) -> None:
        self.listener.shutdown(socket.SHUT_RDWR)
        self.listener.close()


@pytest.fixture
def front_of_fakes(tmp_path: Path) -> Iterator[tuple[Front, list[Fake]]]:
    """The example site before two that never answer."""
    need_nginx()
    fakes = [Fake(has_answers=False) for _ in range(2)]
    [port] = free_ports(1)
    with Front(tmp_path, site_of_two([fake.port for fake in fakes], port), port) as front:
        yield front, fakes
    for fake in fakes:
        fake.close()


def test_only_reads_are_asked_of_the_other_host(front_of_fakes: tuple[Front, list[Fake]]) -> None:
    front, fakes = front_of_fakes
    with front.client_of() as client:
        for method, path, wanted in (
                ("POST", "/edits", 1), ("POST", "/edits?wait=0", 1), ("DELETE", "/edits/7", 1), ("GET", "/edits/7", 1),
                ("GET", "/route?from=0&to=1&depart=0", 2), ("GET", "/health", 2)):
            assert client.request(method, path, content=b"s,0,0,travel,1" if method == "POST" else None).status_code == 502
            asked = [found for fake in fakes for _, found in fake.asked]
            assert asked == [f"{method} {path}"] * wanted
            for fake in fakes:
                fake.asked.clear()


def test_an_edit_goes_to_the_host_that_can_be_reached(tmp_path: Path) -> None:
    """By a connection of its own, whereas those of reads are kept."""
    need_nginx()
    there = Fake()
    gone, port = free_ports(2)
    with Front(tmp_path, site_of_two([gone, there.port], port), port) as front, front.client_of() as client:
        for _ in range(4):
            assert client.get("/health").status_code == 200
            assert client.post("/edits", content="s,0,0,travel,1").status_code == 200
    there.close()
    by = {kind: [number for number, found in there.asked if found.startswith(kind)] for kind in ("GET", "POST")}
    assert len(set(by["POST"])) == len(by["POST"]) == 4 and not set(by["POST"]) & set(by["GET"])
    assert len(by["GET"]) == 4 and len(set(by["GET"])) == 1


# ---- reloads and starts ----


class Editing(threading.Thread):
    """Makes edits all the time, one behind another, and notes how each was answered."""

    def __init__(self, port: int, path: str) -> None:
        super().__init__(daemon=True)
        self.port, self.path = port, path
        self.statuses: dict[int, int] = {}
        self.routes: list[int] = []
        self.is_over = False

    def run(self) -> None:
        number = 1000
        while not self.is_over:
            number += 1
            with client_of(self.port) as client:
                try:
                    self.routes.append(client.get(self.path + "/route?from=5&to=151&depart=0").status_code)
                    self.statuses[number] = client.post(self.path + "/edits", content=f"s,0,0,travel,{number}").status_code
                except httpx.HTTPError:
                    self.statuses[number] = 0

    def wait(self, more: int, status: int = 200) -> None:
        """Waits until so many more were answered with a status."""
        before = self.count(status)
        assert wait_for(lambda: self.count(status) >= before + more), self.statuses

    def count(self, status: int) -> int:
        return list(self.statuses.values()).count(status)

    def end(self) -> None:
        self.is_over = True
        self.join()


def edits_of(path: Path) -> set[int]:
    """The numbers of the edits that a journal has, each of which is there once."""
    found = [int(line.rpartition(",")[2]) for text in path.with_name(path.name + ".journal").read_text().splitlines()
             for line in json.loads(text)["edits"]]
    assert len(found) == len(set(found))
    return set(found)


@pytest.mark.parametrize("is_below", [True, False], ids=["page", "site"])
def test_edits_while_the_service_is_reloaded_and_started_again(town: Path, tmp_path: Path, is_below: bool) -> None:
    """None is confirmed that isn't made, none is made twice, and a reload is no error of the proxy's."""
    need_nginx()
    path = tmp_path / "town.cu"
    path.write_bytes(town.read_bytes())
    own, port = free_ports(2)
    site = site_below_a_path(own, port) if is_below else site_of_two([own, own], port)
    words = (path, "--port", str(own))
    with Front(tmp_path, site, port):
        with Service(*words, workers=2) as service:
            editing = Editing(port, PATH if is_below else "")
            editing.start()
            editing.wait(2)
            for _ in range(3):
                before = set(service.workers())
                service.process.send_signal(signal.SIGHUP)
                assert wait_for(lambda: not before & set(service.workers()))
                editing.wait(2)
            assert set(editing.statuses.values()) <= {200, 503} and set(editing.routes) <= {200, 503}, editing.statuses
            assert service.end()[0] == 0
        editing.wait(2, 502)
        with Service(*words, workers=2):
            editing.wait(2)
            editing.end()
    assert {number for number, status in editing.statuses.items() if status == 200} <= edits_of(path)
    assert set(editing.statuses.values()) <= {200, 502, 503}
