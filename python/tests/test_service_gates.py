"""Who gets into a service: names, origins, tokens, and words of a start."""

from __future__ import annotations

import os
import signal
import socket
import subprocess
import time
from collections.abc import Iterator
from pathlib import Path

import pytest
from commands import call, check_refused, run
from conftest import EXAMPLES
from serving import HTTP, SECONDS, Service, client_of, digest_of, read_all, wait_for

from catchup.service import probing
from catchup.service.gates import Gates

TOKEN = "0123456789abcdef0123456789abcdef"
ORIGIN = "https://maps.example.org"


@pytest.fixture(scope="module")
def guarded(town: Path, tmp_path_factory: pytest.TempPathFactory) -> Iterator[Service]:
    """A service with a token, a name and an origin; its file is its own."""
    folder = tmp_path_factory.mktemp("guarded")
    path = folder / "town.cu"
    path.write_bytes(town.read_bytes())
    token = folder / "token"
    token.write_text(TOKEN + "\n")
    with Service(path, "--token", token, "--name", "Roads.Example.org", "--origin", ORIGIN) as service:
        yield service


HOSTS = [
    ("localhost", 200), ("LOCALHOST:8080", 200), ("127.0.0.1", 200), ("[::1]:99", 200), ("roads.example.org", 200),
    ("ROADS.example.org:443", 200), ("evil.example", 421), ("evil.example:8080", 421), ("localhost.evil.example", 421),
    ("localhost:x", 421), ("localhost@evil", 421), ("", 421), ("127.0.0.2", 421), ("[::1", 421),
    ("localhost:80:80", 421), ("Roads.Example.Org.:443", 200), ("localhost.", 200), ("localhost..", 421), (".", 421),
    ("[::0:1]", 200), ("[0:0:0:0:0:0:0:1]:8080", 200), ("[0000::0001]:", 200), ("[::2]", 421), ("::1", 421),
    ("[localhost]", 421), ("[::1]x", 421), ("[::1].", 421), ("roads.example.org:", 200), ("localhost:123456", 421)]


@pytest.mark.parametrize(("host", "wanted"), HOSTS)
def test_names_that_are_served(guarded: Service, host: str, wanted: int) -> None:
    for path in ("/health", "/metrics", "/route?from=0&to=2&depart=0", "/nothing", "/"):
        reply = guarded.client.get(path, headers={"Host": host})
        assert reply.status_code == (404 if wanted == 200 and path == "/nothing" else wanted)
        if wanted == 421:
            assert reply.json()["error"] == "this name isn't served here" and reply.json()["version"]


def test_a_request_without_a_name(guarded: Service) -> None:
    assert guarded.raw(b"GET /health HTTP/1.0\r\n\r\n")[0].startswith("421")
    assert guarded.raw(b"GET /health HTTP/1.1\r\n\r\n")[0].startswith("400")


WRITES = [
    ({}, 401), ({"Authorization": "Bearer " + TOKEN[:-1]}, 401), ({"Authorization": TOKEN}, 401),
    ({"Authorization": "Basic " + TOKEN}, 401),
    ({"Authorization": "Bearer " + TOKEN}, 400), ({"Authorization": "bearer " + TOKEN}, 400),
    ({"Authorization": "Bearer " + TOKEN, "Origin": "http://elsewhere.example"}, 403),
    ({"Authorization": "Bearer " + TOKEN, "Origin": "null"}, 403),
    ({"Authorization": "Bearer " + TOKEN, "Origin": ""}, 403),
    ({"Authorization": "Bearer " + TOKEN, "Origin": "http://127.0.0.1:1"}, 403), ({"Origin": ORIGIN}, 401),
    ({"Authorization": "Bearer " + TOKEN, "Origin": ORIGIN}, 400),
    ({"Authorization": "Bearer " + TOKEN, "Origin": "{own}"}, 400)]


@pytest.mark.parametrize(("headers", "wanted"), WRITES)
def test_who_may_write(guarded: Service, headers: dict[str, str], wanted: int) -> None:
    own = {name: value.format(own=f"http://127.0.0.1:{guarded.port}") for name, value in headers.items()}
    reply = guarded.client.post("/edits", content="q,0,0,0", headers=own)
    assert reply.status_code == wanted, reply.text
    assert guarded.client.delete("/edits/none", headers=own).status_code == (404 if wanted == 400 else wanted)
    if wanted == 401:
        assert reply.headers["WWW-Authenticate"] == "Bearer"


def status_of_edit(service: Service, token: str) -> int:
    """What an edit gets that is refused, by a worker that was asked on a connection of its own."""
    with service.client_of() as client:
        return client.post("/edits", content="?", headers={"Authorization": f"Bearer {token}"}).status_code


def test_a_token_is_changed_by_a_reload_alone(town: Path, tmp_path: Path) -> None:
    """A worker that is started again has that of the others, whatever has become of the file."""
    token, other = tmp_path / "token", "another-" + TOKEN
    token.write_text(TOKEN)
    with Service(town, "--token", token) as service:
        said = service.process.stderr
        assert said is not None
        for text in ("", other):
            token.write_text(text)
            [worker] = service.workers()
            os.kill(worker, signal.SIGKILL)
            assert "was terminated due to signal 9" in said.readline()
            assert status_of_edit(service, TOKEN) == 400 and status_of_edit(service, other) == 401
        token.write_text("short")
        service.process.send_signal(signal.SIGHUP)
        assert "nothing is reloaded: " in said.readline()
        assert status_of_edit(service, TOKEN) == 400 and status_of_edit(service, "short") == 401
        token.write_text(other)
        service.process.send_signal(signal.SIGHUP)
        assert wait_for(lambda: status_of_edit(service, TOKEN), lambda status: status == 401) == 401
        assert status_of_edit(service, other) == 400
        assert service.end() == (0, "", "")


def test_pages_of_a_named_origin_may_read(guarded: Service) -> None:
    for path in ("/health", "/route?from=0&to=2&depart=0", "/nothing"):
        headers = guarded.client.get(path, headers={"Origin": ORIGIN}).headers
        assert (headers["Access-Control-Allow-Origin"], headers["Vary"]) == (ORIGIN, "Origin")
        assert headers["Access-Control-Expose-Headers"] == "Catchup-Version, Location, Retry-After"
        other = guarded.client.get(path, headers={"Origin": "http://elsewhere"}).headers
        assert "Access-Control-Allow-Origin" not in other and other["Vary"] == "Origin"
    reply = guarded.client.options("/edits", headers={"Origin": ORIGIN, "Access-Control-Request-Method": "POST"})
    assert reply.status_code == 204 and "Authorization" in reply.headers["Access-Control-Allow-Headers"]
    assert guarded.client.options("/edits", headers={"Origin": "http://elsewhere"}).status_code == 405


def test_an_own_page_may_write_without_a_token_on_this_machine(town: Path, tmp_path: Path) -> None:
    path = tmp_path / "town.cu"
    path.write_bytes(town.read_bytes())
    with Service(path) as service:
        assert service.ask("/edits", "POST", b"q,0,0,0", Origin="http://evil.example:8080",
                           Host="evil.example:8080")[0] == 421
        assert service.ask("/edits", "POST", b"q,0,0,0", Origin="http://evil.example:8080")[0] == 403
        assert service.ask("/edits", "POST", b"q,0,0,0", Origin=f"http://localhost:{service.port}",
                           Host=f"localhost:{service.port}")[0] == 400


@pytest.mark.parametrize(("origin", "host", "wanted"), [
    ("http://a.example", "a.example", False), ("http://a.example:80", "a.example", False),
    ("https://a.example", "a.example:443", False),
    ("https://a.example", "a.example", False), ("http://a.example:81", "a.example", True),
    ("http://[::1]:8080", "[::1]:8080", False),
    ("http://[::1]:80", "[0::0:1]", False), ("http://[0:0::1]", "[::1]:80", False), ("http://A.Example.", "a.example", False),
    ("https://a.example", "A.EXAMPLE.:443", False), ("https://a.example:443", "a.example", False),
    ("https://a.example", "a.example:80", True), ("http://a.example", "a.example:443", True),
    ("http://[::1]", "[::2]", True), ("http://[::1", "[::1]", True), ("http://me@a.example", "a.example", True),
    ("http://a.example", "a.example:x", True), ("http://a.example?x", "a.example", True),
    ("http://b.example", "a.example", True), ("ftp://a.example", "a.example", True),
    ("http://a.example:x", "a.example", True),
    ("file://", "a.example", True), ("http://a.example/", "a.example", True)])
def test_origins_of_elsewhere(origin: str, host: str, wanted: bool) -> None:
    assert Gates.of((), (), None).is_elsewhere(origin, host) is wanted


@pytest.mark.parametrize(("named", "origin", "wanted"), [
    ("https://Maps.Example.org", "https://maps.example.org", True),
    ("https://maps.example.org:443", "https://maps.example.org", True),
    ("https://maps.example.org", "https://maps.example.org:443", True), ("http://[::0:1]:80", "http://[::1]", True),
    ("https://maps.example.org", "http://maps.example.org", False),
    ("https://maps.example.org:8443", "https://maps.example.org", False)])
def test_a_named_origin_is_compared_as_it_is_meant(named: str, origin: str, wanted: bool) -> None:
    """Whoever may read is told by the very text that its browser sent."""
    gates = Gates.of((), (named,), None)
    assert gates.is_elsewhere(origin, "elsewhere.example") is not wanted
    assert gates.shared({b"origin": origin.encode()}).get("Access-Control-Allow-Origin") == (origin if wanted else None)


@pytest.mark.parametrize(("name", "host"), [
    ("Maps.Example.org.", "maps.example.org"), ("2001:DB8::0:1", "[2001:db8::1]"), ("[2001:db8:0::1]", "[2001:db8::1]:80"),
    ("fe80::1%eth0", "[fe80::1]")])
def test_a_served_name_is_compared_as_it_is_meant(name: str, host: str) -> None:
    Gates.of((name,), (), None).check_host({b"host": host.encode()})


# ---- starts and ends ----


@pytest.fixture(scope="module")
def room(tmp_path_factory: pytest.TempPathFactory) -> Path:
    """A folder with a token, a file that holds none, and a packed file cut short."""
    folder = tmp_path_factory.mktemp("room")
    for name, text in (("token", TOKEN), ("bad", "short"), ("short.cu", "CATCHUPH")):
        (folder / name).write_text(text)
    return folder


WRONG = [
    ("", 2, "Missing argument"), ("{town} --port 65536", 2, "65535"), ("{town} --port 1_8_0", 2, "number"),
    ("{town} --port \u0661\u0662", 2, "number"), ("{town} --keep x", 2, "--keep"), ("{town} --workers 0", 2, "number"),
    ("none.cu", 1, "No such file"), (".", 1, "is no file"), ("{town} --host 0.0.0.0", 2, "--token"),
    ("{town} --host [::1]", 2, "write it as ::1"),
    ("{town} --token none", 1, "can't be read"), ("{town} --token bad", 1, "holds no token"),
    ("{town} --origin x", 2, "is no origin"), ("{town} --name a,b", 2, "is no name"),
    ("{town} --origin https://a.example:x", 2, "is no origin"), ("{town} --origin https://[::1", 2, "is no origin"),
    ("{town} --name maps.example.org:8080", 2, "has a port in it: write it as --name maps.example.org"),
    ("{town} --name [::0:1]:8080", 2, "has a port in it: write it as --name [::1]"),
    ("{town} --name https://maps.example.org", 2, "is no name of a machine: write it as maps.example.org"),
    ("{town} --name a:b", 2, "is no name"), ("{town} --name [a]", 2, "is no name"), ("{town} --name .", 2, "is no name"),
    ("car={town} car={town}", 2, "named twice"), (f"{{town}} --tables car={EXAMPLES}/town", 2, "names no served file"),
    ("{town} --zone Nowhere", 2, "write it as Europe/Zurich"), ("{town} --log stream", 2, "write it as redis://"),
    ("{town} --tiles x", 2, "write it as https://"), ("{town} --leaflet none", 1, "has no leaflet.js"),
    # Words come first, whatever the files hold.
    ("a=none.cu a=none.cu", 2, "named twice"), ("none.cu --zone Nowhere", 2, "is no time zone")]


@pytest.mark.parametrize(("words", "status", "said"), WRONG)
def test_words_that_start_nothing(town: Path, room: Path, words: str, status: int, said: str) -> None:
    """Words that are refused before anything is opened: in this process, since to start one takes the longest."""
    check_refused(call("catchup-http", *words.format(town=town).split(), cwd=room), status, said)


def test_a_name_that_is_no_text(town: Path, tmp_path: Path) -> None:
    """The program takes no such words."""
    other = tmp_path / os.fsdecode(b"caf\xe9.cu")
    other.write_bytes(town.read_bytes())
    check_refused(call("catchup-http", other), 1, "caf\\udce9.cu' has a name that isn't UTF-8")


# What is found out by the program, the tables and the system: by processes of their own.
CANNOT = [
    ("", 2, "Missing argument"), ("short.cu", 6, "file: short"),
    (f"{{town}} --tables {EXAMPLES}/rush_hour", 1, "aren't tables of"),
    ("{town} --tables /dev/zero", 1, "can't be read"),
    ("{town} --host 203.0.113.1 --token token", 1, "can't listen on 203.0.113.1")]


@pytest.mark.parametrize(("words", "status", "said"), CANNOT)
def test_what_cannot_be_served(town: Path, room: Path, words: str, status: int, said: str) -> None:
    ran = run("catchup-http", *words.format(town=town).split(), cwd=room)
    check_refused(ran, status, said)
    assert ran.error.startswith("catchup-http: ")


def test_a_port_that_is_taken_and_no_program(town: Path, tmp_path: Path) -> None:
    with socket.create_server(("127.0.0.1", 0)) as other:
        ran = run("catchup-http", town, "--port", str(other.getsockname()[1]))
    check_refused(ran, 1, "Address already in use: end what listens there, or choose another --port")
    check_refused(call("catchup-http", town, env={"CATCHUP": str(tmp_path / "none")}), 1, "CATCHUP names")


# Programs that aren't catchup: one that writes the file out, and those that end, say more and more, or say nothing.
OTHERS = [
    ("/bin/cat", "it ended with status 1"), ("/bin/true", "it ended with status 0"),
    ("exec /usr/bin/yes words", "it says other things"), ("echo words", "it ended with status 0"),
    ("exec sleep 600", "it gave no answer in 1 s"), ("sleep 600", "it gave no answer in 1 s"),
    ("kill -9 $$", "it was ended by SIGKILL")]


@pytest.mark.parametrize(("does", "said"), OTHERS)
def test_a_program_that_is_no_catchup(town: Path, tmp_path: Path, monkeypatch: pytest.MonkeyPatch, does: str,
                                      said: str) -> None:
    # On a busy machine it takes a while until one that ends has done so.
    monkeypatch.setattr(probing, "PROBE_SECONDS", 1.0 if "no answer" in said else float(SECONDS))
    program = Path(does)
    if not program.is_absolute():
        program = tmp_path / "other"
        program.write_text(f"#!/bin/sh\n{does}\n")
        program.chmod(0o755)
    began = time.monotonic()
    ran = call("catchup-http", town, env={"CATCHUP": str(program)})
    check_refused(ran, 1, f"CATCHUP names {program}, and that isn't catchup: {said}; set it to")
    assert len(ran.error) < 400 and time.monotonic() - began < SECONDS


def run_within(limit: str, *words: str | Path) -> subprocess.CompletedProcess[str]:
    """Runs the service under a limit of the shell's `ulimit`."""
    shell = ["bash", "-c", f'ulimit {limit}; exec "$0" "$@"', HTTP, "--port", "0", "--workers", "2", *words]
    return subprocess.run(shell, capture_output=True, text=True, timeout=SECONDS, check=False)


def test_too_few_files_that_may_be_open_are_told_at_the_start(town: Path) -> None:
    for many, words in ((20, [town]), (79, [f"a={town}", f"b={town}"])):
        done = run_within(f"-n {many}", *words)
        assert (done.returncode, done.stdout) == (1, ""), done
        needed = 48 + 16 * len(words)
        assert done.stderr == (f"catchup-http: only {many} files may be open here, and the service needs {needed}: "
                               "allow more (ulimit -n)\n")


def test_shared_memory_that_cannot_be_written_is_done_without(town: Path) -> None:
    """Workers give their signs there, where they can."""
    apart = ["unshare", "--user", "--map-root-user", "--mount", "sh", "-c"]
    closed = "mount -t tmpfs -o ro none /dev/shm && "
    if subprocess.run([*apart, closed + "true"], capture_output=True, check=False).returncode:
        pytest.skip("no folder can be mounted here")
    process = subprocess.Popen([*apart, closed + 'exec "$0" "$@"', HTTP, "--port", "0", "--workers", "1", town],
                               stdout=subprocess.PIPE, stderr=subprocess.PIPE, text=True, start_new_session=True)
    try:
        assert process.stdout is not None
        with client_of(int(process.stdout.readline().rstrip("/\n").rpartition(":")[2])) as client:
            assert wait_for(lambda: client.get("/health").status_code, lambda status: status == 200) == 200
    finally:
        os.killpg(process.pid, signal.SIGKILL)
        process.communicate()


def test_where_no_worker_can_begin_the_service_ends(town: Path) -> None:
    done = run_within("-v 60000", town)
    assert done.returncode == 1, done
    assert "failed before any could serve, so the service ends: allow it more memory" in done.stderr.splitlines()[-1]
    assert done.stderr.count("Exception in worker process") == 1, done.stderr


@pytest.mark.parametrize("number", [signal.SIGTERM, signal.SIGINT])
def test_it_ends_by_a_signal_to_it_or_to_all(town: Path, number: int) -> None:
    with Service(town, workers=2) as service:
        with service.connect() as client:
            # A client that reads nothing holds up no end.
            client.sendall(b"GET /reach?from=5&depart=0 HTTP/1.1\r\nHost: localhost\r\n\r\n" * 3000)
            pids = [*service.workers(), *service.children()]
            assert service.get("/health")["version"] == digest_of(town)
            for pid in pids:
                os.kill(pid, number)
            assert service.end(number) == (0, "", "")


def test_closed_or_full_outputs_stop_nothing(town: Path) -> None:
    with open("/dev/full", "wb") as full:
        process = subprocess.Popen([HTTP, "--port", "0", "--workers", "1", "--access-log", town], stdout=full,
                                   stderr=full)
    try:
        # Its port isn't told, so the sockets of the process are looked at.
        port = wait_for_port(process.pid)
        with socket.create_connection(("127.0.0.1", port), timeout=SECONDS) as client:
            client.sendall(b"GET /health HTTP/1.0\r\nHost: localhost\r\n\r\n")
            assert b" 200 OK" in read_all(client)
    finally:
        process.terminate()
    assert process.wait(SECONDS) == 0


def test_closed_outputs_are_no_other_files(town: Path) -> None:
    """What is opened next would take their numbers, and be written to."""
    process = subprocess.Popen(["sh", "-c", 'exec "$0" "$@" <&- >&- 2>&-', HTTP, "--port", "0", "--workers", "1",
                                "--access-log", town])
    try:
        port = wait_for_port(process.pid)
        for number in (0, 1, 2):
            assert os.readlink(f"/proc/{process.pid}/fd/{number}") == os.devnull
        with socket.create_connection(("127.0.0.1", port), timeout=SECONDS) as client:
            client.sendall(b"GET /nothing HTTP/1.0\r\nHost: localhost\r\n\r\n")
            assert b" 404 " in read_all(client)
    finally:
        process.terminate()
    assert process.wait(SECONDS) == 0


def test_nobody_waits_for_a_log_that_is_not_read(town: Path) -> None:
    """A pipe and a socket are full after a few hundred lines; a file takes all."""
    ours, theirs = socket.socketpair()
    for error in (subprocess.PIPE, theirs.fileno()):
        process = subprocess.Popen([HTTP, "--port", "0", "--workers", "1", "--access-log", town],
                                   stdout=subprocess.PIPE, stderr=error, text=True)
        assert process.stdout is not None
        port = int(process.stdout.readline().rstrip("/\n").rpartition(":")[2])
        request = b"GET /nothing?%b HTTP/1.1\r\nHost: localhost\r\n\r\n" % (b"x" * 4000)
        with socket.create_connection(("127.0.0.1", port), timeout=SECONDS) as client:
            client.sendall(request * 200)
            client.shutdown(socket.SHUT_WR)
            assert read_all(client).count(b"HTTP/1.1 404") == 200
        process.terminate()
        assert process.wait(SECONDS) == 0
        process.communicate()
    assert ours.recv(100).startswith(b"127.0.0.1 GET /nothing?xx")
    ours.close()
    theirs.close()


def wait_for_port(pid: int) -> int:
    from serving import wait_for

    def port() -> int | None:
        try:
            own = {os.readlink(place) for place in Path(f"/proc/{pid}/fd").iterdir()}
        except FileNotFoundError:
            # It has closed one meanwhile.
            return None
        for line in Path("/proc/net/tcp").read_text().splitlines()[1:]:
            fields = line.split()
            # Its state is that of one that listens, and its number one of the process' own.
            if fields[3] == "0A" and f"socket:[{fields[9]}]" in own:
                return int(fields[1].rpartition(":")[2], 16)
        return None

    found = wait_for(port)
    assert found is not None
    return found


def test_an_access_log_says_what_was_asked(town: Path) -> None:
    with Service(town, "--access-log") as service:
        service.get("/route?from=0&to=2&depart=0")
        service.ask("/nothing")
        status, _, said = service.end()
    assert status == 0
    first, second = said.splitlines()[-2:]
    assert first.startswith("127.0.0.1 GET /route?from=0&to=2&depart=0 200 ")
    assert second.startswith("127.0.0.1 GET /nothing 404 ")
