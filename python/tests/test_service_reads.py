"""What a service answers of a network, beside what the program says."""

from __future__ import annotations

import itertools
import re
from collections.abc import Iterator
from pathlib import Path
from typing import Any

import pytest
from conftest import EXAMPLES, build
from hypothesis import given, settings
from hypothesis import strategies as st
from serving import Service, arrivals, ask_program, digest_of

from catchup.service.reads import choices_of

DAY = 86_400
NODES = 159


@pytest.fixture(scope="module")
def service(town: Path) -> Iterator[Service]:
    with Service(town, "--tables", EXAMPLES / "town") as running:
        yield running


def time_of(second: int) -> str:
    return f"{second % DAY // 3600:02}:{second // 60 % 60:02}:{second % 60:02}"


def as_route(reply: str, start: int, end: int, depart: int) -> dict[str, Any]:
    """What is told of a reply, without legs and version."""
    told = {"answer": "unreachable", "from": start, "to": end, "depart": depart, "depart_time": time_of(depart)}
    if reply == "unreachable":
        return told
    found = re.fullmatch(r"arrive=(\d+) arcs=(.*)", reply)
    assert found
    arrive, roads = int(found[1]), [int(road) for road in found[2].split()]
    return {**told, "answer": "arrive", "arrive": arrive, "arrive_time": time_of(arrive), "days_later": arrive // DAY,
            "travel": arrive - depart, "roads": roads}


def test_routes_are_the_programs(service: Service, town: Path) -> None:
    queries = [(i * 7919 % NODES, (i * 104729 + 11) % NODES, i * 2713 % DAY) for i in range(200)]
    queries += [(0, 2, 86399), (1, 1, 5)]
    replies, timed = (ask_program(town, *(f"{kind},{a},{b},{t}" for a, b, t in queries)) for kind in "qv")
    for reply, said, (start, end, depart) in zip(replies, timed, queries):
        for address in (f"/route?from={start}&to={end}&depart={depart}",
                        f"/route?depart={time_of(depart)}&to=node:{end}&from={start}"):
            told = service.get(address)
            assert told.pop("version") == digest_of(town)
            [leg] = told.pop("legs")
            assert told == as_route(reply, start, end, depart)
            assert leg["roads"] == told["roads"] and (leg["depart"], leg["arrive"]) == (depart, told["arrive"])
            # A program that doesn't say seconds refuses the line.
            assert ("seconds" in leg) == (said != "refused: line")
            if "seconds" in leg:
                drive = " ".join(f"{road},{second}" for road, second in zip(leg["roads"], leg["seconds"], strict=True))
                assert said == f"arrive={leg['arrive']} drive={drive}"


@pytest.mark.parametrize("depart", ["28800", "08:00", "8%3A00:00", "8:00", "0028800"])
def test_a_time_of_day_is_a_second(service: Service, depart: str) -> None:
    assert service.get(f"/route?from=0&to={NODES - 1}&depart={depart}")["depart"] == 28800


def test_legs_go_on_from_one_another(service: Service, town: Path) -> None:
    told = service.get("/route?from=5&via=20;80&to=151&depart=86000")
    legs = told["legs"]
    assert [(leg["from"], leg["to"]) for leg in legs] == [(5, 20), (20, 80), (80, 151)]
    depart = 86000
    for leg in legs:
        [arrive] = arrivals(town, [(leg["from"], leg["to"], depart % DAY)])
        assert arrive is not None
        assert (leg["depart"], leg["arrive"]) == (depart, arrive + depart // DAY * DAY)
        depart = leg["arrive"]
    assert told["roads"] == list(itertools.chain(*(leg["roads"] for leg in legs)))
    assert (told["arrive"], told["travel"]) == (depart, depart - 86000)
    assert told["days_later"] == depart // DAY


def test_a_day_is_the_programs(service: Service, town: Path) -> None:
    [day] = ask_program(town, f"d,0,{NODES - 1}")
    pieces = service.get(f"/day?from=0&to={NODES - 1}")["pieces"]
    assert "day " + " ".join("{from},{kind},{value}".format(**piece) for piece in pieces) == day


def test_a_reach_is_the_queries_to_each_node(service: Service, town: Path) -> None:
    wanted = arrivals(town, [(0, node, 28800) for node in range(NODES)])
    assert service.get("/reach?from=0&depart=08:00")["arrive"] == wanted


def test_a_table_is_the_queries_of_its_pairs(service: Service, town: Path) -> None:
    sources, targets = [0, NODES - 1, 0], [1, 0, 2, NODES - 1]
    told = service.get(f"/table?depart=17:05:30&from=0,{NODES - 1},0&to=1;0;2;{NODES - 1}")
    assert (told["from"], told["to"], told["depart"]) == (sources, targets, 61530)
    assert list(itertools.chain(*told["arrive"])) == arrivals(town, [(a, b, 61530) for a in sources for b in targets])


def test_the_latest_departure_is_in_time_and_a_second_later_is_not(service: Service, town: Path) -> None:
    [by] = arrivals(town, [(0, NODES - 1, 30000)])
    told = service.get(f"/latest?from=0&to={NODES - 1}&by={by}")
    assert told["answer"] == "depart" and told["by"] == by
    second = told["depart"]
    at, behind = arrivals(town, [(0, NODES - 1, second), (0, NODES - 1, second + 1)])
    assert at is not None and behind is not None and by is not None
    assert at <= by < behind
    assert service.get(f"/route?from=0&to={NODES - 1}&arrive={by}") == told
    assert service.get(f"/latest?from=0&to={NODES - 1}&by=1")["answer"] == "too late"
    # It counts from the midnight before leaving: whoever may be there the next day leaves before midnight all the same.
    told = service.get(f"/route?from=0&to={NODES - 1}&arrive={DAY + 3600}")
    assert told["depart"] == DAY - 1 and told["arrive"] < DAY + 3600


def test_the_latest_departure_over_places(service: Service, town: Path) -> None:
    for by in (30000, DAY + 300):
        told = service.get(f"/route?from=5&via=20;80&to=151&arrive={by}")
        depart = told["depart"]
        assert told["arrive"] <= by

        def arrival(second: int) -> int:
            return int(service.get(f"/route?from=5&via=20;80&to=151&depart={second}")["arrive"])

        assert arrival(depart) == told["arrive"]
        assert depart == DAY - 1 or arrival(depart + 1) > by


def test_the_best_drive_of_a_window(service: Service, town: Path) -> None:
    after, before = 27000, 33000
    told = service.get(f"/best?from=5&to=151&after={after}&before={before}")
    found = arrivals(town, [(5, 151, second) for second in range(after, before + 1)])
    travel = [(arrive - second, -second) for second, arrive in zip(range(after, before + 1), found)
              if arrive is not None]
    least, second = min(travel)
    assert (told["best"]["travel"], told["best"]["depart"]) == (least, -second)
    choices = [(choice["depart"], choice["arrive"]) for choice in told["choices"]]
    assert (told["best"]["depart"], told["best"]["arrive"]) in choices
    assert all(a[0] < b[0] and a[1] < b[1] for a, b in zip(choices, choices[1:]))
    assert all(found[depart - after] == arrive for depart, arrive in choices)


@given(st.lists(st.tuples(st.integers(1, 500), st.sampled_from(["travel", "until"]), st.integers(0, 900)), max_size=6),
       st.integers(0, DAY - 1), st.integers(0, 2000))
def test_choices_are_none_behind_another(steps: list[tuple[int, str, int]], after: int, wide: int) -> None:
    pieces, at, arrive = [(0, "travel", 600)], 0, 600
    for step, kind, value in steps:
        at, arrive = at + step, max(arrive, at + step + value)
        pieces.append((at, "travel", arrive - at) if kind == "travel" else (at, "until", arrive + 700))
        arrive += 700
    before = min(after + wide, DAY - 1)
    choices = choices_of(pieces, after, before)
    assert choices
    assert all(after <= depart <= before for depart, _ in choices)
    assert all(a[0] < b[0] and a[1] < b[1] for a, b in zip(choices, choices[1:]))


def test_no_walk_is_a_plain_answer(program: Path, tmp_path: Path) -> None:
    with Service(build(EXAMPLES / "rush_hour", tmp_path / "rush.cu", "identity")) as service:
        for address in ("/route?from=2&to=0&depart=5", "/route?from=0&via=2&to=1&depart=5", "/day?from=2&to=0",
                        "/latest?from=2&to=0&by=100", "/best?from=2&to=0&after=0&before=9",
                        "/route?from=2&to=0&arrive=9"):
            assert service.get(address)["answer"] == "unreachable"
        assert service.get("/reach?from=2&depart=5")["arrive"] == [None, None, 5]
        assert service.get("/table?from=2&to=0,2&depart=5")["arrive"] == [[None, 5]]
        assert service.ask("/network")[0] == 404


BAD_QUESTIONS = [
    ("/route?from=0&to=2", "400 depart is missing"),
    ("/route?from=0&to=2&depart=0&by=1", "400 by isn't known here"),
    ("/route?from=0&to=2&depart=0&arrive=1", "400 of depart and arrive one is enough"),
    ("/route?from=0&from=1&to=2&depart=0", "400 each word of an address has a name of its own and a value"),
    ("/route?from=0&to=2&depart=0&to=2", "400 each word of an address has a name of its own and a value"),
    ("/route?from=0&to&depart=0", "400 each word of an address has a name of its own and a value"),
    ("/route?from=1x&to=2&depart=0", "400 from must be a number"),
    ("/route?from=&to=2&depart=0", "400 from must be a number"),
    ("/route?from=-1&to=2&depart=0", "400 from must be a number"),
    ("/route?from=%2B1&to=2&depart=0", "400 from must be a number"),
    ("/route?from=+1&to=2&depart=0", "400 from must be a number"),
    ("/route?from=1_0&to=2&depart=0", "400 from must be a number"),
    ("/route?from=1.0&to=2&depart=0", "400 from must be a number"),
    ("/route?from=%D9%A1&to=2&depart=0", "400 from must be a number"),
    ("/route?from=%C2%B2&to=2&depart=0", "400 from must be a number"),
    ("/route?from=%EF%BC%91&to=2&depart=0", "400 from must be a number"),
    ("/route?from=%FF&to=2&depart=0", "400 the address has bytes that are no text"),
    ("/route?from=1%0A&to=2&depart=0", "400 from must be a number"),
    ("/route?from=1%00&to=2&depart=0", "400 from must be a number"),
    ("/route?from=1%0A2,q,0,0,0&to=2&depart=0", "400 from must be a number"),
    ("/route?from=1,q&to=2&depart=0", "400 from must be a number"),
    ("/route?from=node:&to=2&depart=0", "400 from must be a number"),
    ("/route?from=159&to=2&depart=0", "400 refused: node"),
    ("/route?from=0&to=" + "9" * 9000 + "&depart=0", "400 refused: node"),
    ("/route?from=0&to=2&depart=86400", "400 refused: second"),
    ("/route?from=0&to=2&depart=24:00", "400 depart must be a second, or a time as 08:00 or 08:00:00"),
    ("/route?from=0&to=2&depart=08:60", "400 depart must be a second, or a time as 08:00 or 08:00:00"),
    ("/route?from=0&via=1;;2&to=2&depart=0", "400 via must be numbers with semicolons between"),
    ("/route?from=0&via=159&to=2&depart=0", "400 refused: node"),
    ("/day?from=0&to=159", "400 refused: node"),
    ("/reach?from=0&depart=86400", "400 refused: second"),
    ("/table?from=0&to=1,,2&depart=0", "400 to must be numbers with commas between"),
    ("/table?from=0,159&to=1&depart=0", "400 refused: node"),
    ("/table?from=" + "0," * 1100 + "0&to=" + "0," * 1100 + "0&depart=0", "400 refused: limit"),
    ("/latest?from=0&to=2&by=1099511627777", "400 refused: second"),
    ("/best?from=0&to=2&after=9:00&before=8:00", "400 after is behind before"),
    ("/best?from=0&to=2&after=0&before=86400", "400 refused: second"),
    ("/health?x=1", "400 x isn't known here"),
    ("/edits?from=0", "400 from isn't known here"),
    ("/nothing", "404 there is nothing of this path"),
    ("/route/?from=0", "404 there is nothing of this path"),
    ("/../../etc/passwd", "404 there is nothing of this path"),
    ("/edits/..%2f..%2fetc", "404 there is nothing of this path"),
]


@pytest.mark.parametrize(("address", "wanted"), BAD_QUESTIONS)
def test_bad_questions_are_refused(service: Service, town: Path, address: str, wanted: str) -> None:
    status, told = service.ask(address)
    assert f"{status} {told['error']}" == wanted
    assert told["version"] == digest_of(town)


VALUES = st.one_of(
    st.integers(0, 200).map(str), st.text(max_size=8),
    st.sampled_from(["08:00", "node:3", "1,2", "1;2", "²", "١", "1\n", "0x1", ""]))
PAIRS = st.lists(st.tuples(st.sampled_from(["from", "to", "depart", "via", "by", "after", "profile", "\x00", "x"]),
                           VALUES), max_size=5)


@settings(max_examples=150)
@given(path=st.sampled_from(["/route", "/day", "/reach", "/table", "/latest", "/best", "/edits", "/network"]),
       pairs=PAIRS)
def test_any_words_get_an_answer(service: Service, path: str, pairs: list[tuple[str, str]]) -> None:
    reply = service.client.get(path, params=[(name.encode("utf-8", "replace"), value.encode("utf-8", "replace"))
                                             for name, value in pairs])  # type: ignore[arg-type]
    assert reply.status_code in (200, 400)
    told = reply.json()
    assert told["version"] == reply.headers["Catchup-Version"]
    if reply.status_code == 400:
        assert isinstance(told["error"], str)


def test_what_a_service_says_of_itself(service: Service, town: Path) -> None:
    assert service.get("/health") == {"status": "ok", "version": digest_of(town)}
    network = service.get("/network")
    assert (len(network["nodes"]), len(network["roads"]), network["version"]) == (159, 550, digest_of(town))
    page = service.client.get("/")
    assert page.headers["content-type"] == "text/html; charset=utf-8"
    links = re.findall(r"(?:src|href)\s*=\s*\"([^\"]*)\"", page.text)
    assert links and all(link.startswith(("page/", "#", "data:")) for link in links)
    assert service.ask("/docs")[0] == 404
    described = service.get("/openapi.json")
    assert {"/route", "/day", "/best", "/reach", "/table", "/latest", "/network", "/edits", "/edits/{name}", "/health",
            "/metrics", *(f"/{name}/v1/{{profile}}/{{coordinates}}"
                          for name in ("nearest", "route", "table"))} == set(described["paths"])
    for methods in described["paths"].values():
        for method in methods.values():
            assert "422" not in method["responses"]
            [first, *_] = method["responses"].values()
            assert all("example" in kind for kind in first["content"].values())


def test_each_get_has_a_head_and_other_methods_are_told(service: Service) -> None:
    for path in ("/route?from=0&to=2&depart=0", "/day?from=0&to=2", "/health", "/metrics", "/", "/edits",
                 "/openapi.json"):
        reply = service.client.head(path)
        assert (reply.status_code, reply.content) == (200, b"")
        assert int(reply.headers["content-length"]) > 2 and reply.headers["Catchup-Version"]
    reply = service.client.put("/edits", content=b"x")
    assert (reply.status_code, reply.headers["allow"]) == (405, "GET, HEAD, POST")
    reply = service.client.post("/route?from=0&to=2&depart=0")
    assert (reply.status_code, reply.headers["allow"]) == (405, "GET, HEAD")


def test_the_old_path_of_edits_says_where_they_went(service: Service) -> None:
    for method in ("GET", "POST", "DELETE"):
        status, told = service.ask("/edit", method)
        assert status == 410 and "/edits" in told["hint"]


def test_metrics_count(service: Service, town: Path) -> None:
    service.get("/route?from=0&to=2&depart=0")
    text = service.client.get("/metrics").text
    assert re.search(r'catchup_requests_total\{path="/route",status="200"\} [1-9]', text)
    assert re.search(r"catchup_request_seconds_count [1-9]", text)
    assert f'version="{digest_of(town)}"' in text and "catchup_children 2.0" in text
    assert 'catchup_jobs{state="waiting"} 0.0' in text


def test_several_files_are_profiles(town: Path, tmp_path: Path) -> None:
    rush = build(EXAMPLES / "rush_hour", tmp_path / "rush.cu", "identity")
    with Service(f"car={town}", f"truck={rush}") as service:
        assert service.get("/route?from=0&to=2&depart=28800&profile=truck")["version"] == digest_of(rush)
        assert service.get("/route?from=0&to=2&depart=28800&profile=car")["version"] == digest_of(town)
        assert service.get("/route?from=0&to=2&depart=28800")["version"] == digest_of(town)
        status, told = service.ask("/route?from=0&to=2&depart=28800&profile=bus")
        assert (status, told["error"]) == (400, "InvalidValue")
    with Service(rush) as service:
        assert service.get("/day?from=0&to=2&profile=whatever")["version"] == digest_of(rush)
