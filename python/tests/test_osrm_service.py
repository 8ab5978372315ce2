"""OSRM's paths of a running service: a table of addresses and of what must come, and what HTTP has to do with it."""

from __future__ import annotations

import datetime
import math
import re
import zoneinfo
from collections.abc import Callable, Iterator
from pathlib import Path
from typing import Any

import polyline
import pytest
from osrm_grid import grid_map, import_map, place_of
from serving import Service, read_all, send_all

ZONE = "Asia/Tokyo"
ORIGIN = "https://maps.example.org"
NONE: Any = object()                    # a member that isn't there


@pytest.fixture(scope="module")
def folder(program: Path, tmp_path_factory: pytest.TempPathFactory) -> Path:
    return import_map(grid_map(), tmp_path_factory.mktemp("osrm"))


@pytest.fixture(scope="module")
def service(folder: Path) -> Iterator[Service]:
    with Service(folder / "map.cu", "--tables", folder, "--zone", ZONE, "--origin", ORIGIN) as running:
        yield running


def near(value: float, by: float = 1.0) -> Callable[[Any], bool]:
    """Whether a number is one, or nearly."""
    return lambda found: isinstance(found, (int, float)) and abs(found - value) <= by


def many(least: int, most: int) -> Callable[[Any], bool]:
    """Whether a list has so many entries."""
    return lambda found: isinstance(found, list) and least <= len(found) <= most


def line(decimals: int, ends: list[tuple[float, float]]) -> Callable[[Any], bool]:
    """Whether a text is an encoded line with these ends."""
    def has_ends(found: Any) -> bool:
        places = polyline.decode(found, decimals)
        return all(math.dist(place, (lat, lon)) < 2e-5 for place, (lon, lat) in zip((places[0], places[-1]), ends))
    return has_ends


def differs(found: Any, wanted: Any, at: str = "answer") -> str:
    """Where an answer isn't as wanted; empty where it is."""
    if isinstance(wanted, dict):
        for name, value in wanted.items():
            if value is NONE:
                if name in found:
                    return f"{at}.{name} is there"
            elif name not in found:
                return f"{at}.{name} is missing"
            elif said := differs(found[name], value, f"{at}.{name}"):
                return said
        return ""
    if isinstance(wanted, list):
        if not isinstance(found, list) or len(found) != len(wanted):
            return f"{at} has another length than {len(wanted)}: {found}"
        return next((said for k, (one, other) in enumerate(zip(found, wanted))
                     if (said := differs(one, other, f"{at}[{k}]"))), "")
    if isinstance(wanted, type):
        return "" if isinstance(found, wanted) else f"{at} is {found!r}"
    if callable(wanted):
        return "" if wanted(found) else f"{at} is {found!r}"
    return "" if found == wanted else f"{at} is {found!r} and not {wanted!r}"


def test_differences_are_seen() -> None:
    assert not differs({"a": [1, {"b": 2.0}]}, {"a": [int, {"b": near(2.5)}], "c": NONE})
    for wanted in ({"a": NONE}, {"b": 1}, {"a": [1]}, {"a": [1, {"b": 3.0}]}, {"a": [str, dict]}):
        assert differs({"a": [1, {"b": 2.0}]}, wanted)


A, B, C = place_of(0, 0), place_of(800, 800), place_of(5.0, 90.0)
LAST, ISLAND = place_of(0, 800), place_of(5000, 100)
ENDS = [tuple(map(float, place.split(","))) for place in (A, B)]
STEPS = {"maneuver": {"type": str, "location": [float, float], "bearing_before": int, "bearing_after": int},
         "geometry": str,
         "name": str, "mode": "driving", "driving_side": "right", "duration": float, "distance": float, "weight": float,
         "intersections": many(1, 20)}
OK: list[tuple[str, Any]] = [
    (f"/route/v1/car/{A};{B}", {
        "code": "Ok", "data_version": re.compile("[0-9a-f]{12}").fullmatch, "waypoints": [
            {"hint": str, "distance": near(0, 0.1), "name": str,
             "location": [near(ENDS[0][0], 1e-5), near(ENDS[0][1], 1e-5)]}, dict],
        "routes": [{"distance": near(1600), "duration": near(230, 10), "weight": near(230, 10),
                    "weight_name": "duration",
                    "geometry": line(5, ENDS), "depart": int, "arrive": int,
                    "legs": [{"distance": near(1600), "duration": near(230, 10), "summary": "", "steps": [],
                              "annotation": NONE}]}]}),
    (f"/route/v1/any-name/{A};{B}.json", {"code": "Ok"}),
    (f"/route/v1/car/{A.replace(',', '%2C')}%3B{B}?overview=false", {"routes": [{"geometry": NONE}]}),
    (f"/route/v1/car/{A};{B}?geometries=polyline6", {"routes": [{"geometry": line(6, ENDS)}]}),
    (f"/route/v1/car/{A};{B}?geometries=geojson&overview=full",
     {"routes": [{"geometry": {"type": "LineString", "coordinates": many(9, 12)}}]}),
    (f"/route/v1/car/{A};{B}?overview=full", {"routes": [{"geometry": line(5, ENDS)}]}),
    (f"/route/v1/car/{A};{LAST}?overview=simplified&geometries=geojson",
     {"routes": [{"geometry": {"coordinates": many(2, 2)}}]}),
    (f"/route/v1/car/{A};{B}?steps=true", {"routes": [{"legs": [{"summary": str, "steps": many(3, 12)}]}]}),
    (f"/route/v1/car/{A};{LAST}?steps=true", {"routes": [{"legs": [{"summary": "North 0", "steps": [
        {**STEPS, "name": "North 0", "maneuver": {"type": "depart"}},
        {**STEPS, "distance": 0.0, "maneuver": {"type": "arrive"}}]}]}]}),
    (f"/route/v1/car/{A};{B}?steps=true&geometries=geojson", {"routes": [{"legs": [{"steps": many(3, 12)}]}]}),
    (f"/route/v1/car/{A};{B}?alternatives=true", {"routes": many(1, 1)}),
    (f"/route/v1/car/{A};{B}?alternatives=3&continue_straight=true", {"routes": many(1, 1)}),
    (f"/route/v1/car/{A};{B}?overview=false&alternatives=true&steps=true&hints=;", {"code": "Ok"}),
    (f"/route/v1/car/{A};{B}?overview=full&steps=true&geometries=polyline6&alternatives=true&bearings=;",
     {"code": "Ok"}),
    (f"/route/v1/car/{A};{B}?overview=full&steps=true&geometries=polyline6&alternatives=true&bearings=%3B0,180",
     {"code": "Ok"}),
    (f"/route/v1/car/{A};{C};{B}?overview=false", {"routes": [{"legs": many(2, 2), "distance": near(1600)}],
                                                   "waypoints": many(3, 3)}),
    (f"/route/v1/car/{A};{C};{B}?waypoints=0;2", {"routes": [{"legs": many(1, 1)}], "waypoints": many(2, 2)}),
    (f"/route/v1/car/{A};{A}?steps=true", {"routes": [{"distance": 0.0, "duration": 0.0,
                                                       "legs": [{"steps": many(2, 2)}]}]}),
    (f"/route/v1/car/{A};{B}?annotations=true", {"routes": [{"legs": [{"annotation": {
        "duration": many(7, 12), "distance": many(7, 12), "speed": many(7, 12), "weight": many(7, 12),
        "nodes": many(8, 13),
        "datasources": many(7, 12), "metadata": {"datasource_names": many(1, 1)}}}]}]}),
    (f"/route/v1/car/{A};{B}?annotations=duration,nodes",
     {"routes": [{"legs": [{"annotation": {"duration": list, "nodes": list, "speed": NONE, "distance": NONE}}]}]}),
    (f"/route/v1/car/{A};{B}?annotations=false", {"routes": [{"legs": [{"annotation": NONE}]}]}),
    (f"/route/v1/car/{A};{B}?depart=08:00", {"routes": [{"depart": 28800, "depart_time": "08:00:00",
                                                         "arrive": near(29030, 10)}]}),
    (f"/route/v1/car/{A};{B}?depart=86399", {"routes": [{"depart": 86399, "arrive": near(86629, 10),
                                                         "arrive_time": str}]}),
    (f"/route/v1/car/{A};{B}?arrive=09:00", {"routes": [{"arrive": near(32400, 1), "depart": near(32170, 10)}]}),
    (f"/route/v1/car/{A};{C};{B}?arrive=32400", {"routes": [{"arrive": near(32399, 2), "legs": many(2, 2)}]}),
    (f"/route/v1/car/{A};{B}?generate_hints=false", {"waypoints": [{"hint": NONE}, {"hint": NONE}]}),
    (f"/route/v1/car/{A};{B}?skip_waypoints=true", {"waypoints": NONE, "routes": many(1, 1)}),
    (f"/route/v1/car/{A};{B}?radiuses=10;unlimited&approaches=;curb&snapping=any", {"code": "Ok"}),
    (f"/route/v1/car/{C};{B}?bearings=0,90;", {"code": "Ok"}),
    (f"/route/v1/car/{A};{B}?hints=;bad", {"code": "Ok"}),
    (f"/route/v1/car/polyline({polyline.encode([(y, x) for x, y in ENDS])})?overview=false",
     {"routes": [{"distance": near(1600, 5)}]}),
    (f"/route/v1/car/polyline6({polyline.encode([(y, x) for x, y in ENDS], 6)}).json",
     {"routes": [{"distance": near(1600, 2)}]}),
    (f"/nearest/v1/car/{C}", {"waypoints": [{"nodes": [int, int], "hint": str, "distance": near(5, 0.1),
                                             "name": "North 0",
                                             "location": [near(9, 1e-5), float]}]}),
    (f"/nearest/v1/car/{C}.json?number=3", {"waypoints": many(3, 3)}),
    (f"/nearest/v1/car/{C}?number=100&generate_hints=false", {"waypoints": many(37, 42)}),
    (f"/nearest/v1/car/{C}?bearings=90,20", {"waypoints": [{"name": lambda name: name.startswith("East")}]}),
    (f"/nearest/v1/car/{place_of(9000, 9000)}?radiuses=unlimited", {"waypoints": [{"distance": float}]}),
    (f"/table/v1/car/{A};{B};{C}", {"code": "Ok", "durations": [[0.0, near(230, 10), float], [float, 0.0, float],
                                                                [float, float, 0.0]],
                                    "distances": NONE, "sources": many(3, 3), "destinations": many(3, 3),
                                    "fallback_speed_cells": NONE}),
    (f"/table/v1/car/{A};{B};{C}?sources=0&destinations=1;2",
     {"durations": [[float, float]], "sources": many(1, 1), "destinations": many(2, 2)}),
    (f"/table/v1/car/{A};{B}?annotations=distance", {"durations": NONE,
                                                     "distances": [[0.0, near(1600)], [near(1600), 0.0]]}),
    (f"/table/v1/car/{A};{B}?annotations=duration,distance&depart=08:00",
     {"durations": many(2, 2), "distances": many(2, 2), "depart": 28800}),
    (f"/table/v1/car/{A};{ISLAND}", {"durations": [[0.0, None], [None, 0.0]]}),
    (f"/table/v1/car/{A};{ISLAND}?fallback_speed=5&fallback_coordinate=input&scale_factor=2",
     {"durations": [[0.0, near(2000, 5)], [near(2000, 5), 0.0]], "fallback_speed_cells": [[0, 1], [1, 0]]}),
    (f"/table/v1/car/polyline({polyline.encode([(47.0, 9.0)] * 100)})?generate_hints=false",
     {"durations": many(100, 100)}),
]
REFUSED: list[tuple[str, str, str]] = [
    ("/route/v1/car", "InvalidUrl", "coordinates"), ("/route/v1/", "InvalidUrl", ""), ("/table/x", "InvalidUrl", ""),
    (f"/drive/v1/car/{A};{B}", "InvalidService", "route"), (f"/trip/v1/car/{A};{B}", "InvalidService", ""),
    (f"/match/v1/car/{A};{B}", "InvalidService", ""), ("/tile/v1/car/tile(1310,3166,13).mvt", "InvalidService", ""),
    (f"/route/v2/car/{A};{B}", "InvalidVersion", "v1"), (f"/nearest/v5/car/{A}", "InvalidVersion", ""),
    ("/route/v1/car/a;b", "InvalidQuery", "longitude"), (f"/route/v1/car/{A};", "InvalidQuery", "place 1"),
    (f"/route/v1/car/nan,nan;{B}", "InvalidQuery", "place 0"),
    (f"/route/v1/car/{A};{B}?speed=5", "InvalidQuery", "steps"),
    ("/route/v1/car/polyline(x", "InvalidQuery", "polyline"),
    (f"/route/v1/car/{A}", "InvalidOptions", "two places"), (f"/nearest/v1/car/{A};{B}", "InvalidOptions", "one place"),
    (f"/route/v1/car/{A};{B}?overview=some", "InvalidOptions", "simplified"),
    (f"/nearest/v1/car/{A}?number=0", "InvalidOptions", "1 to"),
    (f"/route/v1/car/{A};{B}?bearings=0,20", "InvalidOptions", "2 places"),
    (f"/route/v1/car/{A};{B}?steps=yes", "InvalidOptions", "true or false"),
    (f"/route/v1/car/{A};{B}?depart=26:00", "InvalidOptions", "08:00"),
    (f"/table/v1/car/{A};{B}?sources=2", "InvalidOptions", "0 to 1"),
    (f"/table/v1/car/{A};{B}?fallback_speed=0", "InvalidOptions", "above 0"),
    (f"/table/v1/car/{A};{B}?scale_factor=1e308", "InvalidOptions", "to 1000000"),
    (f"/table/v1/car/{A};{ISLAND}?fallback_speed=1e-320", "InvalidOptions", "from 0.000001"),
    (f"/route/v1/car/{A};190,5", "InvalidValue", "place 1"),
    (f"/route/v1/car/{A};{B}?exclude=motorway", "InvalidValue", "motorway"),
    ("/nearest/v1/car/47.001,9.001", "NoSegment", "write 9.001,47.001"),
    (f"/route/v1/car/{A};10.5,48", "NoSegment", "for place 1 (10.5,48): it lies outside"),
    (f"/table/v1/car/{A};{A};10.5,48;10.5,48", "NoSegment", "for place 2 (10.5,48)"),
    (f"/nearest/v1/car/{C}?radiuses=4", "NoSegment", "within 4 m"),
    (f"/route/v1/car/{A};{ISLAND}", "NoRoute", "place 0 to place 1"),
    (f"/route/v1/car/{A};{B}?arrive=00:00:10", "NoRoute", "arrive="),
    (f"/route/v1/car/polyline({'?' * 1002})", "TooBig", "501"), (f"/nearest/v1/car/{A}?number=101", "TooBig", "100"),
    (f"/table/v1/car/polyline({polyline.encode([(47.0, 9.0)] * 1025)})", "TooBig", "1050625"),
    (f"/table/v1/car/polyline({polyline.encode([(47.0, 9.0)] * 101)})?annotations=distance", "TooBig", "10000"),
    (f"/route/v1/car/{A};{B}.flatbuffers", "NotImplemented", "JSON"),
]


@pytest.mark.parametrize(("path", "wanted"), OK, ids=[path[:90] for path, _ in OK])
def test_what_is_answered(service: Service, path: str, wanted: Any) -> None:
    assert differs(service.get(path), wanted) == ""


@pytest.mark.parametrize(("path", "code", "says"), REFUSED, ids=[path[:90] for path, _, _ in REFUSED])
def test_what_is_refused(service: Service, path: str, code: str, says: str) -> None:
    reply = service.client.get(path)
    assert (reply.status_code, reply.json()["code"]) == (400, code)
    assert says in reply.json()["message"] and reply.json()["data_version"] == reply.headers["catchup-version"]


def test_headers(service: Service) -> None:
    for path in (f"/route/v1/car/{A};{B}", f"/nearest/v1/car/{A}", f"/table/v1/car/{A};{B}", "/route/v1/car/x",
                 "/trip/v1/car/x"):
        reply = service.client.get(path, headers={"Origin": ORIGIN})
        assert reply.headers["content-type"] == "application/json; charset=UTF-8"
        assert reply.headers["catchup-version"] == reply.json()["data_version"]
        assert reply.headers["access-control-allow-origin"] == ORIGIN
        head = service.client.head(path)
        assert (head.status_code, head.content) == (reply.status_code, b"")
        assert head.headers["content-type"] == reply.headers["content-type"]
        assert head.headers["content-length"] == reply.headers["content-length"]


def test_other_methods_and_hosts(service: Service) -> None:
    path = f"/route/v1/car/{A};{B}"
    assert service.ask(path, "POST")[0] == 405
    assert service.ask(path, "GET", Host="elsewhere.example.org")[0] == 421
    assert service.client.request("OPTIONS", path, headers={"Origin": ORIGIN}).status_code == 204


def test_nearest_streets_are_asked_as_all_else_is(service: Service) -> None:
    path = f"/nearest/v1/car/{A}"
    wanted = service.get(path)
    for _ in range(2):
        # A name that isn't served is none though another was before.
        assert service.ask(path, "GET", Host="elsewhere.example.org")[0] == 421
        assert service.ask(path, "GET", b"a body that nobody reads") == (200, wanted)
        assert service.ask(path, "POST")[0] == 405
    counted = service.client.get("/metrics").text
    assert re.search(r'catchup_requests_total\{path="/nearest/v1",status="200"\} [0-9.]+', counted)
    # Many at once on one connection are answered in their order, with others between.
    said = "".join(f"GET {each} HTTP/1.1\r\nHost: localhost\r\n\r\n" for each in (
        path, f"/nearest/v1/car/{B}?number=0", "/health", path, f"/nearest/v1/car/{B}"))
    with service.connect() as client:
        send_all(client, said.encode(), end=True)
        answers = read_all(client).decode()
    statuses = re.findall(r"HTTP/1.1 ([0-9]+)", answers)
    codes = re.findall(r'"(?:code|status)":"(\w+)"', answers)
    assert (statuses, codes) == (["200", "400", "200", "200", "200"], ["Ok", "InvalidOptions", "ok", "Ok", "Ok"])


def test_too_many_places_for_an_address(service: Service) -> None:
    """An address of 10,000 places is longer than any that is read."""
    for path in (f"/route/v1/car/{';'.join([A] * 10_000)}", f"/table/v1/car/{';'.join([A] * 1_000)}"):
        # The request before on this connection is one whose answer has no body.
        assert service.client.head("/health").status_code == 200
        reply = service.client.get(path)
        assert (reply.status_code, reply.json()["code"]) == (400, "TooBig")
    assert service.client.get("/route?" + "a" * 20_000).status_code == 414


def test_now_is_the_time_in_the_zone(service: Service) -> None:
    def now() -> int:
        found = datetime.datetime.now(zoneinfo.ZoneInfo(ZONE))
        return found.hour * 3600 + found.minute * 60 + found.second

    begun = now()
    [route] = service.get(f"/route/v1/car/{A};{B}")["routes"]
    table = service.get(f"/table/v1/car/{A};{B}")
    # However long a busy machine takes for an answer, it is of a second meanwhile.
    departs = [(each["depart"] - begun) % 86_400 for each in (route, table)]
    assert 0 <= departs[0] <= departs[1] <= (now() - begun) % 86_400


def test_edits_are_answered_of(folder: Path, tmp_path: Path) -> None:
    path = tmp_path / "map.cu"
    path.write_bytes((folder / "map.cu").read_bytes())
    with Service(path, "--tables", folder) as service:
        before = service.get(f"/route/v1/car/{A};{B}?depart=08:00")
        profiles = sorted({int(row.split(",")[3]) for row in (folder / "roads.csv").read_text().split()[1:]})
        version = service.edit(*(f"s,{profile},0,travel,600" for profile in profiles))["version"]
        after = service.get(f"/route/v1/car/{A};{B}?depart=08:00")
        table = service.get(f"/table/v1/car/{A};{B}?depart=08:00")
    assert before["data_version"] != after["data_version"] == version == table["data_version"]
    assert after["routes"][0]["duration"] >= 1200 > before["routes"][0]["duration"]
    assert table["durations"][0][1] == pytest.approx(after["routes"][0]["duration"], abs=1)


def test_a_service_without_a_map_says_what_to_do(town: Path) -> None:
    with Service(town) as service:
        status, told = service.ask(f"/route/v1/car/{A};{B}")
        assert (status, told["code"]) == (400, "NotImplemented") and "--tables" in told["message"]


def test_openapi_tells_the_paths(service: Service) -> None:
    described = service.get("/openapi.json")["paths"]
    for name in ("nearest", "route", "table"):
        words = {word["name"] for word in described[f"/{name}/v1/{{profile}}/{{coordinates}}"]["get"]["parameters"]}
        assert {"profile", "coordinates", "radiuses", "hints", "depart"} <= words
    assert "/trip/{rest}" not in described


def test_several_networks(folder: Path, tmp_path: Path) -> None:
    """The profile of an address is the name of a network; without a name a file answers to each."""
    walked = import_map(grid_map(), tmp_path, vehicle="foot")
    words = [f"car={folder / 'map.cu'}", f"foot={walked / 'map.cu'}", "--tables", f"car={folder}", "--tables",
             f"foot={walked}"]
    with Service(*words) as service:
        car, foot = (service.get(f"/route/v1/{name}/{A};{B}?steps=true") for name in ("car", "foot"))
        status, told = service.ask(f"/route/v1/truck/{A};{B}")
        own = service.get(f"/route?from=9.0,47.0&to={B}&depart=08:00&profile=foot")
        health = service.get("/health")
    assert foot["routes"][0]["duration"] > 3 * car["routes"][0]["duration"]
    assert [told["routes"][0]["legs"][0]["steps"][0]["mode"] for told in (car, foot)] == ["driving", "walking"]
    assert car["data_version"] == health["profiles"]["car"] != health["profiles"]["foot"]
    assert foot["data_version"] == health["profiles"]["foot"] == own["version"]
    assert (status, told["code"]) == (400, "InvalidValue") and "car, foot" in told["message"]


def test_one_named_network_with_a_map(folder: Path, town: Path) -> None:
    """One of two files has a map; the other answers by numbers of nodes alone."""
    with Service(f"map={folder / 'map.cu'}", f"town={town}", "--tables", f"map={folder}") as service:
        assert service.get(f"/nearest/v1/map/{A}")["code"] == "Ok"
        status, told = service.ask(f"/nearest/v1/town/{A}")
        assert (status, told["code"]) == (400, "NotImplemented")
        assert service.get("/route?from=5&to=151&depart=08:00&profile=town")["answer"] == "arrive"
