"""What a service answers between places of a map: routes, days, departures, reaches, tables and downloads, beside a
search over the map and beside one another."""

from __future__ import annotations

import asyncio
import dataclasses
import gc
import itertools
import json
import os
import random
import shutil
import signal
import subprocess
import time
import xml.etree.ElementTree as ET
from collections.abc import Awaitable, Callable, Iterator, Sequence
from pathlib import Path
from typing import Any

import numpy as np
import polyline
import pytest
from conftest import EXAMPLES
from osrm_grid import grid_map, import_map, place_of
from osrm_town import VERSION, Town
from place_search import Search
from serving import HTTP, SECONDS, Service
from shapely.geometry import Point, shape
from waiting import least_seconds, wait_for

from catchup.places import Places, days
from catchup.places.reach import reached
from catchup.service.osrm.paths import Osrm

DAY = 86_400
A, B, MIDDLE = place_of(0, 0), place_of(800, 700), place_of(410, 400)
ISLAND, SEA = place_of(5000, 100), place_of(90_000, 90_000)
GPX = "{http://www.topografix.com/GPX/1/1}"


@pytest.fixture(scope="module")
def folder(program: Path, tmp_path_factory: pytest.TempPathFactory) -> Path:
    return import_map(grid_map(), tmp_path_factory.mktemp("places"), rush=True, left=4)


@pytest.fixture(scope="module")
def service(folder: Path) -> Iterator[Service]:
    with Service(folder / "map.cu", "--tables", folder) as running:
        yield running


@pytest.fixture(scope="module")
def search(folder: Path) -> Search:
    return Search(folder)


def lon_lat(place: str) -> tuple[float, float]:
    lon, lat = map(float, place.split(","))
    return lon, lat


def least(search: Search, start: str, end: str, depart: int) -> float | None:
    """The least arrival by the search."""
    return search.drive(search.near(*lon_lat(start))[1], search.near(*lon_lat(end))[1], depart)


def anywhere(draw: random.Random) -> str:
    return place_of(draw.uniform(-20, 820), draw.uniform(-20, 820))


def test_routes_are_the_search_s(service: Service, search: Search) -> None:
    draw = random.Random(1)
    for _ in range(40):
        start, end, depart = anywhere(draw), anywhere(draw), draw.randrange(DAY)
        told = service.get(f"/route?from={start}&to={end}&depart={depart}")
        wanted = least(search, start, end, depart)
        assert wanted is not None and abs(told["arrive"] - wanted) <= 0.51
        [leg] = told["legs"]
        assert len(leg["seconds"]) == len(leg["names"]) == len(leg["metres"]) == len(leg["roads"])
        assert all(search.head[one] == search.tail[other] for one, other in zip(leg["roads"], leg["roads"][1:]))
        line = leg["geometry"]["coordinates"]
        for place, point, at in zip((start, end), told["places"], (line[0], line[-1])):
            assert at == pytest.approx(point["point"], abs=2e-6)
            assert point["metres"] == pytest.approx(search.near(*lon_lat(place))[0], abs=0.2)


def test_names_of_places(service: Service, folder: Path) -> None:
    """A node by its number, as `node:` and as `osm:` is the same place; a leg's line is there where it is asked for."""
    places = Places.open(folder)
    [node] = [node for node in places.ground.snapper.nodes_of(34) if not places.ground.ends.copy[node]]
    found = [service.get(f"/route?from={A}&to={word}&depart=08:00&geometry=none")
             for word in (node, f"node:{node}", "osm:34", place_of(600, 600))]
    assert {told["arrive"] for told in found} == {found[0]["arrive"]} and "geometry" not in found[0]["legs"][0]
    assert [told["to"] for told in found[:3]] == [node, node, "osm:34"]
    plain = service.get(f"/route?from=osm:12&to={node}&depart=08:00")["legs"][0]
    coded = service.get(f"/route?from=osm:12&to={node}&depart=08:00&geometry=polyline6")["legs"][0]
    line = [[lon, lat] for lat, lon in polyline.decode(coded["geometry"], 6)]
    assert np.allclose(line, plain["geometry"]["coordinates"], rtol=0, atol=1.1e-6)
    assert "geometry" not in service.get(f"/route?from=0&to={node}&depart=08:00")["legs"][0]


def test_legs_over_places(service: Service) -> None:
    told = service.get(f"/route?from={A}&via={MIDDLE};osm:24&to={B}&depart=23:58")
    assert [leg["depart"] for leg in told["legs"]] == [86_280, *(leg["arrive"] for leg in told["legs"][:-1])]
    assert told["via"] == [list(lon_lat(MIDDLE)), "osm:24"] and told["days_later"] == 1
    for leg in told["legs"]:
        start, end = (leg[name] if isinstance(leg[name], str) else ",".join(map(str, leg[name]))
                      for name in ("from", "to"))
        alone = service.get(f"/route?from={start}&to={end}&depart={leg['depart'] % DAY}")
        assert alone["travel"] == leg["travel"]


def test_the_last_departure_in_time(service: Service) -> None:
    for by in ("09:00", "17:30", str(DAY + 30)):
        told = service.get(f"/route?from={A}&via={MIDDLE}&to={B}&arrive={by}")
        assert told["answer"] == "depart" and told["arrive"] <= told["by"]
        if told["depart"] + 1 < DAY:
            later = service.get(f"/route?from={A}&via={MIDDLE}&to={B}&depart={told['depart'] + 1}")
            assert later["arrive"] > told["by"]
    assert service.get(f"/latest?from={A}&to={B}&by=09:00")["answer"] == "depart"
    assert service.get(f"/latest?from={A}&to={B}&by=00:00:10")["answer"] == "too late"


def arrival_of(pieces: list[dict[str, Any]], second: int) -> int:
    piece = [piece for piece in pieces if piece["from"] <= second][-1]
    found: int = piece["value"] if piece["kind"] == "until" else second + piece["value"]
    return found


def test_a_day_and_its_best_departures(service: Service) -> None:
    told = service.get(f"/day?from={A}&to={B}")
    draw = random.Random(2)
    begins = [piece["from"] for piece in told["pieces"][:12]]
    for second in {0, DAY - 1, *begins, *(draw.randrange(DAY) for _ in range(12))}:
        found = service.get(f"/route?from={A}&to={B}&depart={second}")
        assert found["arrive"] == arrival_of(told["pieces"], second)
    assert told["routes"][0]["from"] == 0
    for each in told["routes"]:
        assert service.get(f"/route?from={A}&to={B}&depart={each['from']}")["roads"] == each["roads"]
    best = service.get(f"/best?from={A}&to={B}&after=06:00&before=10:00")
    arrivals = [arrival_of(told["pieces"], second) for second in range(21_600, 36_001)]
    takes = [arrive - 21_600 - at for at, arrive in enumerate(arrivals)]
    last = max(at for at, value in enumerate(takes) if value == min(takes))
    assert (best["best"]["depart"], best["best"]["travel"]) == (21_600 + last, takes[last])
    choices = [(choice["depart"], choice["arrive"]) for choice in best["choices"]]
    assert best["best"] in best["choices"] and choices == sorted(choices)
    assert all(one[1] < other[1] for one, other in zip(choices, choices[1:]))
    assert all(arrive == arrivals[depart - 21_600] for depart, arrive in choices)


def test_a_reach(service: Service, search: Search) -> None:
    told = service.get(f"/reach?from={MIDDLE}&depart=08:00&within=100&bands=4")
    bands = [each for each in told["features"] if each["properties"]["kind"] == "band"]
    roads = [each for each in told["features"] if each["properties"]["kind"] == "road"]
    assert [band["properties"]["within"] for band in bands] == [100, 75, 50, 25]
    shapes = [shape(band["geometry"]) for band in bands]
    assert all(each.is_valid for each in shapes)
    assert all(one.buffer(1e-9).contains(other) for one, other in zip(shapes, shapes[1:]))
    assert len(roads) > 8 and all(0 <= each["properties"]["from"] <= each["properties"]["to"] <= 100 for each in roads)
    for each in roads:
        line = each["geometry"]["coordinates"]
        assert all(shapes[0].contains(Point(place)) for place in line)
        # On the way back this place may be reached sooner.
        arrive = least(search, MIDDLE, ",".join(map(str, np.mean(line[-2:], axis=0))), 28_800)
        assert arrive is not None and arrive - 28_800 <= each["properties"]["to"] + 0.5
    begun = service.get(f"/reach?from={MIDDLE}&depart=08:00&within=1&bands=0")["features"]
    assert [each["properties"]["to"] for each in begun] == [1.0] * len(begun) and len(begun) in (1, 2)
    arrive = service.get(f"/reach?from={MIDDLE}&depart=08:00")["arrive"]
    assert len(arrive) == len(search.copy) and None in arrive


def test_a_table(service: Service) -> None:
    draw = random.Random(3)
    sources, targets = ([anywhere(draw) for _ in range(count)] for count in (3, 4))
    told = service.get(f"/table?from={';'.join(sources)}&to={';'.join([*targets, ISLAND])}&depart=07:30")
    for row, start in zip(told["arrive"], sources):
        assert row[-1] is None
        for arrive, end in zip(row, targets):
            assert service.get(f"/route?from={start}&to={end}&depart=07:30")["arrive"] == arrive
    assert service.get(f"/table?from=0,1&to={A}&depart=0")["arrive"][0] != [None]


def test_downloads(service: Service, tmp_path: Path) -> None:
    address = f"/route?from={A}&via={MIDDLE}&to={B}&depart=08:00"
    plain = service.get(address)
    reply = service.client.get(f"{address}&format=gpx")
    assert reply.headers["content-type"] == "application/gpx+xml"
    assert 'filename="route.gpx"' in reply.headers["content-disposition"]
    root = ET.fromstring(reply.text)
    segments = root.findall(f"{GPX}trk/{GPX}trkseg")
    for segment, leg in zip(segments, plain["legs"], strict=True):
        points = [[float(point.attrib["lon"]), float(point.attrib["lat"])] for point in segment]
        assert np.allclose(points, leg["geometry"]["coordinates"], rtol=0, atol=1.1e-6)
    assert len(root.findall(f"{GPX}wpt")) == 3
    told = service.get(f"{address}&format=geojson")
    assert [each["geometry"]["type"] for each in told["features"]] == ["LineString"] * 2 + ["Point"] * 3
    by_header = service.client.get(address, headers={"Accept": "application/geo+json"})
    assert by_header.json() == told and by_header.headers["content-type"] == "application/geo+json"
    assert service.ask(f"/route?from={A}&to={ISLAND}&depart=08:00&format=gpx")[0] == 404
    if shutil.which("ogrinfo") is None:
        pytest.skip("ogrinfo isn't installed (gdal-bin)")
    for name, content in (("route.gpx", reply.content), ("route.geojson", json.dumps(told).encode())):
        (tmp_path / name).write_bytes(content)
        found = subprocess.run(["ogrinfo", "-so", "-al", tmp_path / name], capture_output=True, text=True, check=False)
        assert found.returncode == 0 and "Geometry" in found.stdout and "ERROR" not in found.stderr, found


REFUSED = [
    (f"/route?from=47.0,9.0&to={B}&depart=0", "swapped: 9,47"), (f"/route?from={A}&to={SEA}&depart=0", "the map is"),
    (f"/route?from=200,5&to={B}&depart=0", "lon is -180 to 180"), (f"/route?from=nan,nan&to={B}&depart=0", "lon,lat"),
    (f"/route?from={A};{B}&to={B}&depart=0", "lon,lat"), (f"/route?from=osm:999&to={B}&depart=0", "by lon,lat"),
    (f"/route?from={A}&to=999999&depart=0", None), (f"/route?from={A}&to={B}&depart=86400", "86400"),
    (f"/route?from={A}&to={B}&depart=0&geometry=wkt", None), (f"/route?from={A}&to={B}&depart=0&format=kml", None),
    (f"/route?from={A}&to={B}", None), (f"/route?from={A}&to={B}&depart=0&arrive=5", None),
    (f"/route?from={A}&via={';'.join([A] * 101)}&to={B}&depart=0", None),
    (f"/reach?from={A}&depart=0&within=0", None), (f"/reach?from={A}&depart=0&within=9&bands=13", None),
    (f"/best?from={A}&to={B}&after=09:00&before=08:00", "midnight"), (f"/day?from={A}&to=1e3,5", "lon,lat"),
]


@pytest.mark.parametrize(("address", "hint"), REFUSED, ids=[address[:70] for address, _ in REFUSED])
def test_what_is_refused(service: Service, address: str, hint: str | None) -> None:
    status, told = service.ask(address)
    assert status == 400 and told["error"] and len(told["version"]) == 12
    assert hint is None or hint in told["hint"]


WHICH = [
    (f"/table?from={A};{B};{SEA}&to={A}&depart=0", f"place 2 of from is far from any road: {SEA}", "from", 2),
    (f"/table?from={A}&to={A};{SEA};{SEA}&depart=0", f"place 1 of to is far from any road: {SEA}", "to", 1),
    (f"/table?from={A}&to={SEA}&depart=0", f"to is far from any road: {SEA}", "to", 0),
    (f"/table?from={A};181,0&to={A}&depart=0", "place 1 of from is no place on the earth: 181,0", "from", 1),
    (f"/table?from={A};osm:999&to={A}&depart=0", "place 1 of from: osm:999 is no node of the network", "from", 1),
    (f"/table?from=0,999999&to={A}&depart=0", "refused: node", "from", 1),
    (f"/route?from={A}&via={B};{SEA}&to={B}&depart=0", f"place 1 of via is far from any road: {SEA}", "via", 1),
]


@pytest.mark.parametrize(("address", "error", "name", "index"), WHICH)
def test_which_of_several_places_is_wrong(service: Service, address: str, error: str, name: str, index: int) -> None:
    status, told = service.ask(address)
    assert (status, told["error"], told["name"], told["index"]) == (400, error, name, index)


def test_without_a_map(town: Path) -> None:
    with Service(town) as plain:
        for address in (f"/route?from={A}&to=5&depart=0", "/route?from=osm:5&to=5&depart=0",
                        "/route?from=1&to=5&depart=0&geometry=geojson", "/reach?from=1&depart=0&within=60"):
            status, told = plain.ask(address)
            assert status == 400 and "--tables" in told["hint"]


def test_another_map_is_refused(folder: Path, town: Path, tmp_path: Path) -> None:
    """A folder's map has to be that of the file."""
    shutil.copy(folder / "map.gpkg", tmp_path)
    for name in ("nodes.csv", "roads.csv"):
        shutil.copy(EXAMPLES / "town" / name, tmp_path)
    done = subprocess.run([HTTP, "--port", "0", town, "--tables", tmp_path], capture_output=True, text=True,
                          timeout=SECONDS, check=False)
    assert (done.returncode, done.stdout, done.stderr.count("\n")) == (1, "", 1)
    assert "isn't the map of" in done.stderr


def test_a_reload_keeps_the_map_where_that_is_gone_or_damaged(folder: Path, tmp_path: Path) -> None:
    """Clients go on, and whoever reloads is told."""
    tables = tmp_path / "tables"
    shutil.copytree(folder, tables)
    path, good, address = tables / "map.gpkg", (tables / "map.gpkg").read_bytes(), f"/route?from={A}&to={B}&depart=0"
    cases = ((lambda: path.unlink(), "is gone: put it back"), (lambda: path.write_bytes(good[:5000]), "can't be read"),
             (lambda: path.write_bytes(b""), "can't be read"))
    with Service(tables / "map.cu", "--tables", tables) as service:
        said = service.process.stderr
        assert said is not None
        workers, before = service.workers(), service.get(address)
        for damage, reason in cases:
            damage()
            service.process.send_signal(signal.SIGHUP)
            line = said.readline()
            assert line.startswith(f"catchup-http: nothing is reloaded: {path} ") and reason in line
            assert service.workers() == workers and service.get(address) == before
        # A worker that is started again has it too.
        os.kill(workers[0], signal.SIGKILL)
        assert "was terminated due to signal 9" in said.readline()
        assert get_anew(service, address) == before
        path.write_bytes(good)
        workers = service.workers()
        service.process.send_signal(signal.SIGHUP)
        assert wait_for(lambda: bool(service.workers()) and not set(service.workers()) & set(workers))
        assert get_anew(service, address) == before
        assert service.end() == (0, "", "")


def get_anew(service: Service, address: str) -> object:
    """The answer to a request on a connection of its own."""
    with service.client_of() as client:
        return client.get(address).json()


def test_edits_change_the_times(folder: Path, tmp_path: Path) -> None:
    """A version's own times are used, also those of the roads in which a drive begins and ends; files of one folder may
    differ in their times."""
    paths = [tmp_path / name for name in ("monday.cu", "sunday.cu")]
    for path in paths:
        shutil.copy(folder / "map.cu", path)
    with Service(f"monday={paths[0]}", f"sunday={paths[1]}", "--tables", folder) as service:
        address = f"/route?from={A}&to={B}&depart=12:00"
        before = service.get(f"{address}&profile=sunday")
        for road in before["roads"]:
            body = json.dumps({"edits": [{"road": road, "pieces": [{"from": 0, "kind": "travel", "value": 900}]}]})
            status, told = service.ask("/edits?profile=sunday", "POST", body.encode(), content_type="application/json")
            assert status == 200, told
        after = service.get(f"{address}&profile=sunday")
        assert after["arrive"] > before["arrive"] == service.get(f"{address}&profile=monday")["arrive"]
        for each in (before, after):
            last = each["legs"][0]
            assert last["arrive"] == each["arrive"] and last["seconds"] == sorted(last["seconds"])


async def longest_turn(asks: Callable[[], Awaitable[None]]) -> float:
    """The seconds of the processor that the loop's thread has taken in its longest turn meanwhile."""
    worst, goes_on = 0.0, True

    async def look() -> None:
        nonlocal worst
        while goes_on:
            began = time.thread_time()
            await asyncio.sleep(0)
            worst = max(worst, time.thread_time() - began)

    looking = asyncio.get_running_loop().create_task(look())
    await asyncio.sleep(0)
    await asks()
    goes_on = False
    await looking
    return worst


def test_long_answers_hold_up_nobody(program: Path, tmp_path: Path) -> None:
    """In no turn of the loop do days, reaches, tables and routes over hundreds of places work for long."""
    draw = random.Random(4)

    async def asks(town: Town) -> None:
        async def ask(lines: Sequence[str]) -> Sequence[str]:
            await asyncio.sleep(0)
            return [town.child.ask(line) for line in lines]

        places = town.places
        osrm = Osrm(lambda _: dataclasses.replace(town.placed(), quick=ask, slow=ask), lambda: 28_800, lambda: VERSION)
        line = polyline.encode([lon_lat(anywhere(draw))[::-1] for _ in range(400)])
        for service, query in ((b"table", b""), (b"route", b"steps=true&annotations=true&overview=full")):
            told = await osrm.answer(b"/%b/v1/car/polyline(%b)" % (service, line.encode()), query)
            assert told.status == 200, told.body
        start, end = (places.nearest(lon_lat(place))[0] for place in (A, B))
        found = await days.arrivals(places.driver, start, end, ask)
        assert await days.choices(places.driver, start, end, found, ask)
        assert len((await reached(places.driver, places.ground.streets, start, 0, 900, ask)).road) > 50

    def longest(room: Path) -> float:
        room.mkdir()
        with Town(grid_map(), room, rush=True) as made:
            # What is loaded when it is first asked for isn't an answer's.
            made.get("table", [1, 45])
            # As a worker that has started: what was there before isn't looked through for what is no longer used.
            gc.collect()
            gc.freeze()
            try:
                return asyncio.run(longest_turn(lambda: asks(made)))
            finally:
                gc.unfreeze()

    rooms = itertools.count()
    assert least_seconds(lambda: longest(tmp_path / str(next(rooms))), 0.05) < 0.05
