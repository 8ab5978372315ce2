"""What the service tells its page: files, tiles of roads, traffic, names; and options of the page."""

from __future__ import annotations

import random
import struct
from collections.abc import Iterator
from pathlib import Path

import numpy as np
import pytest
from commands import call
from conftest import EXAMPLES
from serving import Service, ask_program

from catchup.places.travel import Travel
from catchup.service.page.files import leaflet_folder
from catchup.service.page.levels import EMPTY, levels_of
from catchup.service.page.search import plain
from catchup.service.page.sheet import WORLD, ZOOM, Sheet, degrees_of, of_tables, world_of
from catchup.service.page.traffic import BACKWARD, FORWARD, SHUT, Traffic
from catchup.tables import CLOSED, TRAVEL, UNTIL, Profiles

DAY = 86_400
TILES = "https://{s}.tiles.example.org/{z}/{x}/{y}.png"
NOWHERE = ("file/..%2Fpaths.py", "file/nothing.js", "file/paths.py", "leaflet/..%2F..%2Fx.js", "nothing",
           "roads/99/0/0?of={map}", "roads/x/0/0?of={map}", "street?street=999", "profile?number=9999")
BAD = ("traffic", "traffic?at=x", "traffic?at=0&more=1", "street?street=x", "near?x=1", f"near?x={WORLD}&y=0", "search",
       "route?from=0&to=1", "reach?from=0&depart=0&within=0&bands=6")


@pytest.fixture(scope="module")
def village(program: Path, tmp_path_factory: pytest.TempPathFactory) -> Iterator[Service]:
    folder = tmp_path_factory.mktemp("village") / "map"
    ran = call("catchup-import", "osm", EXAMPLES / "village" / "village.osm", folder, "--build", "--rush")
    assert ran.status == 0, ran
    with Service(folder / "map.cu", "--tables", folder, "--tiles", TILES) as service:
        yield service


def test_files_and_what_the_page_may_load(village: Service) -> None:
    page = village.client.get("/")
    policy = page.headers["content-security-policy"]
    assert "script-src 'self';" in policy and "unsafe" not in policy
    assert "img-src 'self' data: https://*.tiles.example.org;" in policy
    for path, kind in (("file/main.js", "text/javascript"), ("file/page.css", "text/css")):
        reply = village.client.get(f"/page/{path}")
        assert (reply.status_code, reply.headers["content-type"].partition(";")[0]) == (200, kind)
    name = village.get("/page/setting")["map"]["name"]
    for status, paths in ((404, NOWHERE), (400, BAD)):
        for path in paths:
            assert village.ask(f"/page/{path.format(map=name)}")[0] == status, path


def test_a_file_that_a_browser_has_is_not_sent_again(village: Service, town: Path) -> None:
    leaflet = ["/page/leaflet/leaflet.js"] if leaflet_folder(None) is not None else []
    for path in ("/", "/page/file/main.js", "/page/file/page.css", *leaflet):
        whole = village.client.get(path)
        tag = whole.headers["ETag"]
        assert whole.status_code == 200 and whole.headers["Cache-Control"] == "no-cache"
        for known in (tag, f"W/{tag}", f'"other", {tag}', f'{tag} ,"other"', "*"):
            for method in ("GET", "HEAD"):
                reply = village.client.request(method, path, headers={"If-None-Match": known})
                assert (reply.status_code, reply.content) == (304, b""), known
                assert reply.headers["ETag"] == tag and "content-type" not in reply.headers
                assert reply.headers.get("Content-Security-Policy") == whole.headers.get("Content-Security-Policy")
        for known in ("", '"other"', tag.strip('"'), tag[:-1], "W/"):
            reply = village.client.get(path, headers={"If-None-Match": known})
            assert (reply.status_code, reply.content) == (200, whole.content), known
    # What it may load is another thing where there are other tiles.
    with Service(town) as other:
        assert other.client.get("/").headers["ETag"] != village.client.get("/").headers["ETag"]


def test_a_tile_is_of_the_map_that_it_is_asked_of(village: Service) -> None:
    """Browsers keep it under that name for a day, so that of another map would be drawn among its roads."""
    told = village.get("/page/setting")["map"]
    place = f"/page/roads/{told['levels'][0]}/0/0"
    kept = village.client.get(f"{place}?of={told['name']}")
    assert kept.status_code == 200 and "immutable" in kept.headers["Cache-Control"]
    other = village.client.get(f"{place}?of=0123456789ab")
    assert other.status_code == 409 and other.json()["error"] == "the map is another one now"
    assert "Cache-Control" not in other.headers
    assert village.ask(place)[0] == 400


def test_answers_have_no_tags(village: Service) -> None:
    """They are of a version, which a tag wouldn't tell."""
    for path in ("/health", "/route?from=0&to=2&depart=0", "/page/setting", "/page/nothing"):
        reply = village.client.get(path, headers={"If-None-Match": "*"})
        assert "ETag" not in reply.headers and reply.status_code in (200, 404) and reply.content


def test_options_that_lead_nowhere_are_refused(tmp_path: Path, town: Path) -> None:
    for words, status, said in (
            (("--tiles", "https://tiles.example.org/"), 2, "no address of tiles"),
            (("--tiles", "https://x.org/{z}/{x}/{y}.png; script-src *"), 2, "no address of tiles"),
            (("--leaflet", str(tmp_path)), 1, "has no leaflet.js")):
        ran = call("catchup-http", *words, town)
        assert ran.status == status and said in ran.error and ran.error.count("\n") == 1, ran


def test_traffic_and_streets_of_a_served_map(village: Service) -> None:
    setting = village.get("/page/setting")
    assert (setting["token"], setting["map"]["is_plane"], setting["map"]["roads"]) == (False, False, 23)
    ways = village.client.get("/page/traffic?at=08:00").content
    assert len(ways) == setting["map"]["streets"]
    streets = [village.get(f"/page/street?street={number}") for number in range(len(ways))]
    assert sorted(road for street in streets for way in street["ways"] for road in way["roads"]) == list(range(23))
    for street, way in zip(streets, ways):
        forward, backward = (any(each["is_forward"] is is_so for each in street["ways"]) for is_so in (True, False))
        assert (bool(way & FORWARD), bool(way & BACKWARD), bool(way & SHUT)) == (forward, backward, False)
    [lane] = [street for street in streets if street["name"] == "Kirchgasse"]
    assert len(lane["ways"]) == 1 and lane["class"] == "residential" and lane["metres"] == pytest.approx(348, abs=1)
    rush = [street for street, way in zip(streets, ways) if way & 15]
    assert {"Dorfstrasse", "Bahnhofstrasse"} <= {street["name"] for street in rush} and lane not in rush


def test_places_by_what_one_types(village: Service) -> None:
    def names(words: str) -> list[str]:
        return [place["name"] for place in village.get(f"/page/search?q={words}")["places"]]

    assert names("muhleweg") == names("M%C3%9CHLEWEG") == names("m%C3%BChle") == ["Mühleweg"]
    assert names("dorfstr.") == names("dorfstra%C3%9Fe") == ["Dorfstrasse"]
    assert names("3") == ["Node 3", "OpenStreetMap node 3", "Road 3"]
    assert names("node:3") == ["Node 3"] and names("road:3") == ["Road 3"] and names("road:22") == ["Road 22"]
    assert names("nothing") == names("x") == names("node:999") == []
    [place] = village.get("/page/search?q=Bergweg")["places"]
    assert "near" in place["more"]
    lon, lat = degrees_of(place["x"], place["y"])
    for words in (f"{lon},{lat}", f"{lat} {lon}"):
        [found] = village.get(f"/page/search?q={words}")["places"]
        assert (found["x"], found["y"]) == pytest.approx((place["x"], place["y"]), abs=2)
    near = village.get(f"/page/near?x={place['x']}&y={place['y']}")
    assert near["name"] == "Bergweg" and village.get(f"/route?from={near['place']}&to=0&depart=0")["answer"] == "arrive"
    assert plain("Élan Straße") == "elan str"


def test_a_plane_answers_as_the_program(town: Path) -> None:
    with Service(town, "--tables", EXAMPLES / "town") as service:
        found = service.get("/page/route?from=5&to=151&depart=08:00")
        [reply] = ask_program(town, "q,5,151,28800")
        [leg] = found["legs"]
        assert reply == f"arrive={found['arrive']} arcs={' '.join(map(str, leg['roads']))}"
        # Who begins the route at the second of each road is there at the same time.
        lines = [f"q,{node},151,{second}" for node, second in zip(nodes_of(service, leg["roads"]), leg["seconds"])]
        assert {line.partition(" ")[0] for line in ask_program(town, *lines)} == {f"arrive={found['arrive']}"}
        assert len(leg["line"]) == 2 * (len(leg["roads"]) + 1) and len(leg["points"]) == len(leg["roads"]) + 1
        bands = service.client.get("/page/reach?from=5&depart=08:00&within=86400&bands=6").content
        ways = service.client.get("/page/traffic?at=08:00").content
        assert [band == 255 for band in bands] == [bool(way & SHUT) for way in ways] and set(bands) == {0, 255}
        assert service.get("/page/ground?from=5&depart=0&within=60&bands=2")["bands"] == []
        assert service.get("/page/route?from=5&to=151&arrive=00:00")["answer"] == "too late"


def nodes_of(service: Service, roads: list[int]) -> list[int]:
    """Where some roads begin."""
    ends = service.get("/network")["roads"]
    return [ends[road][0] for road in roads]


def lattice(side: int, draw: random.Random) -> Sheet:
    """The sheet of a lattice without a map, whose roads are driven both ways or one way."""
    nodes = [[1000 * part + draw.randrange(400) for part in (at % side, at // side)] for at in range(side * side)]
    pairs = [(at, at + 1) for at in range(side * side) if at % side < side - 1]
    pairs += [(at, at + side) for at in range(side * (side - 1))]
    roads = [pair for one, other in pairs for pair in ((one, other), (other, one))[draw.randrange(2):]]
    return of_tables(str({"nodes": nodes, "roads": [list(pair) for pair in roads]}).replace("'", '"').encode())


@pytest.mark.parametrize("side", [2, 9, 120])
def test_the_last_level_has_each_segment_in_each_tile_that_it_touches(side: int) -> None:
    sheet = lattice(side, random.Random(side))
    level, *others = levels_of(sheet)
    found: set[tuple[int, int, int]] = set()
    for key in level.keys.tolist():
        column, row = key & 0xFFFFFFFF, key >> 32
        body = level.tile(column, row)
        points, pieces = struct.unpack_from("<2I", body)
        places = np.frombuffer(body, "<i4", 2 * points, 8).reshape(-1, 2)
        street = np.frombuffer(body, "<u4", pieces, 8 + 8 * points)
        size = np.frombuffer(body, "<u2", pieces, 8 + 8 * points + 4 * pieces)
        assert len(body) == 8 + 8 * points + 7 * pieces and int(size.sum()) == points
        shift, at = ZOOM - level.zoom + 9, 0
        for number, count in zip(street.tolist(), size.tolist()):
            line = places[at:at + count] >> shift
            assert (line.min(axis=0) <= (column, row)).all() and (line.max(axis=0) >= (column, row)).all()
            assert places[at:at + count].tolist() == sheet.line(number)
            found.add((number, column, row))
            at += count
    assert {number for number, _, _ in found} == set(range(len(sheet)))
    assert level.tile(1 << 20, 0) == EMPTY
    assert all(other.zoom < level.zoom and set(other.street.tolist()) <= set(range(len(sheet))) for other in others)


def test_places_in_the_world_and_back() -> None:
    draw = random.Random(3)
    for _ in range(200):
        place = draw.uniform(-179, 179), draw.uniform(-80, 80)
        x, y = world_of(np.array(place))
        assert degrees_of(int(x), int(y)) == pytest.approx(place, abs=2e-6)


def test_traffic_is_that_of_the_profiles() -> None:
    draw = random.Random(5)
    rows: list[list[tuple[int, int, int]]] = [[(0, CLOSED, 0)]]
    for _ in range(30):
        starts = [0, *sorted(draw.sample(range(1, DAY), draw.randrange(4)))]
        rows.append([(start, draw.choice((TRAVEL, TRAVEL, UNTIL)), draw.randrange(5, 900)) for start in starts])
        rows[-1] = [(start, kind, value if kind == TRAVEL else value + DAY) for start, kind, value in rows[-1]]
    first = np.concatenate(([0], np.cumsum([len(row) for row in rows])))
    start, kind, value = np.array([piece for row in rows for piece in row]).T
    profiles = Profiles(first, start.astype(np.int32), kind.astype(np.int8), value.astype(np.int64))
    number = np.arange(len(rows), dtype=np.int32)
    traffic, travel = Traffic(number, profiles), Travel(number, profiles)
    for second in (0, DAY - 1, *(draw.randrange(DAY) for _ in range(40))):
        takes, wait = traffic.at(second)
        assert np.isinf(takes[0])
        for road in range(1, len(rows)):
            assert takes[road] == travel.arrive(road, second) - second
            assert traffic.waits([road], [second + DAY]) == [int(wait[road])]
            assert travel.arrive(road, second + max(int(wait[road]) - 1, 0)) == second + takes[road] or not wait[road]
            assert traffic.free[road] <= takes[road]
