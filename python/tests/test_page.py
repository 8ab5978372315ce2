"""The service's page in a browser, on a laptop and on a phone."""

from __future__ import annotations

import http.server
import json
import re
import shutil
import threading
import time
from collections.abc import Iterator
from pathlib import Path
from typing import Any, ClassVar

import pytest
from browsing import LAPTOP, PHONE, SPOT, Browser
from conftest import EXAMPLES, build
from serving import Service, ask_program, free_ports, wait_for

from catchup.service.page.sheet import degrees_of

pytestmark = [pytest.mark.first, pytest.mark.xdist_group("page")]


@pytest.fixture(scope="module", params=[
    pytest.param(LAPTOP, id="laptop"), pytest.param(PHONE, id="phone", marks=pytest.mark.long)])
def browser(request: pytest.FixtureRequest, tmp_path_factory: pytest.TempPathFactory) -> Iterator[Browser]:
    found = Browser(tmp_path_factory.mktemp("browser"), request.param)
    yield found
    found.close()


@pytest.fixture
def plane(town: Path, tmp_path_factory: pytest.TempPathFactory) -> Iterator[Service]:
    path = tmp_path_factory.mktemp("plane") / "town.cu"
    shutil.copy(town, path)
    with Service(path, "--tables", EXAMPLES / "town") as service:
        yield service


# What has the focus: its element, what it is called, and the line around it.
FOCUSED = """
const found = document.activeElement;
return [found.tagName, found.id || found.title, getComputedStyle(found).outlineStyle];
"""


def places_of(browser: Browser) -> list[str]:
    """What the fields of places have."""
    found: list[str] = browser.run("return [...document.querySelectorAll('.place input')].map(each => each.value)")
    return found


def is_sound(browser: Browser) -> None:
    """Nothing is in the console, nothing was asked of elsewhere, and nothing is wider than the screen."""
    assert browser.problems() == []
    assert browser.elsewhere() == []
    assert not browser.is_wider()


def clock(second: int) -> str:
    """A time of day as the page writes it."""
    return time.strftime("%H:%M:%S", time.gmtime(second % 86_400)).removesuffix(":00")


def span(seconds: int) -> str:
    """A span as the page writes it."""
    words = [f"{seconds // 60} min"] * bool(seconds // 60) + [f"{seconds % 60} s"] * bool(seconds % 60)
    return " ".join(words)


def test_a_route_by_two_clicks(browser: Browser, village: Service) -> None:
    west, south, east, north = corners(village)
    browser.open(village, "#depart=07:40")
    browser.click_map(west + 0.05 * (east - west), (south + north) / 2)
    browser.wait("return catchup.state.places[0]?.x > 0")
    browser.click_map(east - 0.05 * (east - west), (south + north) / 2)
    words = browser.wait("const { places } = catchup.state;"
                         "return places.every(each => each?.x) && places.map(each => each.word)")
    found = village.get(f"/route?from={words[0]}&to={words[1]}&depart=07:40")
    said = browser.wait_text("answer", span(found["travel"]))
    assert f"{clock(found['depart'])} → {clock(found['arrive'])}" in said
    streets = browser.text("streets")
    names = [name for name in dict.fromkeys(name for leg in found["legs"] for name in leg["names"]) if name]
    assert names and all(name in streets for name in names)
    assert "07:40" in streets and re.search(r"\d+ m\b", streets)
    assert browser.text("said") == f"→ {clock(found['arrive'])}"
    check_curve(browser, village, words)
    check_downloads(browser, village)
    browser.picture("route")
    is_sound(browser)


def corners(service: Service) -> tuple[float, float, float, float]:
    """West, south, east and north of a served map."""
    box = service.get("/page/setting")["map"]["box"]
    (west, north), (east, south) = degrees_of(*box[:2]), degrees_of(*box[2:])
    return west, south, east, north


def check_curve(browser: Browser, village: Service, words: list[str]) -> None:
    """The curve is that of the day, with the present departure and where another route takes over."""
    day = village.get(f"/day?from={words[0]}&to={words[1]}")
    browser.wait("return catchup.day.curve !== null")
    for piece in day["pieces"]:
        travel = piece["value"] - (piece["from"] if piece["kind"] == "until" else 0)
        assert browser.run("return catchup.day.curve.travels[arguments[0]]", piece["from"]) == travel
    changes = [route["from"] for route in day["routes"] if route["from"]]
    assert browser.run("return catchup.day.curve.changes") == changes
    assert browser.run("return catchup.day.depart") == 7 * 3600 + 40 * 60
    assert "Shortest" in browser.text("day-said")


def check_downloads(browser: Browser, village: Service) -> None:
    """Both downloads are files of the route."""
    for name, kind in (("gpx", "application/gpx+xml"), ("geojson", "application/geo+json")):
        address = browser.run("return document.getElementById(arguments[0]).getAttribute('href')", name)
        reply = village.client.get(address)
        assert (reply.status_code, reply.headers["content-type"]) == (200, kind)


def test_the_address_keeps_all(browser: Browser, village: Service) -> None:
    west, south, east, north = corners(village)
    middle = (south + north) / 2
    browser.open(village, f"#from={west:.5f},{middle:.5f}&to={east:.5f},{middle:.5f}&arrive=08:30")
    assert browser.wait_text("said", "leave at")
    browser.click("add")
    browser.click_map((west + east) / 2, north)
    browser.wait("return catchup.state.places[1]?.x && document.querySelectorAll('.stop').length === 3")
    browser.set_value("time", "8.45")
    browser.wait("return location.hash.includes('arrive=08:45') && location.hash.includes('via=')"
                 " && catchup.route.found?.arrive > 8.6 * 3600")
    address, shown = browser.run("return location.hash"), browser.wait_text("said", "leave at")
    browser.open(village, address)
    assert browser.wait_text("said", shown) == shown
    assert browser.wait("return location.hash", lambda found: found == address) and len(places_of(browser)) == 3
    # The curve over a stop is that of both legs behind one another.
    browser.wait("const { curve, depart } = catchup.day, { found } = catchup.route;"
                 "return curve && found && curve.travels[depart] === found.arrive - found.depart")
    browser.picture("stops")
    # Changed in the open tab, which isn't loaded anew.
    browser.run("window.isSame = true")
    browser.run("location.hash = '#mode=reach&depart=06:00&within=300&from=' + catchup.state.places[0].word")
    browser.wait_text("reach-said", "06:00")
    browser.run("location.hash = '#from=&depart=07:00'")
    browser.wait_text("answer", "Click on the map")
    assert places_of(browser) == ["", ""] and browser.run("return window.isSame")
    is_sound(browser)


def test_places_are_found_by_names_and_numbers_and_dragged(browser: Browser, village: Service) -> None:
    from selenium.webdriver.common.keys import Keys

    browser.open(village, "#depart=07:00")
    lane = village.get("/page/search?q=Gartenweg")["places"][0]
    browser.hover(*degrees_of(lane["x"], lane["y"]), "Gartenweg")
    start, end = browser.driver.find_elements("css selector", ".place input")
    start.send_keys("berg")
    browser.wait("return document.querySelector('.found:not([hidden]) li')?.innerText.includes('Bergweg')")
    start.send_keys(Keys.ENTER)
    browser.wait("return catchup.state.places[0]?.name === 'Bergweg'")
    end.send_keys("node:0", Keys.ENTER)
    browser.wait("return catchup.state.places[1]?.word === '0'")
    before = browser.wait_text("answer", "→")
    x, y = browser.run("const box = document.querySelectorAll('.pin.last')[0].getBoundingClientRect();"
                       "return [Math.round(box.x + box.width / 2), Math.round(box.y + box.height / 2)]")
    browser.drag((x, y), (x + 150, y - 120))
    browser.wait("return catchup.state.places[1]?.word !== '0'")
    assert wait_for(lambda: browser.text("answer"), lambda text: text != before and "→" in text) != before
    browser.click("swap")
    browser.wait("return catchup.state.places[1]?.name === 'Bergweg'")
    end = browser.driver.find_elements("css selector", ".place input")[1]
    end.send_keys("nowhere at all")
    browser.wait("return document.querySelector('.found:not([hidden])')?.innerText.includes('Nothing')")
    is_sound(browser)


def test_reach_has_one_scale_a_day(browser: Browser, village: Service) -> None:
    west, south, east, north = corners(village)
    browser.open(village, f"#mode=reach&from={west:.5f},{(south + north) / 2:.5f}&depart=07:40&within=300")
    browser.wait("return catchup.reach.bands !== null && catchup.reach.layer.getLayers().length > 0")
    legend, said = browser.text("bands"), browser.wait_text("reach-said", "07:40")
    assert "to 50 s" in legend and "to 5 min" in legend
    browser.picture("reach")
    browser.set_value("slider", 3 * 3600, "input")
    at_night = browser.wait_text("reach-said", "03:00")
    assert browser.text("bands") == legend
    assert int(re.findall(r"(\d+) %", at_night)[0]) >= int(re.findall(r"(\d+) %", said)[0])
    for name in ("dark", "light"):
        browser.click("theme")
        browser.wait(f"return document.documentElement.dataset.theme === '{name}' && !catchup.isDrawing()")
        browser.picture(f"reach-{name}")
    start = browser.run("return catchup.state.places[0].word")
    found = village.client.get(f"/page/reach?from={start}&depart=03:00&within=300&bands=6").content
    assert browser.run("return [...catchup.reach.bands]") == [6 if band == 255 else band for band in found]
    is_sound(browser)


PERCENT = """
const [count, all, done] = arguments;
import('/page/file/clock.js').then(({ percent }) => done(percent(count, all)), problem => done(String(problem)));
"""


@pytest.mark.parametrize(("count", "of", "wanted"), [
    (0, 0, 0), (0, 5392, 0), (1, 5392, 1), (2696, 5392, 50), (5391, 5392, 99), (5392, 5392, 100)])
def test_all_streets_are_said_to_be_reached_where_they_are(browser: Browser, village: Service, count: int, of: int,
                                                           wanted: int) -> None:
    if not str(browser.driver.current_url).startswith(f"http://127.0.0.1:{village.port}/"):
        browser.open(village)
    assert browser.driver.execute_async_script(PERCENT, count, of) == f"{wanted} %"


def test_a_road_is_closed_by_clicks_and_others_follow(browser: Browser, village: Service) -> None:
    # The mill's lane leads both ways.
    [lane] = village.get("/page/search?q=M%C3%BChleweg")["places"][:1]
    lon, lat = (float(word) for word in lane["place"].split(","))
    first = browser.driver.current_window_handle
    browser.open(village, "#mode=traffic&depart=08:00")
    browser.driver.switch_to.new_window("tab")
    browser.open(village, "#mode=traffic&depart=08:00")
    other, version = browser.driver.current_window_handle, village.get("/health")["version"]
    browser.driver.switch_to.window(first)
    browser.click_map(lon, lat)
    browser.wait_text("road", "Mühleweg")
    browser.picture("traffic")
    for name in ("close", "some-hours"):
        browser.click(name)
    browser.set_value("since", "7", "input")
    browser.set_value("until", "9:00", "input")
    browser.click("apply")
    said = browser.wait_text("road", "Confirmed as version")
    now = village.get("/health")["version"]
    assert now != version and now in said and "closed from 07:00 to 09:00" in said
    street = browser.run("return catchup.chart.roads.ways.findIndex(way => way & 64)")
    browser.wait("return [...catchup.chart.roads.ways].some(way => way & 64)")
    assert street == -1 or village.get(f"/page/street?street={street}")["name"] == "Mühleweg"
    browser.picture("closed")
    browser.driver.switch_to.window(other)
    browser.wait("return [...catchup.chart.roads.ways].some(way => way & 64)")
    browser.wait_notice(now)
    browser.driver.close()
    browser.driver.switch_to.window(first)
    browser.run("document.querySelector('#edits button').click()")
    browser.wait_text("road", "is as it was")
    assert browser.wait("return ![...catchup.chart.roads.ways].some(way => way & 64)")
    is_sound(browser)


def test_a_refused_edit_says_why(browser: Browser, village_map: Path, tmp_path: Path) -> None:
    path, token = tmp_path / "map.cu", tmp_path / "token"
    path.write_bytes((village_map / "map.cu").read_bytes())
    token.write_text("a-long-enough-token-of-tests\n")
    with Service(path, "--tables", village_map, "--token", token) as service:
        lane = service.get("/page/search?q=Gartenweg")["places"][0]
        browser.open(service, "#mode=traffic&depart=12:00", PHONE)
        browser.click_map(*(float(word) for word in lane["place"].split(",")))
        browser.wait_text("road", "Gartenweg")
        browser.click("apply")
        browser.wait_text("told", "token")
        assert not browser.is_wider()
        browser.set_value("token", "a-long-enough-token-of-tests", "input")
        browser.click("apply")
        browser.wait_text("road", "Confirmed as version")
        browser.picture("token")


def test_waits_are_marked(browser: Browser, village: Service) -> None:
    shut = [{"from": 0, "kind": "travel", "value": 32}, {"from": 25_200, "kind": "until", "value": 32_432},
            {"from": 32_400, "kind": "travel", "value": 32}]
    before = village.get("/page/street?road=0")["ways"][0]["before"][0]
    for pieces in (shut, before["pieces"]):
        body = json.dumps({"edits": [{"road": 0, "pieces": pieces}]}).encode()
        assert village.ask("/edits", "POST", body, Content_Type="application/json")[0] == 200
        if pieces is shut:
            browser.open(village, "#from=0&to=9&depart=08:30")
            browser.wait_text("streets", "waits 30 min, until 09:00")
            browser.wait_text("answer", "of which 30 min of waiting")
            browser.picture("waits")
    browser.wait("return !document.getElementById('streets').innerText.includes('waits')")
    is_sound(browser)


CHANGED = """
const [pieces, what, done] = arguments;
import('/page/file/hours.js').then(({ changed }) => done(changed(pieces, what)), problem => done(String(problem)));
"""


@pytest.mark.parametrize(("factor", "since", "until"), [
    (None, 7 * 3600, 9 * 3600), (3, 7 * 3600, 9 * 3600), (2.5, 22 * 3600, 3600), (None, 23 * 3600, 60), (4, 0, 0)])
def test_a_road_of_some_hours_keeps_its_order(browser: Browser, village: Service, factor: float | None, since: int,
                                              until: int) -> None:
    if not str(browser.driver.current_url).startswith(f"http://127.0.0.1:{village.port}/"):
        browser.open(village)
    pieces = [{"from": 0, "kind": "travel", "value": 60}, {"from": 25_000, "kind": "travel", "value": 200},
              {"from": 32_000, "kind": "until", "value": 32_200}, {"from": 32_140, "kind": "travel", "value": 60}]
    day, wanted = arrivals(pieces), []
    for second, arrive in enumerate(day):
        is_inside = since <= second < until if since < until else second >= since or second < until
        later = float("inf") if factor is None else second + int((arrive - second) * factor + 0.5)
        wanted.append(later if is_inside else arrive)
    least = min(arrive + 86_400 for arrive in wanted)
    for second in range(86_399, -1, -1):
        least = wanted[second] = min(least, wanted[second])
    found = browser.driver.execute_async_script(CHANGED, pieces, {"factor": factor, "from": since, "to": until})
    assert arrivals(found) == wanted
    assert all(one <= other for one, other in zip(wanted, wanted[1:])) and wanted[-1] <= wanted[0] + 86_400


def arrivals(pieces: list[dict[str, Any]]) -> list[float]:
    """The arrival at each second of the day."""
    ends = [piece["from"] for piece in pieces[1:]] + [86_400]
    return [piece["value"] if piece["kind"] == "until" else second + piece["value"]
            for piece, end in zip(pieces, ends) for second in range(piece["from"], end)]


def test_a_phone(browser: Browser, village: Service) -> None:
    west, south, east, north = corners(village)
    middle = (south + north) / 2
    browser.open(village, f"#from={west:.5f},{middle:.5f}&to={east:.5f},{middle:.5f}&depart=07:40", PHONE, dark=True)
    browser.wait_text("answer", "→")
    browser.wait("return catchup.day.curve !== null")
    browser.picture("phone")
    zoom = browser.run("return catchup.chart.map.getZoom()")
    x, y = 195.0, 180.0
    browser.touch("touchStart", (x - 30, y), (x + 30, y))
    for step in range(1, 6):
        browser.touch("touchMove", (x - 30 - 12 * step, y), (x + 30 + 12 * step, y))
    browser.touch("touchEnd")
    assert browser.wait("return catchup.chart.map.getZoom()", lambda now: now > zoom) > zoom
    for mode in ("reach", "traffic", "route"):
        browser.click(f"tab-{mode}")
        browser.wait(f"return document.getElementById('pane-{mode}').hidden === false")
        browser.wait(f"return location.hash.includes('mode={mode}') || '{mode}' === 'route'")
        assert not browser.is_wider()
        browser.picture(f"phone-{mode}")
    # What one touches is large enough.
    assert browser.run("return [...document.querySelectorAll('button, select, input')].filter(each => each.offsetParent"
                       " && each.getBoundingClientRect().height < 24).map(each => each.id)") == []
    is_sound(browser)


def test_a_network_without_a_map(browser: Browser, plane: Service, town: Path) -> None:
    browser.open(plane, "#depart=08:00")
    for node in (5, 151):
        found = plane.get(f"/page/search?q=node:{node}")["places"][0]
        browser.click_map(*degrees_of(found["x"], found["y"]))
        browser.wait(f"return catchup.state.places.some(place => place?.word === '{node}')")
    [reply] = ask_program(town, "q,5,151,28800")
    arrive = int(re.findall(r"arrive=(\d+)", reply)[0])
    roads = reply.partition("arcs=")[2].split()
    assert f"08:00 → {clock(arrive)}, {len(roads)} roads" in browser.wait_text("answer", clock(arrive))
    assert [f"Road {road}" for road in roads] == re.findall(r"Road \d+", browser.text("streets"))
    [day] = ask_program(town, "d,5,151")
    browser.wait("return catchup.day.curve !== null")
    for piece in day.split(" ")[1:]:
        second, kind, value = piece.split(",")
        travel = int(value) - (int(second) if kind == "until" else 0)
        assert browser.run("return catchup.day.curve.travels[arguments[0]]", int(second)) == travel
    browser.picture("plane")
    plane.edit("s,0,0,travel,600")
    browser.wait_notice("The network has changed")
    is_sound(browser)


# Events that come when `tellVersion` is called, and no sooner.
LATE_EVENTS = """
window.EventSource = class {
  readyState = 1;
  addEventListener(name, call) { window.tellVersion = version => call({ data: JSON.stringify({ version }) }); }
  close() {}
};
"""


def test_an_edit_before_the_first_event_is_followed(browser: Browser, plane: Service) -> None:
    """What the page has asked by then is of the version before."""
    script = browser.command("Page.addScriptToEvaluateOnNewDocument", source=LATE_EVENTS)["identifier"]
    try:
        browser.open(plane, "#from=5&to=151&depart=08:00")
    finally:
        browser.command("Page.removeScriptToEvaluateOnNewDocument", identifier=script)
    before = browser.wait_text("answer", "08:00 →")
    roads = plane.get("/route?from=5&to=151&depart=08:00")["roads"]
    version = plane.edit(*(f"a,{road},0" for road in roads), "s,0,0,travel,5000")["version"]
    browser.run("window.tellVersion(arguments[0])", version)
    assert version in browser.wait_notice("The network has changed")
    assert wait_for(lambda: browser.text("answer"), lambda now: now != before and "→" in now) != before
    is_sound(browser)


class Tiles(http.server.BaseHTTPRequestHandler):
    """Grey tiles of a base map."""

    asked: ClassVar[list[str]] = []

    def do_GET(self) -> None:
        self.asked.append(self.path)
        self.send_response(200)
        self.send_header("Content-Type", "image/svg+xml")
        self.end_headers()
        self.wfile.write(b'<svg xmlns="http://www.w3.org/2000/svg" width="256" height="256">'
                         b'<rect width="256" height="256" fill="#cdd5d0" stroke="#9aa"/></svg>')

    def log_message(self, *_: object) -> None:
        pass


@pytest.mark.long
def test_several_networks_over_a_base_map(browser: Browser, village_map: Path, tmp_path: Path) -> None:
    for name in ("car", "truck"):
        (tmp_path / f"{name}.cu").write_bytes((village_map / "map.cu").read_bytes())
    tiles = http.server.ThreadingHTTPServer(("127.0.0.1", 0), Tiles)
    threading.Thread(target=tiles.serve_forever, daemon=True).start()
    address = f"http://127.0.0.1:{tiles.server_address[1]}"
    words = [f"{name}={tmp_path / name}.cu" for name in ("car", "truck")]
    words += [word for name in ("car", "truck") for word in ("--tables", f"{name}={village_map}")]
    with Service(*words, "--tiles", address + "/{z}/{x}/{y}.png", "--attribution", "Grey tiles") as service:
        browser.open(service, "#from=0&to=9&depart=08:00")
        browser.wait_text("answer", "→")
        browser.wait("return document.querySelectorAll('img.leaflet-tile-loaded').length > 0")
        browser.picture("base-map")
        assert "Grey tiles" in browser.run("return document.querySelector('.leaflet-control-attribution').innerText")
        assert all(name.startswith(address) for name in browser.elsewhere()) and Tiles.asked
        browser.set_value("profile", "truck")
        browser.wait("return location.hash.includes('profile=truck') && window.catchup?.route.found")
        assert browser.run("return document.getElementById('profile').value") == "truck"
        assert "profile=truck" in browser.run("return document.getElementById('gpx').href")
        assert browser.problems() == [] and not browser.is_wider()
    tiles.shutdown()
    tiles.server_close()


def test_there_is_no_map(browser: Browser, town: Path) -> None:
    with Service(town) as service:
        browser.open(service, is_drawn=False)
        assert "--tables" in browser.wait_text("empty", "There is no map")
        is_sound(browser)
        browser.picture("no-map")


def test_leaflet_is_missing(browser: Browser, village: Service) -> None:
    browser.command("Network.enable")
    browser.command("Network.setBlockedURLs", urls=["*/leaflet.js"])
    try:
        browser.open(village, is_drawn=False)
        assert "libjs-leaflet" in browser.wait_text("empty", "Leaflet isn't installed")
    finally:
        browser.command("Network.setBlockedURLs", urls=[])
        browser.command("Network.disable")


# Holds back what is asked of routes and of what is reached until `release` is called; `asked` is how much of it has no
# answer yet that the page has taken.
HELD = """
const { fetch } = window, open = new Promise(resolve => { window.release = resolve; });
window.asked = 0;
window.fetch = async (address, ...more) => {
  if (!/^page[/](route|reach)[?]/.test(address)) return fetch(address, ...more);
  window.asked++;
  try {
    await open;
    return await fetch(address, ...more);
  } finally {
    setTimeout(() => { window.asked--; }, 300);
  }
};
"""


def test_a_route_that_takes_long_is_told(browser: Browser, village: Service) -> None:
    """In the place of what is to be chosen."""
    browser.open(village)
    browser.wait_text("answer", "Click on the map")
    browser.run(HELD)
    browser.run("location.hash = '#from=0&to=9&depart=08:00'")
    browser.wait_text("answer", "The route is being worked out")
    browser.run("window.release()")
    browser.wait_text("answer", "08:00 →")


def test_whatever_has_the_focus_shows_it(browser: Browser, village: Service) -> None:
    """By the key of tabulation alone, from the page's beginning to its end."""
    from selenium.webdriver.common.action_chains import ActionChains
    from selenium.webdriver.common.keys import Keys

    browser.open(village, "#from=0&to=9&depart=08:00", LAPTOP)
    browser.wait_text("answer", "→")
    browser.wait("return document.querySelectorAll('.pin').length === 2 && catchup.day.curve !== null")
    seen = []
    for _ in range(60):
        ActionChains(browser.driver).send_keys(Keys.TAB).perform()
        tag, name, outline = browser.run(FOCUSED)
        if tag == "BODY":
            break
        assert outline not in ("none", "0px"), (tag, name)
        seen.append(name)
    for wanted in ("map", "Where the route begins", "Closer", "time", "day", "slider", "tab-route", "add", "gpx"):
        assert wanted in seen


def test_the_form_of_a_road_tells_the_time_that_is_shown(browser: Browser, village: Service) -> None:
    """And what others have edited since it was opened. What somebody chose in it stays."""
    lane = village.get("/page/search?q=M%C3%BChleweg")["places"][0]
    browser.open(village, "#mode=traffic&depart=12:00")
    browser.click_map(*(float(word) for word in lane["place"].split(",")))
    browser.wait_text("road", "Mühleweg")
    free = browser.text("taken-0")
    browser.click("slow")
    street = browser.run("return catchup.traffic.street")
    before = [each for way in street["ways"] for each in way["before"]]
    slow = [{"from": 0, "kind": "travel", "value": 60}, {"from": 28_800, "kind": "travel", "value": 999},
            {"from": 36_000, "kind": "until", "value": 36_999}, {"from": 36_939, "kind": "travel", "value": 60}]
    for pieces in (slow, None):
        edits = [{"road": each["road"], "pieces": pieces or each["pieces"]} for each in before]
        body = json.dumps({"edits": edits}).encode()
        assert village.ask("/edits", "POST", body, Content_Type="application/json")[0] == 200
        if pieces:
            browser.wait_text("road", ": 1 min")
            browser.set_value("slider", 9 * 3600, "input")
            browser.wait_text("road", "16 min 39 s at 09:00, 1 min when free")
            assert browser.run("return document.getElementById('slow').checked")
            browser.set_value("slider", 12 * 3600, "input")
    browser.wait_text("taken-0", free)
    is_sound(browser)


def test_a_street_of_one_way_is_called_so(browser: Browser, village: Service) -> None:
    lane = village.get("/page/search?q=Kirchgasse")["places"][0]
    browser.open(village, "#mode=traffic&depart=12:00")
    assert "30 % slower" in browser.text("delays")
    browser.click_map(*(float(word) for word in lane["place"].split(",")))
    browser.wait_text("road", "one way, to the")


def test_the_next_click_chooses_the_next_place(browser: Browser, village: Service) -> None:
    """Also where the first isn't answered yet. Two clicks that zoom choose one."""
    west, south, east, north = corners(village)
    middle = (south + north) / 2
    browser.open(village, "#depart=08:00")
    browser.command("Network.enable")
    slow = {"offline": False, "downloadThroughput": -1, "uploadThroughput": -1}
    browser.command("Network.emulateNetworkConditions", latency=800, **slow)
    try:
        browser.click_map(west + 0.05 * (east - west), middle)
        browser.click_map(east - 0.05 * (east - west), middle)
        found = browser.wait("const { places } = catchup.state;"
                             "return places.every(each => each?.x) && places.map(each => each.word)")
    finally:
        browser.command("Network.emulateNetworkConditions", latency=0, **slow)
        browser.command("Network.disable")
    assert float(found[0].partition(",")[0]) < float(found[1].partition(",")[0])
    browser.open(village, "#depart=08:00")
    x, y = browser.run(SPOT, (west + east) / 2, middle)
    for count in (1, 2):
        for kind in ("mousePressed", "mouseReleased"):
            browser.mouse(kind, x, y, button="left", clickCount=count)
    browser.wait("return catchup.state.places[0]?.x")
    browser.wait_text("answer", "Choose where the route ends")
    assert browser.run("return catchup.state.places[1]") is None
    is_sound(browser)


@pytest.mark.parametrize(("address", "name"), [("#from=0&to=9&depart=08:00", "answer"),
                                               ("#mode=reach&from=0&depart=08:00", "reach-said")])
def test_an_answer_that_comes_late_is_dropped(browser: Browser, village: Service, address: str, name: str) -> None:
    """Where the place is cleared meanwhile."""
    browser.open(village)
    browser.run(HELD)
    browser.run("location.hash = arguments[0]", address)
    browser.wait("return window.asked > 0")
    browser.run("document.querySelector('.place button').click(); window.release()")
    browser.wait("return window.asked === 0")
    assert re.search("Choose where|Click on the map", browser.text(name))


def test_the_menu_of_a_place_goes_with_the_route(browser: Browser, village: Service) -> None:
    west, south, east, north = corners(village)
    browser.open(village, "#from=0&to=9&depart=08:00", LAPTOP)
    browser.wait_text("answer", "→")
    browser.click_map((west + east) / 2, (south + north) / 2)
    browser.wait("return document.querySelector('[role=menu]') !== null")
    browser.click("tab-traffic")
    browser.wait("return document.querySelector('[role=menu]') === null")


def test_a_finger_leaves_nothing_on_the_map(browser: Browser, village: Service) -> None:
    lane = village.get("/page/search?q=Gartenweg")["places"][0]
    browser.open(village, "#mode=traffic&depart=08:00", PHONE)
    x, y = browser.run(SPOT, *degrees_of(lane["x"], lane["y"]))

    def tapped() -> str:
        browser.tap(x, y)
        return wait_for(lambda: browser.text("road"), lambda text: "Gartenweg" in text, 5)

    assert "Gartenweg" in wait_for(tapped, lambda text: "Gartenweg" in text)
    # A name is told 90 milliseconds behind a mouse.
    time.sleep(0.5)
    assert browser.run("return document.getElementById('hover').hidden")
    assert browser.run("return getComputedStyle(document.getElementById('map')).outlineStyle") == "none"
    # What gets the focus comes out from under the map.
    browser.run("window.scrollTo(0, 9999); document.getElementById('tab-traffic').focus()")
    assert browser.wait("const [map, tab] = ['map', 'tab-traffic'].map(id => document.getElementById(id)"
                        ".getBoundingClientRect()); return tab.top >= map.bottom")
    is_sound(browser)


def test_a_time_that_is_none_is_told(browser: Browser, village: Service) -> None:
    browser.open(village, "#depart=08:00")
    browser.set_value("time", "25:00")
    browser.wait_text("time-wrong", "write it as 08:30")
    assert browser.run("return catchup.state.time") == 8 * 3600 and not browser.is_wider()
    browser.set_value("time", "9")
    browser.wait("return catchup.state.time === 9 * 3600")
    assert browser.text("time-wrong") == ""


def test_a_name_under_the_mouse_goes_when_the_map_moves(browser: Browser, village: Service) -> None:
    lane = village.get("/page/search?q=Gartenweg")["places"][0]
    browser.open(village, "#depart=08:00", LAPTOP)
    browser.hover(*degrees_of(lane["x"], lane["y"]), "Gartenweg")
    browser.run("catchup.chart.map.panBy([200, 100], { animate: false })")
    assert browser.run("return document.getElementById('hover').hidden")


def test_a_place_that_is_missing_is_named(browser: Browser, village: Service) -> None:
    for address, said in (("to=9", "Choose where the route begins."), ("from=0", "Choose where the route ends.")):
        browser.open(village, f"#{address}&depart=08:00")
        browser.wait_text("answer", said)
    browser.run("catchup.change({ places: [catchup.state.places[0], null, catchup.state.places[0]] })")
    browser.wait_text("answer", "Choose stop 1, or take it out.")


def test_the_service_is_gone_and_comes_back(browser: Browser, village_map: Path, tmp_path: Path) -> None:
    path = tmp_path / "map.cu"
    path.write_bytes((village_map / "map.cu").read_bytes())
    # Nobody else takes it while no service is there.
    [port] = free_ports(1)
    with Service(path, "--tables", village_map, "--port", str(port)) as service:
        browser.open(service, "#from=0&to=9&depart=08:00", LAPTOP)
        browser.wait_text("answer", "→")
    browser.wait_text("notice", "can't be reached")
    browser.picture("gone")
    # What is chosen meanwhile is answered as soon as it can be.
    browser.set_value("time", "10:00")
    with Service(path, "--tables", village_map, "--port", str(port)):
        browser.wait_notice("is back")
        browser.wait_text("answer", "10:00 →")
        browser.set_value("time", "9:00")
        browser.wait_text("answer", "09:00 →")


def test_places_of_the_map_that_are_chosen_while_the_service_is_gone(browser: Browser, village: Service) -> None:
    """They come once it is back, and a pin that was dragged twice is where it was left; one that is cleared stays away."""
    west, south, east, north = corners(village)
    middle = (south + north) / 2
    browser.open(village, "#depart=08:00", LAPTOP)
    browser.command("Network.enable")
    speed = {"latency": 0, "downloadThroughput": -1, "uploadThroughput": -1}
    try:
        browser.command("Network.emulateNetworkConditions", offline=True, **speed)
        browser.click_map(west + 0.05 * (east - west), middle)
        browser.click_map(east - 0.05 * (east - west), middle)
        browser.wait_text("notice", "can't be reached")
        browser.command("Network.emulateNetworkConditions", offline=False, **speed)
        words = browser.wait("const { places } = catchup.state;"
                             "return places.every(each => each?.x) && places.map(each => each.word)")
        assert float(words[0].partition(",")[0]) < float(words[1].partition(",")[0])
        before = browser.wait_text("answer", "08:00 →")
        browser.command("Network.emulateNetworkConditions", offline=True, **speed)
        for kind, far in (("first", 60), ("first", 60), ("last", -60)):
            x, y = browser.run("const box = document.querySelector(`.pin.${arguments[0]}`).getBoundingClientRect();"
                               "return [Math.round(box.x + box.width / 2), Math.round(box.y + box.height / 2)]", kind)
            browser.drag((x, y), (x + far, y))
        browser.run("document.querySelectorAll('.place button')[1].click()")
        browser.wait_text("notice", "can't be reached")
        browser.forget_notices()
        browser.command("Network.emulateNetworkConditions", offline=False, **speed)
        browser.wait(f"return catchup.state.places[0].word !== {words[0]!r}")
        browser.wait_notice("is back")
        assert browser.run("return catchup.state.places[1]") is None and before
        assert float(browser.run("return catchup.state.places[0].word").partition(",")[0]) > float(words[0].partition(",")[0])
    finally:
        browser.command("Network.emulateNetworkConditions", offline=False, **speed)
        browser.command("Network.disable")


def test_whoever_looks_at_a_part_of_a_route_goes_on_doing_so(browser: Browser, village: Service) -> None:
    """At another time, and by an address that has the view; other places are shown."""
    view, are_known = "return catchup.chart.viewNow()", "return catchup.state.places.every(place => place.x !== null)"
    browser.open(village, "#from=0&to=9&depart=08:00", LAPTOP)
    browser.wait_text("answer", "08:00 →")
    browser.wait(are_known)
    browser.run("const { x, y } = catchup.state.places[0]; catchup.chart.map.setView("
                "L.CRS.EPSG3857.pointToLatLng(L.point(x, y), 20), 18, { animate: false })")
    before = browser.run(view)
    browser.set_value("time", "09:00")
    browser.wait_text("answer", "09:00 →")
    assert browser.run(view) == before
    address = browser.wait("return location.hash", lambda text: "09:00" in text and f"map={before}" in text)
    browser.open(village, address, LAPTOP)
    browser.wait_text("answer", "09:00 →")
    browser.wait(are_known)
    assert browser.run(view) == before
    browser.run("catchup.change({ places: [...catchup.state.places].reverse() })")
    browser.wait(view, lambda found: found != before)
    is_sound(browser)


def test_pins_that_lie_far_from_the_roads_are_shown(browser: Browser, village: Service) -> None:
    west, south, east, north = corners(village)
    browser.open(village, f"#from={west - 0.02:.5f},{south:.5f}&to={east + 0.02:.5f},{north + 0.01:.5f}&depart=08:00",
                 LAPTOP)
    browser.wait_text("answer", "08:00 →")
    browser.wait("const box = document.getElementById('map').getBoundingClientRect();"
                 "const pins = [...document.querySelectorAll('.pin')].map(pin => pin.getBoundingClientRect());"
                 "return pins.length === 2 && pins.every(pin => pin.left >= box.left && pin.right <= box.right"
                 " && pin.top >= box.top && pin.bottom <= box.bottom)")
    is_sound(browser)


def test_a_place_that_isnt_there(browser: Browser, village: Service) -> None:
    browser.open(village, "#from=0&to=999&depart=08:00")
    browser.wait_notice("There is no place 999")
    assert wait_for(lambda: places_of(browser), lambda found: found[1] == "")[1] == ""


def test_a_place_that_no_way_leads_to(browser: Browser, rush_hour: Path, tmp_path: Path) -> None:
    """Nor is one that is reached in time where it is too late for that all day."""
    with Service(build(rush_hour, tmp_path / "map.cu"), "--tables", rush_hour) as service:
        browser.open(service, "#from=2&to=0&depart=08:00")
        assert browser.wait_text("answer", "No way leads there.") == "No way leads there."
        assert browser.text("streets") == ""
        # What places are called comes by itself.
        named = ["Node 2", "Node 0"]
        assert wait_for(lambda: places_of(browser), lambda found: found == named) == named
        browser.open(service, "#from=0&to=2&arrive=00:01")
        browser.wait_text("answer", "Even who leaves at midnight isn't there by 00:01.")
        is_sound(browser)
