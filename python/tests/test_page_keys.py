"""The service's page by the keyboard alone, and what a screen reader says of it."""

from __future__ import annotations

import re

import pytest
from browsing import Browser
from serving import Service, wait_for

from catchup.service.page.sheet import degrees_of

pytestmark = [pytest.mark.first, pytest.mark.xdist_group("page keys")]
ENTER, SPACE, TAB, ESCAPE, DELETE = "\ue007", " ", "\ue004", "\ue00c", "\ue017"
LEFT, UP, RIGHT, DOWN, HOME, END = "\ue012", "\ue013", "\ue014", "\ue015", "\ue011", "\ue010"
CENTER = "const { lat, lng } = catchup.chart.map.getCenter(); return [lng, lat]"
RESTS = "const { map } = catchup.chart; return !map._panAnim?._inProgress && !map._animatingZoom"
# A pin that is moved rests for a minute before it is asked for: a busy machine may press keys slowly.
LONG_PAUSES = """
window.plainTimeout = window.setTimeout;
window.setTimeout = (call, wait, ...more) => window.plainTimeout(call, wait === 700 ? 60000 : wait, ...more);
"""
# Where pins of a kind are, in pixels.
PIN = """
const box = document.querySelector(`.pin.${arguments[0]}`).getBoundingClientRect();
return [Math.round(box.x + box.width / 2), Math.round(box.y + box.height / 2)];
"""


def open_at(browser: Browser, village: Service, street: str, address: str = "", zoom: int = 18) -> None:
    """Opens the page with a street in the middle of its map, which has the focus by the keyboard."""
    found = village.get(f"/page/search?q={street}")["places"][0]
    lon, lat = degrees_of(found["x"], found["y"])
    browser.open(village, f"#map={zoom}/{lat:.5f}/{lon:.5f}&{address}")
    browser.tab_to("#map")


def spoken(browser: Browser, part: str) -> str:
    """What a screen reader says, once it has some part."""
    return browser.wait_text("spoken", part)


def is_shown(browser: Browser, name: str) -> bool:
    """Whether an element is seen."""
    return bool(browser.run("return document.getElementById(arguments[0]).checkVisibility()", name))


def test_a_route_is_chosen_by_keys(browser: Browser, village: Service) -> None:
    browser.open(village, "#depart=07:40")
    browser.tab_to("#map")
    assert is_shown(browser, "cross") and "Enter" in browser.text("map-keys")
    assert browser.run("return document.getElementById('map').getAttribute('role')") == "application"
    before = browser.run(CENTER)
    browser.press(LEFT)
    browser.wait(CENTER, lambda now: now[0] < before[0])
    browser.wait(RESTS)
    browser.press(ENTER)
    start = browser.wait("return catchup.state.places[0]?.name")
    assert start in spoken(browser, "From")
    browser.press(RIGHT, shift=True)
    browser.wait(CENTER, lambda now: now[0] > before[0])
    browser.wait(RESTS)
    browser.press(SPACE)
    end = browser.wait("return catchup.state.places[1]?.name")
    assert end in spoken(browser, "To")
    browser.wait_text("answer", "07:40 →")
    browser.wait_focused("map")
    assert browser.problems() == []


def test_the_menu_is_led_through_by_keys(browser: Browser, village: Service) -> None:
    open_at(browser, village, "Bergweg", "from=0&to=9&depart=08:00", 16)
    browser.wait_text("answer", "08:00 →")
    browser.press(ENTER)
    browser.wait("return document.activeElement.innerText === 'From here'")
    assert browser.run("return document.activeElement.closest('[role=menu]').getAttribute('aria-label')")
    for key, wanted in ((DOWN, "Over here"), (RIGHT, "To here"), (DOWN, "From here"), (UP, "To here"),
                        (HOME, "From here"), (END, "To here"), (LEFT, "Over here")):
        browser.press(key)
        browser.wait_focused(wanted)
    browser.press(TAB)
    browser.wait_focused("To here")
    browser.press(ESCAPE)
    browser.wait("return document.activeElement.id === 'map' && !document.querySelector('[role=menu]')")
    middle = browser.run(CENTER)
    browser.press(SPACE)
    browser.wait("return document.activeElement.innerText === 'From here'")
    browser.press(DOWN, ENTER)
    name, word = browser.wait("const { places } = catchup.state, [, stop] = places;"
                              "return places.length === 3 && stop && [stop.name, stop.word]")
    spoken(browser, f"Stop 1: {name}")
    assert [float(part) for part in word.split(",")] == pytest.approx(middle, abs=1e-5)
    assert browser.focused() == "map" and is_shown(browser, "cross")
    # Its closing button has a name, and takes the space bar as buttons do.
    browser.press(ENTER)
    browser.tab_to(".leaflet-popup-close-button")
    browser.wait_focused("Close")
    browser.press(SPACE)
    browser.wait("return document.activeElement.id === 'map'")
    assert browser.problems() == []


def test_a_road_is_closed_by_keys(browser: Browser, village: Service) -> None:
    open_at(browser, village, "M%C3%BChleweg", "mode=traffic&depart=08:00")
    spoken(browser, "Mühleweg")
    assert "Mühleweg" in browser.text("cross") and "road" in browser.text("map-keys")
    browser.press(ENTER)
    browser.wait_text("road", "Mühleweg")
    browser.wait("return document.activeElement.closest('#road') !== null")
    assert not is_shown(browser, "cross")
    browser.press(ESCAPE)
    browser.wait("return document.activeElement.id === 'map' && !document.querySelector('#road fieldset')")
    browser.press(SPACE)
    browser.wait("return document.activeElement.closest('#road') !== null")
    before = village.get("/health")["version"]
    browser.tab_to("#apply")
    browser.press(ENTER)
    said = browser.wait_text("road", "Confirmed as version")
    assert "closed all day" in said and village.get("/health")["version"] in said != before
    assert "Mühleweg: closed all day" in spoken(browser, "Confirmed")
    browser.wait_focused("map")
    browser.tab_to("#edits button")
    browser.press(ENTER)
    browser.wait_text("road", "is as it was")
    spoken(browser, "is as it was")
    browser.wait("return document.activeElement !== document.body")
    assert browser.wait("return ![...catchup.chart.roads.ways].some(way => way & 64)")
    assert browser.problems() == []


def test_enter_in_a_field_of_the_form_applies_it(browser: Browser, village: Service) -> None:
    open_at(browser, village, "Gartenweg", "mode=traffic&depart=08:00")
    spoken(browser, "Gartenweg")
    browser.press(ENTER)
    browser.wait("return document.activeElement.closest('#road') !== null")
    browser.tab_to("#factor")
    browser.press("0", ENTER)
    browser.wait_text("told", "1 to 50 times")
    browser.press(ESCAPE)
    browser.wait("return document.activeElement.id === 'map'")


def test_no_road_is_near(browser: Browser, village: Service) -> None:
    browser.open(village, "#mode=traffic")
    browser.tab_to("#map")
    for _ in range(4):
        browser.press(UP, shift=True)
        browser.wait(RESTS)
    spoken(browser, "No road")
    browser.press(ENTER)
    browser.wait_text("road", "There is no road in the middle of the map")
    browser.wait_focused("map")


# Of spots all over the map whether a street is near among all tiles, and whether the page finds one.
BESIDE = """
const { chart } = catchup, { roads, map } = chart, { data } = roads, size = map.getSize(), found = [];
const tiles = [...data.kept.values()].map(each => each.tile).filter(Boolean);
for (let x = 0; x < size.x; x += 9) {
  for (let y = 0; y < size.y; y += 9) {
    const spot = map.containerPointToLatLng([x, y]), at = L.CRS.EPSG3857.latLngToPoint(spot, 20);
    const within = 60 * 2 ** (20 - map.getZoom()), best = { street: -1, least: within * within };
    for (const tile of tiles) tile.nearest(Math.round(at.x), Math.round(at.y), within, best);
    found.push([best.street >= 0, chart.streetAt(spot, 60) >= 0]);
  }
}
return found;
"""


def test_a_street_near_the_middle_may_lie_in_another_tile(browser: Browser, village: Service) -> None:
    browser.open(village, "#mode=traffic")
    found = browser.run(BESIDE)
    assert any(there for there, _ in found) and any(not there for there, _ in found)
    assert all(there == seen for there, seen in found)


def test_the_map_moves_and_zooms_by_keys(browser: Browser, village: Service) -> None:
    browser.open(village, "#depart=07:40")
    browser.tab_to("#map")
    zoom = "return catchup.chart.map.getZoom()"
    start = browser.run(zoom)
    # On some keyboards + is typed with the shift key, on others it isn't.
    for key, shift, by in (("+", False, 1), ("=", True, 2), ("-", False, 1), ("+", False, 2), ("-", False, 1)):
        browser.press(key, shift=shift)
        browser.wait(zoom, lambda now: now == start + by)
        browser.wait(RESTS)
    spoken(browser, "wide")
    before = browser.run(CENTER)
    browser.press(DOWN)
    now = browser.wait(CENTER, lambda now: now[1] < before[1])
    browser.wait(RESTS)
    now = browser.run(CENTER)
    # Whoever moves the map keeps the view, whatever its size becomes.
    browser.run("document.getElementById('dock').style.height = '200px'")
    browser.wait("return catchup.chart.map.getSize().y === document.getElementById('map').clientHeight")
    assert browser.run(CENTER) == pytest.approx(now, abs=1e-4)


def test_the_mouse_hides_the_cross(browser: Browser, village: Service) -> None:
    browser.open(village, "#mode=traffic")
    x, y = browser.run("const box = document.getElementById('map').getBoundingClientRect();"
                       "return [box.x + box.width / 2, box.y + 40]")
    for kind in ("mousePressed", "mouseReleased"):
        browser.mouse(kind, round(x), round(y), button="left", clickCount=1)
    assert browser.focused() == "map" and not is_shown(browser, "cross")
    browser.press(LEFT)
    assert is_shown(browser, "cross")
    browser.press(TAB)
    assert not is_shown(browser, "cross")


def test_the_menu_key_opens_the_menu_in_the_middle(browser: Browser, village: Service) -> None:
    open_at(browser, village, "Bergweg", "depart=08:00", 16)
    browser.run("const map = document.getElementById('map');"
                "map.dispatchEvent(new MouseEvent('contextmenu', { bubbles: true, cancelable: true }))")
    browser.wait("return document.activeElement.innerText === 'From here'")
    browser.press(DOWN, DOWN, ENTER)
    browser.wait("return catchup.state.places[1]?.name === 'Bergweg'")


def test_pins_are_moved_by_keys(browser: Browser, village: Service) -> None:
    browser.open(village, "#from=0&to=9&depart=08:00")
    before = browser.wait_text("answer", "08:00 →")
    browser.tab_to(".pin.last")
    assert "Where the route ends" in browser.focused()
    hint = browser.run("return document.getElementById(document.activeElement.getAttribute('aria-describedby')).innerText")
    assert "Arrow keys" in hint and "Delete" in hint
    x, y = browser.run(PIN, "last")
    word = browser.run("return catchup.state.places[1].word")
    browser.run(LONG_PAUSES)
    browser.press(LEFT)
    near = x - browser.run(PIN, "last")[0]
    browser.press(UP, shift=True)
    far = y - browser.run(PIN, "last")[1]
    assert 0 < near < 15 and 2 * near < far < 120
    # Escape undoes it, and nothing is asked.
    browser.press(ESCAPE)
    assert browser.run(PIN, "last") == [x, y]
    browser.run("window.setTimeout = window.plainTimeout")
    for _ in range(3):
        browser.press(LEFT, UP, shift=True)
    browser.wait("return catchup.state.places[1].word !== arguments[0]".replace("arguments[0]", repr(word)))
    assert wait_for(lambda: browser.text("answer"), lambda now: now != before and "→" in now) != before
    spoken(browser, "To: ")
    assert "Where the route ends" in browser.focused()
    at = browser.run("const { map } = catchup.chart, { places } = catchup.state;"
                     "const box = map.getContainer().getBoundingClientRect();"
                     "const spot = map.latLngToContainerPoint(catchup.places.pins.markers[1].getLatLng());"
                     "return [Math.round(box.left + spot.x), Math.round(box.top + spot.y)]")
    assert at == pytest.approx(browser.run(PIN, "last"), abs=1)
    # Left in the middle of a move, by Tab, it stays where it is.
    word = browser.run("return catchup.state.places[1].word")
    browser.press(DOWN, TAB)
    browser.wait(f"return catchup.state.places[1].word !== {word!r}")
    assert browser.problems() == []


def test_stops_are_taken_away_by_keys(browser: Browser, village: Service) -> None:
    browser.open(village, "#from=0&via=5&to=9&depart=08:00")
    browser.wait_text("answer", "08:00 →")
    browser.tab_to(".pin.via")
    assert re.search(r"Stop 1 on the way: .+", browser.focused())
    browser.press(DELETE)
    browser.wait("return catchup.state.places.length === 2")
    spoken(browser, "taken out")
    browser.wait_focused("map")
    browser.tab_to(".pin.first")
    browser.press(DELETE)
    browser.wait("return catchup.state.places[0] === null")
    browser.wait_focused("map")
    browser.wait_text("answer", "Choose where the route begins")


def test_the_focus_stays_where_fields_of_places_change(browser: Browser, village: Service) -> None:
    browser.open(village, "#from=0&to=9&depart=08:00")
    browser.wait_text("answer", "08:00 →")
    browser.tab_to("#add")
    browser.press(ENTER)
    browser.wait("return document.querySelectorAll('.place input').length === 3")
    browser.wait_focused("Stop 1")
    browser.press("berg")
    browser.wait("return document.querySelector('.found:not([hidden]) li')?.innerText.includes('Bergweg')")
    browser.press(ENTER)
    browser.wait("return catchup.state.places[1]?.name === 'Bergweg'")
    browser.press(TAB)
    browser.wait_focused("Take this stop out")
    browser.press(ENTER)
    browser.wait("return catchup.state.places.length === 2")
    browser.wait_focused("To")


def test_who_skips_to_the_map_loses_nothing(browser: Browser, village: Service) -> None:
    browser.open(village, "#from=0&to=9&depart=08:00")
    browser.wait_text("answer", "08:00 →")
    browser.press(TAB)
    browser.wait_focused("Skip to the map")
    browser.press(ENTER)
    browser.wait_focused("map")
    browser.wait("return document.getElementById('spoken').innerText")
    assert is_shown(browser, "cross")
    assert browser.run("return catchup.state.places.map(place => place?.word)") == ["0", "9"]
    assert browser.wait("return location.hash", lambda hash: "from=0" in hash)


def test_buttons_on_the_map_take_the_space_bar(browser: Browser, village: Service) -> None:
    browser.open(village, "#depart=08:00")
    zoom = browser.run("return catchup.chart.map.getZoom()")
    browser.tab_to(".leaflet-control-zoom-in")
    browser.press(SPACE)
    browser.wait("return catchup.chart.map.getZoom()", lambda now: now > zoom)
    browser.wait(RESTS)
    browser.tab_to(".whole")
    browser.press(SPACE)
    browser.wait("return catchup.chart.map.getZoom()", lambda now: now == zoom)


def test_the_curve_is_a_slider(browser: Browser, village: Service) -> None:
    browser.open(village, "#from=0&to=9&depart=08:00")
    browser.wait("return catchup.day.curve !== null && catchup.day.depart === 28800")
    browser.tab_to("#day")
    names = ("role", "aria-valuenow", "aria-valuetext")
    told = "return arguments[0].map(name => document.getElementById('day').getAttribute(name))"
    role, now, text = browser.run(told, names)
    assert (role, now) == ("slider", "28800") and text.startswith("08:00, ")
    # Each key goes on from the one before, also while no route of that has come.
    browser.run("window.plainFetch = window.fetch; const open = new Promise(resolve => { window.release = resolve; });"
                "window.fetch = (...words) => open.then(() => window.plainFetch(...words))")
    browser.press(RIGHT)
    browser.wait("return document.getElementById('day').getAttribute('aria-valuetext').startsWith('08:05')")
    browser.press(HOME, UP, RIGHT)
    browser.wait("return catchup.state.time === 600")
    assert browser.run(told, names)[1] == "600" and browser.run("return catchup.route.found.depart") == 28_800
    browser.run("window.release()")
    browser.wait_text("answer", "00:10 →")
    assert browser.run("return catchup.day.depart") == 600
    # Of a time by which to arrive it is the departure of the answer.
    browser.set_value("by", "arrive")
    browser.wait("return catchup.day.depart < 600")
    assert browser.run(told, names)[1] == str(browser.run("return catchup.day.depart"))


def test_a_street_that_has_the_focus_is_shown_on_the_map(browser: Browser, village: Service) -> None:
    browser.open(village, "#from=0&to=9&depart=08:00")
    browser.wait_text("answer", "08:00 →")
    browser.tab_to("#streets button")
    browser.wait("return catchup.route.lit !== undefined && catchup.chart.map.hasLayer(catchup.route.lit)")
    browser.press(SPACE)
    browser.tab_to("#gpx")
    browser.wait("return !catchup.chart.map.hasLayer(catchup.route.lit)")


def test_everything_that_takes_the_focus_has_a_role_and_a_name(browser: Browser, village: Service) -> None:
    """As the browser itself tells them to screen readers."""
    for address in ("#from=0&via=5&to=9&depart=08:00", "#mode=reach&from=0", "#mode=traffic"):
        browser.open(village, address)
        nodes = browser.command("Accessibility.getFullAXTree")["nodes"]
        for node in nodes:
            told = {each["name"]: each["value"].get("value") for each in node.get("properties", [])}
            if not told.get("focusable") or node["role"]["value"] in ("RootWebArea", "complementary"):
                continue
            assert node["name"]["value"].strip(" ×"), node
            assert node["role"]["value"] not in ("generic", "img", "listitem", "none"), node
