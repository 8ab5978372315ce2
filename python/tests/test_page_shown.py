"""How the service's page looks where somebody's system or paper asks for something: colours, motion, names, order."""

from __future__ import annotations

import re

import pytest
from browsing import LAPTOP, PHONE, Browser
from conftest import TOP
from serving import Service

pytestmark = [pytest.mark.first, pytest.mark.xdist_group("page shown")]
TAB, ENTER = "\ue004", "\ue007"
STYLE = TOP / "python" / "catchup" / "service" / "page" / "static" / "page.css"
ROUTE = "#from=0&via=5&to=9&depart=08:00"
# Of elements of some selector those that reach beyond the panel.
WIDER = """
const edge = document.getElementById("panel").getBoundingClientRect().right;
return [...document.querySelectorAll(arguments[0])].filter(each => each.checkVisibility()
  && (each.scrollWidth > each.clientWidth + 1 || each.getBoundingClientRect().right > edge)).length;
"""
THEME = "return document.documentElement.dataset.theme"
# The part of the page that what has the focus is in.
PART = "return document.activeElement.closest('#panel, #stage, #dock')?.id ?? null"


def ask_media(browser: Browser, media: str = "", **features: str) -> None:
    """Has the browser be one whose system, or paper, asks for something."""
    browser.command("Emulation.setEmulatedMedia", media=media, features=[
        {"name": name.replace("_", "-"), "value": value} for name, value in features.items()])


def style_of(browser: Browser, selector: str, name: str) -> str:
    """What the browser makes of an element's style."""
    return str(browser.run("return getComputedStyle(document.querySelector(arguments[0]))[arguments[1]]", selector, name))


def open_route(browser: Browser, village: Service, size: tuple[int, int] = LAPTOP) -> None:
    """Opens the page with a route over a stop, and its curve."""
    browser.open(village, ROUTE, size)
    browser.wait_text("answer", "08:00 →")
    browser.wait("return catchup.day.curve !== null && document.querySelectorAll('.pin').length === 3")


def luminance(colour: str) -> float:
    """How light a colour is, by WCAG 2."""
    parts = [int(colour[at:at + 2], 16) / 255 for at in (1, 3, 5)]
    red, green, blue = (part / 12.92 if part <= 0.03928 else ((part + 0.055) / 1.055) ** 2.4 for part in parts)
    return 0.2126 * red + 0.7152 * green + 0.0722 * blue


def contrast(one: str, other: str) -> float:
    """The contrast of two colours, by WCAG 2."""
    low, high = sorted((luminance(one), luminance(other)))
    return (high + 0.05) / (low + 0.05)


@pytest.mark.parametrize("theme", ["light", "dark"])
def test_texts_and_controls_stand_out(theme: str) -> None:
    """By 4.5 to 1 for texts and 3 to 1 for the edges of controls."""
    light, dark = re.findall(r"\{([^}]*)\}", STYLE.read_text())[:2]
    colours = dict(re.findall(r"--([\w-]+): (#[0-9a-f]{6})", {"light": light, "dark": dark}[theme]))
    texts = [(ink, ground) for ink in ("ink", "soft", "accent") for ground in ("paper", "field", "ground", "map")]
    texts += [("on-accent", "accent"), ("bad", "paper"), ("warn", "paper")]
    texts += [(kind, f"{kind}-ground") for kind in ("good", "bad", "warn")]
    assert {pair: found for pair in texts if (found := contrast(*(colours[name] for name in pair))) < 4.5} == {}
    assert min(contrast(colours["edge"], colours[ground]) for ground in ("paper", "field")) >= 3


def test_the_page_follows_the_theme_of_the_system(browser: Browser, village: Service) -> None:
    """While it is open, and until one is chosen."""
    open_route(browser, village)
    ask_media(browser, prefers_color_scheme="dark")
    browser.wait(THEME, lambda found: found == "dark")
    ask_media(browser, prefers_color_scheme="light")
    browser.wait(THEME, lambda found: found == "light")
    browser.click("theme")
    ask_media(browser, prefers_color_scheme="dark")
    ask_media(browser, prefers_color_scheme="light")
    assert browser.run("return matchMedia('(prefers-color-scheme: light)').matches")
    assert browser.run(THEME) == "dark"
    browser.run("localStorage.clear()")


def test_colours_that_say_something_stay_where_the_system_has_its_own(browser: Browser, village: Service) -> None:
    open_route(browser, village)
    browser.click("theme")
    swatch = style_of(browser, ".legend i", "backgroundColor")
    ask_media(browser, forced_colors="active", prefers_color_scheme="light")
    # What was chosen would draw the curve light on light.
    browser.wait("return document.documentElement.dataset.theme === 'light'")
    browser.run("localStorage.clear()")
    assert style_of(browser, ".legend i", "forcedColorAdjust") == "none" and swatch.startswith("rgb(")
    assert style_of(browser, "#tabs [aria-selected=true]", "outlineStyle") == "solid"
    assert style_of(browser, "#tabs [aria-selected=false]", "outlineStyle") == "none"
    assert style_of(browser, "#streets .slow", "color") == style_of(browser, "#streets .metres", "color")
    browser.picture("forced")
    assert browser.problems() == []


@pytest.mark.parametrize("size", [LAPTOP, PHONE], ids=["laptop", "phone"])
def test_paper_has_the_whole_answer(browser: Browser, village: Service, size: tuple[int, int]) -> None:
    """Every street, and the map and the curve as they are on the screen; nothing to press."""
    open_route(browser, village, size)
    before = browser.run("return [document.getElementById('stage').offsetWidth, catchup.chart.map.getSize().y]")
    browser.click("theme")
    browser.run("window.dispatchEvent(new Event('beforeprint'))")
    assert browser.run(THEME) == "light"
    ask_media(browser, "print")
    browser.wait("return matchMedia('print').matches")
    for name in ("tabs", "add", "theme", "slider", "downloads"):
        assert not browser.run("return document.getElementById(arguments[0]).checkVisibility()", name), name
    assert browser.run("const { overflow } = getComputedStyle(document.getElementById('panel')); return overflow") == "visible"
    assert browser.run("return [document.getElementById('stage').offsetWidth, catchup.chart.map.getSize().y]") == before
    inside = browser.run("const box = document.getElementById('stage').getBoundingClientRect();"
                         "return [box.width, [...document.querySelectorAll('.pin')].every(pin => {"
                         "const { left, top, right, bottom } = pin.getBoundingClientRect();"
                         "return left >= box.left && right <= box.right && top >= box.top && bottom <= box.bottom; })]")
    assert inside[0] < 700 and inside[1]
    pdf = browser.command("Page.printToPDF", printBackground=False)["data"]
    assert len(pdf) > 10_000
    ask_media(browser)
    browser.run("window.dispatchEvent(new Event('afterprint')); localStorage.clear()")
    assert browser.run(THEME) == "dark"
    assert browser.problems() == []


def test_whoever_wants_little_motion_gets_none(browser: Browser, village: Service) -> None:
    ask_media(browser, prefers_reduced_motion="reduce")
    browser.driver.get("about:blank")
    browser.driver.get(f"http://127.0.0.1:{village.port}/{ROUTE}")
    browser.wait("return window.catchup?.chart.roads.ways")
    moved = browser.run("const { map } = catchup.chart, before = map.getCenter().lng, zoom = map.getZoom();"
                        "map.panBy([100, 0]); const now = map.getCenter().lng; map.setZoom(zoom + 1);"
                        "return [now > before, map.getZoom() - zoom, Boolean(map._animatingZoom)]")
    assert moved == [True, 1, False]
    ask_media(browser)


def test_long_names_are_broken(browser: Browser, village: Service) -> None:
    """Whatever alphabet they have, in each place where they stand."""
    names = ["Donaudampfschifffahrtsgesellschaftsstrasse" * 6, "شارع" * 40, "北京市朝阳区建国门外大街" * 9,
             "Z\u0338\u0322\u031b" * 200]
    for size in (LAPTOP, PHONE):
        open_route(browser, village, size)
        for name in names:
            browser.run("const { found } = catchup.route; for (const leg of found.legs) leg.names.fill(arguments[0]);"
                        "catchup.route.take(found)", name)
            assert browser.run(WIDER, "#streets li, #streets .name") == 0
            browser.run("const { finder } = catchup.places.fields[0]; finder.found = [{ name: arguments[0],"
                        "more: arguments[0] }]; finder.show()", name)
            assert browser.run(WIDER, ".found li") == 0
        browser.run("catchup.change({ mode: 'traffic' })")
        street = browser.driver.execute_async_script(
            "fetch('/page/street?street=0').then(found => found.json()).then(arguments[0])")
        for name in names:
            browser.run("catchup.traffic.choose({ ...arguments[0], name: arguments[1] });"
                        "catchup.traffic.made = [{ name: arguments[1], said: 'closed', before: [], version: '' }];"
                        "catchup.traffic.showMade()", street, name)
            assert browser.run(WIDER, "#road fieldset, #road legend, #edits li") == 0
            assert not browser.is_wider()


# At each quarter of an hour how many pixels of the curve the text beside its mark hides, and whether it has room.
HIDDEN = """
const { day, change, state } = catchup, canvas = document.getElementById("day"), found = [];
const plain = day.spotOf.bind(day);
day.spotOf = (view, at, wide) => {
  const spot = plain(view, at, wide), { x, y } = view, { travels } = day.curve;
  let hidden = 0;
  for (let pixel = spot.left; pixel <= spot.left + wide; pixel++) {
    const second = Math.round((pixel - x(0)) / (x(86400) - x(0)) * 86399), height = y(travels[second]);
    hidden += height > spot.top && height < spot.top + 18;
  }
  found.push([state.time, hidden, spot.left >= 0 && spot.left + wide <= canvas.clientWidth]);
  return spot;
};
for (let time = 0; time < 86400; time += 900) change({ time });
delete day.spotOf;
return found;
"""


@pytest.mark.parametrize("size", [LAPTOP, PHONE, (320, 568)])
def test_the_text_of_the_mark_hides_nothing_of_the_curve(browser: Browser, village: Service,
                                                         size: tuple[int, int]) -> None:
    open_route(browser, village, size)
    found = browser.run(HIDDEN)
    assert len(found) >= 96 and [each for each in found if each[1] or not each[2]] == []


@pytest.mark.parametrize(("size", "wanted", "skip"), [
    (LAPTOP, ["panel", "stage", "dock"], "map"), (PHONE, ["stage", "dock", "panel"], "panel")], ids=["laptop", "phone"])
def test_the_key_of_tabulation_goes_as_the_screen_does(browser: Browser, village: Service, size: tuple[int, int],
                                                       wanted: list[str], skip: str) -> None:
    open_route(browser, village, size)
    browser.press(TAB)
    assert browser.focused() == f"Skip {'the map' if skip == 'panel' else 'to the map'}"
    found: list[str] = []
    for _ in range(80):
        browser.press(TAB)
        part = browser.run(PART)
        if part is None:
            break
        if found[-1:] != [part]:
            found.append(part)
    assert found == wanted
    browser.tab_to(".skip")
    browser.press(ENTER)
    assert browser.focused() == skip


def test_a_phone_that_is_turned_keeps_what_is_typed(browser: Browser, village: Service) -> None:
    browser.open(village, "#from=0&depart=08:00", PHONE)
    field = browser.driver.find_element("css selector", ".place input[aria-label='To']")
    field.click()
    field.send_keys("garten")
    browser.wait("return document.querySelector('.found:not([hidden]) li') !== null")
    browser.resize((844, 390))
    browser.wait("return document.body.querySelector('.skip + #panel') !== null")
    # Who leaves a field is waited for 150 milliseconds.
    browser.driver.execute_async_script("setTimeout(arguments[0], 400)")
    assert browser.run("return [document.activeElement.value, document.activeElement.getAttribute('aria-label')]") == [
        "garten", "To"]
    field.send_keys(ENTER)
    browser.wait("return catchup.state.places[1]?.name === 'Gartenweg'")
