"""The fields for places on the service's page, and its tiles, over a network that takes its time."""

from __future__ import annotations

from typing import Any

import pytest
from browsing import IS_DRAWN, Browser
from serving import Service

pytestmark = [pytest.mark.first, pytest.mark.xdist_group("page fields")]
ENTER, TAB, ESCAPE = "\ue007", "\ue004", "\ue00c"
# Holds back what is asked of the page's search until `release` is called; `asked` is how much of it has no answer yet.
HOLD = """
let open = null;
window.asked = 0;
window.waiting = new Promise(resolve => { open = resolve; });
window.release = () => open();
const { fetch } = window;
window.fetch = async (...words) => {
  if (!words[0].startsWith("page/search")) return fetch(...words);
  window.asked++;
  try {
    await window.waiting;
    return await fetch(...words);
  } finally {
    setTimeout(() => { window.asked--; }, 0);
  }
};
"""
# Has the first tiles be asked of another map, as of a worker that has it still, and asks for all tiles again.
OTHER_MAP = """
const { fetch } = window, { roads } = catchup.chart;
window.wrong = 0;
window.fetch = (...words) => {
  if (!words[0].startsWith("page/roads/") || window.wrong > 2) return fetch(...words);
  window.wrong++;
  return fetch(words[0].replace(/of=[0-9a-f]+/, "of=0123456789ab"));
};
roads.data.kept.clear();
roads.redraw();
"""


def open_field(browser: Browser, village: Service, label: str, address: str = "#depart=08:00") -> Any:
    """Opens the page, and gives the field of some label the focus."""
    browser.open(village, address)
    browser.wait("return catchup.state.places.every(place => !place || place.x !== null)")
    field = browser.driver.find_element("css selector", f".place input[aria-label^='{label}']")
    field.click()
    return field


def name_of(browser: Browser, index: int, wanted: str) -> None:
    """The name of a place once it is some name."""
    browser.wait(f"return catchup.state.places[{index}]?.name", lambda name: name == wanted)


def test_a_place_that_is_on_its_way_is_taken_wherever_the_focus_is(browser: Browser, village: Service) -> None:
    field = open_field(browser, village, "From")
    browser.run(HOLD)
    field.send_keys("berg", ENTER, TAB, TAB)
    browser.wait("return window.asked > 0")
    browser.run("window.release()")
    name_of(browser, 0, "Bergweg")
    # The key that goes on takes what is marked too.
    field = open_field(browser, village, "To", "#from=0&depart=08:00")
    field.send_keys("garten", TAB)
    name_of(browser, 1, "Gartenweg")
    browser.wait_text("answer", "→")
    assert browser.problems() == []


def test_a_place_that_is_typed_while_the_service_is_gone_comes_when_it_is_back(browser: Browser, village: Service) -> None:
    field = open_field(browser, village, "From")
    browser.command("Network.enable")
    speed = {"latency": 0, "downloadThroughput": -1, "uploadThroughput": -1}
    try:
        browser.command("Network.emulateNetworkConditions", offline=True, **speed)
        field.send_keys("berg", ENTER, TAB)
        browser.wait_text("notice", "can't be reached")
        assert browser.run("return arguments[0].value", field) == "berg"
        browser.command("Network.emulateNetworkConditions", offline=False, **speed)
        name_of(browser, 0, "Bergweg")
    finally:
        browser.command("Network.emulateNetworkConditions", offline=False, **speed)
        browser.command("Network.disable")


def test_what_was_found_for_other_words_is_never_taken(browser: Browser, village: Service) -> None:
    field = open_field(browser, village, "From")
    field.send_keys("b")
    browser.wait("return document.querySelector('.found:not([hidden]) li') !== null")
    browser.run(HOLD)
    field.send_keys("\b" "kirch", ENTER)
    browser.wait("return window.asked > 0")
    browser.run("window.release()")
    name_of(browser, 0, "Kirchgasse")


def test_no_list_comes_back_once_a_place_is_chosen(browser: Browser, village: Service) -> None:
    field = open_field(browser, village, "From")
    field.send_keys("berg")
    browser.wait("return document.querySelector('.found:not([hidden]) li')?.innerText.includes('Bergweg')")
    browser.run(HOLD)
    field.send_keys("w")
    browser.wait("return window.asked > 0")
    # What is found for these words comes once one of the list before is chosen by the mouse.
    browser.run("document.querySelector('.found li').click(); window.release()")
    name_of(browser, 0, "Bergweg")
    browser.wait("return window.asked === 0")
    assert not browser.driver.execute_async_script(
        "setTimeout(done => done(document.querySelector('.found:not([hidden])') !== null), 50, arguments[0])")


def test_escape_leaves_what_was_typed(browser: Browser, village: Service) -> None:
    field = open_field(browser, village, "From", "#from=0&to=9&depart=08:00")
    before = browser.run("return catchup.state.places[0].name")
    field.send_keys("berg", ESCAPE)
    assert browser.run("return arguments[0].value", field) == before
    field.send_keys(TAB)
    assert browser.run("return catchup.state.places[0].word") == "0"


def test_a_name_that_nobody_typed_keeps_its_place(browser: Browser, village: Service) -> None:
    """Others may have it too, as the street has of which somebody clicked one end."""
    lane = village.get("/page/search?q=Gartenweg")["places"][0]
    lon, lat = (float(part) for part in lane["place"].split(","))
    word = f"{lon + 2e-5:.6f},{lat + 2e-5:.6f}"
    field = open_field(browser, village, "From", f"#from={word}&to=9&depart=08:00")
    browser.run("window.asked = 0; const { fetch } = window; window.fetch = (...words) => {"
                "if (words[0].startsWith('page/search')) window.asked++; return fetch(...words); }")
    field.send_keys(ENTER, TAB)
    assert browser.run("return [catchup.state.places[0].word, window.asked]") == [word, 0]


def test_a_field_that_is_emptied_has_no_place(browser: Browser, village: Service) -> None:
    field = open_field(browser, village, "From", "#from=0&to=9&depart=08:00")
    field.send_keys("\b", ENTER)
    browser.wait("return catchup.state.places[0] === null")
    browser.wait_text("answer", "Choose where the route begins")


def test_tiles_of_another_map_are_asked_for_again(browser: Browser, village: Service) -> None:
    browser.open(village, "#depart=08:00")
    browser.run(OTHER_MAP)
    browser.wait("return window.wrong > 2")
    browser.wait(IS_DRAWN)
    # What answers for good is another map: the page is loaded again, with its roads.
    browser.run("window.isOld = true; catchup.chart.found.name = 'another'; catchup.chart.roads.data.onOther()")
    browser.wait("return !window.isOld")
    browser.wait(IS_DRAWN)
