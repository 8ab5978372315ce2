"""A browser for the tests of the service's page: chromium, led by selenium."""

from __future__ import annotations

import os
import shutil
from collections.abc import Callable
from pathlib import Path
from typing import Any, Protocol

import pytest
from commands import call
from conftest import EXAMPLES
from serving import SECONDS, wait_for

LAPTOP = 1280, 800
PHONE = 390, 844
WORDS = ("--headless=new", "--no-sandbox", "--disable-gpu", "--disable-dev-shm-usage", "--hide-scrollbars")
# Whether all is drawn that is in view.
IS_DRAWN = """
const page = window.catchup, tiles = page ? Object.values(page.chart.roads._tiles ?? {}) : [];
return tiles.length > 0 && tiles.every(tile => tile.el.isDrawn) && !page.isDrawing() && page.chart.roads.ways !== null;
"""
# Notes what the page says in passing: a line over the map goes after some seconds, and a slow test may look later.
NOTE = """
window.notices = [];
new MutationObserver(changes => {
  for (const { target, addedNodes } of changes) {
    if (target.id === "notice") window.notices.push(...[...addedNodes].map(each => each.textContent));
  }
}).observe(document, { childList: true, subtree: true });
"""
SPOT = """
const { map } = catchup.chart, box = map.getContainer().getBoundingClientRect();
const spot = map.latLngToContainerPoint([arguments[1], arguments[0]]);
return [Math.round(box.left + spot.x), Math.round(box.top + spot.y)];
"""


def start_chromium(room: Path, *words: str) -> Any:
    """The driver of a chromium that keeps its own in a folder, with some words. On a busy machine both may take longer
    to start than selenium and chromedriver wait, half a minute and a minute, and are started again."""
    webdriver = pytest.importorskip("selenium.webdriver", reason="python3-selenium isn't installed")
    if shutil.which("chromium") is None or shutil.which("chromedriver") is None:
        pytest.skip("chromium and chromedriver aren't installed")
    from selenium.common.exceptions import WebDriverException
    from selenium.webdriver.chrome.service import Service as Driver

    for left in range(4, -1, -1):
        options = webdriver.ChromeOptions()
        for word in (*words, f"--user-data-dir={room}/browser{left}"):
            options.add_argument(word)
        options.set_capability("goog:loggingPrefs", {"browser": "ALL"})
        try:
            driver = webdriver.Chrome(options=options, service=Driver("/usr/bin/chromedriver"))
        except WebDriverException:
            if not left:
                raise
        else:
            driver.set_page_load_timeout(SECONDS)
            driver.set_script_timeout(SECONDS)
            return driver


def import_village(folder: Path) -> Path:
    """Imports the village's map into a folder, with rush hours and profiles to spare, and builds it."""
    ran = call("catchup-import", "osm", EXAMPLES / "village" / "village.osm", folder, "--build", "--rush", "--spare", "8")
    assert ran.status == 0, ran
    return folder


class Listening(Protocol):
    """What listens on a port of this machine."""

    port: int


class Browser:
    """A browser with one window, or more. Pictures go to the folder of CATCHUP_PICTURES where that is set."""

    def __init__(self, room: Path, size: tuple[int, int] = LAPTOP) -> None:
        self.size = size
        self.driver = start_chromium(room, *WORDS)
        self.run: Callable[..., Any] = self.driver.execute_script
        self.noting: set[str] = set()   # windows whose pages note what they say

    def open(self, service: Listening, address: str = "", size: tuple[int, int] | None = None, *, dark: bool = False,
             is_drawn: bool = True) -> None:
        """Opens the page of a service, or of what stands before one, at some size, the browser's own where none is said;
        waits until its roads are drawn."""
        self.resize(size or self.size)
        self.command("Emulation.setEmulatedMedia", features=[
            {"name": "prefers-color-scheme", "value": "dark" if dark else "light"}])
        if (window := self.driver.current_window_handle) not in self.noting:
            self.command("Page.addScriptToEvaluateOnNewDocument", source=NOTE)
            self.noting.add(window)
        self.driver.get("about:blank")
        self.driver.get_log("browser")
        self.driver.get(f"http://127.0.0.1:{service.port}/{address}")
        if is_drawn:
            assert wait_for(lambda: self.run(IS_DRAWN)), self.problems()

    def resize(self, size: tuple[int, int]) -> None:
        """Shows the page at another size; a narrow one is a phone's, with touch."""
        is_phone = size[0] < 720
        self.command("Emulation.setDeviceMetricsOverride", width=size[0], height=size[1], deviceScaleFactor=1,
                     mobile=is_phone)
        self.command("Emulation.setTouchEmulationEnabled", enabled=is_phone)

    def command(self, name: str, **words: Any) -> Any:
        """What the browser itself is told."""
        return self.driver.execute_cdp_cmd(name, words)

    def wait(self, script: str, wanted: Callable[[Any], bool] = bool) -> Any:
        """What a script answers once that is as wanted."""
        found = wait_for(lambda: self.run(script), wanted)
        assert wanted(found), (script, found, self.problems())
        return found

    def text(self, name: str) -> str:
        """The text of an element."""
        return str(self.run("return document.getElementById(arguments[0]).innerText", name))

    def wait_text(self, name: str, part: str) -> str:
        """The text of an element once it has some part."""
        found = wait_for(lambda: self.text(name), lambda text: part in text)
        assert part in found, (name, found, self.problems())
        return found

    def wait_notice(self, part: str) -> str:
        """What the page has said over its map that has some part, once it has, since it was opened or that was
        forgotten. It may be gone again by then."""
        found: list[str] = self.wait("return window.notices", lambda lines: any(part in line for line in lines))
        return next(line for line in found if part in line)

    def forget_notices(self) -> None:
        """Forgets what the page has said over its map."""
        self.run("window.notices.length = 0")

    def click(self, name: str) -> None:
        """Clicks an element."""
        self.driver.find_element("id", name).click()

    def mouse(self, kind: str, x: int, y: int, **words: Any) -> None:
        """A movement or a button of the mouse."""
        self.command("Input.dispatchMouseEvent", type=kind, x=x, y=y, **words)

    def click_map(self, lon: float, lat: float) -> None:
        """Clicks a place on the map."""
        x, y = self.run(SPOT, lon, lat)
        self.mouse("mousePressed", x, y, button="left", clickCount=1)
        self.mouse("mouseReleased", x, y, button="left", clickCount=1)

    def hover(self, lon: float, lat: float, name: str) -> None:
        """Has the mouse rest on a place until its name is told, which goes again where the map moves meanwhile."""
        def look() -> str:
            x, y = self.run(SPOT, lon, lat)
            for beside in (1, 0):
                self.mouse("mouseMoved", x + beside, y)
            return wait_for(lambda: self.text("hover"), lambda text: name in text, 5)

        found = wait_for(look, lambda text: name in text)
        assert name in found, (name, found, self.problems())

    def press(self, *keys: str, shift: bool = False) -> None:
        """Presses keys, one behind another, in whatever has the focus."""
        from selenium.webdriver.common.action_chains import ActionChains
        from selenium.webdriver.common.keys import Keys

        steps = ActionChains(self.driver, duration=0)
        if shift:
            steps.key_down(Keys.SHIFT)
        for key in keys:
            steps.send_keys(key)
        if shift:
            steps.key_up(Keys.SHIFT)
        steps.perform()

    def tab_to(self, wanted: str, *, back: bool = False) -> None:
        """Goes on by the key of tabulation until an element has the focus that some selector of CSS names, once it is
        there."""
        from selenium.webdriver.common.keys import Keys

        assert wait_for(lambda: self.run("return document.querySelector(arguments[0])?.checkVisibility()", wanted)), (
            f"there is no {wanted}", self.problems())
        for _ in range(80):
            self.press(Keys.TAB, shift=back)
            if self.run("return document.activeElement.matches(arguments[0])", wanted):
                return
        raise AssertionError(f"no tabulation leads to {wanted}")

    def wait_focused(self, wanted: str) -> None:
        """Waits until something has the focus, as `focused` calls it."""
        found = wait_for(self.focused, lambda name: name == wanted)
        assert found == wanted, (wanted, found, self.problems())

    def focused(self) -> str:
        """What has the focus: its id, else what it says or is called."""
        return str(self.run("const found = document.activeElement;"
                            "return found.id || found.getAttribute('aria-label') || found.innerText || found.tagName"))

    def drag(self, start: tuple[int, int], end: tuple[int, int]) -> None:
        """Drags from one pixel to another."""
        self.mouse("mousePressed", *start, button="left", clickCount=1)
        for part in range(1, 6):
            at = [round(one + (other - one) * part / 5) for one, other in zip(start, end)]
            self.mouse("mouseMoved", at[0], at[1], button="left", buttons=1)
        self.mouse("mouseReleased", *end, button="left", clickCount=1)

    def touch(self, kind: str, *points: tuple[float, float]) -> None:
        """Fingers on the screen."""
        self.command("Input.dispatchTouchEvent", type=kind, touchPoints=[{"x": x, "y": y} for x, y in points])

    def tap(self, x: float, y: float) -> None:
        """A finger that touches a pixel, and goes. On a busy machine the browser may take it for one that stays."""
        self.touch("touchStart", (x, y))
        self.touch("touchEnd")

    def set_value(self, name: str, value: object, event: str = "change") -> None:
        """Sets a field as if somebody had typed it."""
        self.run("const each = document.getElementById(arguments[0]); each.value = arguments[1];"
                 "each.dispatchEvent(new Event(arguments[2], { bubbles: true }))", name, str(value), event)

    def problems(self) -> list[str]:
        """The errors and warnings in the console."""
        lines = self.driver.get_log("browser")
        return [f"{line['level']} {line['message']}" for line in lines if line["level"] != "INFO"]

    def elsewhere(self) -> list[str]:
        """What was asked of other origins."""
        found: list[str] = self.run("return performance.getEntries().map(each => each.name).filter(name =>"
                                    "/^[a-z]+:/.test(name) && !name.startsWith(location.origin))")
        return [name for name in found if not name.startswith("data:")]

    def is_wider(self) -> bool:
        """Whether the page is wider than the screen."""
        return bool(self.run("return document.documentElement.scrollWidth > innerWidth"))

    def picture(self, name: str) -> None:
        """Keeps a picture where somebody wants to look at it."""
        if folder := os.environ.get("CATCHUP_PICTURES"):
            self.driver.save_screenshot(f"{folder}/{name}.png")

    def close(self) -> None:
        """Ends the browser."""
        self.driver.quit()
