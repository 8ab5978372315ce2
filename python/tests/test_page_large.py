"""The service's page over large networks: how soon it is there, and how smoothly it moves."""

from __future__ import annotations

from pathlib import Path

import pytest
from browsing import IS_DRAWN, LAPTOP, Browser
from serving import Service, wait_for

from catchup.bench.networks import make_network
from catchup.order import metis_order
from catchup.program import run_program
from catchup.service.page.sheet import degrees_of
from catchup.tables import write_network, write_order

pytestmark = [pytest.mark.long, pytest.mark.xdist_group("page")]
# Milliseconds of the longest frame, but for a few while others take the processor, and of the page's work for one.
LONGEST_FRAME = 50
FEW = 0.05
MOST_WORK = 20
TABLES = ("nodes.csv", "roads.csv", "profiles.csv")
# Moves the map by some pixels with each frame, and answers how many milliseconds lay between frames.
PAN = """
const [zoom, lon, lat, done] = arguments, { map } = catchup.chart, frames = [];
map.setView([lat, lon], zoom, { animate: false });
const step = (last, left) => requestAnimationFrame(now => {
  if (last) frames.push(now - last);
  if (!left) { done(frames); return; }
  map.panBy([left % 60 < 30 ? 14 : -14, left % 40 < 20 ? 8 : -8], { animate: false });
  step(now, left - 1);
});
setTimeout(() => step(0, 180), 400);
"""


def build(folder: Path, size: int) -> Path:
    """The packed file of a network of some junctions, with its tables beside it."""
    folder.mkdir()
    network = make_network(size)
    write_network(folder, network)
    write_order(folder / "order.csv", metis_order(len(network.nodes), network.roads.tail, network.roads.head))
    ran = run_program(["build", *(folder / name for name in TABLES), folder / "order.csv", folder / "map.cu"])
    assert ran.status == 0, ran
    return folder / "map.cu"


def test_fifty_thousand_roads_are_there_soon(browser: Browser, program: Path, tmp_path: Path) -> None:
    path = build(tmp_path / "network", 22_000)
    with Service(path, "--tables", path.parent) as service:
        assert service.get("/page/setting")["map"]["roads"] > 50_000
        browser.open(service, is_drawn=False)
        browser.run(f"const look = () => {{ const isDrawn = (() => {{ {IS_DRAWN} }})();"
                    "if (isDrawn) window.drawnAfter = performance.now(); else requestAnimationFrame(look); }; look()")
        took = wait_for(lambda: browser.run("return window.drawnAfter ?? 0"))
        print(f"first view after {took:.0f} ms")
        assert 0 < took < 10_000
        assert browser.problems() == []


def pan(browser: Browser, zoom: float, place: tuple[float, float]) -> tuple[list[float], float]:
    """The milliseconds between frames while the map moves, and how many the page's own thread worked for each."""
    before = worked(browser)
    frames: list[float] = browser.driver.execute_async_script(PAN, zoom, *place)
    return frames, 1000 * (worked(browser) - before) / len(frames)


def worked(browser: Browser) -> float:
    """The seconds of a processor that the page's thread has had."""
    metrics = browser.command("Performance.getMetrics")["metrics"]
    [found] = [each["value"] for each in metrics if each["name"] == "TaskDuration"]
    return float(found)


def test_a_quarter_of_a_million_roads_moves_smoothly(browser: Browser, program: Path, tmp_path: Path) -> None:
    path = build(tmp_path / "network", 106_000)
    with Service(path, "--tables", path.parent) as service:
        assert service.get("/page/setting")["map"]["roads"] > 250_000
        browser.open(service, "#mode=traffic&depart=08:00", LAPTOP)
        browser.command("Performance.enable", timeDomain="threadTicks")
        # Around a junction of a town.
        [found] = service.get("/page/search?q=node:0")["places"]
        whole, town = browser.run("return catchup.chart.map.getZoom()"), degrees_of(found["x"], found["y"])
        for zoom in (whole, whole + 2, whole + 4):
            frames, work = pan(browser, zoom, town)
            print(f"zoom {zoom}: {len(frames)} frames, the longest of {max(frames):.0f} ms, each {work:.1f} of work")
            assert work < MOST_WORK
            browser.run("catchup.chart.roads.remove()")
            empty, _ = pan(browser, zoom, town)
            browser.run("catchup.chart.roads.addTo(catchup.chart.map)")
            # Where even an empty map has long frames, others take the processor.
            if max(empty) <= LONGEST_FRAME:
                assert sum(frame > LONGEST_FRAME for frame in frames) <= FEW * len(frames), frames
        assert browser.problems() == []
