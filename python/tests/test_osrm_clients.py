"""Clients of OSRM's: Qt Location's own, and a page that draws a route by Leaflet in a browser."""

from __future__ import annotations

import functools
import http.server
import json
import os
import shutil
import subprocess
import sysconfig
import threading
from collections.abc import Iterator
from pathlib import Path
from typing import Any

import pytest
from browsing import WORDS, start_chromium
from osrm_grid import grid_map, import_map, place_of
from serving import SECONDS, Service, wait_for

QML = [Path(f"/usr/lib/{sysconfig.get_config_var('MULTIARCH')}/qt5/qml") / name
       for name in ("QtLocation", "QtPositioning", "QtQuick.2")]
LEAFLET = Path("/usr/share/javascript/leaflet")
START, MIDDLE, END = (0.0, 90.0), (410.0, 400.0), (800.0, 700.0)

CLIENT = """
import QtQuick 2.0
import QtLocation 5.6
import QtPositioning 5.6
Item {
  Plugin {
    id: osm; name: "osm"
    PluginParameter { name: "osm.routing.host"; value: "http://127.0.0.1:PORT/route/v1/driving/" }
    PluginParameter { name: "osm.mapping.providersrepository.disabled"; value: true }
  }
  RouteQuery { id: asked; waypoints: [PLACES] }
  RouteModel {
    id: model; plugin: osm; query: asked; autoUpdate: false
    onStatusChanged: {
      if (status == RouteModel.Error) { console.log(JSON.stringify({error: errorString})); Qt.quit() }
      if (status != RouteModel.Ready) return
      var route = get(0)
      var told = {routes: count, seconds: route.travelTime, metres: route.distance, path: [], segments: []}
      for (var i = 0; i < route.path.length; i++) told.path.push([route.path[i].longitude, route.path[i].latitude])
      for (var k = 0; k < route.segments.length; k++) {
        var each = route.segments[k]
        told.segments.push({text: each.maneuver.instructionText, valid: each.maneuver.valid, metres: each.distance,
                            places: each.path.length})
      }
      console.log(JSON.stringify(told)); Qt.quit()
    }
  }
  Component.onCompleted: model.update()
}
"""

PAGE = """<!doctype html><title>route</title><link rel=stylesheet href=/leaflet/leaflet.css>
<script src=/leaflet/leaflet.js></script>
<style>#map {width: 800px; height: 600px}</style><div id=map></div><script>
const map = L.map('map', {zoomAnimation: false}), places = PLACES
const asked = places.map(([lon, lat]) => lon + ',' + lat).join(';')
fetch('http://127.0.0.1:PORT/route/v1/driving/' + asked + '?overview=full&geometries=geojson&steps=true')
  .then(reply => reply.json()).then(told => {
    window.line = L.geoJSON(told.routes[0].geometry).addTo(map)
    map.fitBounds(line.getBounds())
    window.turns = L.layerGroup(told.routes[0].legs.flatMap(leg => leg.steps).map(
      step => L.circleMarker(step.maneuver.location.slice().reverse()).bindTooltip(
        step.maneuver.type + ' ' + step.name))).addTo(map)
    window.shown = told
  }).catch(problem => window.shown = {code: '' + problem})
</script>"""


@pytest.fixture(scope="module")
def folder(program: Path, tmp_path_factory: pytest.TempPathFactory) -> Path:
    return import_map(grid_map(), tmp_path_factory.mktemp("clients"))


def lon_lat(place: tuple[float, float]) -> list[float]:
    return [float(word) for word in place_of(*place).split(",")]


def ask_qt(port: int, places: list[tuple[float, float]], room: Path) -> Any:
    """What Qt Location's client has read of a route over places, in metres."""
    told = ", ".join("QtPositioning.coordinate({1}, {0})".format(*lon_lat(place)) for place in places)
    (room / "client.qml").write_text(CLIENT.replace("PORT", str(port)).replace("PLACES", told))
    done = subprocess.run(
        ["qmlscene", room / "client.qml"], capture_output=True, text=True, timeout=SECONDS, check=False,
        env={**os.environ, "QT_QPA_PLATFORM": "offscreen", "QT_QUICK_BACKEND": "software", "HOME": str(room),
             "XDG_RUNTIME_DIR": str(room)})
    lines = [line.partition("qml: ")[2] for line in (done.stdout + done.stderr).splitlines() if "qml: {" in line]
    assert lines, done
    return json.loads(lines[0])


@pytest.fixture
def qt() -> None:
    if shutil.which("qmlscene") is None:
        pytest.skip("qmlscene isn't installed (qmlscene)")
    for folder in QML:
        if not folder.is_dir():
            pytest.skip(f"{folder.name} isn't installed (qml-module-{folder.name.lower().replace('.2', '2')})")


@pytest.mark.usefixtures("qt")
def test_qt_location_reads_a_route(folder: Path, tmp_path: Path) -> None:
    tmp_path.chmod(0o700)
    with Service(folder / "map.cu", "--tables", folder) as service:
        found = ask_qt(service.port, [START, MIDDLE, END], tmp_path)
        places = ";".join(place_of(*place) for place in (START, MIDDLE, END))
        [route] = service.get(f"/route/v1/driving/{places}?steps=true&overview=full&geometries=geojson")["routes"]
        refused = ask_qt(service.port, [START, (1e5, 1e5)], tmp_path)
    assert found["routes"] == 1 and found["seconds"] == pytest.approx(route["duration"], abs=1)
    assert found["metres"] == pytest.approx(route["distance"], abs=1)
    assert found["path"][0] == pytest.approx(lon_lat(START), abs=1e-5)
    assert found["path"][-1] == pytest.approx(lon_lat(END), abs=1e-5)
    steps = [step for leg in route["legs"] for step in leg["steps"]]
    assert len(found["segments"]) == len(steps) and all(each["valid"] for each in found["segments"])
    texts = [each["text"] for each in found["segments"]]
    assert texts[0] == "Head North onto North 0" and any(text.startswith("Turn right onto East") for text in texts)
    assert texts[-1].startswith("You have arrived at your destination")
    assert sum(each["metres"] for each in found["segments"]) == pytest.approx(route["distance"], abs=len(steps))
    assert refused["error"]


class Quiet(http.server.SimpleHTTPRequestHandler):
    """Files, without a word of each."""

    def log_message(self, *_: Any) -> None:
        pass


@pytest.fixture
def pages(tmp_path: Path) -> Iterator[tuple[Path, int]]:
    """A folder of pages of another origin, with Leaflet in it, and its port."""
    room = tmp_path / "pages"
    if not LEAFLET.is_dir():
        pytest.skip("Leaflet isn't installed (libjs-leaflet)")
    shutil.copytree(LEAFLET, room / "leaflet")
    server = http.server.ThreadingHTTPServer(("127.0.0.1", 0), functools.partial(Quiet, directory=str(room)))
    threading.Thread(target=server.serve_forever, daemon=True).start()
    yield room, server.server_address[1]
    server.shutdown()
    server.server_close()


def test_a_page_draws_a_route_by_leaflet(folder: Path, pages: tuple[Path, int], tmp_path: Path) -> None:
    room, port = pages
    origin = f"http://127.0.0.1:{port}"
    with Service(folder / "map.cu", "--tables", folder, "--origin", origin) as service:
        (room / "index.html").write_text(
            PAGE.replace("PORT", str(service.port)).replace(
                "PLACES", json.dumps([lon_lat(place) for place in (START, MIDDLE, END)])))
        browser = start_chromium(tmp_path, *WORDS)
        try:
            browser.get(f"{origin}/")
            assert wait_for(lambda: browser.execute_script("return window.shown && shown.code")) == "Ok"
            check_drawing(browser)
        finally:
            browser.quit()


def check_drawing(browser: Any) -> None:
    """The line goes from place to place on the screen, and each step has its mark."""
    run = browser.execute_script
    paths = "[...document.querySelectorAll('.leaflet-overlay-pane path')]"
    [path, *marks] = run(f"return {paths}.map(path => path.getAttribute('d'))")
    drawn = [tuple(map(float, word.split())) for word in path.replace("M", "L").split("L")[1:]]
    wanted = [run("const p = map.latLngToLayerPoint([arguments[1], arguments[0]]); return [p.x, p.y]", *lon_lat(place))
              for place in (START, END)]
    for place, found in zip(wanted, (drawn[0], drawn[-1])):
        assert found == pytest.approx(place, abs=2)
    assert len(drawn) >= 4 and len({place for place in drawn}) >= 4
    assert len(marks) == run("return shown.routes[0].legs.flatMap(leg => leg.steps).length")
    box = run("const b = line.getBounds(); return [b.getWest(), b.getSouth(), b.getEast(), b.getNorth()]")
    assert box == pytest.approx([*lon_lat((0.0, 90.0)), *lon_lat((800.0, 700.0))], abs=2e-3)
