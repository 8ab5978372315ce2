"""Routes as files of GPX, whatever the streets are called."""

from __future__ import annotations

import dataclasses
import re
import xml.etree.ElementTree as ET
from pathlib import Path

import numpy as np
import pytest
from osrm_grid import grid_map, import_map
from placed import Town

from catchup.places import Snap
from catchup.places.drives import Drive
from catchup.service.download import at, gpx

GPX = "{http://www.topografix.com/GPX/1/1}"
DEGREES = re.compile(r"-?[0-9]{1,3}\.[0-9]{6}")
# The children that GPX 1.1 has here, in its order.
CHILDREN = {"gpx": ["wpt", "trk"], "wpt": ["name"], "trk": ["name", "trkseg"], "trkseg": ["trkpt"], "trkpt": [], "name": []}


@pytest.fixture(scope="module")
def grid(program: Path, tmp_path_factory: pytest.TempPathFactory) -> Town:
    return Town(import_map(grid_map(), tmp_path_factory.mktemp("downloads")))


def driven(grid: Town) -> tuple[list[Snap], list[Drive]]:
    """Two places and the drive between them."""
    points = grid.places.ground.streets.places
    snaps = grid.places.nearest_each(map(tuple, points[[0, len(points) // 2]].tolist()))
    return snaps, grid.ask(lambda ask: grid.places.drives(snaps, 28_800, ask))


def checked(text: bytes) -> ET.Element:
    """A file of GPX 1.1 as an element. Checks what the standard asks of it, but for what isn't used here."""
    root = ET.fromstring(text)
    assert root.attrib == {"version": "1.1", "creator": "catchup"}
    for element in root.iter():
        name = element.tag.removeprefix(GPX)
        found = [child.tag.removeprefix(GPX) for child in element]
        assert found == sorted(found, key=CHILDREN[name].index)
        if name in ("wpt", "trkpt"):
            assert set(element.attrib) == {"lat", "lon"} and all(map(DEGREES.fullmatch, element.attrib.values()))
            assert -180 <= float(element.attrib["lon"]) < 180 and -90 <= float(element.attrib["lat"]) <= 90
        elif name == "name":
            assert element.text and element.text == " ".join(element.text.split()) and not element.attrib
        assert name == "name" or not (element.text or "").strip()
    return root


LONG = "Straße " * 2_000 + "Ende"
NAMES = [
    ("", "", None), ("", "B 12", "B 12"), ("A & B", "", "A & B"), ("a < b > c ]]> d", "", "a < b > c ]]> d"),
    ("\x00\x1b\x7f\x85\ud800\uffff", "", None), ("\x00", "L\x1b3", "L3"), (" \t\r\n ", "", None), ("two\r\nlines", "", "two lines"),
    ("شارع الملك", "", "شارع الملك"), ("长安街 🚲", "", "长安街 🚲"), (LONG, "", LONG), ("\"quoted\" 'so'", "", "\"quoted\" 'so'"),
]  # fmt: skip


@pytest.mark.parametrize(("name", "ref", "told"), NAMES)
def test_names(grid: Town, name: str, ref: str, told: str | None) -> None:
    snaps, drives = driven(grid)
    named = [snaps[0], dataclasses.replace(snaps[1], name=name, ref=ref)]
    first, second = checked(gpx(grid.places.lines, named, drives)).findall(f"{GPX}wpt")
    assert first.findtext(f"{GPX}name") == (snaps[0].name or snaps[0].ref)
    assert second.findtext(f"{GPX}name") == told


def test_a_place_that_isnt_left(grid: Town) -> None:
    snaps = grid.places.nearest_each([tuple(grid.places.ground.streets.places[0].tolist())] * 2)
    drives = grid.ask(lambda ask: grid.places.drives(snaps, 0, ask))
    root = checked(gpx(grid.places.lines, snaps, drives))
    assert len(root.findall(f"{GPX}trk/{GPX}trkseg/{GPX}trkpt")) == 2


def test_degrees() -> None:
    for lon, lat, told in ((180.0, 90.0, ("90.000000", "-180.000000")), (-180.0, -90.0, ("-90.000000", "-180.000000")),
                           (179.99999999, 0.0, ("0.000000", "-180.000000")), (1e-9, -1e-7, ("-0.000000", "0.000000"))):
        assert at(*np.array([lon, lat]).tolist()) == f'lat="{told[0]}" lon="{told[1]}"'
