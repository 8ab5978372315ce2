"""Routes as files for maps and navigation devices: GPX and GeoJSON."""

from __future__ import annotations

import re
from collections.abc import Sequence
from itertools import groupby
from typing import Any, Final
from xml.sax.saxutils import escape

import numpy as np
from starlette.responses import Response

from catchup.clock import clock, duration
from catchup.places.drives import Drive
from catchup.places.lines import DECIMALS, Floats, Lines
from catchup.places.values import Snap
from catchup.service.answers import as_json, timed

NO_TEXT: Final = re.compile("[^\t\n\r -~\xa0-\ud7ff\ue000-\ufffd\U00010000-\U0010ffff]")
FORMATS: Final = {"geojson": "application/geo+json", "gpx": "application/gpx+xml"}


def downloaded(form: str, lines: Lines, snaps: Sequence[Snap], drives: Sequence[Drive], version: str) -> Response:
    """A route as a file."""
    body = geojson(lines, snaps, drives, version) if form == "geojson" else gpx(lines, snaps, drives)
    headers = {"Catchup-Version": version, "Content-Disposition": f'attachment; filename="route.{form}"'}
    return Response(body, 200, headers, media_type=FORMATS[form])


def geojson(lines: Lines, snaps: Sequence[Snap], drives: Sequence[Drive], version: str) -> bytes:
    """A FeatureCollection: a line for each leg, and a point for each place."""
    features: list[dict[str, Any]] = []
    for drive in drives:
        said = {"kind": "leg", **timed("depart", drive.depart), **timed("arrive", drive.arrive),
                "travel": drive.arrive - drive.depart, "metres": round(metres_of(lines, drive), 1),
                "names": names_of(lines, drive)}
        features.append({"type": "Feature", "properties": said, "geometry": {
            "type": "LineString", "coordinates": np.round(line_of(lines, drive), DECIMALS).tolist()}})
    for snap in snaps:
        point = {"type": "Point", "coordinates": [round(value, DECIMALS) for value in snap.point]}
        features.append({"type": "Feature", "properties": {"kind": "place", "name": snap.name or snap.ref},
                         "geometry": point})
    return as_json({"type": "FeatureCollection", "features": features, "version": version})


def gpx(lines: Lines, snaps: Sequence[Snap], drives: Sequence[Drive]) -> bytes:
    """A track with a segment for each leg, and a waypoint for each place: GPX 1.1. There is no date, so points have no
    times."""
    said = f"{clock(drives[0].depart)} to {clock(drives[-1].arrive)}, {duration(drives[-1].arrive - drives[0].depart)}"
    text = ['<?xml version="1.0" encoding="UTF-8"?>',
            '<gpx version="1.1" creator="catchup" xmlns="http://www.topografix.com/GPX/1/1">']
    for snap in snaps:
        name = text_of(snap.name) or text_of(snap.ref)
        text.append(f"<wpt {at(*snap.point)}><name>{name}</name></wpt>" if name else f"<wpt {at(*snap.point)}/>")
    text.append(f"<trk><name>{said}</name>")
    for drive in drives:
        points = line_of(lines, drive).tolist()
        text += ["<trkseg>", *(f"<trkpt {at(lon, lat)}/>" for lon, lat in points), "</trkseg>"]
    return "\n".join([*text, "</trk>", "</gpx>", ""]).encode()


def at(lon: float, lat: float) -> str:
    """A point's attributes. GPX has no longitude 180: it is -180."""
    east = f"{lon:.6f}"
    return f'lat="{lat:.6f}" lon="{"-180.000000" if east == "180.000000" else east}"'


def text_of(name: str) -> str:
    """A name as XML on one line, without characters that XML can't have or that are no text; empty where nothing is left."""
    return escape(" ".join(NO_TEXT.sub("", name).split()))


def line_of(lines: Lines, drive: Drive) -> Floats:
    """A drive's coordinates, float64[k, 2]; of a place that isn't left they are there twice."""
    if drive.roads:
        return lines.line(drive.roads, drive.begin, drive.stop)
    return np.array([drive.start.point, drive.end.point])


def metres_of(lines: Lines, drive: Drive) -> float:
    """How long a drive is."""
    return float(sum(lines.metres[road] * (end - begin) for road, begin, end in drive.parts))


def names_of(lines: Lines, drive: Drive) -> list[str]:
    """The streets of a drive in their order, those without a name left out."""
    names = (lines.name(road) for road in drive.roads)
    return [name for name, _ in groupby(name or ref for name, ref in names) if name]
