"""OSRM's addresses: what is read of them, and the code of each that isn't right."""

from __future__ import annotations

import math
import urllib.parse
from typing import Any

import polyline
import pytest
from hypothesis import given
from hypothesis import strategies as st

from catchup.service.osrm.address import GENERAL, OWN, Asked, parse
from catchup.service.osrm.faults import Fault

TWO = "/route/v1/car/9.5,47.1;9.6,47.2"
TABLE = "/table/v1/car/9.5,47.1;9.6,47.2;9.7,47.3"
NEAREST = "/nearest/v1/car/9.5,47.1"
PLACES = [(9.5, 47.1), (9.6, 47.2)]


def asked(address: str) -> Asked:
    path, _, query = address.partition("?")
    return parse(path.encode("latin-1"), query.encode("latin-1"))


ALLOWED: list[tuple[str, dict[str, Any]]] = [
    (TWO, {"profile": "car", "places": PLACES, "steps": False, "overview": "simplified", "geometries": "polyline",
           "bearings": None, "hints": None, "generate_hints": True, "depart": None, "arrive": None}),
    ("/route/v1/my-car_2.0~x/+9.5,47.1;9.6,4.72e1.json?", {"profile": "my-car_2.0~x", "places": PLACES}),
    ("/route/v1/car/9.5%2C47.1%3B9.6,47.2", {"places": PLACES}),
    ("/route/v1/c%61r/-.5,-47.;180,90", {"profile": "car", "places": [(-0.5, -47.0), (180.0, 90.0)]}),
    ("/route/v1/car/polyline(_p~iF~ps|U_ulLnnqC_mqNvxq%60@)",
     {"places": [(-120.2, 38.5), (-120.95, 40.7), (-126.453, 43.252)]}),
    ("/route/v1/car/polyline(_p~iF~ps|U_ulLnnqC_mqNvxq`@).json?steps=true", {"steps": True}),
    ("/route/v1/car/polyline(??_ibE_ibE)?steps=true", {"places": [(0.0, 0.0), (1.0, 1.0)], "steps": True}),
    ("/route/v1/car/polyline6(%3F%3F_c%60%7C%40_c%60%7C%40)", {"places": [(0.0, 0.0), (1.0, 1.0)]}),
    (f"{TWO}?bearings=0,180;360,0", {"bearings": [(0, 180), (360, 0)]}),
    (f"{TWO}?bearings=;20,30", {"bearings": [None, (20, 30)]}),
    (f"{TWO}?bearings=%3B", {"bearings": [None, None]}),
    (f"{TWO}?radiuses=12.5;unlimited", {"radiuses": [12.5, math.inf]}),
    (f"{TWO}?radiuses=0;", {"radiuses": [0.0, None]}),
    (f"{TWO}?hints=;abc_-%3D", {"hints": [None, "abc_-="]}),
    (f"{TWO}?approaches=curb;unrestricted", {"approaches": [True, False]}),
    (f"{TWO}?approaches=;curb&generate_hints=false&skip_waypoints=true&snapping=any",
     {"approaches": [None, True], "generate_hints": False, "skip_waypoints": True}),
    (f"{TWO}?alternatives=3&continue_straight=default&snapping=default", {}),
    (f"{TWO}?alternatives=true&continue_straight=false&steps=false&overview=false&geometries=geojson",
     {"overview": "false", "geometries": "geojson"}),
    (f"{TWO}?annotations=true", {"annotations": {"duration", "nodes", "distance", "weight", "datasources", "speed"}}),
    (f"{TWO}?annotations=nodes,speed&overview=full&geometries=polyline6",
     {"annotations": {"nodes", "speed"}, "overview": "full", "geometries": "polyline6"}),
    (f"{TWO}?annotations=false", {"annotations": set()}),
    (f"{TWO};9.7,47.3?waypoints=0;2", {"waypoints": [0, 2]}),
    (f"{TWO}?depart=8:00", {"depart": 28800}),
    (f"{TWO}?depart=08:00:30", {"depart": 28830}),
    (f"{TWO}?depart=86399", {"depart": 86399}),
    (f"{TWO}?arrive=90000", {"arrive": 90000}),
    (f"{NEAREST}?number=100", {"number": 100, "places": PLACES[:1]}),
    (f"{NEAREST}.json?depart=08%3A00", {"number": 1, "depart": 28800}),
    (TABLE, {"annotations": {"duration"}, "sources": None, "destinations": None, "fallback_speed": None,
             "scale_factor": 1.0}),
    (f"{TABLE}?sources=0;0&destinations=all&annotations=distance,duration",
     {"sources": [0, 0], "destinations": None, "annotations": {"duration", "distance"}}),
    (f"{TABLE}?sources=all&destinations=2&fallback_speed=12.5&fallback_coordinate=snapped&scale_factor=.5",
     {"destinations": [2], "fallback_speed": 12.5, "fallback_coordinate": "snapped", "scale_factor": 0.5}),
]


@pytest.mark.parametrize(("address", "wanted"), ALLOWED, ids=[address for address, _ in ALLOWED])
def test_what_is_asked(address: str, wanted: dict[str, Any]) -> None:
    found = asked(address)
    for name, value in wanted.items():
        assert getattr(found, name) == value, name


MANY = ";".join(["9.5,47.1"] * 501)
REFUSED = [
    ("/", "InvalidUrl"), ("/route", "InvalidUrl"), ("/route/", "InvalidUrl"), ("/route/v1", "InvalidUrl"),
    ("/route/v1/", "InvalidUrl"),
    ("/route/v1/car", "InvalidUrl"), ("/route/v1/car/", "InvalidUrl"), ("/route/v1//9.5,47.1;9.6,47.2", "InvalidUrl"),
    ("/route/1/car/9.5,47.1;9.6,47.2", "InvalidUrl"), ("/route/v1/c!r/9.5,47.1;9.6,47.2", "InvalidUrl"),
    ("/route/v1/c%FFr/9.5,47.1;9.6,47.2", "InvalidUrl"), ("/route/v1/car/%FF", "InvalidUrl"),
    ("/walk/v1/car/9.5,47.1;9.6,47.2", "InvalidService"), ("/trip/v1/car/9.5,47.1;9.6,47.2", "InvalidService"),
    ("/match/v1/car/9.5,47.1;9.6,47.2", "InvalidService"), ("/tile/v1/car/tile(1,1,12).mvt", "InvalidService"),
    ("/ROUTE/v1/car/9.5,47.1;9.6,47.2", "InvalidService"),
    ("/route/v2/car/9.5,47.1;9.6,47.2", "InvalidVersion"), ("/route/v01/car/9.5,47.1;9.6,47.2", "InvalidVersion"),
    *((f"/route/v1/car/{text}", "InvalidQuery") for text in (
        "9.5", "9.5,47.1;", ";9.5,47.1", "9.5,47.1,5;9.6,47.2", "9.5 ,47.1;9.6,47.2", "9.5;47.1", "a,b;c,d",
        "nan,47.1;9.6,47.2",
        "9.5,NaN;9.6,47.2", "inf,47.1;9.6,47.2", "-infinity,47.1;9.6,47.2", "9.5,47.1;9.6,47.2/x", "0x9,47;9,47",
        "9_5,47;9,47",
        "%D9%A3,47.1;9.6,47.2", "polyline()", "polyline(_p~iF)", "polyline(_p~iF~ps|U", "polyline7(_p~iF~ps|U)",
        "polyline(a b)",
        "polyline(??)x", "9.5,47.1;9.6,47.2.xml")),
    (f"{TWO}?", None), (f"{TWO}?foo=bar", "InvalidQuery"), (f"{TWO}?Steps=true", "InvalidQuery"),
    (f"{TWO}?number=1", "InvalidQuery"),
    (f"{TWO}?sources=0", "InvalidQuery"), (f"{TABLE}?steps=true", "InvalidQuery"),
    (f"{TABLE}?arrive=09:00", "InvalidQuery"),
    (f"{TWO}?&alternatives=false&steps=true&hints=;", None), (f"{TWO}?=true", "InvalidQuery"),
    ("/route/v1/car/181,47.1;9.6,47.2", "InvalidValue"), ("/route/v1/car/9.5,90.1;9.6,47.2", "InvalidValue"),
    ("/route/v1/car/1e999,47.1;9.6,47.2", "InvalidValue"), ("/table/v1/car/47.1,9.5;47.2,190", "InvalidValue"),
    ("/nearest/v1/car/polyline(~~~~~~~~~~~~~~~~~~~~?~~~~~~~~~~~~~~~~~~~~?)", "InvalidValue"),
    (f"{TWO}?exclude=motorway", "InvalidValue"), (f"{TWO}?exclude=toll,ferry", "InvalidValue"),
    (f"{TWO}?exclude=", "InvalidOptions"),
    *((f"{TWO}?{text}", "InvalidOptions") for text in (
        "steps", "steps=", "steps=yes", "steps=1", "steps=true&steps=true", "overview=some", "overview=",
        "geometries=wkt",
        "annotations=all", "annotations=", "annotations=true,nodes", "annotations=speed,", "alternatives=-1",
        "alternatives=maybe",
        "continue_straight=1", "generate_hints=no", "skip_waypoints=2", "snapping=all", "bearings=0,180",
        "bearings=0,180;0,180;0,180",
        "bearings=361,0;", "bearings=0,181;", "bearings=-1,10;", "bearings=10;", "bearings=10,20,30;", "bearings=a,b;",
        "bearings=1.5,2;",
        "radiuses=5", "radiuses=-1;5", "radiuses=nan;5", "radiuses=inf;5", "radiuses=5;5;5", "radiuses=far;", "hints=a",
        "hints=;;",
        "approaches=curb", "approaches=left;", "approaches=opposite;", "waypoints=0", "waypoints=0;2", "waypoints=1",
        "waypoints=all",
        "waypoints=", "waypoints=0;1;1", "depart=24:00", "depart=86400", "depart=", "depart=now", "depart=-1",
        "depart=8.5", "arrive=9:60",
        "arrive=%D9%A3", "depart=08:00&arrive=09:00", "alternatives=%D9%A3")),
    ("/route/v1/car/9.5,47.1", "InvalidOptions"), ("/nearest/v1/car/9.5,47.1;9.6,47.2", "InvalidOptions"),
    ("/table/v1/car/9.5,47.1", "InvalidOptions"),
    *((f"{NEAREST}?number={text}", "InvalidOptions") for text in ("0", "-1", "1.5", "", "a", "%EF%BC%91")),
    (f"{NEAREST}?number=101", "TooBig"),
    *((f"{TABLE}?{text}", "InvalidOptions") for text in (
        "sources=3", "sources=", "sources=0;", "sources=a", "sources=0;0;0;0", "sources=-1", "destinations=0,1",
        "destinations=5",
        "annotations=speed", "annotations=", "fallback_speed=0", "fallback_speed=-5", "fallback_speed=nan",
        "fallback_speed=fast",
        "fallback_coordinate=road", "scale_factor=0", "scale_factor=-1", "scale_factor=inf", "scale_factor=1e999",
        "scale_factor=1e308", "scale_factor=1000001", "scale_factor=1e-320", "fallback_speed=1e-320", "fallback_speed=9e-7")),
    *((f"{TABLE}?{text}", None) for text in ("scale_factor=1000000", "fallback_speed=0.000001", "fallback_speed=1e6")),
    (f"/route/v1/car/{MANY}", "TooBig"), ("/route/v1/car/polyline(" + "??" * 501 + ")", "TooBig"),
    ("/table/v1/car/polyline(" + "??" * 1025 + ")", "TooBig"), ("/table/v1/car/polyline(" + "??" * 1024 + ")", None),
    ("/table/v1/car/polyline(" + "??" * 1025 + ")?sources=0", None),
    (f"{TWO}.flatbuffers", "NotImplemented"),
]


@pytest.mark.parametrize(("address", "code"), REFUSED, ids=[address[:80] for address, _ in REFUSED])
def test_what_is_refused(address: str, code: str | None) -> None:
    if code is None:
        asked(address)
        return
    with pytest.raises(Fault) as problem:
        asked(address)
    assert (problem.value.code, problem.value.status) == (code, 400)
    assert 20 < len(problem.value.message) < 250 and "\n" not in problem.value.message


@pytest.mark.parametrize(("address", "says"), [
    ("/route/v1/car/47.1,95.1;9.6,47.2", "longitude comes first"),
    (f"{TWO}?overview=some", "simplified or full or false"),
    (f"{TWO}?bearings=0,180", "one for each"),
    (f"{TWO}?depart=25:00", "write 08:00"),
    (f"{TWO}?stepps=true", "steps"),
    ("/route/v1/car/9.5,47.1;x", "place 1"),
])
def test_what_a_message_says(address: str, says: str) -> None:
    with pytest.raises(Fault, match=says):
        asked(address)


LON, LAT = st.floats(-180, 180), st.floats(-90, 90)
SOME = st.lists(st.tuples(LON, LAT), min_size=2, max_size=30)


@given(SOME, st.sampled_from(["", ".json"]))
def test_places_come_back(places: list[tuple[float, float]], end: str) -> None:
    text = ";".join(f"{lon!r},{lat!r}" for lon, lat in places)
    assert asked(f"/route/v1/car/{text}{end}").places == places


@given(SOME, st.sampled_from([5, 6]), st.booleans())
def test_lines_come_back(places: list[tuple[float, float]], decimals: int, is_quoted: bool) -> None:
    line = polyline.encode([(lat, lon) for lon, lat in places], decimals)
    name = "polyline6" if decimals == 6 else "polyline"
    found = asked(f"/table/v1/car/{name}({urllib.parse.quote(line) if is_quoted else line})").places
    assert len(found) == len(places)
    for one, other in zip(found, places):
        assert one == pytest.approx(other, abs=0.6 * 10**-decimals)


VALUES = st.one_of(st.sampled_from(["true", "false", "0", "1;2", ";", "0,180;", "all", "08:00", "curb;",
                                    "unlimited;1"]), st.text(max_size=12))


@given(st.sampled_from(["nearest", "route", "table", "trip", "x"]), st.text(max_size=8), st.one_of(
    st.sampled_from(["9.5,47.1", "9.5,47.1;9.6,47.2", "polyline(_p~iF~ps|U)"]), st.text(max_size=30)),
    st.lists(st.tuples(st.sampled_from([*GENERAL, *OWN["route"], *OWN["table"], "x"]), VALUES), max_size=4))
def test_any_address_is_read_or_refused(service: str, profile: str, places: str,
                                        options: list[tuple[str, str]]) -> None:
    query = "&".join(f"{name}={urllib.parse.quote(value)}" for name, value in options)
    try:
        found = asked(f"/{service}/v1/{urllib.parse.quote(profile)}/{urllib.parse.quote(places)}?{query}")
    except Fault as fault:
        assert fault.message.isprintable()
        return
    assert all(abs(lon) <= 180 and abs(lat) <= 90 for lon, lat in found.places)
