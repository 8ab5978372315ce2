"""What /openapi.json says of OSRM's paths."""

from __future__ import annotations

from typing import Any, Final

from catchup.service.openapi import VERSION, response, word
from catchup.service.osrm.address import KINDS

TIME: Final = "a second of the day, or a time as 08:00; now where none is said"
PATH: Final = [
    word("profile", "the name of a served file; a file without a name answers to each", "car", where="path"),
    word("coordinates", "lon,lat;lon,lat in degrees, polyline(..) or polyline6(..); .json may stand behind it",
         "9.521,47.141;9.512,47.166", where="path"),
]
GENERAL: Final = [
    word("bearings", "for each place direction,deviation in degrees, semicolons between", "20,30;", needed=False),
    word("radiuses", "for each place how many metres away a road may be, or unlimited", "50;unlimited", needed=False),
    word("hints", "for each place the hint of an earlier answer", ";", needed=False),
    word("generate_hints", "whether places are answered with hints", "false", needed=False),
    word("approaches", "for each place curb or unrestricted", "curb;", needed=False),
    word("exclude", "classes of roads; none can be left out here", "", needed=False),
    word("snapping", "default or any", "any", needed=False),
    word("skip_waypoints", "whether places are left out of the answer", "true", needed=False),
    word("depart", TIME, "08:00", needed=False),
]
NAMED: Final = {"name": "Städtle", "location": [9.520932, 47.140825], "distance": 4.152, "hint": "kq4AAGx3zwIAAAAA"}
TURN: Final = {"type": "turn", "modifier": "left", "location": [9.52, 47.14], "bearing_before": 90, "bearing_after": 4}
CROSSING: Final = {"in": 2, "out": 0, "entry": [True, True, False], "bearings": [4, 93, 270], "location": [9.52, 47.14]}
STEP: Final[dict[str, Any]] = {
    "duration": 31.0, "distance": 258.3, "weight": 31.0, "geometry": "kkg_Hcvzx@", "name": "Landstrasse",
    "mode": "driving", "driving_side": "right", "maneuver": TURN, "intersections": [CROSSING]}
LEG: Final[dict[str, Any]] = {
    "steps": [STEP], "summary": "Landstrasse, Städtle", "duration": 412.0, "distance": 4120.7, "weight": 412.0,
    "depart": 28800, "depart_time": "08:00:00", "arrive": 29212, "arrive_time": "08:06:52"}
ROUTE: Final[dict[str, Any]] = {"code": "Ok", "data_version": VERSION, "waypoints": [NAMED, NAMED], "routes": [{
    **{name: value for name, value in LEG.items() if name not in ("steps", "summary")}, "geometry": "kkg_Hcvzx@aB?",
    "weight_name": "duration", "legs": [LEG]}]}
TABLE: Final[dict[str, Any]] = {
    "code": "Ok", "data_version": VERSION, "depart": 28800, "depart_time": "08:00:00",
    "durations": [[0.0, 412.0], [398.5, 0.0]], "sources": [NAMED, NAMED], "destinations": [NAMED, NAMED]}


def described(summary: str, words: list[dict[str, Any]], example: dict[str, Any]) -> dict[str, Any]:
    """What a path's route is told."""
    said = "steps=maybe isn't allowed: it is true or false"
    fault = {"code": "InvalidOptions", "message": said, "data_version": VERSION}
    responses = {200: response("the answer", example), 400: response("an error, with OSRM's code", fault)}
    return {"summary": summary, "responses": responses, "openapi_extra": {"parameters": [*PATH, *words, *GENERAL]}}


SERVICES: Final[dict[str, dict[str, Any]]] = {
    "nearest": described("OSRM's nearest: the nearest streets of a place", [
        word("number", "how many streets, 1 to 100", "3", needed=False)],
        {"code": "Ok", "data_version": VERSION, "waypoints": [{"nodes": [26860712, 26860713], **NAMED}]}),
    "route": described("OSRM's route: the best drive over places", [
        word("alternatives", "true, false or a number; only the best is answered", "false", needed=False),
        word("steps", "whether steps are answered", "true", needed=False),
        word("annotations", f"true, false, or of {','.join(KINDS)}", "speed,nodes", needed=False),
        word("geometries", "polyline, polyline6 or geojson", "geojson", needed=False),
        word("overview", "simplified, full or false", "full", needed=False),
        word("continue_straight", "true, false or default; one may turn round at each place", "default", needed=False),
        word("waypoints", "numbers of the places that end a leg", "0;2", needed=False),
        word("arrive", "in place of depart: when one has to be there, counted from the midnight before leaving", "09:00",
             needed=False)], ROUTE),
    "table": described("OSRM's table: how long each drive between places takes", [
        word("annotations", "duration, distance or both with a comma between", "duration", needed=False),
        word("sources", "numbers of places, or all", "0;1", needed=False),
        word("destinations", "numbers of places, or all", "all", needed=False),
        word("fallback_speed", "metres a second as the crow flies where no way leads", "10", needed=False),
        word("fallback_coordinate", "input or snapped: between which places the crow flies", "input", needed=False),
        word("scale_factor", "by which durations are multiplied", "1.5", needed=False)], TABLE),
}
