"""OSRM's HTTP API, version 1, with a time of day: /nearest, /route and /table between places, for the clients of
OSRM."""
