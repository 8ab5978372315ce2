"""What the tags of a map say, by the conventions of docs/MAPS.md: who may go, which way, how fast, and at what hours.

Written anew for the tests, without the importer's code. Days of the week count from Monday, 0.
"""

from __future__ import annotations

import re
from collections.abc import Callable
from typing import Any

Tags = dict[str, str]
Span = tuple[int, int]  # seconds from a day's midnight; the end may be past the next one

OPEN, ENDS, BARRED = 0, 1, 2
DAY = 86400
WEEK = ["mo", "tu", "we", "th", "fr", "sa", "su"]
_TIMES = re.compile(r"(\d{1,2}):(\d\d)\s*-\s*(\d{1,2}):(\d\d)")


def hours_of(text: str) -> list[list[Span]] | None:
    """The spans of each day of a week; None where the text isn't understood."""
    week: list[list[Span]] = [[] for _ in range(7)]
    for rule in filter(None, (part.strip() for part in text.lower().split(";"))):
        found = re.fullmatch(r"((?:mo|tu|we|th|fr|sa|su|ph|sh)(?:[\s,-]*(?:mo|tu|we|th|fr|sa|su|ph|sh))*)?\s*(.*)",
                             rule)
        assert found
        days = set(range(7)) if found[1] is None else _days(found[1])
        spans = _spans(found[2].strip())
        if spans is None or days is None:
            return None
        for day in days:
            week[day] = spans
    return week


def _days(text: str) -> set[int] | None:
    days: set[int] = set()
    for part in re.split(r"\s*,\s*", text.strip()):
        names = re.split(r"\s*-\s*", part)
        if names[0] in ("ph", "sh") and len(names) == 1:
            continue
        if not all(name in WEEK for name in names) or len(names) > 2:
            return None
        first, last = WEEK.index(names[0]), WEEK.index(names[-1])
        days |= {(first + k) % 7 for k in range((last - first) % 7 + 1)}
    return days


def _spans(text: str) -> list[Span] | None:
    if text in ("", "24/7", "open"):
        return [(0, DAY)]
    if text in ("off", "closed"):
        return []
    spans = []
    for part in re.split(r"\s*,\s*", text):
        found = _TIMES.fullmatch(part)
        if not found:
            return None
        begin, end = int(found[1]) * 3600 + int(found[2]) * 60, int(found[3]) * 3600 + int(found[4]) * 60
        spans.append((begin, end if end > begin else end + DAY))
    return spans


def spans_today(text: str, weekday: int) -> list[Span]:
    """The spans within one day, what comes over midnight from the day before with it; none where not understood."""
    week = hours_of(text)
    if week is None:
        return []
    today = [(a, min(b, DAY)) for a, b in week[weekday]]
    return today + [(max(a - DAY, 0), b - DAY) for a, b in week[weekday - 1] if b > DAY]


def conditions(text: str) -> list[tuple[str, str]]:
    """The values of a conditional tag, each with its hours; those that aren't hours alone are left out."""
    found = re.findall(r"([^;@()]+?)\s*@\s*(\([^)]*\)|[^;]+)", text)
    return [(value.strip(), when.strip("() ")) for value, when in found if hours_of(when.strip("() ")) is not None]


def changes(tags: Tags, weekday: int) -> list[int]:
    """Seconds of the day from which on something else may hold, 0 first."""
    texts = [when for key, value in tags.items() if key.endswith(":conditional") for _, when in conditions(value)]
    texts += [tags["opening_hours"]] if "opening_hours" in tags else []
    seconds = {second for text in texts for span in spans_today(text, weekday) for second in span}
    return sorted({0} | {second for second in seconds if second < DAY})


def at_time(tags: Tags, second: int, weekday: int, hours: bool = True,
            used: Callable[[str, str], bool] | None = None) -> Tags:
    """The tags as they hold at a second: conditional ones in their places, where they are `used`; opening_hours is open
    or closed."""

    def holds(when: str) -> bool:
        return any(a <= second < b for a, b in spans_today(when, weekday))

    then = {key: value for key, value in tags.items() if not key.endswith(":conditional") and key != "opening_hours"}
    for key, value in tags.items():
        if key.endswith(":conditional"):
            for said, when in conditions(value):
                if holds(when) and (used is None or used(key, said)):
                    then[key.removesuffix(":conditional")] = said
    if hours and "opening_hours" in tags and hours_of(tags["opening_hours"]) is not None:
        then["opening_hours"] = "open" if holds(tags["opening_hours"]) else "closed"
    return then


def departures(text: str | None, every: int, weekday: int) -> list[int]:
    """Seconds of the day at which a ferry leaves."""
    if text is None:
        return list(range(0, DAY, every))
    week = hours_of(text)
    assert week is not None
    today = [second for a, b in week[weekday] for second in range(a, b + 1, every) if second < DAY]
    before = [second - DAY for a, b in week[weekday - 1] for second in range(a, b + 1, every) if second >= DAY]
    return sorted(set(today + before))


def minutes_of(text: str) -> int | None:
    """A duration in seconds: minutes, HH:MM, HH:MM:SS, or PT1H30M."""
    if re.fullmatch(r"\d+(\.\d+)?", text):
        return round(float(text) * 60)
    found = re.fullmatch(r"(\d+):(\d\d)(?::(\d\d))?", text)
    if found:
        return int(found[1]) * 3600 + int(found[2]) * 60 + int(found[3] or 0)
    found = re.fullmatch(r"P(?:(\d+)D)?(?:T(?:(\d+)H)?(?:(\d+)M)?(?:(\d+)S)?)?", text)
    if not found:
        return None
    days, hour, minute, second = (int(part or 0) for part in found.groups())
    return days * DAY + hour * 3600 + minute * 60 + second


class Rules:
    """The conventions for one vehicle, over the data of speeds.toml and vehicles.toml."""

    def __init__(self, vehicle: str, who: dict[str, Any], speeds: dict[str, Any], words: dict[str, list[str]]) -> None:
        self.vehicle, self.who, self.speeds = vehicle, who, speeds
        self.open, self.ends = set(words["open"]), {*words["ends"], *words["private"]}
        self.keys: list[str] = who["keys"]

    def word(self, value: str) -> int:
        """How open a value is; of a list its most open word counts."""
        parts = [part.strip() for part in value.lower().split(";")]
        return min(OPEN if part in self.open else ENDS if part in self.ends else BARRED for part in parts)

    def decides(self, tags: Tags) -> str | None:
        """The tag that says who may go; None where there is none."""
        return next((key for key in self.keys if key in tags), None)

    def access(self, tags: Tags) -> int:
        """Whether a way with these tags is open, for destinations alone or barred."""
        key = self.decides(tags)
        return OPEN if key is None else self.word(tags[key])

    def is_ferry(self, tags: Tags) -> bool:
        """Whether a way is taken as a ferry."""
        return tags.get("route") == "ferry"

    def let_in(self, tags: Tags) -> bool:
        """Whether a tag lets the vehicle in on a class that isn't for it."""
        key = self.decides(tags)
        if tags.get("highway") not in self.speeds["let_in"] or (key and self.word(tags[key]) == BARRED):
            return False
        if any(own in tags and self.word(tags[own]) != BARRED for own in self.who["own"]):
            return True
        if tags["highway"] not in self.speeds["let_in_by_access"] or key != "access":
            return False
        return "private" not in tags["access"].lower()

    def taken(self, tags: Tags) -> bool:
        """Whether a way is a road, by its tags as they hold at some second."""
        if tags.get("area") == "yes" or any(tags.get(key) == "yes" for key in ("abandoned", "disused", "impassable")):
            return False
        if any(self.speeds[key].get(tags.get(key)) == 0 for key in ("surface", "tracktype", "smoothness")):
            return False
        if tags.get("motorroad") == "yes" and self.vehicle in ("bicycle", "foot") and self.decides(tags) is None:
            return False
        if self.is_ferry(tags):
            named = "foot" in tags or "bicycle" in tags
            return bool(self.who["walks"]) or not named or self.decides(tags) is not None
        return tags.get("highway") in self.speeds["classes"] or self.let_in(tags)

    def goes(self, tags: Tags, direction: int) -> bool:
        """Whether one may drive along a way (0) or against it (1)."""
        key = next((key for key in self.who["oneway"] if key in tags), None)
        if key is None:
            implied = tags.get("junction") in ("roundabout", "circular") or tags.get("highway") == "motorway"
            return direction == 0 or not (implied and self.who["one_way"])
        if tags[key] == "reversible":
            return False
        if tags[key] in ("yes", "true", "1"):
            against = self.vehicle == "bicycle" and tags.get("cycleway", "").startswith("opposite")
            return direction == 0 or against
        return direction == 1 or tags[key] not in ("-1", "reverse")

    def limit(self, text: str) -> float | None:
        """A limit in km/h; None where the text isn't understood."""
        limits = [self._one_limit(part.strip()) for part in re.split("[;,|]", text)]
        return min((x for x in limits if x), default=None)

    def _one_limit(self, text: str) -> float | None:
        found = re.fullmatch(r"(\d+(?:\.\d+)?)\s*(km/h|kmh|kph|mph|knots)?", text)
        if found:
            return float(found[1]) * {"mph": 1.609344, "knots": 1.852}.get(found[2] or "", 1.0)
        word = text.split(":")[-1].lower()
        if word in self.speeds["zones"]:
            return float(self.speeds["zones"][word])
        behind = re.fullmatch(r"[a-z_]*?(\d+)", word)
        return float(behind[1]) if behind else None

    def used(self, key: str, value: str) -> bool:
        """Whether a value of a conditional tag is one that is understood."""
        return not key.startswith("maxspeed") or self.limit(value) is not None

    def speed(self, tags: Tags, direction: int) -> float:
        """km/h along a way (0) or against it (1)."""
        kind = tags.get("highway", "")
        usual = (self.speeds["ferry"] if self.is_ferry(tags) else
                 self.speeds["classes"].get(kind) or self.speeds["let_in"][kind])
        keys = ["maxspeed:forward" if direction == 0 else "maxspeed:backward", *self.who["maxspeed"]]
        if kind in self.speeds["classes"]:
            keys += ["zone:maxspeed", "maxspeed:type", "source:maxspeed", "zone:traffic"]
        limits = [self.limit(tags[key]) for key in keys if key in tags]
        limit = next((x for x in limits if x is not None), None)
        share = float(self.speeds["share"])
        speed = usual if limit is None else limit * share if self.speeds["limits"] == "speed" else min(usual, limit)
        caps = [self.speeds[key].get(tags.get(key)) for key in ("surface", "tracktype", "smoothness")]
        return float(min([speed, self.speeds["most"], *(cap for cap in caps if cap is not None)]))

    def barrier(self, tags: Tags) -> int:
        """Whether a node with a barrier is passed, is for destinations alone, or blocks."""
        if tags.get("opening_hours") == "closed":
            return BARRED
        if self.decides(tags) is not None:
            return self.access(tags)
        return OPEN if tags["barrier"] in self.who["passes"] and tags.get("locked") != "yes" else BARRED

    def restriction(self, tags: Tags) -> list[tuple[str, str | None]]:
        """The kinds of turn restriction that a relation says, each with its hours or None; none where it says none."""
        if tags.get("type", "").split(":")[0] != "restriction":
            return []
        if set(re.split(r"\s*[;,]\s*", tags.get("except", ""))) & set(self.who["except"]):
            return []
        for key in self.who["restriction"]:
            if key in tags:
                return [(tags[key], None)]
            if key + ":conditional" in tags:
                return [(kind, when) for kind, when in conditions(tags[key + ":conditional"])]
        return []

    def duration(self, tags: Tags) -> int | None:
        """Seconds over a ferry; None where it isn't said."""
        return minutes_of(tags["duration"]) if "duration" in tags else None

    def interval(self, tags: Tags) -> int | None:
        """Seconds between two departures of a ferry; None where it isn't said."""
        return minutes_of(tags["interval"]) if "interval" in tags else None
