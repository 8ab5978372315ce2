"""Maps made for the tests, that hold what real ones at hand lack: hours, turns of all kinds, ferries, edges."""

from __future__ import annotations

import random
from collections.abc import Callable
from dataclasses import dataclass, field
from pathlib import Path
from xml.sax.saxutils import quoteattr

Tags = dict[str, str]


@dataclass
class Made:
    """A map that is written as XML. Places are in steps of some 150 m."""

    name: str
    nodes: dict[int, tuple[float, float]] = field(default_factory=dict)
    node_tags: dict[int, Tags] = field(default_factory=dict)
    ways: dict[int, tuple[list[int], Tags]] = field(default_factory=dict)
    relations: list[tuple[list[tuple[str, int, str]], Tags]] = field(default_factory=list)
    gone: set[int] = field(default_factory=set)
    deleted: set[int] = field(default_factory=set)

    def node(self, x: float, y: float) -> int:
        """A new node's number."""
        self.nodes[len(self.nodes) + 1] = (x, y)
        return len(self.nodes)

    def way(self, nodes: list[int], **tags: str) -> int:
        """A new way's number; in the names of its tags __ is a colon."""
        number = 1000 + len(self.ways)
        self.ways[number] = (nodes, {key.replace("__", ":"): value for key, value in tags.items()})
        return number

    def turn(self, members: list[tuple[str, int, str]], **tags: str) -> None:
        """A new turn restriction."""
        self.relations.append((members, {"type": "restriction", **{k.replace("__", ":"): v for k, v in tags.items()}}))

    def write(self, path: Path) -> None:
        """Writes the map; nodes that are gone are left out, as at the edge of a map that was cut. Ways that are deleted
        are there, and said to be none."""
        lines = ["<?xml version='1.0' encoding='UTF-8'?>", "<osm version='0.6' generator='made_maps'>"]
        for number, (x, y) in self.nodes.items():
            if number not in self.gone:
                place = f"lat='{47 + y * 0.0013:.7f}' lon='{9.5 + x * 0.002:.7f}'"
                lines.append(f"<node id='{number}' version='1' {place}>{_tags(self.node_tags.get(number, {}))}</node>")
        for number, (nodes, tags) in self.ways.items():
            refs = "".join(f"<nd ref='{node}'/>" for node in nodes)
            seen = " visible='false'" * (number in self.deleted)
            lines.append(f"<way id='{number}' version='1'{seen}>{refs}{_tags(tags)}</way>")
        for number, (members, tags) in enumerate(self.relations, 1):
            parts = "".join(f"<member type='{kind}' ref='{ref}' role='{role}'/>" for kind, ref, role in members)
            lines.append(f"<relation id='{number}' version='1'>{parts}{_tags(tags)}</relation>")
        path.write_text("\n".join([*lines, "</osm>"]), encoding="utf-8")


def _tags(tags: Tags) -> str:
    return "".join(f"<tag k={quoteattr(key)} v={quoteattr(value)}/>" for key, value in tags.items())


Street = tuple[int, int, int, list[int]]  # way, from, to, all its nodes


def grid(name: str, draw: random.Random, size: int, tags: Callable[[], Tags]) -> tuple[Made, list[Street]]:
    """A town of streets between the corners of a grid, each a way of its own with tags of its own; some are missing."""
    made = Made(name)
    corner = {(x, y): made.node(x + draw.uniform(-0.3, 0.3), y + draw.uniform(-0.3, 0.3))
              for x in range(size) for y in range(size)}
    streets: list[Street] = []
    for (x, y), one in corner.items():
        for other in (corner.get((x + 1, y)), corner.get((x, y + 1))):
            if other is None or draw.random() < 0.1:
                continue
            (x1, y1), (x2, y2) = made.nodes[one], made.nodes[other]
            between = [made.node(x1 + (x2 - x1) * k / 3, y1 + (y2 - y1) * k / 3 + 0.05 * k)
                       for k in (1, 2)[: draw.randrange(3)]]
            nodes = [one, *between, other]
            streets.append((made.way(nodes, **tags()), one, other, nodes))
    return made, streets


CLASSES = ["residential", "residential", "unclassified", "tertiary", "secondary", "living_street", "service"]


def plain(draw: random.Random) -> Tags:
    """Tags of a street without hours."""
    tags = {"highway": draw.choice(CLASSES)}
    if draw.random() < 0.4:
        tags["maxspeed"] = draw.choice(["30", "50", "20 mph", "DE:urban", "DE:zone30", "walk", "70;50"])
    if draw.random() < 0.15:
        tags["oneway"] = draw.choice(["yes", "-1", "no", "true"])
    if draw.random() < 0.1:
        tags[draw.choice(["surface", "tracktype"])] = draw.choice(["gravel", "grade2", "cobblestone"])
    return tags


def _hours(draw: random.Random) -> str:
    days = draw.choice(["", "", "Mo-Fr ", "Sa,Su ", "Fr-Mo ", "Mo-We,Sa "])
    begin, end = sorted(draw.sample(range(24), 2))
    if draw.random() < 0.3:
        begin, end = end, begin
    return f"{days}{begin:02}:{draw.choice(['00', '30'])}-{end:02}:{draw.choice(['15', '45'])}"


def at_hours(draw: random.Random) -> Tags:
    """Tags of a street, two of three times with hours."""
    found = plain(draw)
    kind = draw.randrange(9)
    if kind == 0:
        found[draw.choice(["access", "motor_vehicle", "motorcar"]) + "__conditional"] = f"no @ ({_hours(draw)})"
    elif kind == 1:
        found["motor_vehicle__conditional"] = f"destination @ ({_hours(draw)})"
    elif kind == 2:
        found["opening_hours"] = f"{_hours(draw)}; Su off" if draw.random() < 0.5 else _hours(draw)
    elif kind == 3:
        found.pop("oneway", None)
        found["oneway__conditional"] = f"{draw.choice(['yes', '-1'])} @ ({_hours(draw)})"
    elif kind == 4:
        found["maxspeed"] = "50"
        found["maxspeed__conditional"] = f"{draw.choice(['30', '100'])} @ ({_hours(draw)})"
    elif kind == 5:
        found["access"] = "no"
        found["access__conditional"] = f"yes @ ({_hours(draw)}); destination @ ({_hours(draw)})"
    return found


def hours_town(seed: int) -> Made:
    """Streets that are open, one-way or slow at some hours."""
    draw = random.Random(seed)
    return grid(f"hours {seed}", draw, 6, lambda: at_hours(draw))[0]


def restrict(draw: random.Random, made: Made, streets: list[Street], count: int) -> None:
    """Adds up to so many turn restrictions of all kinds."""
    for _ in range(count):
        via = draw.choice(streets)
        first = [street for street in streets if via[1] in street[1:3] and street is not via]
        last = [street for street in streets if via[2] in street[1:3] and street is not via]
        if not first or not last:
            continue
        one, other = draw.choice(first)[0], draw.choice(last)[0]
        kind = draw.choice(["no_left_turn", "no_right_turn", "no_straight_on", "only_straight_on", "only_right_turn",
                            "no_u_turn"])
        more: Tags = draw.choice([{}, {}, {}, {"except": "bus"}, {"except": "bus;motorcar"},
                                  {"except": "motor_vehicle"}])
        hours = draw.choice([None, None, None, _hours(draw)])
        always = hours is None or kind.startswith("only")
        said: Tags = {"restriction": kind} if always else {"restriction__conditional": f"{kind} @ ({hours})"}
        if draw.random() < 0.4 and kind != "only_right_turn":
            made.turn([("way", one, "from"), ("way", via[0], "via"), ("way", other, "to")], **said, **more)
        else:
            to = one if kind == "no_u_turn" else via[0]
            made.turn([("way", one, "from"), ("node", via[1], "via"), ("way", to, "to")], **said, **more)


def turns_town(seed: int) -> Made:
    """Turn restrictions of all kinds."""
    draw = random.Random(seed)
    made, streets = grid(f"turns {seed}", draw, 6, lambda: plain(draw))
    restrict(draw, made, streets, 30)
    return made


def sail(draw: random.Random, made: Made, streets: list[Street], count: int) -> None:
    """Adds so many ferries, and streets between their far ends."""
    corners = sorted({node for street in streets for node in street[1:3]})
    quays = []
    for _ in range(count):
        shore, middle = draw.choice(corners), made.node(6 + draw.random(), 6)
        far = made.node(8 + draw.random(), 8 + draw.random())
        tags = {"route": "ferry", "duration": draw.choice(["10", "00:12", "PT15M", "00:07:30"])}
        kind = draw.randrange(5)
        if kind < 3:
            tags["interval"] = draw.choice(["20", "00:30", "45", "01:10"])
            if kind < 2:
                tags["opening_hours"] = draw.choice(
                    ["18:00-02:00", "06:00-22:00", "Mo-Fr 05:30-01:15", "22:15-21:45", _hours(draw)])
        elif kind == 3:
            tags["opening_hours"] = _hours(draw)
        else:
            tags.pop("duration")
        made.way([shore, middle, far], **tags)
        quays.append(far)
    for one, other in zip(quays, quays[1:]):
        made.way([one, made.node(9, 9 + draw.random()), other], **plain(draw))


def ferry_town(seed: int) -> Made:
    """Two towns with ferries between them."""
    draw = random.Random(seed)
    made, streets = grid(f"ferries {seed}", draw, 5, lambda: plain(draw))
    sail(draw, made, streets, 5)
    return made


def for_some(draw: random.Random) -> Tags:
    """Tags of a street that may be for destinations alone, barred, or a track."""
    found = plain(draw)
    kind = draw.randrange(8)
    if kind < 2:
        found[draw.choice(["access", "motor_vehicle", "vehicle"])] = draw.choice(
            ["destination", "private", "customers", "no", "agricultural;destination", "permissive"])
    elif kind == 2:
        found.update(highway="track", motorcar=draw.choice(["yes", "no", "destination"]))
    return found


BARRIERS: list[Tags] = [
    {"barrier": "bollard"}, {"barrier": "gate"}, {"barrier": "gate", "locked": "yes"},
    {"barrier": "gate", "access": "no"},
    {"barrier": "lift_gate", "access": "private"}, {"barrier": "bollard", "motorcar": "yes"},
    {"barrier": "gate", "motor_vehicle:conditional": "no @ (20:00-06:00)"},
    {"barrier": "gate", "opening_hours": "06:00-21:00"}]


def put_rings(draw: random.Random, made: Made, streets: list[Street], count: int) -> None:
    """Adds so many streets that lead back to where they begin."""
    for street in draw.sample(streets, count):
        x, y = made.nodes[street[1]]
        ring = [made.node(x + dx, y + dy) for dx, dy in ((0.2, 0.1), (0.35, 0.3), (0.1, 0.4))]
        made.way([street[1], *ring, street[1]], highway="residential")


def edge_town(seed: int) -> Made:
    """Roads for destinations alone, barriers, loops, nodes that are gone, and a way that stands twice."""
    draw = random.Random(seed)
    made, streets = grid(f"edges {seed}", draw, 7, lambda: for_some(draw))
    for street in draw.sample(streets, 8):
        made.node_tags[street[3][len(street[3]) // 2]] = draw.choice(BARRIERS)
    put_rings(draw, made, streets, 5)
    made.gone = set(draw.sample(sorted(made.nodes), 6))
    return made


def mixed_town(seed: int) -> Made:
    """All of the others at once: barriers stand at junctions too, and the edge cuts what turns are restricted at."""
    draw = random.Random(seed)
    made, streets = grid(f"mixed {seed}", draw, 7, lambda: draw.choice((plain, plain, at_hours, for_some))(draw))
    restrict(draw, made, streets, 20)
    sail(draw, made, streets, 4)
    put_rings(draw, made, streets, 3)
    for street in draw.sample(streets, 10):
        barriers = [*BARRIERS, {"barrier": "bollard", "access": "destination"}]
        made.node_tags[draw.choice(street[3])] = draw.choice(barriers)
    made.gone = set(draw.sample(sorted(made.nodes), 4))
    made.deleted = {street[0] for street in draw.sample(streets, 2)}
    return made


WRITTEN: dict[str, list[str]] = {
    "maxspeed": ["50", "50 mph", "30mph", "RO:urban", "DE:rural", "30;50", "70|50", "signals", "none", "10 knots",
                 "49.5", "50 kmh", "DE:zone:30", "DE:zone30",
                 "walk", "variable", "5 mph", "fast", "0", "DE:living_street", "CH:motorway", "60 km/h", "20 kph",
                 "DE:bicycle_road", "GB:nsl_single"],
    "maxspeed:forward": ["30", "70", "walk", "??"],
    "maxspeed:backward": ["30", "20 mph"],
    "source:maxspeed": ["DE:urban", "DE:rural", "sign", "DE:zone30"],
    "maxspeed:type": ["DE:urban", "sign", "DE:rural"],
    "zone:traffic": ["DE:urban", "DE:rural"],
    "zone:maxspeed": ["DE:30", "30"],
    "maxspeed:conditional": ["30 @ (22:00-06:00)", "120 @ (06:00-20:00); 100 @ (wet)",
                             "20 mph @ (Mo-Fr 07:30-09:00,15:00-16:30)", "none @ (20:00-05:00)",
                             "30 @ 10:00-14:00", "walk @ (Sa,Su)", "50 @ (weight>7.5)",
                             "50 @ (06:00-20:00); fast @ (10:00-12:00)"],
    "maxspeed:forward:conditional": ["30 @ (22:00-06:00)", "70 @ (Mo-Fr)"],
    "maxspeed:motorcar:conditional": ["120 @ (20:00-06:00)", "60 @ (wet)"],
    "oneway:motor_vehicle:conditional": ["yes @ (06:00-10:00)", "no @ (Sa,Su)"],
    "oneway": ["yes", "no", "1", "true", "-1", "reverse", "alternating", "reversible", "yes;no", "0", "false"],
    "oneway:motorcar": ["no", "yes", "-1"],
    "oneway:motor_vehicle": ["yes", "no"],
    "oneway:conditional": ["yes @ (06:00-18:00)", "-1 @ (Mo-Fr 06:00-10:00); yes @ (Mo-Fr 15:00-19:00)",
                           "no @ (20:00-06:00)", "reversible @ (07:00-09:00)"],
    "junction": ["roundabout", "circular", "yes"],
    "access": ["yes", "no", "private", "destination", "permissive", "agricultural", "agricultural;forestry", "delivery",
               "customers;no", "unknown", "permit", "Private"],
    "vehicle": ["no", "destination", "agricultural;destination", "yes"],
    "motor_vehicle": ["no", "private", "destination", "delivery", "yes", "residents", "designated"],
    "motorcar": ["yes", "no", "designated", "destination", "limited"],
    "hgv": ["no", "destination", "yes", "delivery"],
    "bicycle": ["yes", "no", "designated", "use_sidepath", "dismount"],
    "foot": ["yes", "no", "use_sidepath", "destination"],
    "access:conditional": ["no @ (22:00-06:00)", "destination @ (Mo-Fr 06:00-09:00,16:00-19:00)",
                           "no @ (22:00-06:00); destination @ (20:00-22:00)", "no @ (snow)",
                           "delivery @ (05:00-11:00); no @ (11:00-05:00)", "yes @ (24/7)", "no @ (PH)"],
    "motor_vehicle:conditional": ["no @ (Mo-Sa 10:00-18:00)", "destination @ (19:00-07:00)", "yes @ (18:00-10:00)",
                                  "no @ 08:00-09:00"],
    "opening_hours": ["24/7", "06:00-22:00", "Mo-Fr 08:00-18:00; PH off", "sunrise-sunset",
                      "Mo,We 10:00-12:00,14:00-16:00", "00:00-24:00", "22:00-06:00", "Mo-Fr",
                      "Mo-Sa 07:00-20:00; Su off", "Apr-Oct: 08:00-20:00", "Mo-Su,PH 08:00-20:00", "08:00+", "off",
                      "Fr-Mo 20:00-26:00", "Mo-Fr 06:00-24:00; Sa 08:00-12:00"],
    "surface": ["asphalt", "gravel", "mud", "cobblestone", "unpaved", "paving_stones:30"],
    "tracktype": ["grade1", "grade3", "grade5"],
    "smoothness": ["good", "bad", "impassable", "very_horrible"],
    "motorroad": ["yes", "no"],
    "area": ["yes", "no"],
    "disused": ["yes", "no"],
    "impassable": ["yes"],
    "cycleway": ["opposite_lane", "lane", "opposite"],
    "route": ["ferry", "bus", "road"],
}


def odd_town(seed: int) -> Made:
    """Tags as people write them, understood and not."""
    draw = random.Random(seed)
    kinds = [*CLASSES, *CLASSES, "motorway", "trunk", "primary_link", "track", "track", "footway", "path", "cycleway",
             "pedestrian", "steps", "road", "proposed"]
    often = ["maxspeed", "maxspeed", "access", "oneway", "opening_hours", "motor_vehicle", "access:conditional",
             "maxspeed:conditional"]

    def tags() -> Tags:
        found = {"highway": draw.choice(kinds)}
        for key in draw.sample([*WRITTEN, *often], draw.choice([0, 0, 0, 1, 1, 2, 3])):
            found[key.replace(":", "__")] = draw.choice(WRITTEN[key])
        return found

    made, streets = grid(f"odd {seed}", draw, 10, tags)
    restrict(draw, made, streets, 10)
    for street in draw.sample(streets, 12):
        found = {"barrier": draw.choice(["bollard", "gate", "lift_gate", "swing_gate", "block", "cattle_grid",
                                         "cycle_barrier", "kerb", "log", "toll_booth", "yes"])}
        for key in draw.sample(["access", "motor_vehicle", "vehicle", "bicycle", "foot", "opening_hours",
                                "access:conditional"], draw.choice([0, 0, 1, 2])):
            found[key] = draw.choice(WRITTEN[key])
        made.node_tags[draw.choice(street[3])] = found
    return made


THEMES: dict[str, Callable[[int], Made]] = {
    "hours": hours_town, "turns": turns_town, "ferries": ferry_town, "edges": edge_town, "mixed": mixed_town,
    "odd": odd_town}
