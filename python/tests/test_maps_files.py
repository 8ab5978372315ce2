"""The same small map in the forms that files of OpenStreetMap have: each makes the same network."""
from __future__ import annotations

import bz2
import gzip
import re
from collections.abc import Callable
from pathlib import Path

import osmium
import pytest
from osm_maps import Net, OsmMap

from catchup.errors import Failure
from catchup.maps.importing import Options, import_osm


@pytest.fixture
def made() -> OsmMap:
    """A ring 1 2 3 6 with a gate at 2, a street from 3 on to 5, and a turn that is forbidden."""
    made = OsmMap()
    made.row(5)
    made.node(2, 0, 1000, barrier="gate", opening_hours="06:00-22:00")
    made.node(6, 1000, 1000)
    made.way([1, 2, 3], number=1, highway="residential", name="Улица Ленина")
    made.way([3, 6, 1], number=2, highway="residential", name="ถนน", maxspeed="30")
    made.way([3, 4, 5], number=3, highway="residential", oneway="no")
    made.restrict(1, 3, 2, "no_right_turn")
    return made


def net_of(path: Path) -> Net:
    return Net(import_osm(path, Options(), lambda text: None))


def same(one: Net, other: Net) -> bool:
    """Whether two networks have the same tables, and the same numbers and names outside."""
    tables = [(of.tail, of.head, of.profile, of.osm, of.made.names.texts, of.made.point_osm.tolist())
              for of in (one, other)]
    places = [(of.made.map.node_lon.tolist(), of.made.map.node_lat.tolist()) for of in (one, other)]
    return tables[0] == tables[1] and places[0] == pytest.approx(places[1], abs=1e-7)


def written(text: str, path: Path) -> Path:
    """A map written anew by libosmium, by the ending of its name."""
    plain = path.with_name("plain.osm")
    plain.write_text(text, encoding="utf-8")
    out = osmium.SimpleWriter(str(path))

    class Copy(osmium.SimpleHandler):
        def node(self, item: osmium.osm.Node) -> None:
            out.add_node(item)

        def way(self, item: osmium.osm.Way) -> None:
            out.add_way(item)

        def relation(self, item: osmium.osm.Relation) -> None:
            out.add_relation(item)

    Copy().apply_file(str(plain))
    out.close()
    return path


def with_places(text: str) -> str:
    """Places in the ways, and no nodes but those with tags."""
    places = dict(re.findall(r'<node id="(\d+)" version="1" (lat="[^"]*" lon="[^"]*")', text))
    text = re.sub(r'<node [^>]*></node>\n', "", text)
    return re.sub(r'<nd ref="(\d+)"/>', lambda found: f'<nd ref="{found[1]}" {places[found[1]]}/>', text)


def turned(text: str) -> str:
    """Relations first, then ways, then nodes by falling number."""
    lines = text.split("\n")
    kinds = ("node", "way", "relation")
    nodes, ways, relations = ([line for line in lines if line.startswith(f"<{kind} ")] for kind in kinds)
    return "\n".join([*lines[:2], *relations, *ways, *reversed(nodes), *lines[-2:]])


def as_edited(text: str) -> str:
    """As JOSM saves what isn't sent yet."""
    text = text.replace('version="1" lat', "action='modify' lat")
    return text.replace('<osm version="0.6">', "<osm version='0.6' upload='true' generator='JOSM'>")


FORMS: dict[str, Callable[[str, Path], Path]] = {
    "bzip2": lambda text, folder: _put(folder / "map.osm.bz2", bz2.compress(text.encode())),
    "gzip": lambda text, folder: _put(folder / "map.osm.gz", gzip.compress(text.encode())),
    "pbf": lambda text, folder: written(text, folder / "map.osm.pbf"),
    "opl": lambda text, folder: written(text, folder / "map.osm.opl"),
    "places in ways": lambda text, folder: _put(folder / "map.osm", with_places(text).encode()),
    "relations first": lambda text, folder: _put(folder / "map.osm", turned(text).encode()),
    "edited": lambda text, folder: _put(folder / "map.osm", as_edited(text).encode()),
    "byte order mark": lambda text, folder: _put(folder / "map.osm", b"\xef\xbb\xbf" + text.encode()),
    "nodes twice": lambda text, folder: _put(folder / "map.osm", re.sub("(<node .*\n)", r"\1\1", text).encode()),
}


def _put(path: Path, content: bytes) -> Path:
    path.write_bytes(content)
    return path


@pytest.mark.parametrize("form", FORMS)
def test_each_form_makes_the_same_network(made: OsmMap, tmp_path: Path, form: str) -> None:
    plain, other = made.network(tmp_path), net_of(FORMS[form](made.text(), tmp_path))
    assert max(plain.copy) > 0 and len(plain.roads) > 5 and same(plain, other)


def test_places_in_the_ways_of_a_clipped_map(made: OsmMap, tmp_path: Path) -> None:
    """Node 4 has no place: the way is cut there."""
    text = re.sub('<nd ref="4" [^/]*/>', '<nd ref="4"/>', with_places(made.text()))
    net = net_of(_put(tmp_path / "map.osm", text.encode()))
    assert 5 not in net.junctions and net.count("ways cut or left out: their nodes aren't there") == 1


def test_a_history_in_pbf(made: OsmMap, tmp_path: Path) -> None:
    with pytest.raises(Failure, match="this is a history"):
        net_of(written(made.text(), tmp_path / "map.osh.pbf"))
