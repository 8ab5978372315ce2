"""What drives look like: lines in arrays and in texts are the same, and so are their names and metres."""

from __future__ import annotations

import json
import random
from collections.abc import Iterator
from pathlib import Path

import numpy as np
import pytest
from placed import DAY, Town, made_town

from catchup import geometry
from catchup.mapfile import RoadNames
from catchup.places import Ask, NoRoute, Piece
from catchup.places.bands import bands
from catchup.places.drives import Drive
from catchup.places.legs import leg_of
from catchup.places.lines import Lines
from catchup.places.reach import Reached
from catchup.places.streets import Streets


@pytest.fixture(scope="module")
def made(program: Path, tmp_path_factory: pytest.TempPathFactory) -> Iterator[Town]:
    yield made_town("edges", 5, tmp_path_factory.mktemp("edges"))


@pytest.fixture(scope="module")
def drives(made: Town) -> list[Drive]:
    """Drives of all kinds: along parts of one road, and of no length."""
    draw = random.Random(1)

    async def asked(ask: Ask) -> list[Drive]:
        found: list[Drive] = []
        while len(found) < 150:
            start, end = made.somewhere(draw), made.somewhere(draw)
            if draw.random() < 0.3:
                share = min(max(start.share + draw.choice([0, 0.1, -0.2, 1.0]), 0.0), 1.0)
                end = made.places.hinted(start.place, start.street, share) or end
            try:
                found += await made.places.drives([start, end], draw.randrange(DAY), ask)
            except NoRoute:
                pass
        return found

    return made.ask(asked)


def test_lines_are_those_of_their_parts(made: Town, drives: list[Drive]) -> None:
    lines = made.places.lines
    assert any(not drive.roads for drive in drives) and any(len(drive.roads) == 1 for drive in drives)
    for drive in drives:
        if not drive.roads:
            assert drive.parts == [] and drive.arrive == drive.depart
            continue
        cuts = [lines.cut(part) for part in drive.parts]
        wanted = np.concatenate([cuts[0][:1], *[cut[1:] for cut in cuts]])
        found = lines.line(drive.roads, drive.begin, drive.stop)
        assert found.shape == wanted.shape and np.array_equal(found, wanted)
        assert np.allclose(found[[0, -1]], [drive.start.point, drive.end.point], atol=2e-7)
        told = lines.told(drive.roads, drive.begin, drive.stop)
        coordinates, names, metres = (json.loads(b"[%b]" % text) for text in told)
        assert np.abs(np.array(coordinates) - wanted).max() <= 5.1e-7
        assert names == [name or ref for name, ref in map(lines.name, drive.roads)]
        assert metres == pytest.approx([lines.metres[road] * (end - begin) for road, begin, end in drive.parts],
                                       abs=0.06)
        for precision in (5, 6):
            text = lines.line_encoded(drive.roads, drive.begin, drive.stop, precision)
            assert text == geometry.encode_polyline(wanted[:, 0], wanted[:, 1], precision)


def test_what_is_kept_stays_small(made: Town, drives: list[Drive], monkeypatch: pytest.MonkeyPatch) -> None:
    lines = made.places.lines
    wanted = [(lines.told(drive.roads, drive.begin, drive.stop),
               lines.line_encoded(drive.roads, drive.begin, drive.stop))
              for drive in drives if drive.roads]
    monkeypatch.setattr("catchup.places.lines._MOST_KEPT", 3)
    lines._told.clear()
    lines._encoded.clear()
    assert wanted == [(lines.told(drive.roads, drive.begin, drive.stop),
                       lines.line_encoded(drive.roads, drive.begin, drive.stop))
                      for drive in drives if drive.roads]
    assert len(lines._told) <= 3 and all(len(kept) <= 3 for kept in lines._encoded.values())


def metres_of(piece: Piece) -> float:
    """How long a piece's line is."""
    return float(geometry.along(*piece.coordinates.T)[-1])


def test_pieces_have_one_name_each(made: Town, drives: list[Drive]) -> None:
    lines = made.places.lines
    for drive in drives:
        leg = leg_of(lines, drive)
        far = sum(map(metres_of, leg.pieces))
        assert leg.pieces and sum(piece.metres for piece in leg.pieces) == pytest.approx(far, abs=0.5)
        for piece in leg.pieces:
            assert piece.kind == lines.kind(piece.road) and len(piece.coordinates) >= 2
            assert piece.metres == pytest.approx(metres_of(piece), abs=0.1)
        if not drive.roads:
            assert [(piece.metres, len(piece.coordinates)) for piece in leg.pieces] == [(0.0, 2)]


def named(lines: Lines, streets: Streets, draw: random.Random) -> Lines:
    """The same lines with other names: up to three along each road."""
    rows: list[tuple[float, float]] = []
    first = [0]
    for metres in lines.metres.tolist():
        cuts = sorted(draw.choice([draw.random(), 0.0, 1.0, 0.5]) * metres for _ in range(draw.choice([0, 2, 4, 6])))
        rows += zip(cuts[::2], cuts[1::2])
        first.append(len(rows))
    begin, end = np.array(rows).T
    text = np.array([draw.randrange(4) for _ in rows], dtype=np.int32)
    names = RoadNames(np.array(first), begin, end, text, [("A", ""), ("B", "7"), ("", "8"), ("C", "")])
    kind, kinds = lines.kinds
    return Lines(streets, names, lines.metres, kind, kinds, np.zeros(len(kind), dtype=bool))


def test_parts_have_the_names_of_whole_roads(made: Town) -> None:
    draw = random.Random(3)
    lines = named(made.places.lines, made.places.ground.streets, draw)
    whole = {road: lines.names_along((road, 0.0, 1.0)) for road in range(len(lines.metres))}
    assert len(whole) > len(lines.several) > 50
    for road, names in whole.items():
        assert len(names) == 1 or road in lines.several
        low, high = sorted(draw.choice([draw.random(), 1e-6, 1.0 - 1e-6, 0.0, 1.0]) for _ in range(2))
        found = lines.names_along((road, low, high))
        assert (found[0][2], found[-1][3]) == (low, high)
        assert all(before[3] == after[2] for before, after in zip(found, found[1:]))
        left = iter([name[:2] for name in names])
        assert all(name[:2] in left for name in found)
        for end, at in ((0, 0.0), (-1, 1.0 - 1e-6)):
            assert [name[:2] for name in lines.names_along((road, at, at + 1e-6))] == [names[end][:2]]


def test_bands_hold_the_roads_and_one_another(made: Town) -> None:
    shapely = pytest.importorskip("shapely.geometry")
    lines, count = made.places.lines, len(made.places.ground.streets.of_road)
    draw = np.random.default_rng(2)
    for size in (1, 5, 40):
        roads = draw.choice(count, size, replace=False)
        zero, one = np.zeros(size), np.ones(size)
        whole = Reached(roads, zero, one, zero, 60 * one)
        reaches = [whole.within(20), whole.within(40), whole]
        shapes = [shapely.shape(band) for band in bands(lines, reaches)]
        assert all(shape.is_valid for shape in shapes)
        # Coordinates are rounded to a tenth of a metre.
        assert all(other.buffer(3e-6).contains(shape) for shape, other in zip(shapes, shapes[1:]))
        for of, shape in zip(reaches, shapes):
            for road, end in zip(of.road.tolist(), of.end.tolist()):
                assert shape.contains(shapely.LineString(lines.cut((road, 0.0, end))))
                assert of.end.tolist() == pytest.approx([of.left[0] / 60] * size)
        far = shapely.MultiLineString([lines.cut((road, 0.0, 1.0)) for road in roads.tolist()]).buffer(3.5e-3)
        assert far.contains(shapes[-1])
