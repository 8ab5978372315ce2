"""What the processes of a service note for one another, and what they count together."""

from __future__ import annotations

import os
import tempfile
from concurrent.futures import ThreadPoolExecutor
from pathlib import Path

import pytest

from catchup.service.accepting import SLOTS
from catchup.service.metrics import PATHS, Figures, Metrics
from catchup.service.notes import PREFIX, first_to_tell, make_folder


@pytest.fixture
def room(tmp_path: Path, monkeypatch: pytest.MonkeyPatch) -> Path:
    monkeypatch.setattr(tempfile, "tempdir", str(tmp_path))
    return tmp_path


def test_services_that_start_at_once_have_a_folder_each(room: Path) -> None:
    """None takes the folder of another for one that a killed service left."""
    (room / (PREFIX + "left")).mkdir()
    with ThreadPoolExecutor(16) as pool:
        folders = list(pool.map(lambda _: make_folder(), range(200)))
    assert len(set(folders)) == 200
    assert sorted(room.iterdir()) == sorted(folders)


def test_a_folder_goes_away_once_nobody_holds_it(room: Path) -> None:
    if not (child := os.fork()):
        (make_folder() / "note").write_text("x")
        os._exit(0)
    os.waitpid(child, 0)
    [left] = room.iterdir()
    own = make_folder()
    assert list(room.iterdir()) == [own] != [left]


def test_a_line_is_told_once(tmp_path: Path) -> None:
    assert [first_to_tell(tmp_path, line) for line in ("a", "b", "a")] == [True, True, False]
    assert first_to_tell(None, "a") and first_to_tell(tmp_path / "gone", "a")


def test_what_workers_count_is_told_together() -> None:
    figures = Figures()
    workers = [Metrics(figures, slot) for slot in (0, 3, SLOTS - 1)]
    for worker in workers:
        worker.told("/route", 200, 0.003)
        worker.told("/route", 200, 40.0)
        worker.told("/edits/0123", 404, 0.001)
        worker.told("/table/v1/car/0,0;1,1", 400, 0.0)
        worker.told("/../x", 404, 0.0)
        worker.tell_children(2)
    # One is gone, and another has its place.
    figures.leave(3)
    again = Metrics(figures, 3)
    again.told("/route", 200, 0.003)
    again.told("/page/file/page.js", 200, 0.0)
    text = again.text([("car", "0a1b2c3d4e5f")], {"done": 4}).decode()
    for line in ('catchup_requests_total{path="/route",status="200"} 7.0',
                 'catchup_requests_total{path="/edits/ID",status="404"} 3.0',
                 'catchup_requests_total{path="/table/v1",status="400"} 3.0',
                 'catchup_requests_total{path="other",status="404"} 3.0',
                 'catchup_requests_total{path="/page",status="200"} 1.0',
                 'catchup_request_seconds_bucket{le="0.002"} 10.0', 'catchup_request_seconds_bucket{le="0.005"} 14.0',
                 'catchup_request_seconds_bucket{le="30.0"} 14.0', 'catchup_request_seconds_bucket{le="+Inf"} 17.0',
                 "catchup_request_seconds_count 17.0", "catchup_children 4.0", 'catchup_jobs{state="done"} 4.0',
                 'catchup_version_info{profile="car",version="0a1b2c3d4e5f"} 1.0'):
        assert line in text.splitlines(), text
    assert text.count("catchup_requests_total{") == 5 and len(PATHS) == len(set(PATHS))
