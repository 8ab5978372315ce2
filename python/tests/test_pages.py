"""The commands of README.md and docs/*.md, run as printed, in one shell for each page, from the root of a clean clone, with
no toolchain; the pictures that they draw; and the links of the pages."""

from __future__ import annotations

import re
from collections.abc import Iterator
from dataclasses import dataclass
from pathlib import Path

import pytest
from pages import Found, Step, run_steps, steps_of
from scripts import TOP, git

PAGES = ["README.md", "CONTRIBUTING.md", "python/README.md", *sorted(f"docs/{page.name}" for page in (TOP / "docs").glob("*.md"))]
STEPS = {page: steps for page in PAGES if (TOP / page).exists() and (steps := steps_of((TOP / page).read_text()))}
# Its commands tell times, and take all processors for a minute: none of them is run.
MEASURING = "docs/SPEED.md"
IN_CLONE = pytest.mark.xdist_group("clone")
# Its commands start a service and ask it: test_service_pages.py runs them.
SERVING = "docs/SERVICE.md"
RUN = [page for page in STEPS if page not in (MEASURING, SERVING)]
PICTURES = {"routes": "docs/USING.md", "reach": "docs/USING.md", "day": "docs/USING.md"}


@dataclass(frozen=True)
class Walk:
    """A page whose commands were run: the folder of its temporary files, and what each printed."""

    room: Path
    found: list[Found | None]


class Walks:
    """The pages that were run so far, each once, in one clean clone."""

    def __init__(self, clone: Path, factory: pytest.TempPathFactory) -> None:
        self.clone = clone
        self._factory = factory
        self._walks: dict[str, Walk] = {}

    def of(self, page: str) -> Walk:
        if page not in self._walks:
            room = self._factory.mktemp("page")
            self._walks[page] = Walk(room, run_steps(STEPS[page], self.clone, room))
        return self._walks[page]


@pytest.fixture(scope="module")
def walks(clone: Path, tmp_path_factory: pytest.TempPathFactory, program: Path) -> Walks:
    return Walks(clone, tmp_path_factory)


def cases() -> Iterator[object]:
    """Each command of each page."""
    for page in RUN:
        for number, step in enumerate(STEPS[page]):
            name = f"{page}: {step.command.splitlines()[0][:70]}"
            yield pytest.param(page, number, step, id=name, marks=IN_CLONE)


@pytest.mark.parametrize(("page", "number", "step"), cases())
def test_command(walks: Walks, page: str, number: int, step: Step) -> None:
    reason = step.left_out()
    if reason:
        pytest.skip(f"{reason}: {step.command}")
    found = walks.of(page).found[number]
    assert found is not None, "the shell didn't come to this command"
    if step.shown is None:
        assert found.status == 0, found.printed
    elif step.open:
        assert found.printed.startswith(step.shown)
    else:
        assert found.printed == step.shown


def test_commands_that_measure() -> None:
    many = len(STEPS.get(MEASURING, []))
    if many:
        pytest.skip(f"the {many} commands of {MEASURING} measure, and say nothing to compare")


@IN_CLONE
@pytest.mark.parametrize("page", RUN)
def test_leaves_nothing_behind(walks: Walks, page: str) -> None:
    walk = walks.of(page)
    assert git(walks.clone, "status", "--porcelain").out == ""
    assert not list((walk.room / "tmp").iterdir()), "temporary files"


@IN_CLONE
@pytest.mark.parametrize(("picture", "page"), PICTURES.items())
def test_picture(walks: Walks, picture: str, page: str) -> None:
    """Each picture is what a command of a page has drawn."""
    walks.of(page)
    kept = walks.clone / f"docs/pictures/{picture}.svg"
    drawn = [file for file in walks.clone.rglob(f"{picture}.svg") if file != kept]
    assert drawn
    for file in drawn:
        assert file.read_bytes() == kept.read_bytes(), f"git diff --no-index {kept} {file}"


def anchor(heading: str) -> str:
    """The name by which a link leads to a heading."""
    return re.sub(r"[^\w\- ]", "", re.sub(r"[`*]", "", heading).strip().lower()).replace(" ", "-")


@pytest.mark.parametrize("page", [page for page in PAGES if (TOP / page).exists()])
def test_links(page: str) -> None:
    """Each link within the repository leads to a file, and to a heading of it."""
    text = re.sub(r"^```.*?^```$", "", (TOP / page).read_text(), flags=re.M | re.S)
    for target in re.findall(r"\]\(([^)\s]+)\)", text):
        if re.match(r"[a-z]+:", target):
            continue
        name, _, heading = target.partition("#")
        place = (TOP / page).parent / name if name else TOP / page
        assert place.exists(), target
        if heading:
            headings = re.findall(r"^#+ (.*)$", place.read_text(), re.M)
            assert heading in map(anchor, headings), target
