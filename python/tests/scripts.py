"""What the tests of the scripts share: runs, a path without a toolchain, and a clean clone of the checkout."""

from __future__ import annotations

import os
import subprocess
from collections.abc import Mapping, Sequence
from pathlib import Path
from typing import NamedTuple

TOP = Path(__file__).resolve().parents[2]
NOBODY = 65534


class Run(NamedTuple):
    """A run that has ended: its status (negative of a signal), and what it wrote."""

    status: int
    out: str
    err: str


def plain_path() -> str:
    """PATH without the folders that have a toolchain, so that what runs there can't build."""
    folders = os.environ.get("PATH", os.defpath).split(os.pathsep)
    return os.pathsep.join(folder for folder in folders if folder and not os.access(Path(folder, "rt"), os.X_OK))


def run(
    words: Sequence[str | Path],
    *,
    folder: Path | None = None,
    env: Mapping[str, str] | None = None,
    input: str = "",
    nobody: bool = False,
    seconds: float = 600,
) -> Run:
    """Runs a command to its end: in a folder, with some words of the environment changed, with no toolchain on PATH
    unless `env` names another, and as nobody where root would be asked what root may do anyhow."""
    other = NOBODY if nobody and os.getuid() == 0 else None
    ended = subprocess.run(
        [str(word) for word in words],
        cwd=folder,
        env=os.environ | {"PATH": plain_path(), "LC_ALL": "C"} | dict(env or {}),
        input=input.encode(),
        capture_output=True,
        timeout=seconds,
        user=other,
        group=other,
        extra_groups=None if other is None else [],
    )
    return Run(ended.returncode, ended.stdout.decode("utf-8", "replace"), ended.stderr.decode("utf-8", "replace"))


def let_through(folder: Path) -> None:
    """Lets nobody come to a folder of tests, through the folders above it that are ours."""
    for place in (folder, *folder.parents):
        if place.stat().st_uid != os.getuid() or place.stat().st_mode & 0o001:
            continue
        place.chmod(place.stat().st_mode | 0o011)


def set_writable(folder: Path, writable: bool) -> None:
    """Gives or takes the right to write to all that stands in a folder, and lets everybody read it."""
    for place in (folder, *folder.rglob("*")):
        if not place.is_symlink():
            mode = place.stat().st_mode | 0o444 | (0o111 if place.is_dir() else 0)
            place.chmod(mode | 0o200 if writable else mode & ~0o222)


def git(folder: Path, *words: str) -> Run:
    """Runs git in a folder, whoever owns it."""
    settings = ["safe.directory=*", "user.name=tests", "user.email=tests@localhost", "commit.gpgsign=false"]
    return run(["git", "-C", folder, *(word for each in settings for word in ("-c", each)), *words])


def list_files() -> list[str]:
    """The files of the checkout: those that git has or would add, or all but what is built where it is no repository."""
    listed = git(TOP, "ls-files", "-z", "-co", "--exclude-standard")
    if listed.status == 0:
        return [name for name in listed.out.split("\0") if name and (TOP / name).exists()]
    built = {"out", ".git", "__pycache__", ".pytest_cache", ".hypothesis", ".mypy_cache"}
    files = (place.relative_to(TOP) for place in TOP.rglob("*") if not place.is_dir())
    return [str(place) for place in files if not built.intersection(place.parts)]


def make_clone(folder: Path) -> Path:
    """Makes a clean clone of the checkout as it stands, with all of it committed, at `folder`."""
    folder.mkdir()
    names = "\0".join(list_files())
    packed = subprocess.run(["tar", "-cf", "-", "-C", TOP, "--null", "-T", "-"], input=names.encode(), stdout=-1, check=True)
    subprocess.run(["tar", "-xf", "-", "-C", folder], input=packed.stdout, check=True)
    git(folder, "init", "-q", ".")
    objects = git(TOP, "rev-parse", "--path-format=absolute", "--git-path", "objects")
    if objects.status == 0:
        # What the checkout's git has needn't be written once more: to make and to remove some thousand files takes long.
        (folder / ".git/objects/info/alternates").write_text(objects.out)
    git(folder, "add", "-A")
    committed = git(folder, "commit", "-q", "-m", "tests")
    assert committed.status == 0, committed
    return folder
