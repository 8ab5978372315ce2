"""bin/package: a package of the clean clone, unpacked and run from there with no toolchain."""

from __future__ import annotations

import gzip
import hashlib
import os
import re
import shutil
import subprocess
import sys
from pathlib import Path

import pytest
from scripts import TOP, Run, plain_path, run
from stub_checkout import Checkout

from catchup import __version__

# What bin/ has for those who change catchup, and for nobody else.
OWN = {"check", "check-release", "count-definitions", "package", "release"}
COMMANDS = sorted(place.name for place in (TOP / "bin").iterdir() if place.is_file() and place.name not in OWN)
RUSH_HOUR = "built 3 3 3 416\narrive=160 arcs=0 1\narrive=29050 arcs=2\n"

pytestmark = [pytest.mark.first, pytest.mark.xdist_group("clone")]


def newest_version() -> str:
    found = re.search(r"^## \[(.*?)\]", (TOP / "CHANGELOG.md").read_text(), re.M)
    assert found
    return found[1]


@pytest.fixture(scope="module")
def package(clone: Path, tmp_path_factory: pytest.TempPathFactory) -> Path:
    """The package of a clean clone."""
    for tool in ("dpkg-deb", "/usr/bin/python3"):
        if not shutil.which(tool):
            pytest.skip(f"{tool} isn't installed")
    folder = tmp_path_factory.mktemp("package")
    status, out, err = run([clone / "bin/package", folder])
    assert (status, err) == (0, "")
    assert out == f"{folder}/catchup_{newest_version()}_amd64.deb\n"
    return Path(out.strip())


@pytest.fixture(scope="module")
def unpacked(package: Path, tmp_path_factory: pytest.TempPathFactory) -> Path:
    """What the package puts in place, in a folder that stands for the root; its fields and sums are in DEBIAN."""
    folder = tmp_path_factory.mktemp("unpacked")
    subprocess.run(["dpkg-deb", "-R", package, folder / "root"], check=True)
    return folder / "root"


def installed(unpacked: Path, *words: str | Path, folder: Path | None = None, input: str = "") -> Run:
    """Runs a command of the package as one does who has installed it."""
    return run(words, folder=folder, input=input, env={"PATH": f"{unpacked}/usr/bin:{plain_path()}", "PYTHONDONTWRITEBYTECODE": "1"})


def field(package: Path, name: str) -> str:
    return run(["dpkg-deb", "-f", package, name]).out.strip()


def test_the_same_bytes_twice(package: Path, clone: Path, tmp_path: Path) -> None:
    run([clone / "bin/package", tmp_path], env={"TMPDIR": str(tmp_path)})
    assert (tmp_path / package.name).read_bytes() == package.read_bytes()
    assert os.listdir(tmp_path) == [package.name], "no temporary files"


def test_owners_and_sums(package: Path, unpacked: Path) -> None:
    listed = run(["dpkg-deb", "-c", package]).out.splitlines()
    assert not [line for line in listed if " root/root " not in line]
    for line in (unpacked / "DEBIAN/md5sums").read_text().splitlines():
        digest, name = line.split("  ")
        assert hashlib.md5((unpacked / name).read_bytes()).hexdigest() == digest, name


def test_fields(package: Path) -> None:
    assert [field(package, name) for name in ("Package", "Version", "Architecture")] == ["catchup", newest_version(), "amd64"]
    assert re.fullmatch(r"[^<>@]+ <[\w.-]+@[\w-]+(\.[\w-]+)+>", field(package, "Maintainer"))
    assert "python3 (>= 3.11)" in field(package, "Depends")
    listed = [field(package, name) for name in ("Depends", "Recommends", "Suggests")]
    assert [name in of for name, of in zip(("python3-click", "metis", "redis-server"), listed)] == [True] * 3
    assert "pytest" not in " ".join(listed)


def test_one_version(unpacked: Path) -> None:
    """The change log's version is that of the program, of the Python package, of its metadata and of the manual."""
    version = newest_version()
    assert __version__ == version
    assert f'version = "{version}"' in (TOP / "python/pyproject.toml").read_text()
    assert f'"catchup {version}"' in (TOP / "packaging/catchup.1").read_text().splitlines()[0]
    assert installed(unpacked, "catchup", "--version") == (0, f"catchup {version}\n", "")


def test_licence_and_changes(unpacked: Path) -> None:
    doc = unpacked / "usr/share/doc/catchup"
    assert "License: Expat\n Permission is hereby granted" in (doc / "copyright").read_text()
    changes = gzip.decompress((doc / "changelog.gz").read_bytes()).decode()
    assert changes.startswith(f"catchup ({newest_version()}) unstable; urgency=medium\n\n  * ")
    assert changes.count("\n -- The catchup authors <") == changes.count("unstable; urgency")


def test_lintian_finds_no_error(package: Path) -> None:
    if not shutil.which("lintian"):
        pytest.skip("lintian isn't installed")
    status, out, err = run(["lintian", "--fail-on", "error", "--tag-display-limit", "0", package])
    assert status == 0, out + err


def test_answers(unpacked: Path, tmp_path: Path) -> None:
    folder = unpacked / "usr/share/doc/catchup/examples/rush_hour"
    build = installed(unpacked, "catchup", "build", "nodes.csv", "roads.csv", "profiles.csv", "identity", tmp_path / "town.cu", folder=folder)
    ask = installed(unpacked, "catchup", "ask", tmp_path / "town.cu", input="q,0,2,0\nq,0,2,28800\n")
    assert build.out + ask.out == RUSH_HOUR
    status, out, err = run([unpacked / "usr/bin/catchup", "ask", tmp_path / "town.cu"], env={"CATCHUP_BUILD": "1"})
    assert (status, out, err) == (0, "", ""), "it asks nobody to build"


def test_example_of_the_manual(unpacked: Path, tmp_path: Path) -> None:
    """The lines between .nf and .fi, over what is unpacked."""
    page = gzip.decompress((unpacked / "usr/share/man/man1/catchup.1.gz").read_bytes()).decode()
    lines = [line for block in re.findall(r"^\.nf\n(.*?)^\.fi$", page, re.M | re.S) for line in block.splitlines()]
    text = "\n".join(lines).replace("\\e", "\\").replace("\\-", "-").replace("/usr/share", f"{unpacked}/usr/share")
    env = {"PATH": f"{unpacked}/usr/bin:{plain_path()}", "TMPDIR": str(tmp_path)}
    assert run(["sh", "-c", text], env=env) == (0, RUSH_HOUR, "")


@pytest.mark.parametrize("command", COMMANDS)
def test_help_of(unpacked: Path, command: str) -> None:
    """From the unpacked tree, with the modules that stand in it."""
    status, out, err = installed(unpacked, command, "--help")
    assert (status, err) == (0, "") and re.search("^usage: ", out, re.I | re.M)


@pytest.mark.parametrize("command", COMMANDS)
def test_version_of(unpacked: Path, command: str) -> None:
    assert installed(unpacked, command, "--version") == (0, f"{command} {newest_version()}\n", "")


@pytest.mark.parametrize("command", COMMANDS)
def test_manual_has_each_option_of(unpacked: Path, command: str) -> None:
    """Of the help of the command and of its commands."""
    shown = installed(unpacked, command, "--help").out
    for inner in re.findall(r"^  ([a-z]+) ", shown.partition("\nCommands:\n")[2], re.M):
        shown += installed(unpacked, command, inner, "--help").out
    page = gzip.decompress((unpacked / f"usr/share/man/man1/{command}.1.gz").read_bytes()).decode().replace("\\-", "-")
    options = set(re.findall(r"(?<![\w-])--?[a-z][a-z-]*", shown))
    assert len(options) >= 2 and [option for option in sorted(options) if not re.search(rf"(?<![\w-]){option}(?![\w-])", page)] == []


def test_manual_and_usage_have_each_kind_of_line(clone: Path) -> None:
    usage = run([clone / "bin/catchup", "--help"]).out
    page = (clone / "packaging/catchup.1").read_text()
    for line in re.findall(r"^\| `([a-z],[A-Z0-9.,]+)`", (clone / "docs/FORMATS.md").read_text(), re.M):
        assert line.partition("..")[0] in usage and line.partition("..")[0] in page


def has_pages(command: str) -> bool:
    return "catchup.commands" in (TOP / "bin" / command).read_text()


@pytest.mark.parametrize("command", ["catchup", *filter(has_pages, COMMANDS)])
def test_manual_of(unpacked: Path, command: str) -> None:
    """Each program that shows a manual, and is here, warns of nothing."""
    packed = unpacked / f"usr/share/man/man1/{command}.1.gz"
    page = packed.with_name(f"{command}.1")
    page.write_bytes(gzip.decompress(packed.read_bytes()))
    showing = [["groff", "-man", "-Tutf8", "-ww", page], ["man", "--warnings", "-l", page]]
    there = [words for words in showing if shutil.which(str(words[0]))]
    if not there:
        pytest.skip("neither groff nor man is installed (groff, man-db)")
    for words in there:
        shown = run(words, env={"MANWIDTH": "80", "LC_ALL": "C.UTF-8"})
        assert shown.err == "" and command in shown.out


def test_manual_has_each_command_of_the_usage(clone: Path) -> None:
    usage = run([clone / "bin/catchup", "--help"]).out
    page = (clone / "packaging/catchup.1").read_text()
    named = re.findall(r"^.* catchup ([a-z]+) ", usage, re.M)
    assert len(named) > 10 and [name for name in named if f"catchup {name}" not in page] == []


def test_modules_are_found(unpacked: Path, monkeypatch: pytest.MonkeyPatch) -> None:
    """By any Python program once it is installed: here by the folder that stands for Debian's."""
    monkeypatch.delenv("CATCHUP", raising=False)
    code = "import catchup, catchup.program; print(catchup.__file__); print(catchup.program.find_program())"
    env = {"PYTHONPATH": f"{unpacked}/usr/lib/python3/dist-packages", "PATH": f"{unpacked}/usr/bin:{plain_path()}"}
    run_of_it = run([sys.executable, "-c", code], env=env | {"PYTHONDONTWRITEBYTECODE": "1"}, folder=unpacked)
    modules, program = run_of_it.out.splitlines()
    assert modules.startswith(f"{unpacked}/usr/lib/python3/dist-packages/")
    assert Path(program).resolve() == unpacked / "usr/lib/catchup/bin/catchup"


@pytest.mark.parametrize(
    ("words", "status", "said"),
    [
        ([], 2, "usage: package DIR"),
        (["a", "b"], 2, "usage: package DIR"),
        (["--none"], 2, "usage: package DIR"),
        (["/none/such"], 1, "/none/such is no folder that can be written"),
    ],
)
def test_bad_words(clone: Path, words: list[str], status: int, said: str) -> None:
    assert run([clone / "bin/package", *words]) == (status, "", f"package: {said}\n")


def test_no_folder_for_temporary_files(clone: Path, tmp_path: Path) -> None:
    status, out, err = run([clone / "bin/package", tmp_path], env={"TMPDIR": "/none/such"})
    assert (status, out) == (1, "") and err == "package: no temporary folder can be made\n"


def test_no_released_program(checkout: Checkout) -> None:
    folder = checkout.room / "packages"
    folder.mkdir()
    wanted = "package: release/x86_64-linux has no program: bin/release makes it\n"
    assert checkout.call("package", str(folder)) == (1, "", wanted)
    assert not os.listdir(folder)
