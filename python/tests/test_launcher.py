"""bin/catchup must never run a program that isn't of the sources as they are."""

from __future__ import annotations

import os
import re
import shutil
import subprocess
from collections.abc import Callable
from pathlib import Path

import pytest
from scripts import TOP, run, set_writable
from stub_checkout import Checkout, write_program

def test_builds_and_runs(checkout: Checkout) -> None:
    status, out, err = checkout.call("catchup", "serve", "a")
    assert (status, out) == (0, "one serve a\n")
    assert re.findall(r"is done; crates left: (\d+);", err) == ["1", "0"]
    assert checkout.launch("serve", "b") == (0, "one serve b")
    assert checkout.builds() == 1


def test_goes_by_times(built: Checkout) -> None:
    assert built.launch() == (0, "one")
    assert built.sums() == 0
    (built.top / "crates/other/src/lib.rt").write_text("more\n")
    assert built.launch() == (0, "one"), "a crate that the program doesn't stand on"
    assert (built.sums(), built.builds()) == (0, 1)


def age(place: Path) -> None:
    os.utime(place, (978307200, 978307200))


def replace_by_older(built: Checkout) -> None:
    aside = built.room / "aside"
    aside.write_text("two\n")
    age(aside)
    built.date_word()
    aside.rename(built.source)


def write_older(built: Checkout) -> None:
    built.write("two")
    age(built.source)


def add_source(built: Checkout) -> None:
    (built.top / "crates/low/src/more/added.rt").write_text("text\n")


def remove_source(built: Checkout) -> None:
    (built.top / "crates/catchup/src/main.rt").unlink()


def add_folder(built: Checkout) -> None:
    (built.top / "crates/low/proofs").mkdir()


def add_proof(built: Checkout) -> None:
    add_folder(built)
    (built.top / "crates/low/proofs/Lib.antt").write_text("text\n")


def change_own_line(built: Checkout) -> None:
    (built.top / "crates.txt").write_text("catchup: low\nlow: thiserror csv\nother: low\n")


def change_other_line(built: Checkout) -> None:
    (built.top / "crates.txt").write_text("catchup: low\nlow: thiserror\nother: low catchup\n")


def change_handles(built: Checkout) -> None:
    (built.top / "HANDLES").write_text("Handles allowed: Net.\n")


def change_program(built: Checkout) -> None:
    with open(built.out / "catchup", "a") as file:
        file.write("x")


@pytest.mark.parametrize(
    ("change", "said", "builds"),
    [
        (lambda built: built.write("two"), "two", 2),
        (write_older, "two", 2),
        (replace_by_older, "two", 2),
        (add_source, "one", 2),
        (remove_source, "one", 2),
        (add_folder, "one", 1),
        (add_proof, "one", 2),
        (change_own_line, "one", 2),
        (change_other_line, "one", 1),
        (change_handles, "one", 2),
        (change_program, "one", 2),
    ],
    ids=[
        "a source", "a source, with an older time", "a source by an older one", "a source added", "a source removed",
        "an empty folder", "a first proof", "a line of crates.txt", "another crate's line", "the handles", "the program",
    ],
)  # fmt: skip
def test_sees_a_change(built: Checkout, change: Callable[[Checkout], None], said: str, builds: int) -> None:
    change(built)
    assert built.launch() == (0, said)
    assert built.builds() == builds


def test_keeps_no_word_that_was_cut_short(built: Checkout) -> None:
    for seen in built.out.glob("seen.*"):
        seen.unlink()
    limited = run(["prlimit", "--fsize=64", built.top / "bin/catchup"], env=built.words_of_stub())
    assert limited == (0, "one \n", "")
    assert not list(built.out.glob("seen*"))
    built.write("two")
    assert built.launch() == (0, "two")


def test_knows_again_what_was_put_back(built: Checkout) -> None:
    add_source(built)
    assert built.launch() == (0, "one")
    (built.top / "crates/low/src/more/added.rt").unlink()
    assert built.launch() == (0, "one")
    assert built.builds() == 3


def test_a_build_that_fails(built: Checkout) -> None:
    built.write("two")
    status, out, err = built.call("catchup", BREAK="1")
    assert (status, out) == (1, "")
    assert "stub: not proved" in err and re.search(r"not built: see .*build\.log", err)
    assert built.launch(BREAK="1") == (1, ""), "nor the old program after that"


def test_a_source_that_changes_while_it_is_built(built: Checkout) -> None:
    built.write("two")
    assert built.launch(CHANGE="1") == (1, "")
    assert built.launch() == (0, "changed")


def test_hands_the_status_on(checkout: Checkout) -> None:
    assert checkout.launch(STATUS="7") == (7, "one")


def test_runs_nothing_that_a_killed_build_left(built: Checkout) -> None:
    built.write("two")
    built.launch(DIE="1")
    assert built.launch() == (0, "two")


def test_builds_though_nobody_listens(checkout: Checkout) -> None:
    words = os.environ | checkout.words_of_stub()
    process = subprocess.Popen([checkout.top / "bin/catchup"], env=words, stdout=subprocess.DEVNULL, stderr=subprocess.PIPE)
    assert process.stderr
    process.stderr.read(1)
    process.stderr.close()
    process.wait(timeout=600)
    builds = checkout.builds()
    assert checkout.launch() == (0, "one")
    assert checkout.builds() == builds


def test_leaves_nothing_behind(built: Checkout) -> None:
    built.write("two")
    built.launch(BREAK="1")
    built.launch()
    assert not list((built.room / "tmp").iterdir())
    assert not [name for name in os.listdir(built.out) if re.search(r"\.\d+$", name)]


def test_one_builds_and_others_wait(checkout: Checkout) -> None:
    ended = checkout.launch_at_once(3, SLOW="2")
    assert [each[:2] for each in ended] == [(0, "one")] * 3
    assert checkout.builds() == 1
    assert sum("waiting for it" in said for _, _, said in ended) == 2


def test_who_waited_for_a_failed_build_fails_too(checkout: Checkout) -> None:
    ended = checkout.launch_at_once(2, SLOW="1", BREAK="1")
    assert [each[:2] for each in ended] == [(1, "")] * 2
    assert checkout.builds() == 1
    assert sum("that build failed" in said for _, _, said in ended) == 1


def test_where_nothing_can_be_written(built: Checkout) -> None:
    built.write("two")
    set_writable(built.top, False)
    status, out, err = built.call("catchup", nobody=True)
    assert (status, out) == (1, "")
    assert "can't be written" in err


def test_without_a_toolchain(checkout: Checkout) -> None:
    assert checkout.call("catchup", toolchain=False) == (
        1, "", "catchup: no program of just these sources is here, and no Rattle toolchain (rt) to build it\n"
    )  # fmt: skip


def unread_source(built: Checkout) -> None:
    built.source.chmod(0)


def unread_folder(built: Checkout) -> None:
    (built.top / "crates/low/src/more").chmod(0)


def no_crate(built: Checkout) -> None:
    shutil.rmtree(built.top / "crates/low")


def no_handles(built: Checkout) -> None:
    (built.top / "HANDLES").unlink()


def blank_list(built: Checkout) -> None:
    (built.top / "crates.txt").write_text("")


@pytest.mark.parametrize(
    ("spoil", "said"),
    [
        (unread_source, "some of the sources in TOP can't be read, so no program is known to be of them"),
        (unread_folder, "some of the sources in TOP can't be read, so no program is known to be of them"),
        (no_handles, "some of the sources in TOP can't be read, so no program is known to be of them"),
        (no_crate, "TOP/crates.txt names no crates that are here, so no program is known to be of these sources"),
        (blank_list, "TOP/crates.txt names no crates that are here, so no program is known to be of these sources"),
    ],
    ids=["a source that can't be read", "a folder that can't be read", "no handles", "a crate that isn't there", "no crates"],
)
def test_stops_where_sources_cannot_be_summed(built: Checkout, spoil: Callable[[Checkout], None], said: str) -> None:
    spoil(built)
    said = "catchup: " + said.replace("TOP", str(built.top)) + "\n"
    before = set(os.listdir(built.out))
    assert built.call("catchup", nobody=True) == (1, "", said)
    assert built.builds() == 1
    # The word of an earlier start goes, where the user may take it away.
    assert set(os.listdir(built.out)) in (before, before - {"seen.crates"})


@pytest.mark.parametrize("target", ["top", "top/bin", "top/bin/catchup"])
def test_through_a_link(built: Checkout, target: str) -> None:
    link = built.room / "elsewhere" / "link"
    link.parent.mkdir()
    link.symlink_to(built.room / target)
    script = link / Path("top/bin/catchup").relative_to(target)
    for text in ("one", "two", "three"):
        built.write(text)
        assert run([script, "ask"], env=built.words_of_stub(), folder=link.parent)[:2] == (0, f"{text} ask\n")
        built.date_word()
    assert [place.name for place in link.parent.iterdir()] == ["link"]


def test_usage_and_version(checkout: Checkout) -> None:
    status, out, err = checkout.call("catchup", "--help")
    assert (status, err) == (0, "") and "usage: catchup serve " in out
    newest = re.search(r"^## \[(.*?)\]", (TOP / "CHANGELOG.md").read_text(), re.M)
    assert newest
    assert checkout.call("catchup", "--version") == (0, f"catchup {newest[1]}\n", "")
    (checkout.top / "CHANGELOG.md").unlink()
    assert checkout.call("catchup", "--version") == (1, "", f"catchup: {checkout.top}/CHANGELOG.md names no version\n")


def test_runs_the_released_program(released: Checkout) -> None:
    assert released.launch(toolchain=False) == (0, "one")
    released.date_word()
    assert released.launch() == (0, "one")
    assert released.sums() == 0, "the second start goes by times"
    released.write("two")
    assert released.launch(toolchain=False) == (1, "")
    released.write("one")
    assert released.launch() == (0, "one")
    assert released.builds() == 1, "it was put back, so it is known again"


def test_runs_the_released_program_where_nothing_can_be_written(released: Checkout) -> None:
    set_writable(released.top, False)
    assert released.launch(nobody=True) == (0, "one")


def test_builds_nonetheless_where_asked(released: Checkout) -> None:
    for _ in range(2):
        assert released.launch(CATCHUP_BUILD="1") == (0, "one")
        assert released.builds() == 2


def test_runs_no_released_program_that_was_changed(released: Checkout) -> None:
    with open(released.release / "catchup", "a") as file:
        file.write("echo more\n")
    assert released.launch() == (0, "one")
    assert released.builds() == 2


# ---- an installed copy, which has no sources, and what the program is given ----


@pytest.fixture
def installed(tmp_path: Path) -> Path:
    """The launcher as the package puts it in place, over a stub that says its words and its settings."""
    lib = tmp_path / "usr/lib/catchup"
    shutil.copytree(TOP / "bin/parts", lib / "bin/parts")
    shutil.copy(TOP / "bin/catchup", lib / "bin")
    write_program(lib / "release/x86_64-linux/catchup", '#!/bin/sh\necho "installed $* $GLIBC_TUNABLES"\n')
    (tmp_path / "usr/bin").mkdir()
    (tmp_path / "usr/bin/catchup").symlink_to("../lib/catchup/bin/catchup")
    return tmp_path / "usr/bin/catchup"


def test_installed(installed: Path, monkeypatch: pytest.MonkeyPatch) -> None:
    monkeypatch.delenv("GLIBC_TUNABLES", raising=False)
    assert run([installed, "ask", "town.cu"]) == (0, "installed ask town.cu glibc.malloc.hugetlb=1\n", "")
    own = run([installed, "ask", "town.cu"], env={"GLIBC_TUNABLES": "glibc.malloc.arena_max=1"})
    assert own.out == "installed ask town.cu glibc.malloc.arena_max=1\n"


def test_installed_and_gone(installed: Path) -> None:
    (installed.resolve().parents[1] / "release/x86_64-linux/catchup").unlink()
    status, out, err = run([installed, "ask", "town.cu"])
    assert (status, out) == (1, "") and err.count("\n") == 1 and "install catchup again" in err


@pytest.mark.parametrize("started_by", ["python", "a shell"])
def test_a_limit_of_file_size_is_a_fault_of_the_shelf(program: Path, tmp_path: Path, started_by: str) -> None:
    """Python gives a child the signals as they were at the start (restore_signals), so the launcher must see to it."""
    town = TOP / "examples/town"
    tables = [town / f"{name}.csv" for name in ("nodes", "roads", "profiles")]
    launcher = TOP / "bin/catchup"
    build = [launcher, "build", *tables, "identity", "town.cu"]
    words = [str(word) for word in build]
    limited = ["sh", "-c", 'ulimit -f 40; exec "$@"', "sh", *words]
    if started_by == "python":
        limited = ["prlimit", "--fsize=40960", *words]
    status, out, err = run(limited, folder=tmp_path)
    assert (status, out) == (3, "shelf: fault out\n") and err.startswith("catchup: cannot store town.cu")
    assert not list(tmp_path.iterdir())
    # What stood there before stays whole, and nothing stands beside it.
    assert run(words, folder=tmp_path).status == 0
    before = (tmp_path / "town.cu").read_bytes()
    (tmp_path / "night.txt").write_text("s,0,0,travel,70\n")
    edit = ["prlimit", "--fsize=40960", launcher, "edit", "town.cu", "night.txt", "town.cu"]
    status, out, err = run(edit, folder=tmp_path)
    assert (status, out) == (3, "done 1846\nshelf: fault out\n") and err.startswith("catchup: cannot store town.cu")
    assert sorted(os.listdir(tmp_path)) == ["night.txt", "town.cu"]
    assert (tmp_path / "town.cu").read_bytes() == before


def test_a_limit_of_file_size_is_a_fault_of_the_output(program: Path, tmp_path: Path) -> None:
    ask = f"ulimit -f 1; yes q,0,2,28800 | head -n 1000 | {TOP}/bin/catchup serve *.csv identity >{tmp_path}/replies"
    folder = tmp_path / "tables"
    shutil.copytree(TOP / "examples/rush_hour", folder)
    for number, name in enumerate(("nodes", "roads", "profiles")):
        (folder / f"{name}.csv").rename(folder / f"{number}.csv")
    status, out, err = run(["bash", "-c", ask], folder=folder)
    assert (status, out) == (8, "") and err.startswith("catchup: cannot write standard output: File too large")
    assert (tmp_path / "replies").stat().st_size == 1024


def test_arguments_that_are_wrong_get_no_word_of_the_launcher(program: Path) -> None:
    itself = run([TOP / "release/x86_64-linux/catchup", "biuld", "a"])
    assert run([program, "biuld", "a"]) == itself
    assert itself.status == 2
