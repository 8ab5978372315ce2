"""bin/release and bin/check-release: what is released is of the sources as they are, and what a build of them gives."""

from __future__ import annotations

import os
import shutil

import pytest
from stub_checkout import Checkout

SAID_RELEASED = "the released program is of these sources\n"


def test_refuses_a_program_of_other_sources(checkout: Checkout) -> None:
    wanted = (
        "release: crates/catchup/out/catchup isn't built from just these sources: "
        "CATCHUP_BUILD=1 bin/catchup trial 1 2 2 1 proves and builds it\n"
    )
    assert checkout.call("release") == (1, "", wanted)
    wanted = "check-release: release/x86_64-linux has no program: bin/release makes it\n"
    assert checkout.call("check-release") == (1, "", wanted)


def test_releases_what_was_built(built: Checkout) -> None:
    status, line, err = built.call("release")
    assert (status, err) == (0, "") and line == (built.release / "RELEASE").read_text()
    assert sorted(os.listdir(built.release)) == ["RELEASE", "catchup"]
    assert "names" not in (built.release / "catchup").read_text()
    assert built.call("check-release") == (0, SAID_RELEASED + "a build here gives the same bytes\n", "")


def test_compares_no_build_of_another_toolchain(built: Checkout) -> None:
    built.call("release")
    status, out, _ = built.call("check-release", LOGIC="def")
    assert status == 0
    assert out == SAID_RELEASED + "not compared with a build: the toolchain's logic is def here, and abc there\n"


def test_compares_nothing_without_a_toolchain(released: Checkout) -> None:
    none = "not compared with a build: there is no Rattle toolchain (rt) here\n"
    assert released.call("check-release", toolchain=False) == (0, SAID_RELEASED + none, "")


def test_the_gate(built: Checkout) -> None:
    """What a gate built is marked, where it is the released program and its sources haven't changed."""
    built.call("release")
    sources = built.call("release", "--sources").out.strip()
    kept = (built.out / "catchup").read_bytes()
    with open(built.out / "catchup", "a") as file:
        file.write(" \n")
    status, _, err = built.call("check-release", sources)
    assert status == 1 and "isn't what a build here gives" in err
    (built.out / "catchup").write_bytes(kept)
    (built.out / "BUILT").unlink()
    assert built.call("check-release", sources) == (0, SAID_RELEASED + "a build here gives the same bytes\n", "")
    assert built.call("check-release", "0123") == (1, "", "check-release: a source was changed while the gate ran: run it again\n")


def test_a_release_of_other_sources(released: Checkout) -> None:
    released.write("two")
    wanted = "release/x86_64-linux/catchup is of other sources: bin/release makes it anew of a build of these"
    assert released.call("check-release") == (1, "", f"check-release: {wanted}\n")


def test_a_release_that_was_changed(released: Checkout) -> None:
    with open(released.release / "catchup", "a") as file:
        file.write("echo more\n")
    wanted = "release/x86_64-linux/catchup isn't the program that release/x86_64-linux/RELEASE names"
    assert released.call("check-release") == (1, "", f"check-release: {wanted}\n")


@pytest.mark.parametrize("script", ["release", "check-release"])
def test_sources_that_cannot_be_read(released: Checkout, script: str) -> None:
    shutil.rmtree(released.top / "crates/low")
    assert released.call(script) == (1, "", f"{script}: the sources can't be read\n")


@pytest.mark.parametrize(
    ("words", "usage"),
    [
        (["release", "--none"], "release [--sources]"),
        (["release", "a", "b"], "release [--sources]"),
        (["check-release", "a", "b"], "check-release [SOURCES]"),
        (["check-release", "--none"], "check-release [SOURCES]"),
    ],
)
def test_bad_words(checkout: Checkout, words: list[str], usage: str) -> None:
    assert checkout.call(*words) == (2, "", f"{words[0]}: usage: {usage}\n")


@pytest.mark.parametrize("script", ["release", "check-release"])
def test_help(checkout: Checkout, script: str) -> None:
    status, out, err = checkout.call(script, "--help")
    assert (status, err) == (0, "") and out.startswith(f"usage: {script}")
