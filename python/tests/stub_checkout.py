"""A checkout of three small crates with a stub for the toolchain: what it builds prints the text of a source."""

from __future__ import annotations

import os
import shutil
import subprocess
import time
from pathlib import Path

from scripts import TOP, Run, plain_path, run

RT = r"""#!/usr/bin/env bash
case "$1" in
  version) echo "rattle-kit-0 logic ${LOGIC-abc}"; exit ;;
  doc) echo "$KIT/START-HERE.md"; exit ;;
  all)
    echo build >>"$BUILDS"
    # As slow as it takes until so many others wait for it.
    for _ in ${SLOW:+$(seq 3000)}; do
      [ "$(cat "${BUILDS%/*}"/said.? | grep -c 'waiting for it')" -lt "$SLOW" ] || break
      sleep 0.1
    done
    [ -z "${BREAK-}" ] || { echo "stub: not proved"; exit 1; }
    echo "== low"; echo "crate low: modules loaded=1"
    echo "== catchup"
    exit ;;
esac
mkdir -p out
printf '#!/bin/sh\n# names\necho "%s $*"\nexit %s\n' "$(cat ../low/src/lib.rt)" "${STATUS-0}" >out/catchup
chmod +x out/catchup
[ -z "${CHANGE-}" ] || echo changed >../low/src/lib.rt
[ -z "${DIE-}" ] || kill -9 "$PPID"
"""


def write_program(place: Path, text: str) -> None:
    place.parent.mkdir(parents=True, exist_ok=True)
    place.write_text(text)
    place.chmod(0o755)


class Checkout:
    """A checkout of three crates, `catchup` over `low`, and `other`; and a toolchain that counts its builds."""

    def __init__(self, room: Path) -> None:
        self.room = room
        self.top = room / "top"
        self.source = self.top / "crates/low/src/lib.rt"
        self.out = self.top / "crates/catchup/out"
        self.release = self.top / "release/x86_64-linux"
        for crate in ("catchup", "low/src/more/..", "other"):
            (self.top / "crates" / crate / "src").mkdir(parents=True, exist_ok=True)
        (self.top / "crates/low/src/more").mkdir(exist_ok=True)
        shutil.copytree(TOP / "bin", self.top / "bin", ignore=shutil.ignore_patterns("__pycache__"))
        shutil.copy(TOP / "CHANGELOG.md", self.top)
        (self.top / "HANDLES").write_text("Handles allowed: none.\n")
        (self.top / "crates.txt").write_text("# a comment\ncatchup: low\nlow: thiserror\nother: low\n")
        (self.top / "crates/catchup/src/main.rt").write_text("text\n")
        write_program(room / "tools/rt", RT)
        # A tool that counts its calls: a start that goes by times alone calls it nowhere.
        write_program(room / "tools/b2sum", f'#!/bin/sh\necho sum >>"$SUMS"\nexec {shutil.which("b2sum")} "$@"\n')
        # What takes the names out.
        write_program(room / "kit/toolchain/bin/clang", '#!/bin/sh\ngrep -v names "$3" >"$2"\n')
        (room / "tmp").mkdir()
        (room / "builds").touch()
        (room / "sums").touch()
        self.write("one")

    def write(self, text: str) -> None:
        self.source.write_text(text + "\n")

    def words_of_stub(self, toolchain: bool = True) -> dict[str, str]:
        path = f"{self.room / 'tools'}:{plain_path()}" if toolchain else plain_path()
        room = self.room
        return {"PATH": path, "BUILDS": f"{room}/builds", "SUMS": f"{room}/sums", "KIT": f"{room}/kit", "TMPDIR": f"{room}/tmp"}

    def call(self, script: str, *words: str, toolchain: bool = True, nobody: bool = False, **env: str) -> Run:
        return run([self.top / "bin" / script, *words], env=self.words_of_stub(toolchain) | env, nobody=nobody)

    def launch(self, *words: str, toolchain: bool = True, nobody: bool = False, **env: str) -> tuple[int, str]:
        """The status and what the program printed."""
        status, out, _ = self.call("catchup", *words, toolchain=toolchain, nobody=nobody, **env)
        return status, out.strip()

    def launch_at_once(self, many: int, **env: str) -> list[tuple[int, str, str]]:
        """Some launchers together: the status of each, what its program printed, and what it said."""
        started = []
        for each in range(1, many + 1):
            with open(self.room / f"said.{each}", "wb") as said:
                words = os.environ | self.words_of_stub() | env
                started.append(subprocess.Popen([self.top / "bin/catchup"], env=words, stdout=-1, stderr=said))
        outputs = [process.communicate(timeout=600)[0].decode().strip() for process in started]
        said_by = [(self.room / f"said.{each}").read_text() for each in range(1, many + 1)]
        return list(zip((process.returncode for process in started), outputs, said_by))

    def builds(self) -> int:
        return (self.room / "builds").read_text().count("\n")

    def sums(self) -> int:
        """How many times checksums were made since `date_word`."""
        return (self.room / "sums").read_text().count("\n")

    def date_word(self) -> None:
        """Makes the last start's word as if it had begun just now: what changes from now on is newer.

        Files get their times by a clock that goes in steps and behind the system's, so that a file made right behind
        another may be as old. So the start's time is a file's, and this waits until another one is newer.
        """
        then, now = self.room / "then", self.room / "now"
        then.write_text("")
        now.write_text("")
        while now.stat().st_ctime_ns <= then.stat().st_ctime_ns:
            time.sleep(0.001)
            now.write_text("")
        at = then.stat().st_ctime_ns
        for seen in self.out.glob("seen.*"):
            _, rest = seen.read_bytes().split(b"\0", 1)
            seen.write_bytes(f"@{at // 10**9}.{at % 10**9:09}".encode() + b"\0" + rest)
        (self.room / "sums").write_text("")
