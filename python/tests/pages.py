"""The commands that a page prints, taken out of its ```sh blocks, and run as printed in a clean clone."""

from __future__ import annotations

import os
import re
import shutil
import subprocess
from dataclasses import dataclass
from pathlib import Path

from scripts import plain_path

# What isn't run, and why.
LEFT_OUT = (
    (r"(\.ci/run|bin/release|bin/check|rt)( |$)|.*CATCHUP_BUILD", "it proves, or runs all tests"),
    (r"(sudo|apt-get|apt|dpkg|systemctl)( |$)", "it changes the system"),
    (r"(git clone|scp|ssh)( |$)|.*--sshlogin", "it reaches another machine"),
)
# A line of a block without prompts that goes on with the command above it.
GOES_ON = re.compile(r"[ \t]|(do|then|else|done|fi|esac|\}|\))([ ;]|$)")
# Runs each step in one shell; each leaves what it printed and its status.
RUN_STEPS = """
for step in "$steps"/*.sh; do
  . "$step" >"${step%.sh}.found" 2>&1 </dev/null
  echo $? >"${step%.sh}.status"
done
"""


@dataclass(frozen=True)
class Step:
    """A command of a page. `shown` is what the page prints below it; None in a block without prompts, whose commands must
    end with status 0. `open` says that the page leaves out the rest (a line `...`)."""

    command: str
    shown: str | None = None
    open: bool = False

    def left_out(self) -> str | None:
        """Why it isn't run, or None."""
        for pattern, reason in LEFT_OUT:
            if re.match(pattern, self.command):
                return reason
        if self.command.startswith("parallel ") and not shutil.which("parallel"):
            return "GNU parallel isn't installed (parallel)"
        return None


@dataclass(frozen=True)
class Found:
    """What a step printed, and its status."""

    printed: str
    status: int


def steps_of(text: str) -> list[Step]:
    """The commands of a page, in their order.

    In a block with prompts each line `$ COMMAND` is one, goes on in lines `> MORE`, and the lines below it are what it
    prints. Elsewhere each line is one, and goes on behind a backslash and in lines that begin with a blank or an ending word.
    """
    blocks = re.findall(r"^```sh\n(.*?)^```$", text, re.M | re.S)
    return [step for block in blocks for step in (_shown(block) if re.search(r"^\$ ", block, re.M) else _plain(block))]


def _shown(block: str) -> list[Step]:
    steps = []
    for part in re.split(r"^\$ ", block, flags=re.M)[1:]:
        lines = part.splitlines()
        more = next((at for at, line in enumerate(lines[1:], 1) if not line.startswith("> ")), len(lines))
        command = "\n".join([lines[0], *(line[2:] for line in lines[1:more])])
        printed = lines[more:]
        cut = printed.index("...") if "..." in printed else None
        steps.append(Step(command, "".join(line + "\n" for line in printed[:cut]), cut is not None))
    return steps


def _plain(block: str) -> list[Step]:
    commands: list[str] = []
    before = ""
    for line in block.splitlines():
        if not re.match(r"#|\s*$", line):
            if commands and (before.endswith("\\") or GOES_ON.match(line)):
                commands[-1] += "\n" + line
            else:
                commands.append(line)
        before = line
    return [Step(command) for command in commands]


def run_steps(steps: list[Step], clone: Path, room: Path) -> list[Found | None]:
    """Runs the steps from the root of a clone, with no toolchain and temporary files in `room`/tmp: None where a step was
    left out or wasn't come to."""
    for folder in ("steps", "tmp", "home"):
        (room / folder).mkdir()
    for number, step in enumerate(steps):
        if not step.left_out():
            (room / "steps" / f"{number:03}.sh").write_text(step.command + "\n")
    words = {"PATH": plain_path(), "TMPDIR": f"{room}/tmp", "steps": f"{room}/steps", "LC_ALL": "C"}
    # Where neither is told, parallel warns of the one and asks the shell that started it, which may be none, for the other.
    words |= {"HOME": f"{room}/home", "SHELL": "/bin/sh"}
    subprocess.run(["bash", "-c", RUN_STEPS], cwd=clone, env=os.environ | words, timeout=3600)
    return [_found(room / "steps" / f"{number:03}") for number in range(len(steps))]


def _found(place: Path) -> Found | None:
    status = place.with_suffix(".status")
    if not status.exists():
        return None
    return Found(place.with_suffix(".found").read_text(errors="replace"), int(status.read_text()))
