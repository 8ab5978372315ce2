"""Waiting for what is to come."""

from __future__ import annotations

import time
from collections.abc import Callable
from typing import TypeVar

# After which what hasn't come is missing. A start that takes two seconds takes a minute where a busy machine gives
# little of a processor, and where all is well nobody waits any longer for it.
SECONDS = 600
Found = TypeVar("Found")


def wait_for(find: Callable[[], Found], wanted: Callable[[Found], bool] = bool, seconds: float = SECONDS) -> Found:
    """What is found once it is as wanted, or at the end of the time."""
    last = time.monotonic() + seconds
    while not wanted(found := find()) and time.monotonic() < last:
        time.sleep(0.02)
    return found


def hold_within(seconds: float, attempt: Callable[[], None], tries: int = 5) -> None:
    """Attempts what is to hold within some seconds, which are a limit of the service's own. Where an attempt fails and
    has taken longer, the machine was too busy to tell, and another one is made."""
    for left in range(tries - 1, -1, -1):
        began = time.monotonic()
        try:
            attempt()
        except AssertionError as problem:
            if not left or time.monotonic() - began < seconds:
                raise
            print(f"attempted again, since {seconds} s went by: {problem}")
        else:
            return


def least_seconds(take: Callable[[], float], limit: float, tries: int = 8) -> float:
    """The least that something takes of a processor, in seconds, of as many tries as it needs to be below a limit.
    Other work on the machine takes the processor's caches, and a host may have it for others meanwhile, which the
    system doesn't tell apart: that adds to some tries, and what is slow itself is so in each."""
    found = take()
    for _ in range(tries - 1):
        if found < limit:
            break
        found = min(found, take())
    return found
