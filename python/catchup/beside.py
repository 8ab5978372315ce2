"""Long work beside the loop, so that whoever else waits for the loop isn't held up."""

from __future__ import annotations

import asyncio
from collections.abc import Callable
from typing import Final, ParamSpec, TypeVar

Words = ParamSpec("Words")
Found = TypeVar("Found")

FEW: Final = 1_024
"""Steps that are done in the loop itself: they take some milliseconds."""


async def beside(steps: int, work: Callable[Words, Found], *words: Words.args, **named: Words.kwargs) -> Found:
    """What `work` answers. It takes so many steps of some microseconds each; where these are many a thread does it."""
    if steps <= FEW:
        return work(*words, **named)
    return await asyncio.to_thread(work, *words, **named)
