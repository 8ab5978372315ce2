"""What is done in a turn of the loop, so that nobody's many requests or large bodies hold up another's one request.

A few requests are begun in each turn, and only one where the turn before took long: those of clients that wait, and
beside them one of a client that has hung up, and one whose body is large. Of large bodies a few pieces are taken in
each turn.
"""

from __future__ import annotations

import asyncio
import time
from collections import deque
from typing import Final, Protocol

PROMPT: Final = 4                       # requests that are begun in one turn
LONG_SECONDS: Final = 0.004             # from which on a turn took long
PIECES: Final = 4                       # pieces of large bodies that are taken in one turn
MOST_HUNG_UP: Final = 256               # requests that wait though their clients have hung up
MOST_LARGE: Final = 256                 # large bodies that wait or come at once


class Waiting(Protocol):
    """A request that waits to be begun."""

    is_closing: bool
    has_ended: bool
    is_large: bool

    def go(self) -> None:
        """Begins it."""

    def turn_away(self) -> None:
        """Lets its client go: too many wait."""


class Turns:
    """What waits for a turn in one worker."""

    def __init__(self) -> None:
        self.prompt: deque[Waiting] = deque()
        self.hung_up: deque[Waiting] = deque()
        self.large: deque[Waiting] = deque()
        self.coming: set[Waiting] = set()       # those whose large bodies wait or come
        self.pieces: deque[asyncio.Future[None]] = deque()
        self.is_due = False
        self.called = 0.0               # when the next turn was asked for

    def add(self, request: Waiting) -> None:
        """Begins a request in a turn to come."""
        if not request.is_large:
            self.put(request)
        elif len(self.coming) < MOST_LARGE:
            self.coming.add(request)
            self.large.append(request)
        else:
            request.turn_away()
        self.call()

    def put(self, request: Waiting) -> None:
        """Puts a request without a large body into its line."""
        if not request.has_ended:
            self.prompt.append(request)
        elif len(self.hung_up) < MOST_HUNG_UP:
            self.hung_up.append(request)
        else:
            request.turn_away()

    def forget(self, request: Waiting) -> None:
        """A large body is there, or its client is gone."""
        self.coming.discard(request)

    async def piece(self) -> None:
        """Waits for a turn to take a piece of a large body."""
        turn: asyncio.Future[None] = asyncio.get_running_loop().create_future()
        self.pieces.append(turn)
        self.call()
        await turn

    def call(self) -> None:
        if not self.is_due and (self.prompt or self.hung_up or self.large or self.pieces):
            self.is_due, self.called = True, time.monotonic()
            asyncio.get_running_loop().call_soon(self.turn)

    def turn(self) -> None:
        """Does a turn's share."""
        self.is_due = False
        self.begin_next(self.large)
        self.begin_next(self.hung_up)
        for _ in range(1 if time.monotonic() - self.called > LONG_SECONDS else PROMPT):
            self.begin_next(self.prompt)
        for _ in range(min(PIECES, len(self.pieces))):
            turn = self.pieces.popleft()
            if not turn.done():
                turn.set_result(None)
        self.call()

    def begin_next(self, line: deque[Waiting]) -> None:
        """Begins the first of a line whose client is there."""
        while line:
            request = line.popleft()
            if request.is_closing:
                continue
            if line is not self.prompt or not request.has_ended:
                request.go()
                return
            self.put(request)
