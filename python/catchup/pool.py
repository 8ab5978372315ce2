"""Processes of the program that threads share: whoever came first has the next free one."""

from __future__ import annotations

import threading
from collections.abc import Sequence

from catchup.program import Child


class Turn:
    """A thread's turn in the row: the child that it has, None while it waits and where it gets none any more."""

    __slots__ = ("child", "told")

    def __init__(self) -> None:
        self.child: Child | None = None
        # Held until the turn has a child, or can't get one.
        self.told = threading.Lock()
        self.told.acquire()


class Pool:
    """Children each of which one thread has at a time, in the order in which the threads came.

    Which children are free is nowhere stored: those are that no turn has. A turn is in the row before it gets one, and
    `end` may be called again. So an interrupt (KeyboardInterrupt), which may come between any two steps, neither loses a
    child nor leaves a turn behind. For that the lock is a plain one: a Condition's own steps can be broken off too.
    """

    def __init__(self, children: Sequence[Child]) -> None:
        self.children = list(children)
        self.closed = False
        self._lock = threading.Lock()
        self._ended = threading.Condition(self._lock)
        # By when they came. None gets a child before those that came earlier, so the ones that have one are the first.
        self._turns: dict[Turn, None] = {}

    def wait(self, turn: Turn) -> Child | None:
        """The child that a turn gets once all before it had theirs, or None where the pool is closed or none is left.

        Whatever comes of it, also an exception, the turn must be ended.
        """
        with self._lock:
            self._turns[turn] = None
            self._deal()
        turn.told.acquire()
        return turn.child

    def end(self, turn: Turn) -> None:
        """Takes a turn out of the row, and gives its child to who has waited longest."""
        with self._lock:
            self._turns.pop(turn, None)
            self._deal()

    def leave_out(self, child: Child) -> None:
        """Gives a child to no further turn."""
        with self._lock:
            self.children = [other for other in self.children if other is not child]
            self._deal()

    def close(self) -> None:
        """Wakes the turns that wait, and waits until those that have a child are ended."""
        with self._lock:
            self.closed = True
            self._deal()
            self._ended.wait_for(lambda: all(turn.child is None for turn in self._turns))
            self.children = []

    def _deal(self) -> None:
        """Gives the free children to the first turns that wait, or wakes all of them where there is none to wait for."""
        free = {} if self.closed else dict.fromkeys(self.children)
        is_over = not free
        for turn in self._turns:
            if turn.child is not None:
                free.pop(turn.child, None)
            elif free:
                turn.child, _ = free.popitem()
            elif not is_over:
                break
            # Also of one that an interrupt kept from being told, and again of one that works, which makes no difference.
            if turn.told.locked():
                turn.told.release()
        if self.closed:
            self._ended.notify_all()
