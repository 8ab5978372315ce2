"""Threads for what would hold up the loop."""

from __future__ import annotations

from concurrent.futures import ThreadPoolExecutor


class Threads(ThreadPoolExecutor):
    """Threads that are started as they are needed, up to so many. Where the system lets no more be started, those that
    are there do all: the call would fail, and its work, which waits for a thread by then, be done all the same."""

    def _adjust_thread_count(self) -> None:
        try:
            super()._adjust_thread_count()
        except (RuntimeError, MemoryError):
            if not self._threads:
                raise
