"""Server-sent events: which version is served, at once and whenever it changes."""

from __future__ import annotations

import asyncio
from collections.abc import AsyncIterator
from typing import TYPE_CHECKING, Any, Final

from starlette.responses import StreamingResponse

from catchup.service.answers import as_json
from catchup.service.errors import Refusal

if TYPE_CHECKING:
    from starlette.requests import Request

    from catchup.service.versions import Network
    from catchup.service.worker import Worker

LOOK_SECONDS: Final = 0.2
BEAT_SECONDS: Final = 10.0
MOST: Final = 512
"""Pages that follow, of one worker."""
KIND: Final = "text/event-stream"


class Followers:
    """The pages that follow the versions of a worker."""

    def __init__(self) -> None:
        self.count = 0

    def follow(self, worker: Worker, network: Network, request: Request) -> StreamingResponse:
        """An answer that goes on until the client is gone, or the service ends."""
        if self.count >= MOST:
            raise Refusal(503, "too many pages follow the edits", hint="the page asks by itself")
        headers = {"Cache-Control": "no-store", "X-Accel-Buffering": "no"}
        return StreamingResponse(self._told(worker, network, request), media_type=KIND, headers=headers)

    async def _told(self, worker: Worker, network: Network, request: Request) -> AsyncIterator[bytes]:
        self.count += 1
        loop = asyncio.get_running_loop()
        told: Any = None
        last = 0.0
        try:
            yield b"retry: 1000\n\n"
            while not worker.is_ending and not await request.is_disconnected():
                now = loop.time()
                if network.current.name != told:
                    told, last = network.current.name, now
                    yield b"event: version\ndata: %b\n\n" % as_json({"version": told})
                elif now - last > BEAT_SECONDS:
                    last = now
                    yield b": here\n\n"
                await asyncio.sleep(LOOK_SECONDS)
        finally:
            self.count -= 1
