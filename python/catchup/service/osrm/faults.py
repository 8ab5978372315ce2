"""What a client of OSRM gets in place of an answer: a code of OSRM's, and a message that says what to do."""

from __future__ import annotations

from typing import Any


class Fault(Exception):
    """An error with a code of OSRM's, as `InvalidOptions`; the status of all of them is 400."""

    status = 400

    def __init__(self, code: str, message: str) -> None:
        super().__init__(code, message)
        self.code = code
        self.message = message

    def told(self) -> dict[str, Any]:
        """The answer's object."""
        return {"code": self.code, "message": self.message}
