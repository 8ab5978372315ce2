"""Hints: what a client gets with a place, and gives back to have it found at once.

A hint is of one map and of one place. It is passed over where it is of another, or no hint at all: then the place is
searched for.
"""

from __future__ import annotations

import base64
import binascii
import struct
import zlib
from typing import Final

from catchup.places import Place, Places, Snap
from catchup.places.streets import Streets

_FORM: Final = struct.Struct("<iiId")   # longitude and latitude in millionths of a degree, the street, the share of it
_CHECK: Final = struct.Struct("<I")
LETTERS: Final = 4 * (_FORM.size + _CHECK.size) // 3


class Hints:
    """The hints of a map."""

    def __init__(self, streets: Streets) -> None:
        self.key = zlib.crc32(streets.places.tobytes(), zlib.crc32(streets.first.tobytes()))

    def written(self, snap: Snap) -> str:
        """The hint of a place that was found."""
        said = _FORM.pack(*millionths(snap.place), snap.street, snap.share)
        return base64.urlsafe_b64encode(said + _CHECK.pack(zlib.crc32(said, self.key))).decode("ascii")

    def read(self, hint: str, place: Place, places: Places) -> Snap | None:
        """Where a hint says that a place is; None where it is no hint of this place and map."""
        if len(hint) != LETTERS:
            return None
        try:
            said = base64.b64decode(hint, b"-_", validate=True)
        except (binascii.Error, ValueError):
            return None
        *asked, street, share = _FORM.unpack_from(said)
        [check] = _CHECK.unpack_from(said, _FORM.size)
        is_ours = check == zlib.crc32(said[:_FORM.size], self.key) and tuple(asked) == millionths(place)
        return places.hinted(place, street, share) if is_ours else None


def millionths(place: Place) -> tuple[int, int]:
    """A place as OSRM keeps it."""
    return round(place[0] * 1e6), round(place[1] * 1e6)
