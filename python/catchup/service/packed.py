"""What a packed file says of itself: its counts, its digest, its roads' ends and its profiles. Numbers are
little-endian."""
import hashlib
import os
import struct
from array import array
from dataclasses import dataclass
from typing import Final

HEADER: Final = struct.Struct("<8s5I3Q")      # magic, version, nodes, roads, profiles, edges, pieces, entries, length
DIGEST_BYTES: Final = 32
SHORT: Final = 12                       # digits of a digest that name a version


class NotPacked(Exception):
    """The file is no packed file: str() is one line."""


@dataclass(frozen=True, slots=True)
class Header:
    """A packed file's counts."""

    nodes: int
    roads: int
    profiles: int
    pieces: int

    @property
    def roads_at(self) -> int:
        """Where its roads begin, in bytes: tail, head and profile of four bytes each."""
        return HEADER.size + 8 * self.nodes

    @property
    def starts_at(self) -> int:
        """Where the profiles' first pieces are told, eight bytes each and one more."""
        return self.roads_at + 12 * self.roads

    @property
    def pieces_at(self) -> int:
        """Where the pieces begin: second, kind and value of four bytes each."""
        return self.starts_at + 8 * (self.profiles + 1)


def read_header(descriptor: int) -> Header:
    """The counts of an open packed file. The program checks the rest of it."""
    data = os.pread(descriptor, HEADER.size, 0)
    if len(data) < HEADER.size:
        raise NotPacked("file: short")
    magic, _version, nodes, roads, profiles, _edges, pieces, _entries, _length = HEADER.unpack(data)
    if magic != b"CATCHUPH":
        raise NotPacked("file: magic")
    return Header(nodes, roads, profiles, pieces)


def read_digest(descriptor: int) -> str:
    """The digest at an open packed file's end: 64 lower-case hexadecimal digits."""
    size = os.fstat(descriptor).st_size
    data = os.pread(descriptor, DIGEST_BYTES, size - DIGEST_BYTES) if size >= DIGEST_BYTES else b""
    if len(data) < DIGEST_BYTES:
        raise NotPacked("file: short")
    return data.hex()


def digest_of(path: str) -> str:
    """The digest at the end of the packed file of a path. Where a pipe stands there nobody is waited for."""
    descriptor = os.open(path, os.O_RDONLY | os.O_NONBLOCK)
    try:
        return read_digest(descriptor)
    finally:
        os.close(descriptor)


def read_exactly(descriptor: int, size: int, at: int) -> bytes:
    """That many bytes from a place on; NotPacked where the file ends before."""
    parts = []
    while size and (data := os.pread(descriptor, min(size, 1 << 26), at)):
        parts.append(data)
        size, at = size - len(data), at + len(data)
    if size:
        raise NotPacked("file: short")
    return b"".join(parts)


def read_roads(descriptor: int, header: Header) -> "array[int]":
    """Tail, head and profile of each road, one after the other."""
    return array("I", read_exactly(descriptor, 12 * header.roads, header.roads_at))


def shape_of(descriptor: int) -> bytes:
    """A checksum of the network's nodes and roads without their profiles: files with the same one are versions of
    one network."""
    header = read_header(descriptor)
    roads = read_roads(descriptor, header)
    found = hashlib.blake2b(struct.pack("<2I", header.nodes, header.roads), digest_size=16)
    found.update(roads[0::3])
    found.update(roads[1::3])
    return found.digest()
