"""What a recording gives, one after the other."""
from __future__ import annotations

from typing import Generator, NamedTuple, Optional, Protocol, Union

from ._faults import NoRecording

HEADER = b"\x80theora"
"""How an identification header begins."""


class Begin(NamedTuple):
    """A Theora stream begins. They are numbered from 1."""

    number: int


class Packet(NamedTuple):
    """The next packet of the stream that is read."""

    bytes: bytes
    granule: Optional[int]
    """The granule position of the last packet that ends on its page."""
    behind: int
    """How many packets end on that page behind this one."""


class Hole(NamedTuple):
    """The stream does not go on as it should."""

    what: str
    loses_packets: bool


class End(NamedTuple):
    """The stream ends, and what is wrong with its end."""

    what: Optional[str]


class Foreign(NamedTuple):
    """Something that belongs to no stream."""

    what: str


Part = Union[Begin, Packet, Hole, End, Foreign]


class Source(Protocol):
    """A file, as much of it as is needed here."""

    def read(self, size: int, /) -> bytes:
        """At most so many bytes; none at the end."""


def parts(file: Source, chosen: Optional[int]) -> Generator[Part, None, None]:
    """The parts of a recording: an Ogg file or a packet file."""
    first = _most(file, 11)
    begun = _Begun(file, first)
    if first.startswith(b"OggS"):
        from . import _ogg

        return _ogg.parts(begun, chosen)
    if first[4:] == HEADER:
        return _packet_file(begun, chosen)
    raise NoRecording("no Ogg file and no packet file")


class _Begun:
    """A file whose first bytes were read already."""

    def __init__(self, file: Source, first: bytes) -> None:
        self._file, self._first = file, first

    def read(self, size: int, /) -> bytes:
        taken, self._first = self._first[:size], self._first[size:]
        return taken or self._file.read(size)


def _most(file: Source, length: int) -> bytes:
    """So many bytes, or fewer if the file ends."""
    chunks = []
    while length > 0:
        chunk = file.read(min(length, 1 << 20))
        if not chunk:
            break
        chunks.append(chunk)
        length -= len(chunk)
    return b"".join(chunks)


def _packet_file(file: Source, chosen: Optional[int]) -> Generator[Part, None, None]:
    """Each packet as its length in 4 bytes, the least significant first, and its bytes."""
    yield Begin(1)
    if chosen not in (None, 1):
        return
    place = 0
    while True:
        said = _most(file, 4)
        if not said:
            yield End(None)
            return
        length = int.from_bytes(said, "little")
        packet = _most(file, length)
        if len(said) < 4 or len(packet) < length:
            yield End(f"the file is cut short inside a packet, at byte {place}")
            return
        place += 4 + length
        yield Packet(packet, None, 0)
