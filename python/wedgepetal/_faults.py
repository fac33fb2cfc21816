"""What can be wrong with a recording."""
from __future__ import annotations

from typing import Optional


class Fault(Exception):
    """Something is wrong with a recording. All other exceptions here are of this kind."""


class NoRecording(Fault):
    """The file is no Ogg file and no packet file, or has no Theora stream."""


class SeveralStreams(Fault):
    """The file has another Theora stream, and none was chosen: ``open(path, stream=2)`` reads the second."""


class Held(Fault):
    """The next frame needs the memory of an earlier frame that is still viewed, and ``held="refuse"`` was chosen."""


class Refused(Fault):
    """A packet or a call is refused.

    >>> with wedgepetal.open(damaged) as shot:
    ...     for frame in shot:
    ...         pass
    Traceback (most recent call last):
    wedgepetal.Refused: packet 9: refused by 4, a read passes the end of the packet, at bit 479
    """

    number: int
    """The number of the refusal, as docs/NUMBERS.md has it."""
    place: int
    """The bit of the packet at which the field at fault begins; 0 where no field of a packet is at fault."""
    packet: Optional[int]
    """The number of the packet in its stream, from 0; none where the refusal is that of no packet."""

    def __init__(self, number: int, place: int = 0, packet: Optional[int] = None) -> None:
        self.number = number
        self.place = place
        self.packet = packet
        super().__init__(number, place, packet)

    @property
    def text(self) -> str:
        """What the number means, as the library says it."""
        from ._library import text

        return text(self.number)

    @property
    def has_place(self) -> bool:
        """Whether it was found inside a packet, so that its place says where."""
        return 2 <= self.number <= 7 or 9 <= self.number <= 13

    def __str__(self) -> str:
        packet = "" if self.packet is None else f"packet {self.packet}: "
        place = f", at bit {self.place:,}" if self.has_place else ""
        return f"{packet}refused by {self.number}, {self.text}{place}"


class Gap(Fault):
    """Packets are missing: pages are lost or damaged, or the recording is cut short.

    No frame behind a gap is decoded before the next key frame, since the frames that it would need are not there.
    """

    what: str
    """What was met, and at which byte of the file."""
    packet: int
    """The number that the next packet has here. Lost packets have no numbers."""
    time: float
    """When the first lost frame begins, in seconds."""
    lost: Optional[int]
    """How many packets are lost; none if nothing behind the gap says so."""
    left_out: int
    """How many packets behind the gap were left out so far, because no key frame had come."""

    def __init__(self, what: str, packet: int, time: float, lost: Optional[int] = None) -> None:
        self.what = what
        self.packet = packet
        self.time = time
        self.lost = lost
        self.left_out = 0
        self._loses_packets = False
        super().__init__(what, packet, time, lost)

    def __str__(self) -> str:
        lost = "" if self.lost is None else f", packets lost: {self.lost}"
        return f"before packet {self.packet}, at {self.time:.6f} s: {self.what}{lost}"
