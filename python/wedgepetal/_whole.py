"""A recording's packets, all at once, for the calls that take them so."""
from __future__ import annotations

from typing import List, Optional

import numpy as np

from ._faults import SeveralStreams
from ._parts import Begin, End, Foreign, Hole, Packet, parts
from ._session import Numbers
from ._shot import Recording, opened


class Whole:
    """The packets of a stream, its three headers first."""

    def __init__(self, recording: Recording, stream: Optional[int]) -> None:
        self.gaps: List[str] = []
        """Where packets are missing."""
        self.notes: List[str] = []
        """What belongs to no stream."""
        self.first = b""
        """The first packet."""
        self._lengths: List[int] = []
        self.packets = bytearray()
        """All packets, one behind the other."""
        file, source = opened(recording)
        try:
            for part in parts(source, stream):
                if isinstance(part, Packet):
                    self._take(part.bytes)
                elif isinstance(part, Begin):
                    if stream is None and part.number > 1:
                        raise SeveralStreams("the file has another Theora stream; stream=1 or stream=2 chooses one")
                elif isinstance(part, Foreign):
                    self.notes.append(part.what)
                elif isinstance(part, (Hole, End)) and part.what is not None:
                    self.gaps.append(f"before packet {len(self._lengths)}: {part.what}")
        finally:
            if file is not None:
                file.close()

    def _take(self, packet: bytes) -> None:
        if not self._lengths:
            self.first = packet
        self._lengths.append(len(packet))
        self.packets += packet

    def __len__(self) -> int:
        return len(self._lengths)

    @property
    def lengths(self) -> Numbers:
        """The lengths of the packets."""
        return np.array(self._lengths, np.uint64)
