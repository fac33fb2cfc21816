"""Whether a film is what a recording gives, to the byte."""
from __future__ import annotations

import mmap
import os
from dataclasses import dataclass
from pathlib import Path
from typing import List, Optional, Union

import numpy as np

from . import _library as lib
from ._faults import Gap, Refused
from ._session import Bytes, Numbers, sizes
from ._shot import Recording, open
from ._y4m import header

FRAME_LINE = 6
"""How long the line FRAME is, with its line feed."""


@dataclass(frozen=True)
class Passes:
    """The film is to the byte what the recording gives. It is true."""

    def __bool__(self) -> bool:
        return True


@dataclass(frozen=True)
class Differs:
    """The film differs. It is false."""

    byte: int
    """The first byte of the file that differs, from 0; its length, if it ends there."""
    frame: Optional[int] = None
    """In which frame that is, from 0; none in the first line, and behind the last frame."""
    plane: Optional[int] = None
    """In which plane: 0 is Y', 1 is Cb, 2 is Cr; none in a frame's line."""
    column: Optional[int] = None
    """In which column of the coded frame, from the left."""
    row: Optional[int] = None
    """In which row, from the top."""

    def __bool__(self) -> bool:
        return False

    def __str__(self) -> str:
        if self.frame is None:
            return f"differs at byte {self.byte:,}"
        if self.plane is None:
            return f"differs at byte {self.byte:,}: frame {self.frame}, its line"
        plane = ("Y'", "Cb", "Cr")[self.plane]
        return (f"differs at byte {self.byte:,}: frame {self.frame}, {plane}, column {self.column}, "
                f"row {self.row} from the top")


def check(recording: Recording, film: Union[str, "os.PathLike[str]", bytes], *, stream: Optional[int] = None,
          max_memory: Optional[int] = None) -> Union[Passes, Differs]:
    """Whether a YUV4MPEG2 file is to the byte what `write_y4m` writes for the recording, by the library's own comparison.

    >>> film = recording.with_suffix(".y4m")
    >>> _ = wedgepetal.write_y4m(recording, film)
    >>> wedgepetal.check(recording, film)
    Passes()
    >>> data = bytearray(film.read_bytes())
    >>> data[10_000] ^= 1
    >>> print(wedgepetal.check(recording, bytes(data)))
    differs at byte 10,000: frame 1, Cb, column 11, row 14 from the top

    A packet that is refused raises `Refused`, a missing one `Gap`. The other choices are those of `open`.
    """
    packets: List[bytes] = []
    with open(recording, stream=stream, max_memory=max_memory) as shot:
        for item in shot._coming:
            if isinstance(item, Gap):
                raise item
            packets.append(item.bytes)
        number, place, differs, answers = shot._decoder.check(*shot._headers, packets, _mapped(film))
    if number:
        raise Refused(number, place, _packet(answers, number))
    frames = int(np.count_nonzero(answers[:, lib.NUMBER] == 0))
    return _place(place, shot._decoder.session, frames) if differs else Passes()


def _packet(answers: Numbers, number: int) -> Optional[int]:
    """The number of the packet that was refused."""
    refused = np.flatnonzero(answers[:, lib.NUMBER])
    return 3 + int(refused[0]) if refused.size and int(answers[refused[0], lib.NUMBER]) == number else None


def _place(byte: int, session: Numbers, frames: int) -> Differs:
    """Where in the film a byte is."""
    begins, planes = len(header(session)), sizes(session)
    frame, rest = divmod(byte - begins, FRAME_LINE + planes.buffer)
    if byte < begins or frame >= frames:
        return Differs(byte)
    if rest < FRAME_LINE:
        return Differs(byte, frame)
    for plane, (offset, width, height) in enumerate(planes.planes):
        place = rest - FRAME_LINE - offset
        if place < width * height:
            break
    return Differs(byte, frame, plane, place % width, place // width)


def _mapped(film: Union[str, "os.PathLike[str]", bytes]) -> Bytes:
    """A file's bytes, mapped and not read; or bytes as they are. The map goes with its last view."""
    if isinstance(film, bytes):
        return np.frombuffer(film, np.uint8)
    with Path(film).open("rb") as opened:
        if os.fstat(opened.fileno()).st_size == 0:
            return np.zeros(0, np.uint8)
        return np.frombuffer(mmap.mmap(opened.fileno(), 0, access=mmap.ACCESS_READ), np.uint8)
