"""What an identification header says, and the sizes of frames."""
from __future__ import annotations

from dataclasses import dataclass
from fractions import Fraction
from typing import Dict, NamedTuple, Optional, Tuple

import numpy as np
import numpy.typing as npt

from ._faults import Refused
from ._library import BUFFER, PLANES, SESSION_NUMBERS, SIZE_NUMBERS, library

Numbers = npt.NDArray[np.uint64]
Bytes = npt.NDArray[np.uint8]

# Samples of luma for one of chroma, across and up, by pixel format.
_STEPS: Dict[int, Tuple[int, int]] = {0: (2, 2), 2: (2, 1), 3: (1, 1)}


class Region(NamedTuple):
    """A part of a plane, in samples, from its left and from its top."""

    left: int
    top: int
    width: int
    height: int

    def cut(self, plane: npt.NDArray[np.uint8]) -> npt.NDArray[np.uint8]:
        """This part of a plane whose first row is the top one. Nothing is copied."""
        return plane[self.top : self.top + self.height, self.left : self.left + self.width]


@dataclass(frozen=True)
class Session:
    """The fields of an identification header, by their names in the Theora specification.

    >>> with wedgepetal.open(recording) as shot:
    ...     print(shot.session.fmbw, shot.session.fmbh, shot.session.pf, shot.session.rate)
    3 5 0 25
    """

    vrev: int
    """Revision of version 3.2."""
    fmbw: int
    """Width of the coded frame in macro blocks of 16 samples."""
    fmbh: int
    """Height of the coded frame in macro blocks."""
    picw: int
    """Width of the picture, which is what should be shown of the frame."""
    pich: int
    """Height of the picture."""
    picx: int
    """The picture's distance from the left of the coded frame."""
    picy: int
    """The picture's distance from the bottom."""
    frn: int
    """Frames a second: numerator."""
    frd: int
    """Frames a second: denominator."""
    parn: int
    """Width of a sample over its height: numerator, 0 if unknown."""
    pard: int
    """Width of a sample over its height: denominator."""
    cs: int
    """Colour space: 0 unknown, 1 Rec. 470M, 2 Rec. 470BG."""
    nombr: int
    """Nominal bits a second."""
    qual: int
    """Quality hint."""
    kfgshift: int
    """Shift of the key frame number in a granule position."""
    pf: int
    """Pixel format: 0 is 4:2:0, 2 is 4:2:2, 3 is 4:4:4."""

    @property
    def rate(self) -> Fraction:
        """Frames a second, exact."""
        return Fraction(self.frn, self.frd)

    @property
    def aspect(self) -> Optional[Fraction]:
        """Width of a sample over its height; none if it is unknown."""
        return Fraction(self.parn, self.pard) if self.parn and self.pard else None

    def region(self, name: str, plane: int) -> Region:
        """What of a plane (0 Y', 1 Cb, 2 Cr) is taken: the whole coded frame, or the picture. Where the picture begins
        inside a chroma sample it begins with that sample."""
        across, up = (1, 1) if plane == 0 else _STEPS[self.pf]
        if name == "coded":
            return Region(0, 0, 16 * self.fmbw // across, 16 * self.fmbh // up)
        above = 16 * self.fmbh - self.picy - self.pich
        return Region(self.picx // across, above // up, -(-self.picw // across), -(-self.pich // up))


def identification(packet: bytes) -> Tuple[Session, Numbers]:
    """Reads a stream's first packet: the fields, and the session as the library's calls take it."""
    numbers = np.zeros(SESSION_NUMBERS, np.uint64)
    place = np.zeros(1, np.uint64)
    number = library.wedgepetal_identification(
        packet, len(packet), numbers.ctypes.data, SESSION_NUMBERS, place.ctypes.data, 1
    )
    if number:
        raise Refused(number, int(place[0]))
    return Session(*(int(n) for n in numbers[:16])), numbers


class Sizes(NamedTuple):
    """Where the planes lie in a plane buffer."""

    buffer: int
    """Bytes of a plane buffer."""
    planes: Tuple[Tuple[int, int, int], ...]
    """Of each plane: offset, width, height."""


def sizes(session: Numbers) -> Sizes:
    """The sizes of a session's frames."""
    numbers = np.zeros(SIZE_NUMBERS, np.uint64)
    number = library.wedgepetal_sizes(session.ctypes.data, SESSION_NUMBERS, numbers.ctypes.data, SIZE_NUMBERS)
    if number:
        raise Refused(number)
    n = [int(value) for value in numbers]
    planes = tuple((n[p + 2], 8 * n[p], 8 * n[p + 1]) for p in range(PLANES, SIZE_NUMBERS, 4))
    return Sizes(n[BUFFER], planes)
