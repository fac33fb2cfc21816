"""A decoded frame, as views of the memory that the decoder wrote."""
from __future__ import annotations

import enum
from typing import Any, Dict, Optional, Tuple

import numpy as np
import numpy.typing as npt

from ._faults import Refused
from ._library import CS, SESSION_NUMBERS, library
from ._session import Bytes, Numbers, Session, Sizes

Map = npt.NDArray[np.bool_]
"""Which tiles changed: rows and columns of tiles, the top row first."""


class Kind(str, enum.Enum):
    """The kind of a frame. It compares equal to its name.

    >>> wedgepetal.Kind.INTRA == "intra"
    True
    """

    INTRA = "intra"
    """Coded by itself: a key frame."""
    INTER = "inter"
    """Coded as a change of other frames."""
    REPEAT = "repeat"
    """The frame before once more: an empty packet."""

    def __str__(self) -> str:
        return self.value


class Lease:
    """What all views of a decoded frame hold on to: the memory is not written again before the last of them is gone."""

    __slots__ = ("memory", "__weakref__")

    def __init__(self, memory: Bytes) -> None:
        self.memory = memory

    @property
    def __array_interface__(self) -> Dict[str, Any]:
        """Bytes that can only be read."""
        return {"shape": self.memory.shape, "typestr": "|u1", "data": (self.memory.ctypes.data, True), "version": 3}


class Frame:
    """A frame of a shot.

    Its planes are numpy arrays of ``uint8``, the top row first, that can only be read. They are views of the memory
    into which the frame was decoded; nothing is copied. As long as a frame or one of its views is there, that memory is
    not written again.

    >>> with wedgepetal.open(recording) as shot:
    ...     frame = next(shot)
    >>> frame
    <Frame 0: intra, packet 3, 0.000000 s>
    >>> frame.y.shape, frame.cb.shape, frame.y.dtype
    ((80, 48), (40, 24), dtype('uint8'))
    >>> frame.y[0, 0] = 0
    Traceback (most recent call last):
    ValueError: assignment destination is read-only
    """

    __slots__ = ("number", "packet", "kind", "position", "time", "qi", "tokens", "key_frame", "since", "region",
                 "session", "changed", "_sizes", "_numbers", "_bytes")

    number: int
    """Which frame of the shot it is, from 0. Repeats count."""
    packet: int
    """The number of its packet in the stream, from 0; the first three are headers."""
    kind: Kind
    """Intra, inter or repeat."""
    position: int
    """Its place in time, counted in frames from 0, as the granule positions of the file say. In a whole recording that
    is its number; behind a gap it is not."""
    time: float
    """When it begins, in seconds."""
    qi: Tuple[int, ...]
    """Its one to three indices into the quantization tables; a repeat has none."""
    tokens: int
    """How many coefficient tokens its packet has."""
    key_frame: int
    """How many key frames came so far, itself included."""
    since: int
    """How many other frames came since the last key frame."""
    region: str
    """What its planes show: the "picture" or the whole "coded" frame."""
    session: Session
    """The session of its stream."""
    changed: Optional[Map]
    """In which tiles of the coded frame some sample differs from the frame before, if the shot was opened with `Settings`;
    all, where there is no frame before."""

    def __init__(self, lease: Lease, sizes: Sizes, numbers: Numbers, **fields: Any) -> None:
        self._bytes: Bytes = np.asarray(lease)
        self._sizes = sizes
        self._numbers = numbers
        for name, value in fields.items():
            setattr(self, name, value)

    def __repr__(self) -> str:
        return f"<Frame {self.number}: {self.kind}, packet {self.packet}, {self.time:.6f} s>"

    def plane(self, plane: int, region: Optional[str] = None) -> Bytes:
        """A plane: 0 is Y', 1 is Cb, 2 is Cr."""
        offset, width, height = self._sizes.planes[plane]
        whole = self._bytes[offset : offset + width * height].reshape(height, width)[::-1]
        return self.session.region(region or self.region, plane).cut(whole)

    @property
    def y(self) -> Bytes:
        """Luma."""
        return self.plane(0)

    @property
    def cb(self) -> Bytes:
        """Chroma, blue."""
        return self.plane(1)

    @property
    def cr(self) -> Bytes:
        """Chroma, red."""
        return self.plane(2)

    @property
    def planes(self) -> Tuple[Bytes, Bytes, Bytes]:
        """Y', Cb and Cr."""
        return self.y, self.cb, self.cr

    def rgb(self, colour_space: Optional[int] = None) -> Bytes:
        """Red, green and blue, by Rec. 470M: an array of height, width and 3, which is the caller's own.

        A colour space that is neither 1 nor 2 is refused. Where the recording does not say its own (0), the caller may
        know it.

        >>> with wedgepetal.open(recording) as shot:
        ...     frame = next(shot)
        >>> frame.rgb().shape
        (80, 48, 3)
        >>> frame.rgb(colour_space=0)
        Traceback (most recent call last):
        wedgepetal.Refused: refused by 18, CS is neither 1 nor 2
        """
        numbers = self._numbers.copy()
        if colour_space is not None:
            numbers[CS] = colour_space
        whole = self.session.region("coded", 0)
        out = np.empty((whole.height, whole.width, 3), np.uint8)
        written = np.zeros(1, np.uint64)
        number = library.wedgepetal_rgb(
            numbers.ctypes.data, SESSION_NUMBERS, self._bytes.ctypes.data, self._bytes.size,
            out.ctypes.data, out.size, written.ctypes.data, 1,
        )
        if number:
            raise Refused(number)
        return self.session.region(self.region, 0).cut(out)
