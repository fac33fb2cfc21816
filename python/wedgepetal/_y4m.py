"""Frames as a YUV4MPEG2 stream, by the library's own calls."""
from __future__ import annotations

import os
from typing import BinaryIO, Callable, Optional, Union

import numpy as np

from ._faults import Refused
from ._files import whole_file
from ._frame import Frame
from ._library import SESSION_NUMBERS, Y4M_HEADER_BYTES, library
from ._session import Bytes, Numbers
from ._shot import Recording, Shot, open

Output = Union[str, "os.PathLike[str]", BinaryIO]


def _written(call: Callable[..., int], room: int, *lists: Union[int, Bytes]) -> Bytes:
    """What a call writes into so much room."""
    out, written = np.empty(room, np.uint8), np.zeros(1, np.uint64)
    number = call(*lists, out.ctypes.data, room, written.ctypes.data, 1)
    if number:
        raise Refused(number)
    return out[: int(written[0])]


def header(session: Numbers) -> Bytes:
    """The first line of a session's film."""
    return _written(library.wedgepetal_y4m_header, Y4M_HEADER_BYTES, session.ctypes.data, SESSION_NUMBERS)


def _frame(frame: Frame) -> Bytes:
    session, planes = frame._numbers, frame._bytes
    lists = (session.ctypes.data, SESSION_NUMBERS, planes.ctypes.data, planes.size)
    return _written(library.wedgepetal_y4m_frame, 6 + planes.size, *lists)


def write_y4m(recording: Recording, out: Output, *, on_refusal: str = "raise", on_gap: str = "raise",
              stream: Optional[int] = None, max_memory: Optional[int] = None) -> int:
    """Writes the frames of a recording, whole as they are coded, as a YUV4MPEG2 stream, which players and FFmpeg take.
    Gives the number of frames.

    >>> wedgepetal.write_y4m(recording, recording.with_suffix(".y4m"))
    14
    >>> recording.with_suffix(".y4m").read_bytes()[:45]
    b'YUV4MPEG2 W48 H80 F25:1 Ip A0:0 C420jpeg\\nFRAM'

    A file has its name once it is whole. The other choices are those of `open`.
    """
    if not isinstance(out, (str, os.PathLike)):
        return _write(recording, out, on_refusal, on_gap, stream, max_memory)
    with whole_file(out) as file:
        return _write(recording, file, on_refusal, on_gap, stream, max_memory)


def _write(recording: Recording, out: BinaryIO, on_refusal: str, on_gap: str, stream: Optional[int],
           max_memory: Optional[int]) -> int:
    with open(recording, on_refusal=on_refusal, on_gap=on_gap, stream=stream,
              max_memory=max_memory) as shot:
        return write_frames(shot, out)


def write_frames(shot: Shot, out: BinaryIO) -> int:
    """Writes a film of the frames of a shot that is open. Gives their number."""
    count = 0
    out.write(header(shot._decoder.session).data)
    for frame in shot:
        out.write(_frame(frame).data)
        count += 1
    return count
