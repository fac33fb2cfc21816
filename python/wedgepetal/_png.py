"""Pictures as PNG files, without a library."""
from __future__ import annotations

import base64
import struct
import zlib
from typing import Any, Optional

import numpy as np
import numpy.typing as npt


def png(picture: npt.NDArray[Any], palette: Optional[npt.NDArray[Any]] = None) -> bytes:
    """Rows of grey values, of red, green and blue, or of numbers of a palette; 8 bits each."""
    rows = np.ascontiguousarray(picture, np.uint8)
    colour = 3 if palette is not None else 0 if rows.ndim == 2 else 2
    height, width = rows.shape[:2]
    lines = np.zeros((height, 1 + rows[0].size), np.uint8)  # a filter byte, which is 0, before each
    lines[:, 1:] = rows.reshape(height, -1)
    parts = [_chunk(b"IHDR", struct.pack(">IIBBBBB", width, height, 8, colour, 0, 0, 0))]
    if palette is not None:
        parts.append(_chunk(b"PLTE", np.ascontiguousarray(palette, np.uint8).tobytes()))
    parts += [_chunk(b"IDAT", zlib.compress(lines.tobytes(), 9)), _chunk(b"IEND", b"")]
    return b"\x89PNG\r\n\x1a\n" + b"".join(parts)


def _chunk(kind: bytes, data: bytes) -> bytes:
    return struct.pack(">I", len(data)) + kind + data + struct.pack(">I", zlib.crc32(kind + data))


def in_page(file: bytes) -> str:
    """A PNG file as an address that holds it."""
    return "data:image/png;base64," + base64.b64encode(file).decode()
