"""Settings of the scoring scripts: the side of a tile, the plane, the shots."""
from __future__ import annotations

import os
from pathlib import Path
from typing import NamedTuple, Union

import numpy as np

from ._faults import Refused
from ._library import call, library
from ._session import Numbers


class Settings(NamedTuple):
    """Settings of the scoring scripts. What is out of range is refused by 20 where it is used.

    >>> wedgepetal.Settings(tile=8, plane=1)
    Settings(tile=8, shot_first=0, shot_last=0, plane=1)
    """

    tile: int = 16
    """The side of a tile in samples: 8, 16 or 32."""
    shot_first: int = 0
    """The first shot, at most the last."""
    shot_last: int = 0
    """The last shot, at most 999,999."""
    plane: int = 0
    """The plane: 0 is Y', 1 is Cb, 2 is Cr."""


def read_settings(text: Union[str, "os.PathLike[str]", bytes]) -> Settings:
    """Reads a text of settings, version 1 or 2, by its path or as bytes. A fault of the text is refused by 20.

    >>> wedgepetal.read_settings(b"version=1\\ntile=32\\nshot_first=3\\nshot_last=9\\n")
    Settings(tile=32, shot_first=3, shot_last=9, plane=0)
    >>> wedgepetal.read_settings(b"version=1\\ntile=7\\nshot_first=3\\nshot_last=9\\n")  # doctest: +ELLIPSIS
    Traceback (most recent call last):
    wedgepetal.Refused: refused by 20, settings out of range, ...
    """
    data = text if isinstance(text, bytes) else Path(text).read_bytes()
    numbers = np.zeros(4, np.uint64)
    number = library.wedgepetal_settings_read(2, data, len(data), numbers.ctypes.data, numbers.size)
    if number:
        raise Refused(number)
    return Settings(*(int(n) for n in numbers))


def numbers(settings: Settings) -> Numbers:
    """Settings as the library's calls take them."""
    if min(settings) < 0 or max(settings) >= 1 << 64:
        raise Refused(20)
    return np.array(settings, np.uint64)


def map_length(settings: Numbers, session: Numbers) -> int:
    """How many tiles a map has."""
    length = np.zeros(1, np.uint64)
    number = call("tiles_length", settings, session, length)
    if number:
        raise Refused(number)
    return int(length[0])
