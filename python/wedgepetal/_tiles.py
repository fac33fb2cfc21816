"""Which tiles of a shot changed, frame by frame."""
from __future__ import annotations

from typing import Any, List, Optional

import numpy as np
import numpy.typing as npt

from ._faults import Gap, Refused
from ._frame import Kind, Map
from ._session import Session
from ._settings import Settings
from ._shot import Recording, Shot, open

BATCH = 64
"""How many packets are decoded in a call."""


class Tiles:
    """The maps of changed tiles of a shot. `tiles` gives one, and `numpy.asarray` its maps."""

    settings: Settings
    """The side of the tiles and the plane."""
    session: Session
    """What the identification header says."""
    maps: Map
    """Frames, rows, columns: whether some sample of the tile differs from the frame before, the top row first. Tiles cut
    the whole coded frame, from its lower left corner on; those at the right and at the top may be partial. Where there is
    no frame before (the first frame, and the first behind a gap) all are changed."""
    compared: npt.NDArray[np.bool_]
    """Whether there is a frame before each frame."""
    kinds: List[Kind]
    """The kind of each frame."""
    packets: npt.NDArray[np.int64]
    """The number of each frame's packet, from 0; the first three are headers."""
    times: npt.NDArray[np.float64]
    """When each frame begins, in seconds."""
    tokens: npt.NDArray[np.int64]
    """How many coefficient tokens each frame's packet has."""
    refused: List[Refused]
    """The packets that are refused. They are no frames, and have no map."""
    gaps: List[Gap]
    """Where packets are missing."""
    notes: List[str]
    """What was met that belongs to no stream."""

    def __init__(self, shot: Shot, settings: Settings) -> None:
        self.settings, self.session = settings, shot.session
        maps, packets, times, tokens, compared = [], [], [], [], []
        self.kinds = []
        for batch in shot._batches(lambda: BATCH):
            for packet, time, kind, count, changed, is_compared in batch:
                assert changed is not None
                maps.append(changed)
                packets.append(packet.number)
                times.append(time)
                self.kinds.append(kind)
                tokens.append(count)
                compared.append(is_compared)
        self.maps = np.stack(maps) if maps else np.zeros((0, *shot._decoder.tile_rows_and_columns), np.bool_)
        self.packets, self.tokens = np.array(packets, np.int64), np.array(tokens, np.int64)
        self.times, self.compared = np.array(times, np.float64), np.array(compared, np.bool_)
        self.refused, self.gaps, self.notes = shot.refused, shot.gaps, shot.notes

    def __array__(self, dtype: Any = None) -> npt.NDArray[Any]:
        return np.asarray(self.maps, dtype)

    def __len__(self) -> int:
        return len(self.maps)

    def __repr__(self) -> str:
        _, rows, columns = self.maps.shape
        return f"<Tiles of {len(self)} frames, {columns} by {rows} tiles of {self.settings.tile} samples>"

    @property
    def share(self) -> npt.NDArray[np.float64]:
        """Of each frame the share of its tiles that changed, 0 to 1."""
        share: npt.NDArray[np.float64] = self.maps.mean(axis=(1, 2))
        return share

    @property
    def count(self) -> npt.NDArray[np.int64]:
        """Rows, columns: in how many frames each tile changed, of those that have a frame before them."""
        count: npt.NDArray[np.int64] = self.maps[self.compared].sum(axis=0, dtype=np.int64)
        return count


def tiles(recording: Recording, settings: Settings = Settings(), *, on_refusal: str = "raise", on_gap: str = "raise",
          stream: Optional[int] = None, max_memory: Optional[int] = None) -> Tiles:
    """Which tiles of each frame changed, of a whole shot.

    >>> tiles = wedgepetal.tiles(recording, wedgepetal.Settings(tile=16))
    >>> tiles
    <Tiles of 14 frames, 3 by 5 tiles of 16 samples>
    >>> tiles.maps[2].astype(int)
    array([[1, 1, 1],
           [1, 1, 1],
           [1, 1, 1],
           [1, 1, 1],
           [1, 1, 1]])
    >>> wedgepetal.tiles(recording, wedgepetal.Settings(tile=7))  # doctest: +ELLIPSIS
    Traceback (most recent call last):
    wedgepetal.Refused: refused by 20, settings out of range, ...

    The other choices are those of `open`. With ``on_refusal="skip"`` and ``on_gap="key-frame"`` what was refused or is
    missing stands in ``refused`` and ``gaps``.
    """
    with open(recording, on_refusal=on_refusal, on_gap=on_gap, stream=stream, max_memory=max_memory,
              tiles=settings) as shot:
        return Tiles(shot, settings)
