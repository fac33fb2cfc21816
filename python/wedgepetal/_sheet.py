"""What is said of a shot on its page, in one pass over its frames."""
from __future__ import annotations

import os
from typing import List, NamedTuple, Optional, Union

import numpy as np

from ._census import census
from ._faults import Gap, Refused
from ._frame import Frame, Kind
from ._session import Bytes, Session
from ._settings import Settings
from ._shot import Answered, open
from ._tiles import BATCH

MOST_THUMBNAILS = 16
THUMBNAIL_WIDTH = 240


class Line(NamedTuple):
    """An accepted packet."""

    packet: int
    position: int
    time: float
    kind: Kind
    tokens: int
    changed: int
    """How many tiles changed; none if there is no frame before it."""
    is_compared: bool


class Thumbnail(NamedTuple):
    """A frame in small."""

    number: int
    time: float
    picture: Bytes


class Sheet:
    """A shot, frame by frame."""

    session: Session
    memory: int
    refused: List[Refused]
    gaps: List[Gap]
    notes: List[str]

    def __init__(self, recording: Union[str, "os.PathLike[str]"], settings: Settings, colour_space: Optional[int], stream: Optional[int],
                 max_memory: Optional[int]) -> None:
        self.settings = settings
        self.lines: List[Line] = []
        self.thumbnails: List[Thumbnail] = []
        self._every = 1
        with open(recording, on_refusal="skip", on_gap="key-frame", stream=stream, max_memory=max_memory,
                  tiles=settings) as shot:
            self.session, self.memory, self.rate = shot.session, shot.memory, shot.rate
            cs = shot.session.cs if colour_space is None else colour_space
            self.colour_space = cs if cs in (1, 2) else None
            """By which thumbnails are in colour; else they are luma alone."""
            self.count = np.zeros(shot._decoder.tile_rows_and_columns, np.int64)
            """In how many frames each tile changed, of those that have a frame before them; the top row first."""
            for batch in shot._batches(self._until_next):
                self._take(batch)
                if batch and (len(self.lines) - 1) % self._every == 0:
                    self._show(shot._shown())
            self.refused, self.gaps, self.notes = shot.refused, shot.gaps, shot.notes
        self.census = census(recording, stream=stream, max_memory=max_memory)

    def _until_next(self) -> int:
        """How many packets to decode in a call, so that the next frame that is shown is its last."""
        return min(BATCH, -len(self.lines) % self._every + 1)

    def _take(self, batch: List[Answered]) -> None:
        for packet, time, kind, tokens, changed, is_compared in batch:
            assert changed is not None
            if is_compared:
                self.count += changed
            count = int(np.count_nonzero(changed)) if is_compared else 0
            self.lines.append(Line(packet.number, packet.position, time, kind, tokens, count, is_compared))

    def _show(self, frame: Frame) -> None:
        """Shows the last frame."""
        self.thumbnails.append(Thumbnail(len(self.lines) - 1, self.lines[-1].time, self._small(frame)))
        if len(self.thumbnails) > MOST_THUMBNAILS:  # every second one goes
            del self.thumbnails[1::2]
            self._every *= 2

    def _small(self, frame: Frame) -> Bytes:
        """Every so many samples across and down, as they are."""
        step = -(-frame.y.shape[1] // THUMBNAIL_WIDTH)
        whole = frame.y if self.colour_space is None else frame.rgb(self.colour_space)
        return whole[::step, ::step].copy()

    @property
    def tiles(self) -> int:
        """How many tiles a frame has."""
        return int(self.count.size)

    @property
    def compared(self) -> int:
        """How many frames have a frame before them."""
        return sum(line.is_compared for line in self.lines)

    def of_kind(self, kind: Kind) -> int:
        """How many frames are of a kind."""
        return sum(line.kind is kind for line in self.lines)

    @property
    def is_whole(self) -> bool:
        """Whether nothing was refused and nothing is missing."""
        return not (self.refused or self.gaps or self.notes)
