"""What a recording is made of, counted by the library without making a frame."""
from __future__ import annotations

import json
from dataclasses import dataclass, field
from typing import Any, Dict, Iterable, List, Optional, Tuple, Union

import numpy as np

from . import _library as lib
from ._faults import NoRecording, Refused
from ._lent import Work, need
from ._library import call
from ._session import identification, sizes
from ._shot import Recording
from ._whole import Whole

REPORT_NUMBERS = 34
_KINDS = ("intra", "inter", "repeat")
_PLANES = ("y", "cb", "cr")
MODES = ("NOMV", "INTRA", "MV", "LAST", "LAST2", "GOLDEN_NOMV", "GOLDEN_MV", "FOUR")
"""The modes of macro blocks, 0 to 7."""


@dataclass(frozen=True)
class Census:
    """What recordings are made of. Reports add up.

    >>> one = wedgepetal.census(recording)
    >>> one.intra, one.inter, one.repeat, one.frames
    (1, 9, 4, 14)
    >>> (one + one).frames, sum([one, one, one]).frames
    (28, 42)
    """

    numbers: Tuple[int, ...] = (0,) * REPORT_NUMBERS
    """The report as the library gives it: packets by kind, refusals 1 to 17, coded and uncoded blocks by plane, macro
    blocks of inter frames by mode."""
    recordings: int = 0
    """Of how many recordings it is."""
    gaps: List[str] = field(default_factory=list, compare=False)
    """Where packets are missing. What is there is counted, also behind a gap: no frame is made."""
    notes: List[str] = field(default_factory=list, compare=False)
    """What was met that belongs to no stream."""

    @property
    def intra(self) -> int:
        """Accepted packets of key frames."""
        return self.numbers[0]

    @property
    def inter(self) -> int:
        """Accepted packets that change other frames."""
        return self.numbers[1]

    @property
    def repeat(self) -> int:
        """Accepted empty packets, which repeat a frame."""
        return self.numbers[2]

    @property
    def frames(self) -> int:
        """Accepted packets."""
        return sum(self.numbers[:3])

    @property
    def refusals(self) -> Dict[int, int]:
        """How many packets were refused by each number, of those that came."""
        return {number: count for number, count in enumerate(self.numbers[3:20], 1) if count}

    @property
    def coded(self) -> Tuple[int, int, int]:
        """Blocks of intra and inter frames that are coded, of Y', Cb and Cr."""
        y, cb, cr = self.numbers[20:23]
        return y, cb, cr

    @property
    def uncoded(self) -> Tuple[int, int, int]:
        """Blocks of intra and inter frames that are not coded, of Y', Cb and Cr."""
        y, cb, cr = self.numbers[23:26]
        return y, cb, cr

    @property
    def modes(self) -> Tuple[int, ...]:
        """Macro blocks of inter frames by their mode, 0 to 7."""
        return self.numbers[26:]

    def __add__(self, other: Union[Census, int]) -> Census:
        if other == 0:  # where sum() begins
            return self
        if not isinstance(other, Census):
            return NotImplemented
        numbers = tuple(a + b for a, b in zip(self.numbers, other.numbers))
        if max(numbers) >= 1 << 64:
            raise Refused(15)
        return Census(numbers, self.recordings + other.recordings, self.gaps + other.gaps, self.notes + other.notes)

    __radd__ = __add__

    @property
    def json(self) -> str:
        """The report as a line of JSON.

        >>> print(wedgepetal.census(recording).json[:74])
        {"recordings": 1, "packets": {"intra": 1, "inter": 9, "repeat": 4}, "refus
        """
        return json.dumps(self.fields())

    def fields(self) -> Dict[str, Any]:
        """The report as JSON has it. `Census.of` reads it."""
        return {
            "recordings": self.recordings,
            "packets": dict(zip(_KINDS, self.numbers)),
            "refusals": {str(number): count for number, count in self.refusals.items()},
            "coded": dict(zip(_PLANES, self.coded)),
            "uncoded": dict(zip(_PLANES, self.uncoded)),
            "modes": list(self.modes),
        }

    @classmethod
    def of(cls, fields: Union[str, Dict[str, Any]]) -> Census:
        """A report from its JSON.

        >>> one = wedgepetal.census(damaged)
        >>> one.refusals, wedgepetal.Census.of(one.json) == one
        ({4: 1}, True)
        """
        said = json.loads(fields) if isinstance(fields, str) else fields
        numbers = [said["packets"][kind] for kind in _KINDS]
        numbers += [said["refusals"].get(str(number), 0) for number in range(1, 18)]
        numbers += [said[name][plane] for name in ("coded", "uncoded") for plane in _PLANES]
        return cls((*numbers, *said["modes"]), said["recordings"])


def census(recordings: Union[Recording, Iterable[Recording]], *, stream: Optional[int] = None,
           max_memory: Optional[int] = None) -> Census:
    """Counts what a recording, or several, are made of: packets by kind, refusals, coded blocks, modes.

    >>> wedgepetal.census(recording).coded
    (487, 123, 120)
    >>> wedgepetal.census([recording, damaged]).recordings
    2

    A refused packet is counted by its number; nothing behind a refused header is. ``stream`` and ``max_memory`` are those
    of `open`.
    """
    if isinstance(recordings, (list, tuple)):
        return sum((_census(one, stream, max_memory) for one in recordings), Census())
    return _census(recordings, stream, max_memory)  # type: ignore[arg-type]


def _census(recording: Recording, stream: Optional[int], max_memory: Optional[int]) -> Census:
    whole = Whole(recording, stream)
    if not len(whole):
        raise NoRecording(f"there is no Theora stream{'' if stream is None else f' {stream}'}")
    try:
        session = identification(whole.first)[1]
        work, buffer = Work(session), sizes(session).buffer
        need(3 * buffer + work.bytes + lib.TABLE_BYTES, max_memory)
        slices = work.lend()
    except Refused:  # is counted
        buffer, slices = 0, Work.none()
    report = np.zeros(REPORT_NUMBERS, np.uint64)
    table, *buffers = (np.zeros(length, np.uint8) for length in (lib.TABLE_BYTES, buffer, buffer, buffer))
    number = call("census", whole.lengths, bytes(whole.packets), report, table, *slices, *buffers)
    if number:
        raise Refused(number)
    return Census(tuple(int(n) for n in report), 1, whole.gaps, whole.notes)
