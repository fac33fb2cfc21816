"""How far a run is, on the standard error."""
from __future__ import annotations

import sys
import time
from typing import Dict, Optional

from ._jobs import WHOLE, Line


class Progress:
    """Says how many shots are done, and how long it will take; time goes by the bytes of the shots."""

    def __init__(self, shots: Dict[str, int], shown: Optional[bool] = None) -> None:
        self._shots, self._all = shots, sum(shots.values()) or 1
        self._shown = sys.stderr.isatty() if shown is None else shown
        self._begun = self._said = time.monotonic()
        self._done = self._bytes = self._faults = 0

    def add(self, line: Line) -> None:
        """A shot is done."""
        self._done += 1
        self._bytes += self._shots[line["shot"]]
        self._faults += line["status"] != WHOLE
        now = time.monotonic()
        if self._shown and (now - self._said > 0.5 or self._done == len(self._shots)):
            self._said = now
            left = (now - self._begun) * (self._all / max(self._bytes, 1) - 1)
            print(f"\r{self.text(left)}\x1b[K", end="", file=sys.stderr, flush=True)

    def text(self, left: float) -> str:
        """A line of words."""
        faults = f", not whole: {self._faults:,}" if self._faults else ""
        return f"{self._done:,} of {len(self._shots):,} shots, {100 * self._bytes // self._all} %, {_span(left)} left{faults}"

    def end(self) -> None:
        if self._shown and self._done:
            print(file=sys.stderr)


def _span(seconds: float) -> str:
    """So much time.

    >>> _span(4.2), _span(90), _span(4000), _span(200_000)
    ('4 s', '1 min 30 s', '1 h 6 min', '2 d 7 h')
    """
    whole = int(seconds)
    for unit, size, smaller, part in (("d", 86400, "h", 3600), ("h", 3600, "min", 60), ("min", 60, "s", 1)):
        if whole >= size:
            return f"{whole // size} {unit} {whole % size // part} {smaller}"
    return f"{whole} s"
