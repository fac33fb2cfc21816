"""The memory that the library is lent: how much that is, and whether there is so much."""
from __future__ import annotations

from typing import Any, List, Optional

import numpy as np
import numpy.typing as npt

from . import _library as lib
from ._faults import Refused
from ._library import call
from ._memory import free
from ._session import Numbers

# The element types of the ten slices of work memory.
_SLICES = (np.uint32, np.uint64, np.int16, np.int16, np.uint8, np.uint8, np.uint8, np.uint8, np.uint8, np.uint64)


class Work:
    """The work memory of a session."""

    def __init__(self, session: Numbers) -> None:
        self._lengths = np.zeros(lib.LENGTH_NUMBERS, np.uint64)
        number = call("work_lengths", session, self._lengths)
        if number:
            raise Refused(number)
        self.bytes = int(self._lengths[lib.WORK_BYTES])
        """How many bytes it has."""

    def lend(self) -> List[npt.NDArray[Any]]:
        """Its ten slices."""
        return [np.empty(int(n), dtype) for n, dtype in zip(self._lengths, _SLICES)]

    @staticmethod
    def none() -> List[npt.NDArray[Any]]:
        """Ten empty slices, where there is no session."""
        return [np.empty(0, dtype) for dtype in _SLICES]


def need(memory: int, most: Optional[int]) -> None:
    """Raises `MemoryError` if so many bytes are more than may be taken: what is free, unless another limit is given."""
    limit = free() if most is None else most
    if limit is not None and memory > limit:
        by = "are free here (max_memory sets another limit)" if most is None else "max_memory allows"
        raise MemoryError(f"decoding needs {memory} bytes, more than the {limit} that {by}")
