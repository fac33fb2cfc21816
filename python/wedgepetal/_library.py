"""The shared library, and its calls as include/wedgepetal.h declares them."""
from __future__ import annotations

import ctypes
import os
from pathlib import Path
from typing import Any, Dict, Iterator, List, Tuple, Union

import numpy as np
import numpy.typing as npt

VERSION = "0.1.0"
FILE = "libwedgepetal.so.0"

SESSION_NUMBERS = 19
SIZE_NUMBERS = 16
LENGTH_NUMBERS = 11
ANSWER_NUMBERS = 8
TABLE_BYTES = 28184
Y4M_HEADER_BYTES = 82

CS, REFERENCES, KEY_FRAMES, OTHERS = 11, 16, 17, 18
GOLDEN, PREVIOUS = 0, 1
BUFFER, PLANES = 3, 4
WORK_BYTES = 10
NUMBER, PLACE, KIND, QI_COUNT, QIS, TOKENS = 0, 1, 2, 3, 4, 7
NO_REFERENCES = 9

# How many lists each call takes: a list is a pointer and its length.
_LISTS: Dict[str, int] = {
    "wedgepetal_identification": 3,
    "wedgepetal_setup": 3,
    "wedgepetal_sizes": 2,
    "wedgepetal_work_lengths": 2,
    "wedgepetal_shot": 19,
    "wedgepetal_rgb": 4,
    "wedgepetal_y4m_header": 3,
    "wedgepetal_y4m_frame": 4,
    "wedgepetal_tiles_length": 3,
    "wedgepetal_tiles_shot": 21,
    "wedgepetal_check": 21,
    "wedgepetal_census": 17,
}


def _places() -> Iterator[str]:
    """Where the library may be: as the variable WEDGEPETAL_LIBRARY says, beside this file (as pip installs it), where
    ``make`` builds it in a checkout, or where the system has it."""
    given = os.environ.get("WEDGEPETAL_LIBRARY")
    if given:
        yield given
        return
    here = Path(__file__).resolve().parent
    for folder in (here, here.parents[1] / "target" / "lib"):
        if (folder / FILE).exists():
            yield str(folder / FILE)
    yield FILE


def _load() -> ctypes.CDLL:
    why: List[str] = []
    for place in _places():
        try:
            library = ctypes.CDLL(place)
            break
        except OSError as error:
            why.append(str(error))
    else:
        raise ImportError(f"{FILE} cannot be loaded; `make` builds it, `make install` installs it: {'; '.join(why)}")
    library.wedgepetal_version.restype = ctypes.c_char_p
    library.wedgepetal_version.argtypes = []
    library.wedgepetal_refusal_text.restype = ctypes.c_char_p
    library.wedgepetal_refusal_text.argtypes = [ctypes.c_uint32]
    found = library.wedgepetal_version().decode()
    if found.split(".")[:2] != VERSION.split(".")[:2]:
        raise ImportError(f"{library._name} is version {found}, and this module is for version {VERSION}")
    for name, count in _LISTS.items():
        function = getattr(library, name)
        function.restype = ctypes.c_uint32
        function.argtypes = [ctypes.c_void_p, ctypes.c_size_t] * count
    library.wedgepetal_settings_read.restype = ctypes.c_uint32
    library.wedgepetal_settings_read.argtypes = [ctypes.c_uint64] + [ctypes.c_void_p, ctypes.c_size_t] * 2
    return library


library = _load()


Lent = Union[npt.NDArray[Any], bytes]
"""What the library takes as a list."""


def call(name: str, *lists: Lent) -> int:
    """Calls the library with lists, each as a pointer and a length; they are held on to meanwhile."""
    arrays = [np.frombuffer(given, np.uint8) if isinstance(given, bytes) else given for given in lists]
    return int(getattr(library, f"wedgepetal_{name}")(*(n for array in arrays for n in (array.ctypes.data, array.size))))


def text(number: int) -> str:
    """What the number of a refusal means."""
    return str(library.wedgepetal_refusal_text(number).decode())


def version() -> Tuple[str, str]:
    """The version of the library and the file it was loaded from."""
    return library.wedgepetal_version().decode(), library._name
