"""Files that have their name once they are whole."""
from __future__ import annotations

import contextlib
import os
from pathlib import Path
from typing import BinaryIO, Iterator, Union


@contextlib.contextmanager
def whole_file(out: Union[str, "os.PathLike[str]"]) -> Iterator[BinaryIO]:
    """A file to write. It has a temporary name until the block ends well, else it is removed."""
    place = Path(out)
    part = place.with_name(f"{place.name}.{os.getpid()}.part")
    try:
        with part.open("wb") as file:
            yield file
        part.replace(place)
    finally:
        part.unlink(missing_ok=True)
