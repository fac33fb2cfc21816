"""How much memory is free: on the machine, and in the control group of this process."""
from __future__ import annotations

import re
from pathlib import Path
from typing import Iterator, Optional

# Where control groups are, in version 2 and in version 1: the line of the process, the folder below the root, the files of
# the limit and of what is taken.
_GROUPS = (
    (r"^\d+::/(.*)$", "sys/fs/cgroup", "memory.max", "memory.current"),
    (r"^\d+:memory:/(.*)$", "sys/fs/cgroup/memory", "memory.limit_in_bytes", "memory.usage_in_bytes"),
)


def free(root: Path = Path("/")) -> Optional[int]:
    """So many bytes are free; none where nothing says it."""
    return min(_limits(root), default=None)


def _limits(root: Path) -> Iterator[int]:
    said = re.search(r"^MemAvailable: *(\d+) kB$", _text(root / "proc/meminfo"), re.M)
    if said:
        yield 1024 * int(said[1])
    for line, place, limit, taken in _GROUPS:
        group = re.search(line, _text(root / "proc/self/cgroup"), re.M)
        folder = root / place / group[1] if group else None
        while folder is not None and folder != (root / place).parent:
            most, used = _text(folder / limit).strip(), _text(folder / taken).strip()
            if most.isdigit():
                yield max(int(most) - (int(used) if used.isdigit() else 0), 0)
            folder = folder.parent


def _text(path: Path) -> str:
    """What a file says; nothing if it is not there."""
    try:
        return path.read_text()
    except OSError:
        return ""
