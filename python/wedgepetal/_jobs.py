"""The work on one shot of an archive: what is made of it, and the line that says how it went."""
from __future__ import annotations

import glob
import os
import time
from collections import Counter
from pathlib import Path
from typing import Any, Callable, Dict, List, NamedTuple, Optional, Sequence

import numpy as np

from ._census import census
from ._check import check
from ._faults import Fault, Gap, Refused
from ._files import whole_file
from ._report import report
from ._settings import Settings
from ._shot import Shot, open
from ._tiles import tiles
from ._y4m import write_frames

Line = Dict[str, Any]
"""How it went with a shot: its name, its status and what there is to say."""

WHOLE, FAULTS, DIFFERS, FAILED, DIED = "whole", "faults", "differs", "failed", "died"
"""All is well; something was refused or is missing; a film differs; the shot could not be read, or nothing could be written;
the process that worked on it ended."""
FIRST = 20
"""So many refusals, gaps and notes of a shot are written out; all are counted."""


class Job(NamedTuple):
    """What is done with every shot of an archive."""

    verb: str
    """census, tiles, y4m, check or report."""
    root: str
    """The folder that names of shots are relative to."""
    out: str
    """The folder of what is made."""
    settings: Settings = Settings()
    """The tiles of `tiles` and `report`."""
    films: Optional[str] = None
    """The folder of the films of `check`: NAME.y4m for each shot NAME.ogv."""
    colour_space: Optional[int] = None
    max_memory: Optional[int] = None

    def place(self, shot: str, suffix: str) -> Path:
        """Where what is made of a shot stands."""
        return Path(self.out) / self.verb / Path(shot).with_suffix(suffix)


def do(job: Job, shot: str) -> Line:
    """Does the work on a shot. Whatever is wrong with it is said in the line."""
    path = Path(job.root) / shot
    begun = time.monotonic()
    line: Line = {"shot": shot, "verb": job.verb, "status": FAILED}
    try:
        seen = path.stat()
        line.update(bytes=seen.st_size, changed=seen.st_mtime_ns)
        line.update(VERBS[job.verb](job, shot, path))
    except (Fault, OSError, MemoryError, ValueError) as error:
        line["error"] = f"{type(error).__name__}: {error}"
    line["seconds"] = round(time.monotonic() - begun, 4)
    return line


def died(job: Job, shot: str) -> Line:
    """The line of a shot whose process ended, again and alone."""
    return {"shot": shot, "verb": job.verb, "status": DIED, "error": "the process that worked on it was killed or crashed"}


def _census(job: Job, shot: str, path: Path) -> Line:
    found = census(path, max_memory=job.max_memory)
    faults = _faults([], found.gaps, found.notes)
    if found.refusals:
        faults["refusals"] = {str(number): count for number, count in found.refusals.items()}
        faults["status"] = FAULTS
    return {"frames": found.frames, "report": found.fields(), **faults}


def _tiles(job: Job, shot: str, path: Path) -> Line:
    found = tiles(path, job.settings, on_refusal="skip", on_gap="key-frame", max_memory=job.max_memory)
    with whole_file(_cleared(job.place(shot, ".npz"))) as file:
        kinds = np.array([("intra", "inter", "repeat").index(kind) for kind in found.kinds], np.uint8)
        np.savez_compressed(file, maps=found.maps, compared=found.compared, packets=found.packets, times=found.times, kinds=kinds,
                            tokens=found.tokens)
    return {"frames": len(found), **_kinds(found.kinds), "changed_tiles": int(found.count.sum()),
            "tiles": found.count.size * int(found.compared.sum()), **_faults(found.refused, found.gaps, found.notes)}


def _y4m(job: Job, shot: str, path: Path) -> Line:
    with open(path, on_refusal="skip", on_gap="key-frame", max_memory=job.max_memory) as opened:
        with whole_file(_cleared(job.place(shot, ".y4m"))) as file:
            count = write_frames(opened, file)
        return {"frames": count, **_met(opened)}


def _check(job: Job, shot: str, path: Path) -> Line:
    if job.films is None:
        raise ValueError("check needs the folder of the films")
    try:
        answer = check(path, Path(job.films) / Path(shot).with_suffix(".y4m"), max_memory=job.max_memory)
    except Refused as refused:
        return _faults([refused], [], [])
    except Gap as gap:
        return _faults([], [gap], [])
    return {"status": WHOLE} if answer else {"status": DIFFERS, "error": str(answer)}


def _report(job: Job, shot: str, path: Path) -> Line:
    place = _cleared(job.place(shot, ".html"))
    sheet = report(path, place, settings=job.settings, colour_space=job.colour_space, max_memory=job.max_memory)
    lines = sheet.lines
    return {"frames": len(lines), **_kinds([line.kind for line in lines]), "tokens": sum(line.tokens for line in lines),
            "changed_tiles": int(sheet.count.sum()), "tiles": sheet.tiles * sheet.compared,
            "page": str(place.relative_to(job.out)), "report": sheet.census.fields(),
            **_faults(sheet.refused, sheet.gaps, sheet.notes)}


VERBS: Dict[str, Callable[[Job, str, Path], Line]] = {
    "census": _census, "tiles": _tiles, "y4m": _y4m, "check": _check, "report": _report,
}
"""What can be done with an archive."""


def _cleared(place: Path) -> Path:
    """A place for a file, in its folder; what a run that was cut off left of it goes."""
    place.parent.mkdir(parents=True, exist_ok=True)
    for left in glob.glob(f"{glob.escape(str(place))}.*.part"):
        os.unlink(left)
    return place


def _kinds(kinds: Sequence[str]) -> Line:
    counts = Counter(str(kind) for kind in kinds)
    return {"kinds": [counts["intra"], counts["inter"], counts["repeat"]]}


def _met(shot: Shot) -> Line:
    return _faults(shot.refused, shot.gaps, shot.notes)


def _faults(refused: Sequence[Refused], gaps: Sequence[object], notes: Sequence[str]) -> Line:
    """The status, and what was refused or is missing."""
    if not (refused or gaps or notes):
        return {"status": WHOLE}
    said: List[str] = [str(fault) for fault in (*refused[:FIRST], *gaps[:FIRST], *notes[:FIRST])]
    counts = Counter(str(fault.number) for fault in refused)
    return {"status": FAULTS, "refusals": dict(sorted(counts.items(), key=lambda item: int(item[0]))), "gaps": len(gaps),
            "notes": len(notes), "said": said}
