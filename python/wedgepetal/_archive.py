"""The same work on every shot of an archive."""
from __future__ import annotations

import json
import os
from pathlib import Path
from typing import TYPE_CHECKING, Any, Dict, Iterator, List, Optional, Sequence, Union

from ._archive_page import archive_page
from ._census import Census
from ._engines import cores, on_dask, on_processes
from ._files import whole_file
from ._jobs import VERBS, WHOLE, Job, Line
from ._log import Folder, all_lines, find, log, read_plan, task_log, write_plan
from ._progress import Progress
from ._settings import Settings

if TYPE_CHECKING:
    from distributed import Client

_NOT_RESULTS = ("seconds", "changed")


class Archive:
    """How it went with an archive. It is true if every shot is whole."""

    def __init__(self, job: Job, shots: Dict[str, int], lines: List[Line]) -> None:
        self.job = job
        self.lines = lines
        """A line for each shot that is done, in the order of their names."""
        done = {line["shot"] for line in lines}
        self.missing = [shot for shot in shots if shot not in done]
        """The shots that are not done yet."""

    @property
    def statuses(self) -> Dict[str, int]:
        """How many shots have each status."""
        counts: Dict[str, int] = {}
        for line in self.lines:
            counts[line["status"]] = counts.get(line["status"], 0) + 1
        return dict(sorted(counts.items()))

    @property
    def census(self) -> Census:
        """The sum of the reports, of the verbs that have them."""
        return sum((Census.of(line["report"]) for line in self.lines if "report" in line), Census())

    def __bool__(self) -> bool:
        return not self.missing and all(line["status"] == WHOLE for line in self.lines)

    def __repr__(self) -> str:
        said = ", ".join(f"{count:,} {status}" for status, count in self.statuses.items()) or "none done"
        missing = f", {len(self.missing):,} not done" if self.missing else ""
        return f"<Archive of {len(self.lines) + len(self.missing):,} shots, {self.job.verb}: {said}{missing}>"

    def fields(self) -> Dict[str, Any]:
        """What there is to say of all shots together."""
        refusals: Dict[str, int] = {}
        for line in self.lines:
            for number, count in line.get("refusals", {}).items():
                refusals[number] = refusals.get(number, 0) + count
        said = {"verb": self.job.verb, "shots": len(self.lines), "not_done": len(self.missing), "statuses": self.statuses,
                "frames": sum(line.get("frames", 0) for line in self.lines),
                "bytes": sum(line.get("bytes", 0) for line in self.lines),
                "refusals": dict(sorted(refusals.items(), key=lambda item: int(item[0])))}
        return {**said, "report": self.census.fields()} if self.census.recordings else said

    def write(self) -> None:
        """Writes results.jsonl and totals.json, in which nothing depends on who did the work when, and the page index.html."""
        out = Path(self.job.out)
        with whole_file(out / "results.jsonl") as file:
            for line in self.lines:
                kept = {name: value for name, value in line.items() if name not in _NOT_RESULTS}
                file.write(json.dumps(kept, sort_keys=True).encode() + b"\n")
        with whole_file(out / "totals.json") as file:
            file.write(json.dumps(self.fields(), indent=1).encode() + b"\n")
        with whole_file(out / "index.html") as file:
            file.write(archive_page(self.fields(), self.lines, self.missing).encode())


def archive(verb: str, folders: Union[Folder, Sequence[Folder]], out: Folder, *, jobs: Optional[int] = None,
            client: Optional[Client] = None, settings: Settings = Settings(), films: Optional[Folder] = None,
            colour_space: Optional[int] = None, max_memory: Optional[int] = None, progress: Optional[bool] = None) -> Archive:
    """Does the same with every recording in folders: "census", "tiles", "y4m", "check" or "report".

    >>> out = recording.parent / "census"
    >>> wedgepetal.archive("census", [recording, damaged], out, jobs=1)
    <Archive of 2 shots, census: 1 faults, 1 whole>
    >>> sorted(path.name for path in out.iterdir())
    ['index.html', 'log.jsonl', 'plan.jsonl', 'results.jsonl', 'totals.json']

    A process works on each core, or ``jobs`` of them, or the workers of a Dask ``client``. Each shot that is done has a line
    in log.jsonl; called again after a cut, what is done is not done again. A shot that fails is named there and the rest goes
    on; called again, it is tried again. What is made of shots stands in out/VERB; results.jsonl has the lines in the order of
    the shots' names, totals.json their sums, and index.html is a page with both.

    ``films`` is the folder of the films of "check". ``progress`` says on the standard error how far it is; without it that is
    said on a terminal. The other choices are those of `tiles` and `report`.
    """
    job = plan(verb, folders, out, settings=settings, films=films, colour_space=colour_space, max_memory=max_memory)
    work(job, read_plan(out)[1], "log.jsonl", jobs, client, progress)
    return collect(out)


def plan(verb: str, folders: Union[Folder, Sequence[Folder]], out: Folder, *, settings: Settings = Settings(),
         films: Optional[Folder] = None, colour_space: Optional[int] = None, max_memory: Optional[int] = None) -> Job:
    """Finds the shots and writes the plan of a run, and does nothing else."""
    if verb not in VERBS:
        raise ValueError(f"verb is one of {', '.join(map(repr, VERBS))}, not {verb!r}")
    if (verb == "check") != (films is not None):
        raise ValueError("films is the folder of the films of check, and of no other verb")
    root, shots = find([folders] if isinstance(folders, (str, os.PathLike)) else folders)
    job = Job(verb, root, str(Path(out).resolve()), settings, None if films is None else str(Path(films).resolve()),
              colour_space, max_memory)
    write_plan(job, shots)
    return job


def work(job: Job, shots: Dict[str, int], name: str, jobs: Optional[int] = None, client: Optional[Client] = None,
         progress: Optional[bool] = None) -> None:
    """Does what a log does not have yet."""
    with log(job, name) as written:
        left = {shot: size for shot, size in shots.items() if not _is_done(job, shot, written.done)}
        shown = Progress(left, progress)
        lines: Iterator[Line]
        if client is not None:
            lines = on_dask(job, left, client)
        else:
            lines = on_processes(job, left, jobs or cores())
        for line in lines:
            written.add(line)
            shown.add(line)
        shown.end()


def _is_done(job: Job, shot: str, done: Dict[str, Line]) -> bool:
    """Whether a shot has a line, and is the file that it was."""
    line = done.get(shot)
    if line is None:
        return False
    try:
        seen = (Path(job.root) / shot).stat()
    except OSError:
        return False
    return (line["bytes"], line["changed"]) == (seen.st_size, seen.st_mtime_ns)


def work_task(out: Folder, task: int, tasks: int, jobs: Optional[int] = None, progress: Optional[bool] = None) -> None:
    """Does one part of a plan of so many, counted from 0: every so-manieth shot. It has a log of its own."""
    if not 0 <= task < tasks:
        raise ValueError(f"there is no task {task} of {tasks}")
    job, shots = read_plan(out)
    part = dict(list(shots.items())[task::tasks])
    work(job, part, task_log(task, tasks), jobs, None, progress)


def collect(out: Folder) -> Archive:
    """Puts together what the logs of a run have, and writes results.jsonl, totals.json and index.html."""
    job, shots = read_plan(out)
    found = Archive(job, shots, all_lines(out, shots))
    found.write()
    return found
