"""The logs of an archive: which shots there are, and a line for each that is done, so that a run can go on after a cut."""
from __future__ import annotations

import contextlib
import fcntl
import json
import os
from pathlib import Path
from typing import BinaryIO, Dict, Iterable, Iterator, List, Sequence, Tuple, Union

from ._faults import Fault
from ._files import whole_file
from ._jobs import DIED, FAILED, Job, Line
from ._settings import Settings

Folder = Union[str, "os.PathLike[str]"]
SUFFIXES = (".ogv", ".ogg", ".ogm", ".ogx", ".packets")
"""The names of recordings end so."""


class OtherRun(Fault):
    """The folder is that of another run, or another run is at work there."""


def find(folders: Sequence[Folder]) -> Tuple[str, Dict[str, int]]:
    """The recordings in folders: the folder that their names are relative to, and the bytes of each, in the order of their
    names."""
    given = [Path(folder).resolve() for folder in folders]
    for folder in given:
        folder.stat()
    paths = [path for folder in given for path in ([folder] if folder.is_file() else _below(folder))]
    root = os.path.commonpath([folder if folder.is_dir() else folder.parent for folder in given])
    shots = {path.relative_to(root).as_posix(): path.stat().st_size for path in paths}
    return root, dict(sorted(shots.items()))


def _below(folder: Path) -> Iterator[Path]:
    for place, _, names in os.walk(folder):
        yield from (Path(place) / name for name in names if name.endswith(SUFFIXES))


def write_plan(job: Job, shots: Dict[str, int]) -> None:
    """Writes down what is to be done with which shots."""
    Path(job.out).mkdir(parents=True, exist_ok=True)
    with whole_file(_plan(job.out)) as file:
        file.write(_text(_said(job)))
        for shot, size in shots.items():
            file.write(_text({"shot": shot, "bytes": size}))


def read_plan(out: Folder) -> Tuple[Job, Dict[str, int]]:
    """What is to be done with which shots."""
    try:
        with _plan(out).open("rb") as file:
            said = json.loads(file.readline())
            shots = {line["shot"]: line["bytes"] for line in map(json.loads, file)}
    except FileNotFoundError:
        raise OtherRun(f"{_plan(out)} is not there: no run was planned in this folder") from None
    return Job(out=str(out), settings=Settings(**said.pop("settings")), **said), shots


def _plan(out: Folder) -> Path:
    return Path(out) / "plan.jsonl"


def _said(job: Job) -> Line:
    """A job as a plan and the first line of a log have it."""
    return {"verb": job.verb, "root": job.root, "settings": job.settings._asdict(), "films": job.films,
            "colour_space": job.colour_space, "max_memory": job.max_memory}


def _text(line: Line) -> bytes:
    return json.dumps(line).encode() + b"\n"


class Log:
    """A log that is being written. Two runs cannot have the same one."""

    done: Dict[str, Line]
    """The lines of the shots that need not be done again: all but those that failed."""

    def __init__(self, job: Job, file: BinaryIO) -> None:
        self._file = file
        data = file.read()
        whole = data[: data.rfind(b"\n") + 1]  # a line that was cut off goes
        file.seek(len(whole))
        file.truncate()
        first, *lines = [json.loads(line) for line in whole.splitlines()] or [None]
        if first is None:
            self._write(_said(job))
        elif first != json.loads(_text(_said(job))):
            raise OtherRun(f"{file.name} is the log of another run: choose another folder, or remove it")
        self.done = {line["shot"]: line for line in lines if line["status"] not in (FAILED, DIED)}

    def add(self, line: Line) -> None:
        """A shot is done."""
        self._write(line)

    def _write(self, line: Line) -> None:
        self._file.write(_text(line))
        self._file.flush()


@contextlib.contextmanager
def log(job: Job, name: str = "log.jsonl") -> Iterator[Log]:
    """Opens a log of a run, or goes on with it."""
    place = Path(job.out) / name
    place.touch()
    with place.open("r+b") as file:
        try:
            fcntl.flock(file, fcntl.LOCK_EX | fcntl.LOCK_NB)
        except BlockingIOError:
            raise OtherRun(f"another run is at work with {place}") from None
        yield Log(job, file)


def task_log(task: int, tasks: int) -> str:
    """The name of the log of one task of several."""
    return f"log.{task}-of-{tasks}.jsonl"


def all_lines(out: Folder, shots: Iterable[str]) -> List[Line]:
    """The line of each shot of a plan that some log has, in the order of the plan, each once: the last of a log, and none
    that failed if another did not."""
    found: Dict[str, Line] = {}
    for place in sorted(Path(out).glob("log*.jsonl")):
        with place.open("rb") as file:
            file.readline()
            for text in file:
                if not text.endswith(b"\n"):
                    break
                line = json.loads(text)
                before = found.get(line["shot"])
                if before is None or line["status"] not in (FAILED, DIED) or before["status"] in (FAILED, DIED):
                    found[line["shot"]] = line
    return [found[shot] for shot in shots if shot in found]
