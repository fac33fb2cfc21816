"""The commands of the module: a page for a shot, and the same work on every shot of an archive."""
from __future__ import annotations

import argparse
import json
import sys
from pathlib import Path
from typing import Callable, Dict, List, Optional, Tuple

from . import _archive
from ._faults import Fault
from ._jobs import VERBS
from ._library import VERSION
from ._log import read_plan
from ._report import report
from ._settings import Settings, read_settings
from ._slurm import submit


def main(words: Optional[List[str]] = None) -> int:
    """Runs a command. The status is 0 if all is well, 1 if something was refused, is missing or differs, 2 for wrong use or
    a file that cannot be read or written."""
    words = sys.argv[1:] if words is None else words
    verb = words[0] if words else "--help"
    if verb == "--version":
        print(f"wedgepetal {VERSION}")
        return 0
    if verb not in _VERBS:
        print(_USAGE, file=sys.stdout if verb in ("--help", "-h", "help") else sys.stderr)
        return 0 if verb in ("--help", "-h", "help") else 2
    parser, run = _VERBS[verb]
    given = parser().parse_intermixed_args(words[1:])
    try:
        return run(given)
    except (Fault, OSError, MemoryError, ValueError) as error:
        print(f"wedgepetal: {error}", file=sys.stderr)
        return 2
    except KeyboardInterrupt:
        return 130


_USAGE = """usage: wedgepetal VERB ..., each with --help
  report    writes a page for a shot, one file that opens without a network
  archive   does the same with every shot of folders
  --version"""


def _report_words() -> argparse.ArgumentParser:
    page = argparse.ArgumentParser("wedgepetal report", description="Writes a page for a shot, one file that opens without a network.")
    page.add_argument("shot", metavar="SHOT", help="an Ogg file or a packet file")
    page.add_argument("-o", "--output", metavar="SHOT.html", help="the page; without it, by the shot's name in this folder")
    page.add_argument("--stream", type=int, metavar="N", help="the Theora stream with this number")
    return _common(page)


def _archive_words() -> argparse.ArgumentParser:
    many = argparse.ArgumentParser("wedgepetal archive", description="Does the same with every shot of folders. Run again after "
                                   "a cut, it goes on with what is left.")
    many.add_argument("verb", choices=sorted(VERBS), metavar="VERB", help=f"one of {', '.join(sorted(VERBS))}")
    many.add_argument("folders", nargs="*", metavar="FOLDER", help="folders, or shots")
    many.add_argument("--out", required=True, metavar="FOLDER", help="where the log, the results and what is made of shots stand")
    many.add_argument("--jobs", type=_positive, metavar="N", help="so many processes; without it one for each core")
    many.add_argument("--films", metavar="FOLDER", help="the folder of the films of check: NAME.y4m for the shot NAME.ogv")
    many.add_argument("--plan", action="store_true", help="finds the shots, writes the plan and says how many there are")
    many.add_argument("--task", type=int, metavar="I", help="does task I of a plan, from 0, with a log of its own")
    many.add_argument("--tasks", type=_positive, metavar="N", help="how many tasks the plan is done in")
    many.add_argument("--collect", action="store_true", help="puts together what the logs have, and does nothing else")
    many.add_argument("--slurm", type=int, nargs="?", const=0, metavar="N",
                      help="hands the plan to Slurm as an array of N tasks; without a number of a hundred shots each")
    many.add_argument("--progress", action="store_true", help="says how far it is, also where that is no terminal")
    many.add_argument("--json", action="store_true", help="says the totals as JSON")
    return _common(many)


def _common(parser: argparse.ArgumentParser) -> argparse.ArgumentParser:
    parser.add_argument("--settings", metavar="FILE", help="a text of settings: the side of the tiles and the plane")
    parser.add_argument("--tile", type=int, default=16, metavar="N", help="the side of the tiles: 8, 16 (as without it) or 32")
    parser.add_argument("--plane", type=int, default=0, metavar="N", help="the plane: 0 (Y', as without it), 1 (Cb) or 2 (Cr)")
    parser.add_argument("--colour-space", type=int, choices=(1, 2), metavar="N", help="of shots that name none: 1 or 2")
    parser.add_argument("--max-memory", type=int, metavar="BYTES", help="the most memory that a shot may take")
    return parser


def _positive(text: str) -> int:
    if not (text.isdigit() and int(text)):
        raise argparse.ArgumentTypeError(f"{text} is no number from 1 on")
    return int(text)


def _settings(given: argparse.Namespace) -> Settings:
    return read_settings(given.settings) if given.settings else Settings(tile=given.tile, plane=given.plane)


def _report(given: argparse.Namespace) -> int:
    out = given.output or Path(given.shot).with_suffix(".html").name
    sheet = report(given.shot, out, settings=_settings(given), colour_space=given.colour_space, stream=given.stream,
                   max_memory=given.max_memory)
    print(f"{out}: {len(sheet.lines):,} frames of {given.shot}{'' if sheet.is_whole else ', which is not whole'}")
    return 0 if sheet.is_whole else 1


def _many(given: argparse.Namespace) -> int:
    if given.task is not None or given.collect:
        if given.folders or given.plan or (given.task is not None and (given.collect or given.tasks is None)):
            raise ValueError("--task goes with --tasks, and neither --task nor --collect with folders or --plan")
        if given.task is not None:
            _archive.work_task(given.out, given.task, given.tasks, given.jobs, given.progress or None)
            return 0
        found = _archive.collect(given.out)
    else:
        if not given.folders:
            raise ValueError("no folder is given")
        choices = {"settings": _settings(given), "films": given.films, "colour_space": given.colour_space,
                   "max_memory": given.max_memory}
        if given.plan:
            _archive.plan(given.verb, given.folders, given.out, **choices)
            print(len(read_plan(given.out)[1]))
            return 0
        if given.slurm is not None:
            job = _archive.plan(given.verb, given.folders, given.out, **choices)
            number = submit(job, read_plan(given.out)[1], given.slurm)
            print(f"job {number} collects: {given.out}/index.html is there when it has ended")
            return 0
        found = _archive.archive(given.verb, given.folders, given.out, jobs=given.jobs, progress=given.progress or None, **choices)
    if given.json:
        print(json.dumps(found.fields()))
    else:
        _say(found, given.out)
    return 0 if found else 1


def _say(found: _archive.Archive, out: str) -> None:
    said = found.fields()
    statuses = ", ".join(f"{status}: {count:,}" for status, count in said["statuses"].items())
    print(f"{said['shots']:,} shots ({statuses}), {said['frames']:,} frames")
    for line in found.lines:
        if line["status"] != "whole":
            why = line.get("error") or "; ".join(line.get("said", [])[:1]) or "packets are refused"
            print(f"  {line['shot']}: {line['status']}: {why}")
    if found.missing:
        print(f"  not done yet: {len(found.missing):,}")
    print(f"{out}/index.html has the rest")


_VERBS: Dict[str, Tuple[Callable[[], argparse.ArgumentParser], Callable[[argparse.Namespace], int]]] = {
    "report": (_report_words, _report), "archive": (_archive_words, _many),
}


if __name__ == "__main__":
    sys.exit(main())
