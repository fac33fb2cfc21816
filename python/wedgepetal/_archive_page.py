"""A page for an archive: totals, refusals, the slowest and the strangest shots, what is not whole."""
from __future__ import annotations

from typing import Any, Dict, Iterator, List, Sequence, Tuple

import numpy as np

from . import _page as html
from ._jobs import WHOLE, Line
from ._library import text

MOST = 20
"""So many shots stand in each list."""
MOST_FAULTS = 1000
_STATUSES = {
    "whole": "nothing is refused, nothing is missing",
    "faults": "packets are refused or missing, or parts of the file are foreign",
    "differs": "the film is another",
    "failed": "could not be read, or nothing could be written",
    "died": "the process that worked on it was killed or crashed",
}


def archive_page(totals: Dict[str, Any], lines: Sequence[Line], missing: Sequence[str]) -> str:
    """The page."""
    return html.page(f"Archive: {totals['verb']}", _parts(totals, lines, missing))


def _parts(totals: Dict[str, Any], lines: Sequence[Line], missing: Sequence[str]) -> Iterator[str]:
    bad = [line for line in lines if line["status"] != WHOLE]
    good = not bad and not missing
    words = f"All {len(lines):,} shots are whole." if good else (
        f"{len(lines) - len(bad):,} of {len(lines) + len(missing):,} shots are whole; not whole: {len(bad):,}; "
        f"not done: {len(missing):,}.")
    yield html.verdict(words, good)
    seconds = sum(line.get("seconds", 0.0) for line in lines)
    yield html.facts([("shots", f"{len(lines):,}"), ("frames", f"{totals['frames']:,}"), ("bytes", f"{totals['bytes']:,}"),
                      ("work", f"{seconds:,.1f} s of one process"), *_kinds(totals)])
    yield html.section("By status", html.table(("status", "shots", "meaning"), [
        (status, count, _STATUSES[status]) for status, count in totals["statuses"].items()]))
    if totals["refusals"]:
        yield html.section("Refused packets by number", html.table(("number", "packets", "meaning"), [
            (number, count, text(int(number))) for number, count in totals["refusals"].items()]))
    if bad:
        rows = [(_name(line), line["status"], line.get("error") or "; ".join(line.get("said", [])[:3]) or _refusals(line))
                for line in bad[:MOST_FAULTS]]
        more = html.soft(f"And {len(bad) - MOST_FAULTS:,} more: results.jsonl has all.") if len(bad) > MOST_FAULTS else ""
        yield html.section("Not whole", html.table(("shot", "status", "what was met"), rows), more)
    if missing:
        yield html.section("Not done yet", html.table(("shot",), [(shot,) for shot in missing[:MOST]]))
    slowest = sorted(lines, key=lambda line: (-line.get("seconds", 0.0), line["shot"]))[:MOST]
    yield html.section("Slowest", html.table(("shot", "seconds", "frames", "bytes"), [
        (_name(line), f"{line.get('seconds', 0.0):.2f}", line.get("frames", 0), line.get("bytes", 0)) for line in slowest]))
    strange = list(_strangest(lines))
    if strange:
        yield html.section("Strangest", html.table(("shot", "what", "its value", "median of all shots"), strange),
                           html.soft("Farthest from the median of all shots, measured in median distances from it."))
    yield from _pages(lines)


def _kinds(totals: Dict[str, Any]) -> List[Tuple[str, str]]:
    packets = totals.get("report", {}).get("packets", {})
    return [(f"{kind} frames", f"{count:,}") for kind, count in packets.items()]


def _pages(lines: Sequence[Line]) -> Iterator[str]:
    """The pages of the shots, if there are some."""
    pages = [(_name(line), line.get("frames", 0), line["status"]) for line in lines if "page" in line]
    if pages:
        yield html.section("Pages of shots", html.table(("shot", "frames", "status"), pages))


def _name(line: Line) -> html.Cell:
    """The name of a shot, which leads to its page if it has one."""
    return html.Link(line["shot"], line["page"]) if "page" in line else str(line["shot"])


def _refusals(line: Line) -> str:
    return ", ".join(f"refused by {number}: {count:,}" for number, count in line.get("refusals", {}).items())


def _features(line: Line) -> Dict[str, float]:
    """What shots are compared by."""
    frames = line.get("frames", 0)
    if not frames:
        return {}
    found = {"bytes a frame": line["bytes"] / frames}
    if "report" in line:
        report = line["report"]
        coded, uncoded = (sum(report[name].values()) for name in ("coded", "uncoded"))
        found["share of repeats"] = report["packets"]["repeat"] / frames
        found["share of coded blocks"] = coded / max(coded + uncoded, 1)
    if line.get("tiles"):
        found["share of changed tiles"] = line["changed_tiles"] / line["tiles"]
    return found


def _strangest(lines: Sequence[Line]) -> Iterator[Tuple[html.Cell, str, str, str]]:
    names = {line["shot"]: _name(line) for line in lines}
    features = [(line["shot"], _features(line)) for line in lines]
    found = []
    for name in sorted({name for _, has in features for name in has}):
        values = [(shot, has[name]) for shot, has in features if name in has]
        numbers = np.array([value for _, value in values])
        middle = float(np.median(numbers))
        spread = float(np.median(np.abs(numbers - middle)))
        if spread > 0:
            found += [(abs(value - middle) / spread, shot, name, value, middle) for shot, value in values]
    found.sort(key=lambda item: (-item[0], item[1], item[2]))
    for far, shot, name, value, middle in found[:MOST]:
        if far > 3:
            yield names[shot], name, f"{value:,.3f}", f"{middle:,.3f}"
