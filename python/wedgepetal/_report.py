"""A page for a shot: what it is, how it looks, what changes in it, what is wrong with it."""
from __future__ import annotations

import os
from pathlib import Path
from typing import Iterator, List, Optional, Tuple, Union

import numpy as np

from . import _page as html
from ._census import MODES, Census
from ._files import whole_file
from ._frame import Kind
from ._png import in_page, png
from ._settings import Settings
from ._sheet import Sheet

BINS = 360
"""The most bins of the charts."""
MOST_ROWS = 500
"""The most rows of a table of faults."""
_SAMPLING = {0: "4:2:0", 2: "4:2:2", 3: "4:4:4"}
_COLOURS = {0: "not said", 1: "Rec. 470M", 2: "Rec. 470BG"}
_PLANES = ("Y'", "Cb", "Cr")


def report(recording: Union[str, "os.PathLike[str]"], out: Union[str, "os.PathLike[str]"], *,
           settings: Settings = Settings(), colour_space: Optional[int] = None, stream: Optional[int] = None,
           max_memory: Optional[int] = None) -> Sheet:
    """Writes a page for a shot, one file that opens without a network. Gives what it says, and ``is_whole``, whether nothing
    is refused and nothing missing.

    >>> page = recording.with_suffix(".html")
    >>> wedgepetal.report(recording, page).is_whole, wedgepetal.report(damaged, page).is_whole
    (True, False)
    >>> "a read passes the end of the packet" in page.read_text()
    True

    Frames are shown in colour if the recording says its colour space, or the caller does. The other choices are those
    of `tiles`.
    """
    sheet = Sheet(recording, settings, colour_space, stream, max_memory)
    path = Path(recording)
    with whole_file(out) as file:
        file.write(html.page(path.name, _parts(sheet, path.stat().st_size)).encode())
    return sheet


def _parts(sheet: Sheet, size: int) -> Iterator[str]:
    yield html.verdict(_verdict(sheet), sheet.is_whole)
    yield html.facts(_facts(sheet, size))
    if sheet.lines:
        yield _strip(sheet)
        yield _time(sheet)
        yield _heat(sheet)
        yield _packets(sheet.census)
    yield from _faults(sheet)


def _verdict(sheet: Sheet) -> str:
    if sheet.is_whole:
        return f"Whole: all {len(sheet.lines):,} packets are accepted, none is missing."
    said = []
    if sheet.refused:
        said.append(f"refused packets: {len(sheet.refused):,}")
    if sheet.gaps:
        lost = [gap.lost for gap in sheet.gaps]
        known = "unknown" if None in lost else f"{sum(n or 0 for n in lost):,}"
        left = sum(gap.left_out for gap in sheet.gaps)
        said.append(f"gaps: {len(sheet.gaps):,} (packets lost: {known}; left out behind them: {left:,})")
    if sheet.notes:
        said.append(f"foreign or damaged parts of the file: {len(sheet.notes):,}")
    return f"Not whole. {'; '.join(said)[:1].upper()}{'; '.join(said)[1:]}."


def _facts(sheet: Sheet, size: int) -> List[Tuple[str, str]]:
    s = sheet.session
    last = sheet.lines[-1] if sheet.lines else None
    length = 0.0 if last is None else float((last.position + 1) / sheet.rate)
    return [
        ("picture", f"{s.picw:,} × {s.pich:,} samples"),
        ("coded frame", f"{16 * s.fmbw:,} × {16 * s.fmbh:,}, {_SAMPLING[s.pf]}"),
        ("rate", f"{float(sheet.rate):.3f} frames a second ({s.frn}/{s.frd})"),
        ("length", f"{length:.3f} s"),
        ("frames", f"{len(sheet.lines):,}"),
        ("key frames", f"{sheet.of_kind(Kind.INTRA):,}"),
        ("repeats", f"{sheet.of_kind(Kind.REPEAT):,}"),
        ("colour space", _COLOURS.get(s.cs, str(s.cs))),
        ("Theora", f"3.2.{s.vrev}"),
        ("file", f"{size:,} bytes"),
        ("memory to decode", f"{sheet.memory:,} bytes"),
    ]


def _strip(sheet: Sheet) -> str:
    figures = []
    for number, time, picture in sheet.thumbnails:
        alt = f"frame {number}, {time:.3f} s"
        figures.append(f'<figure><img alt="{alt}" src="{in_page(png(picture))}">'
                       f"<figcaption>{number:,} · {time:.3f} s</figcaption></figure>")
    note = "" if sheet.colour_space else "Luma alone: the recording does not say its colour space."
    return html.section("Frames", f'<div class="strip">{"".join(figures)}</div>', html.soft(note) if note else "")


def _time(sheet: Sheet) -> str:
    """Kinds, changed tiles and tokens over time. What is missing is white."""
    gaps = [(round(gap.time * float(sheet.rate)), (gap.lost or 0) + gap.left_out) for gap in sheet.gaps]
    span = max(sheet.lines[-1].position + 1, *(first + count for first, count in gaps), 1)
    bins = min(span, BINS)
    where = np.array([line.position for line in sheet.lines]) * bins // span
    frames = np.bincount(where, minlength=bins)
    kinds = [np.bincount(where[[line.kind is kind for line in sheet.lines]], minlength=bins) for kind in Kind]
    share = _binned(where, [line.changed / sheet.tiles for line in sheet.lines], bins)
    tokens = _binned(where, [line.tokens for line in sheet.lines], bins)
    most = max(line.tokens for line in sheet.lines)
    missing = np.zeros(bins)
    for first, count in gaps:
        missing[min(first * bins // span, bins - 1) : -(-(first + count) * bins // span)] = 1
    key, inter, repeat = (kind / np.maximum(frames, 1) for kind in kinds)
    end = float(span / sheet.rate)
    each = "" if bins == span else f" Each column is {span / bins:.1f} frames: its mean, and paler its most."
    return html.section(
        "Over time",
        html.over_time(
            html.lane("key", (key > 0).astype(float), "var(--orange)"),
            html.lane("inter", inter, "var(--sky)"),
            html.lane("repeat", repeat, "var(--grey)"),
            html.lane("missing", missing, "var(--plum)") if sheet.gaps else "",
            html.chart("changed tiles", ("100 %", "25 %"), *share, 1.0, "var(--blue)"),
            html.chart("tokens", (f"{most:,}", f"{most / 4:,.0f}"), *tokens, max(most, 1), "var(--orange)"),
            html.axis(f"{end * part / 4:.1f} s" for part in range(5)),
        ),
        html.soft(f"Share of the {sheet.tiles:,} tiles in which some sample differs from the frame before (none is said of the first "
                  f"frame, and of the first behind a gap), and coefficient tokens of each packet; heights are square roots.{each}"),
    )


def _binned(where: "np.typing.NDArray[np.int64]", values: List[float], bins: int) -> Tuple[html.Floats, html.Floats]:
    """The most and the mean of each bin; 0 where there is nothing."""
    most, sums = np.zeros(bins), np.zeros(bins)
    np.maximum.at(most, where, values)
    np.add.at(sums, where, values)
    return most, sums / np.maximum(np.bincount(where, minlength=bins), 1)


def _heat(sheet: Sheet) -> str:
    side, plane = sheet.settings.tile, _PLANES[sheet.settings.plane]
    words = (f"In how many of {sheet.compared:,} frames each tile changed: {side} × {side} samples of {plane}, over the whole coded "
             "frame.")
    return html.section("Where it changes", html.heat_map(sheet.count, words), html.soft(words))


def _packets(counted: Census) -> str:
    blocks = [(plane, coded, uncoded, f"{100 * coded / max(coded + uncoded, 1):.1f} %")
              for plane, coded, uncoded in zip(_PLANES, counted.coded, counted.uncoded)]
    modes = [(f"{i} {name}", count) for i, (name, count) in enumerate(zip(MODES, counted.modes))]
    return html.section(
        "What its packets hold",
        html.table(("blocks of", "coded", "not coded", "share coded"), blocks),
        html.soft("Blocks of intra and inter frames; a repeat codes none."),
        html.table(("macro blocks of inter frames, by mode", "count"), modes),
    )


def _faults(sheet: Sheet) -> Iterator[str]:
    if sheet.refused:
        rows = [(refusal.packet or 0, refusal.number, f"{refusal.place:,}" if refusal.has_place else "none", refusal.text)
                for refusal in sheet.refused[:MOST_ROWS]]
        yield html.section("Refused packets", html.table(("packet", "number", "at bit", "meaning"), rows),
                           _rest(len(sheet.refused)))
    if sheet.gaps:
        gaps = [(gap.packet, f"{gap.time:.3f} s", "unknown" if gap.lost is None else f"{gap.lost:,}", gap.left_out, gap.what)
                for gap in sheet.gaps[:MOST_ROWS]]
        yield html.section("Gaps", html.table(("before packet", "time", "packets lost", "left out behind it", "what was met"), gaps),
                           html.soft("Behind a gap nothing is decoded before the next key frame."), _rest(len(sheet.gaps)))
    if sheet.notes:
        yield html.section("Also in the file", html.table(("what was met",), [(note,) for note in sheet.notes[:MOST_ROWS]]),
                           _rest(len(sheet.notes)))


def _rest(count: int) -> str:
    return html.soft(f"And {count - MOST_ROWS:,} more.") if count > MOST_ROWS else ""
