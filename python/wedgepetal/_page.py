"""Pages that open without a network: words, tables and drawings as HTML. No script, no font, no picture from elsewhere."""
from __future__ import annotations

import html
from pathlib import Path
from typing import Iterable, List, NamedTuple, Sequence, Tuple, Union
from urllib.parse import quote

import numpy as np
import numpy.typing as npt

from ._library import version
from ._png import in_page, png


class Link(NamedTuple):
    """Words that lead to another file."""

    words: str
    address: str


Cell = Union[str, int, Link]
Floats = npt.NDArray[np.float64]

CIVIDIS = ((0, 34, 78), (53, 69, 108), (102, 105, 112), (148, 142, 119), (200, 184, 102), (254, 232, 56))
"""Points of the colour scale cividis, which is told apart with any kind of colour vision, and in grey."""
PROVED = ("Frames, kinds, tokens, changed tiles, counts and refusals are the answers of the proved library "
          "(libwedgepetal {}); their sums and shares, places in time, gaps and this page are not proved.")


def text(words: object) -> str:
    """Words as they stand."""
    return html.escape(str(words))


def page(title: str, parts: Iterable[str]) -> str:
    """A whole page."""
    style = Path(__file__).with_name("_page.css").read_text()
    footer = f"<footer>{text(PROVED.format(version()[0]))}</footer>"
    return ("<!DOCTYPE html>\n<html lang=\"en\">\n<head>\n<meta charset=\"utf-8\">\n"
            "<meta name=\"viewport\" content=\"width=device-width, initial-scale=1\">\n"
            f"<title>{text(title)}</title>\n<style>\n{style}</style>\n</head>\n<body>\n"
            + "\n".join([f"<h1>{text(title)}</h1>", *parts, footer]) + "\n</body>\n</html>\n")


def section(title: str, *parts: str) -> str:
    """A part of a page under its heading."""
    return "\n".join([f"<section><h2>{text(title)}</h2>", *parts, "</section>"])


def soft(words: str) -> str:
    """Words of less weight."""
    return f'<p class="soft">{text(words)}</p>'


def verdict(words: str, good: bool) -> str:
    """The one sentence that matters."""
    return f'<p class="verdict{"" if good else " bad"}">{text(words)}</p>'


def facts(pairs: Iterable[Tuple[str, Cell]]) -> str:
    """Names and values."""
    return "<dl>" + "".join(f"<div><dt>{text(name)}</dt><dd>{text(value)}</dd></div>" for name, value in pairs) + "</dl>"


def table(heads: Sequence[str], rows: Iterable[Sequence[Cell]]) -> str:
    """Rows under their heads. Whole numbers stand at the right."""
    body: List[str] = []
    right: Sequence[bool] = [False] * len(heads)
    for row in rows:
        right = [isinstance(cell, int) for cell in row]
        body.append(f"<tr>{''.join(map(_cell, row))}</tr>")
    head = "".join(f'<th{" class=n" if number else ""}>{text(name)}</th>' for name, number in zip(heads, right))
    return f'<table class="table"><thead><tr>{head}</tr></thead><tbody>{"".join(body)}</tbody></table>'


def _cell(cell: Cell) -> str:
    if isinstance(cell, int):
        return f'<td class="n">{cell:,}</td>'
    if isinstance(cell, Link):
        return f'<td><a href="{html.escape(quote(cell.address))}">{text(cell.words)}</a></td>'
    return f"<td>{text(cell)}</td>"


def lane(name: str, shares: Floats, colour: str) -> str:
    """A strip of time: darker where there is more of it, 0 to 1."""
    boxes = [f'<rect x="{x}" y="0" width="1.02" height="1" opacity="{0.3 + 0.7 * share:.2f}"/>'
             for x, share in enumerate(shares) if share > 0]
    return (f'<span>{text(name)}</span><svg class="lane" role="img" aria-label="{text(name)}" '
            f'viewBox="0 0 {len(shares)} 1" preserveAspectRatio="none" fill="{colour}">{"".join(boxes)}</svg>')


def chart(name: str, ends: Tuple[str, str], most: Floats, mean: Floats, high: float, colour: str) -> str:
    """Bars over time, their heights as square roots: the mean of each bin, and paler its most. What stands at the top, and
    in the middle, where a quarter of it is."""
    boxes: List[str] = ['<rect x="0" y="50" width="100%" height="0.7" fill="#d9dce0"/>']
    for values, opacity in ((most, 0.35), (mean, 1.0)):
        for x, value in enumerate(values):
            if value > 0:
                tall = 100 * min(value / high, 1.0) ** 0.5
                boxes.append(f'<rect x="{x}" y="{100 - tall:.2f}" width="1.02" height="{tall:.2f}" opacity="{opacity}"/>')
    top, quarter = ends
    return (f'<span class="ends"><span>{text(top)}</span><span>{text(name)}<br>{text(quarter)}</span><span>0</span></span>'
            f'<svg class="chart" role="img" aria-label="{text(name)}" viewBox="0 0 {len(mean)} 100" '
            f'preserveAspectRatio="none" fill="{colour}">{"".join(boxes)}</svg>')


def axis(words: Iterable[str]) -> str:
    """What stands under a chart, from its left to its right."""
    return f'<div class="axis">{"".join(f"<span>{text(word)}</span>" for word in words)}</div>'


def over_time(*parts: str) -> str:
    """Lanes, charts and their axis, one under the other."""
    return f'<div class="time">{"".join(parts)}</div>'


def heat_map(counts: npt.NDArray[np.int64], words: str) -> str:
    """Numbers as a picture, from 0 to the highest."""
    most = max(int(counts.max(initial=0)), 1)
    picture = in_page(png((counts * 255 + most // 2) // most, _ramp(256)))
    stops = ", ".join(f"rgb{colour}" for colour in CIVIDIS)
    rows, columns = counts.shape
    return (f'<div class="heat" style="max-width: min(32rem, {28 * columns / max(rows, 1):.2f}rem)"><img alt="{text(words)}" src="{picture}">'
            f'<div class="ramp" style="background: linear-gradient(to right, {stops})"></div>'
            f"{axis(['0 frames', f'{most:,} frames'])}</div>")


def _ramp(steps: int) -> npt.NDArray[np.uint8]:
    """The colour scale in so many steps."""
    places = np.linspace(0, len(CIVIDIS) - 1, steps)
    colours = [np.interp(places, range(len(CIVIDIS)), [point[i] for point in CIVIDIS]) for i in range(3)]
    return np.stack(colours, axis=1).round().astype(np.uint8)
