"""A picture of changed tiles, by matplotlib (Debian package python3-matplotlib), which is loaded when one is drawn."""
from __future__ import annotations

import os
from typing import TYPE_CHECKING, Optional, Union

import numpy as np

from ._tiles import Tiles

if TYPE_CHECKING:
    from matplotlib.figure import Figure


def picture(tiles: Tiles, out: Optional[Union[str, "os.PathLike[str]"]] = None) -> Figure:
    """Draws how often each tile changed, beside the share of changed tiles over time, and writes it if a file is named
    (.png, .svg, .pdf). Frames that have none before them are left out.

    >>> tiles = wedgepetal.tiles(recording)
    >>> figure = wedgepetal.picture(tiles, recording.with_suffix(".png"))
    >>> [axes.get_title() for axes in figure.axes[:2]]
    ['frames in which a tile changed', 'share of tiles that changed']
    """
    from matplotlib.backends.backend_agg import FigureCanvasAgg
    from matplotlib.figure import Figure

    figure = Figure(figsize=(11, 4), layout="constrained")
    FigureCanvasAgg(figure)
    where, when = figure.subplots(1, 2)
    side = tiles.settings.tile
    rows, columns = tiles.count.shape
    shown = where.imshow(tiles.count, cmap="cividis", vmin=0, vmax=max(int(tiles.count.max(initial=0)), 1), interpolation="nearest",
                         extent=(0, columns * side, 0, rows * side))
    where.set(title="frames in which a tile changed", xlabel="samples from the left", ylabel="samples from the bottom")
    figure.colorbar(shown, ax=where)
    shares = np.where(tiles.compared, 100 * tiles.share, np.nan)
    when.step(tiles.times, shares, where="post", color="#0072b2", linewidth=1)
    repeats = np.array([kind == "repeat" for kind in tiles.kinds], bool)
    keys = np.array([kind == "intra" for kind in tiles.kinds], bool)
    when.plot(tiles.times[repeats], np.full(repeats.sum(), -4.0), "|", color="#999999", label="repeats")
    when.plot(tiles.times[keys], np.full(keys.sum(), -8.0), "|", color="#d55e00", markersize=9, label="key frames")
    for gap in tiles.gaps:
        when.axvline(gap.time, color="#7a1f5c", linestyle=":")
    when.set(title="share of tiles that changed", xlabel="seconds", ylabel="%", ylim=(-11, 103))
    when.legend(loc="upper right", fontsize="small")
    if out is not None:
        figure.savefig(out, dpi=150)
    return figure
