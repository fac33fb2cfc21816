"""Draws which tiles of a shot changed: how often each, beside the share of all over time.

Reads a JSON object from the standard input and writes the picture to the standard output, in the format that the first
argument names. It is part of the wedgepetal command, which hands it to Debian's Python with python3-matplotlib.
"""
import json
import sys

try:
    import matplotlib
except ImportError:
    sys.exit(3)
matplotlib.use("Agg")
from matplotlib import pyplot

if sys.argv[1] == "try":
    sys.exit(0)

shot = json.load(sys.stdin)
# The same shot gives the same file: no date, and no random names.
matplotlib.rcParams["svg.hashsalt"] = "wedgepetal"
side, columns, rows = shot["side"], shot["columns"], shot["rows"]
plane = ["Y'", "Cb", "Cr"][shot["plane"]]
compared = max(shot["compared"], 1)
heat = [[100 * n / compared for n in shot["counts"][y * columns : (y + 1) * columns]] for y in range(rows)]

figure, (tiles, time) = pyplot.subplots(1, 2, figsize=(12, 5), constrained_layout=True)
figure.suptitle(shot["name"])
# Row 0 is the lowest; tiles at the right and at the top may be partial.
picture = tiles.imshow(heat, origin="lower", cmap="magma", extent=(0, columns * side, 0, rows * side), vmin=0)
tiles.set_xlim(0, shot["width"])
tiles.set_ylim(0, shot["height"])
tiles.set_title(f"tiles of {side} by {side} samples of {plane}")
tiles.set_xlabel("samples from the left")
tiles.set_ylabel("samples from the bottom")
figure.colorbar(picture, ax=tiles, label="changed in % of the frames", shrink=0.8)

time.plot(shot["times"], [100 * share for share in shot["shares"]], linewidth=0.8)
for second in shot["refused"]:
    time.axvline(second, color="red", linewidth=0.8)
time.set_ylim(bottom=0)
time.set_title("changed tiles" + (" (red: a packet was refused)" if shot["refused"] else ""))
time.set_xlabel("seconds")
time.set_ylabel("% of the tiles that differ from the frame before")
time.grid(alpha=0.3)
metadata = {"Date": None} if sys.argv[1] == "svg" else {}
figure.savefig(sys.stdout.buffer, format=sys.argv[1], dpi=120, metadata=metadata)
