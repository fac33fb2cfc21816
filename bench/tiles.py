"""Times maps of changed tiles by numpy, beside which `whole` has the library's.

    tiles.py WEDGEPETAL RECORDING..

The planes of all frames lie in memory first. One line for each recording: microseconds a frame of the fastest of several
rounds, for tiles of 16 by 16 samples of Y'.
"""
import re
import subprocess
import sys
import tempfile
import time
from pathlib import Path

import numpy

ROUNDS = 7
SIDE = 16

print("| recording | frames | numpy: µs a frame |\n|---|---|---|")
for recording in sys.argv[2:]:
    with tempfile.TemporaryDirectory() as name:
        folder = Path(name) / "planes"
        subprocess.run([sys.argv[1], "frames", recording, folder, "--quiet"], check=True)
        lines = re.findall(r"plane \S+: (\d+) by (\d+) samples", (folder / "layout.txt").read_text())
        width, height = map(int, lines[0])
        luma = [numpy.fromfile(file, "u1", width * height).reshape(height, width) for file in sorted(folder.glob("*.planes"))]
    best = 1e9
    for _ in range(ROUNDS):
        start = time.process_time()
        for before, new in zip(luma, luma[1:]):
            differs = before != new
            differs.reshape(height // SIDE, SIDE, width // SIDE, SIDE).any(axis=(1, 3))
        best = min(best, time.process_time() - start)
    print(f"| {Path(recording).name} | {len(luma)} | {best / max(len(luma) - 1, 1) * 1e6:.1f} |", flush=True)
