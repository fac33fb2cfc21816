"""Holds the maps of changed tiles that the command writes to numpy, over the planes that it writes.

    judge.py WEDGEPETAL RECORDING..

Of each recording, as it is and with packets damaged, all three planes and sides of 8, 16 and 32: byte (x, y) of a frame's
map must be 1 exactly if some sample of that tile differs from the frame before it, and all 1 where there is none. A frame
is an accepted packet, so that a refused one leaves no map and no frame; the table has a line for it.
"""
import csv
import random
import re
import struct
import subprocess
import sys
import tempfile
from pathlib import Path

import numpy

wedgepetal, recordings = Path(sys.argv[1]).resolve(), [Path(name).resolve() for name in sys.argv[2:]]
dice = random.Random(14)
maps = frames = refused = 0


def run(folder, *words):
    """Runs the command; a refused packet is no failure."""
    done = subprocess.run([wedgepetal, *map(str, words)], cwd=folder, capture_output=True, text=True)
    if done.returncode > 1:
        sys.exit(f"{words}: {done.stderr}")
    return done


def planes(folder):
    """The planes of all frames of a folder, bottom row first, by the text beside them."""
    lines = re.findall(r"plane \S+: (\d+) by (\d+) samples from byte (\d+)", (folder / "layout.txt").read_text())
    whole = numpy.array([numpy.fromfile(name, "u1") for name in sorted(folder.glob("*.planes"))])
    cut = [(int(offset), int(width), int(height)) for width, height, offset in lines]
    return [whole[:, offset:offset + width * height].reshape(-1, height, width) for offset, width, height in cut]


def wanted(plane, side, first):
    """The maps of a plane's frames; `first` are the frames that have none before them."""
    count, height, width = plane.shape
    rows, columns = -(-height // side), -(-width // side)
    differs = numpy.ones((count, rows * side, columns * side), bool)
    differs[:, height:, :] = differs[:, :, width:] = False
    differs[1:, :height, :width] = plane[1:] != plane[:-1]
    tiles = differs.reshape(count, rows, side, columns, side).any(axis=(2, 4)).astype("u1")
    tiles[first] = 1
    return tiles


def judge(folder, recording):
    """Compares the maps of a recording."""
    global maps, frames, refused
    run(folder, "frames", recording, "planes")
    all_planes = planes(folder / "planes")
    for plane in range(3):
        for side in 8, 16, 32:
            run(folder, "settings", "write", "s.txt", "--tile", side, "--shot-first", 0, "--shot-last", 9, "--plane", plane,
                "--force")
            run(folder, "tiles", recording, "--settings", "s.txt", "-o", "m.npy", "--csv", "t.csv", "--force")
            rows = list(csv.DictReader((folder / "t.csv").read_text().splitlines()))
            accepted = [row for row in rows if row["frame"]]
            found = numpy.load(folder / "m.npy")
            expected = wanted(all_planes[plane], side, [0])
            if found.shape != expected.shape or (found != expected).any():
                sys.exit(f"{recording}: plane {plane}, side {side}: another map")
            if [int(row["changed"]) for row in accepted] != list(found.sum(axis=(1, 2))):
                sys.exit(f"{recording}: plane {plane}, side {side}: another table")
            maps += len(found)
    frames += len(accepted)
    refused += len(rows) - len(accepted)


def damaged(folder, recording):
    """A packet file of the recording's packets, of which some are damaged, cut or emptied."""
    run(folder, "packets", recording, "p.packets")
    data, at, packets = (folder / "p.packets").read_bytes(), 0, []
    while at < len(data):
        length, = struct.unpack_from("<I", data, at)
        packets.append(bytearray(data[at + 4:at + 4 + length]))
        at += 4 + length
    for packet in packets[4:]:
        kind = dice.randrange(8)
        if kind == 0 and packet:
            packet[dice.randrange(len(packet))] ^= 1 << dice.randrange(8)
        elif kind == 1:
            del packet[dice.randrange(len(packet) + 1):]
        elif kind == 2:
            packet.clear()
    path = folder / "damaged.packets"
    path.write_bytes(b"".join(struct.pack("<I", len(packet)) + packet for packet in packets))
    return path


for recording in recordings:
    with tempfile.TemporaryDirectory() as name:
        folder = Path(name)
        judge(folder, recording)
    with tempfile.TemporaryDirectory() as name:
        folder = Path(name)
        judge(folder, damaged(folder, recording))
if refused == 0:
    sys.exit("no packet was refused")
print(f"{maps} maps of {frames} frames are numpy's, with {refused} refused packets among them")
