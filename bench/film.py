#!/usr/bin/env python3
"""Times recordings to streams of frames, end to end: `wedgepetal y4m` beside `ffmpeg -threads 1`, and their peak memory.

    film.py COMMAND RECORDING.ogv..

Both write YUV4MPEG2 to a pipe whose other end reads and forgets it. Processor time (user and system) of the whole process,
the two in turn, nine rounds, the least counts; so other work on the machine weighs little. FFmpeg's is measured twice: with
its frames as they come (-vsync passthrough), in which repeats are missing, and with so many frames as the film should have
(its own choice). It cuts to the picture; -apply_cropping 0 has it write whole frames as ours does.
"""
import os
import subprocess
import sys

ROUNDS = 9


def high_water(process):
    """The most memory that a process has had so far, in kB. (What the system says at its end counts this program's too.)"""
    with open(f"/proc/{process}/status") as status:
        return next((int(line.split()[1]) for line in status if line.startswith("VmHWM")), 0)


def measured(words):
    """Processor seconds, peak memory in MB, and bytes written."""
    out, into = os.pipe()
    process = subprocess.Popen(words, stdin=subprocess.DEVNULL, stdout=into, stderr=subprocess.DEVNULL)
    os.close(into)
    count, peak = 0, 0
    while piece := os.read(out, 1 << 20):
        count += len(piece)
        peak = max(peak, high_water(process.pid))
    os.close(out)
    _, status, used = os.wait4(process.pid, 0)
    if status != 0:
        sys.exit(f"film.py: {' '.join(words)}: status {status}")
    return used.ru_utime + used.ru_stime, peak / 1024, count


def main():
    command, paths = sys.argv[1], sys.argv[2:]
    print("| recording | ours, ms | FFmpeg, each decoded frame | FFmpeg, as a film | ours / FFmpeg | ours / FFmpeg, film | MB written: ours | FFmpeg | FFmpeg, film | peak MB: ours | FFmpeg |")
    print("|---|---|---|---|---|---|---|---|---|---|---|")
    for path in paths:
        ffmpeg = ["ffmpeg", "-v", "error", "-threads", "1", "-apply_cropping", "0", "-i", path, "-map", "0:v:0"]
        film = ["-threads", "1", "-f", "yuv4mpegpipe", "-strict", "-1", "-"]
        calls = [[command, "y4m", path, "-", "--quiet"], [*ffmpeg, "-vsync", "passthrough", *film], [*ffmpeg, *film]]
        least, memory, written = [1e9] * 3, [0] * 3, [0] * 3
        for _ in range(ROUNDS):
            for i, words in enumerate(calls):
                time, peak, count = measured(words)
                least[i], memory[i], written[i] = min(least[i], time), max(memory[i], peak), count
        name = os.path.basename(path).removesuffix(".ogv")
        ratios = [f"{least[0] / least[1]:.2f}", f"{least[0] / least[2]:.2f}"]
        cells = [name, *(f"{t * 1e3:.1f}" for t in least), *ratios, *(f"{n * 1e-6:.1f}" for n in written), *(f"{m:.0f}" for m in memory[:2])]
        print("| " + " | ".join(cells) + " |", flush=True)


main()
