#!/usr/bin/env python3
"""Has other programs read and write the streams of frames.

    judges.py LIBRARY.so COMMAND DECODE STREAM.. [--full]

COMMAND is the wedgepetal command, DECODE the program of tests/streams with libtheora. For each recording the command's
stream must be, to the byte, what DECODE makes of libtheora's own planes, and be accepted by `y4m check` and `check`, which must
name a byte that is changed anywhere, and with --full the first line of FFmpeg's own stream. With --full FFmpeg then reads each of these streams, and others with rates and aspects up to their widths, and must give the planes back to the
byte; and y4mtopnm of mjpegtools, where no number is above 2^31 - 1, which it does not take.
"""
import os
import random
import re
import subprocess
import sys
import tempfile

from library import Library, buffer_bytes, fail, session


def run(*words, **more):
    done = subprocess.run(words, capture_output=True, **more)
    if done.returncode != 0:
        fail(f"{' '.join(words)}: {done.stderr.decode(errors='replace')}")
    return done.stdout


def header_of(stream):
    """The length of the first line, and width, height and format."""
    line = stream[: stream.index(b"\n") + 1]
    words = line.decode().split()
    return len(line), int(words[1][1:]), int(words[2][1:]), {"C420jpeg": 0, "C422": 2, "C444": 3}[words[6]]


def planes_of(stream):
    """The planes alone, the top row first."""
    at, width, height, pf = header_of(stream)
    size = buffer_bytes(width, height, pf) // 256
    return b"".join(stream[i + 6 : i + 6 + size] for i in range(at, len(stream), 6 + size))


def hold_ffmpeg(path, planes):
    """FFmpeg gives the planes back."""
    if run("ffmpeg", "-v", "error", "-threads", "1", "-i", path, "-vsync", "passthrough", "-f", "rawvideo", "-") != planes:
        fail(f"{path}: FFmpeg gives other planes back")


def composite(planes, width, height, pf):
    """The grey pictures that y4mtopnm -f makes of planes: Y', below it Cb and Cr, side by side if they are half as wide."""
    size, out = buffer_bytes(width, height, pf) // 256, []
    across, up = (width if pf == 3 else width // 2), (height // 2 if pf == 0 else height)
    for at in range(0, len(planes), size):
        cb, cr = at + width * height, at + width * height + across * up
        out += [f"P5\n{width} {size // width} 255\n".encode(), planes[at:cb]]
        if pf == 3:
            out.append(planes[cb : at + size])
        else:
            out += [planes[c + i * across : c + (i + 1) * across] for i in range(up) for c in (cb, cr)]
    return b"".join(out)


def hold_mjpegtools(stream):
    """mjpegtools read the same planes, if they take the numbers of the header; whether they do."""
    _, width, height, pf = header_of(stream)
    if any(int(n) >= 2**31 for n in re.findall(rb"\d+", stream[: stream.index(b"\n")])):
        return False
    if run("y4mtopnm", "-f", "-v", "0", input=stream) != composite(planes_of(stream), width, height, pf):
        fail("mjpegtools read other planes")
    return True


def hold_check(command, path, film, stream, full):
    """The check passes libtheora's stream, and names a byte that is changed anywhere; FFmpeg's own differs in its first line."""
    run(command, "check", path, film)
    at = random.Random(len(stream)).randrange(len(stream))
    other = film + ".other.y4m"
    with open(other, "wb") as file:
        file.write(stream[:at] + bytes([stream[at] ^ 1]) + stream[at + 1 :])
    says(command, path, other, f"differs at byte {at:,}: ")
    if full and os.path.exists(os.path.splitext(path)[0] + ".ffmpeg.txt"):
        run("ffmpeg", "-v", "error", "-y", "-i", path, "-strict", "-1", "-f", "yuv4mpegpipe", other)
        says(command, path, other, "(FFmpeg writes its first line so)")
    os.remove(other)


def says(command, path, film, words):
    """The check of a film says these words, with status 1."""
    done = subprocess.run((command, "check", path, film), capture_output=True, text=True)
    if done.returncode != 1 or words not in done.stdout:
        fail(f"{path}: the check says {done.stdout}{done.stderr}, not {words}")


def recordings(command, decode, paths, full):
    """The command's streams of recordings are libtheora's planes."""
    frames = small = 0
    for path in paths:
        with tempfile.NamedTemporaryFile(suffix=".y4m") as film:
            run(command, "y4m", path, film.name, "--force")
            said = run(command, "y4m", "check", film.name).decode()
            with open(film.name, "rb") as file:
                ours = file.read()
            if ours != run(decode, "--y4m", path):
                fail(f"{path}: libtheora's planes give another stream")
            hold_check(command, path, film.name, ours, full)
            frames += int(said.split(": ")[1].split()[0])
            if full:
                hold_ffmpeg(film.name, planes_of(ours))
                small += hold_mjpegtools(ours)
    return frames, small


def extremes(library, rng):
    """Streams with numbers up to their widths, in three formats."""
    rates = ((1, 1), (25, 1), (50, 2), (30000, 1001), (2**31 - 1, 2**31 - 1), (2**31, 3), (2**32 - 1, 1), (1, 2**32 - 1), (2**32 - 1, 2**32 - 1))
    aspects = ((0, 0), (0, 7), (1, 1), (12, 11), (2**24 - 1, 1), (1, 2**24 - 1), (2**24 - 1, 2**24 - 1))
    count = small = 0
    for pf in (0, 2, 3):
        for rate in rates:
            for aspect in aspects:
                w, h, n = rng.randrange(1, 5), rng.randrange(1, 5), rng.randrange(1, 4)
                frames = rng.randbytes(n * buffer_bytes(w, h, pf))
                room = 82 + n * 6 + len(frames)
                number, out, (length,) = library.stream(session(w, h, pf, rate, aspect), frames, room)
                stream = out[:length]
                if number != 0:
                    fail(f"a stream at {rate}: {number}")
                with tempfile.NamedTemporaryFile(suffix=".y4m") as file:
                    file.write(stream)
                    file.flush()
                    hold_ffmpeg(file.name, planes_of(stream))
                small += hold_mjpegtools(stream)
                count += 1
    return count, small


def main():
    words = [word for word in sys.argv[1:] if word != "--full"]
    full = len(words) < len(sys.argv) - 1
    library, command, decode, paths = Library(words[0]), words[1], words[2], words[3:]
    frames, small = recordings(command, decode, paths, full)
    judges = f"; FFmpeg reads all of them back, mjpegtools the {small} whose numbers are below 2^31" if full else ""
    print(f"films: {frames} frames of {len(paths)} recordings are libtheora's planes{judges}")
    if full:
        count, small = extremes(library, random.Random(1))
        print(f"films: FFmpeg reads {count} streams with numbers up to their widths back, mjpegtools the {small} below 2^31")


main()
