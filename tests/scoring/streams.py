#!/usr/bin/env python3
"""Holds the calls on streams of frames to a second writer and a second reader.

    streams.py LIBRARY.so [--full]

The second reader is one regular expression for the header and another for the frames; what a number may be is looked at
afterwards. It reads small streams with each byte changed, left out or put in, cut everywhere, and made longer: with --full
seven streams, else a header alone, and of a stream with a frame all that is no sample. Planes are turned over by slices of
Python. Then the rates, aspects and sizes at the ends of their ranges, and the refusals.
"""
import random
import re
import sys

from library import BEHIND, Library, all_changes, buffer_bytes, fail, session

HEADER = re.compile(rb"YUV4MPEG2 W(\d+) H(\d+) F(\d+):(\d+) Ip A(\d+):(\d+) C(420jpeg|422|444)\n")
FORMATS = {b"420jpeg": (0, 2, 2), b"422": (2, 2, 1), b"444": (3, 1, 1)}
STEPS = {pf: (x, y) for pf, x, y in FORMATS.values()}


def turned(planes, width, height, pf):
    """The planes with the rows of each the other way round."""
    x, y = STEPS[pf]
    out, at = b"", 0
    for row, rows in ((width, height), (width // x, height // y), (width // x, height // y)):
        plane = planes[at : at + row * rows]
        out += b"".join(plane[i * row : (i + 1) * row] for i in reversed(range(rows)))
        at += row * rows
    return out


def second_writer(s, frames):
    w, h, pf = s[1], s[2], s[15]
    aspect = s[9:11] if s[9] and s[10] else [0, 0]
    name = {0: "420jpeg", 2: "422", 3: "444"}[pf]
    text = f"YUV4MPEG2 W{16 * w} H{16 * h} F{s[7]}:{s[8]} Ip A{aspect[0]}:{aspect[1]} C{name}\n".encode()
    size = buffer_bytes(w, h, pf)
    for at in range(0, len(frames), size):
        text += b"FRAME\n" + turned(frames[at : at + size], 16 * w, 16 * h, pf)
    return text


def second_reader(stream):
    """The eight numbers and the planes, or nothing."""
    header = HEADER.match(stream)
    if not header or any(len(d) > 1 and d[:1] == b"0" for d in header.groups()[:6]):
        return None
    width, height, frn, frd, parn, pard = (int(d) for d in header.groups()[:6])
    pf, x, y = FORMATS[header[7]]
    sizes = all(n % 16 == 0 and 16 <= n <= 16 * 65535 for n in (width, height))
    rate = all(1 <= n < 2**32 for n in (frn, frd))
    aspect = (parn, pard) == (0, 0) or all(1 <= n < 2**24 for n in (parn, pard))
    if not (sizes and rate and aspect):
        return None
    size = width * height + 2 * (width // x) * (height // y)
    rest = stream[header.end() :]
    parts = [rest[i : i + 6 + size] for i in range(0, len(rest), 6 + size)]
    if any(not p.startswith(b"FRAME\n") or len(p) != 6 + size for p in parts):
        return None
    return [width, height, frn, frd, parn, pard, pf, len(parts)], b"".join(turned(p[6:], width, height, pf) for p in parts)


def hold(library, stream, room=None):
    """Reads a stream, into as much room as it needs and 3 bytes more, or into this much."""
    told = second_reader(stream)
    if told is None:
        room = 5 if room is None else room
        wanted = 21, b"\xa5" * (room + BEHIND), [77] * 8
    else:
        told, planes = told
        room = len(planes) + 3 if room is None else room
        if room >= len(planes):
            wanted = 0, planes.ljust(room + BEHIND, b"\xa5"), told
        else:
            wanted = 14, b"\xa5" * (room + BEHIND), [77] * 8
    answer = library.read(stream, room)
    if answer != wanted:
        fail(f"{stream[:60]!r} .. of {len(stream)} bytes: {answer[0]}, {answer[2]}; by the second reader {wanted[0]}, {wanted[2]}")
    return wanted[0]


def hold_written(library, s, frames):
    """Writes frames, whole and in pieces, and reads them back."""
    text, size = second_writer(s, frames), buffer_bytes(s[1], s[2], s[15])
    for room in (len(text), len(text) + 9):
        if library.stream(s, frames, room) != (0, text.ljust(room + BEHIND, b"\xa5"), [len(text)]):
            fail(f"writing a stream of {s}")
    number, out, (count,) = library.header(s, 90)
    pieces = out[:count]
    for at in range(0, len(frames), size):
        number, out, (count,) = library.frame(s, frames[at : at + size], 6 + size)
        pieces += out[:count]
    if pieces != text:
        fail(f"the pieces of a stream of {s}")
    if hold(library, text) != 0 or (frames and hold(library, text, len(frames) - 1) != 14):
        fail(f"reading a stream of {s}")
    return text


def refusals(library):
    """Each number in its turn, with nothing written."""
    sound, planes = session(1, 1, 0), bytes(384)
    late = sound[:-1] + [64]
    for call, room in ((library.stream, 431), (library.frame, 390)):
        for number, s, p, r, answer in (
            (1, sound[:-1], planes, room, [77]),
            (1, late + [0], planes[:-1], 0, []),
            (8, session(0, 1, 0), planes, room, [77]),
            (8, session(1, 65536, 0), planes, room, [77]),
            (8, session(1, 1, 1), planes, room, [77]),
            (8, session(1, 1, 0, (0, 1)), planes, room, [77]),
            (8, session(1, 1, 0, (2**32, 1)), planes, room, [77]),
            (8, session(1, 1, 0, aspect=(2**24, 1)), planes, room, [77]),
            (8, late, planes[:-1], 0, []),
            (1, sound, planes, room, [77, 77]),
            (1, sound, planes, room, []),
            (1, sound, planes[:-1], 0, [77]),
            (14, sound, planes, room - 1, [77]),
            (14, sound, planes, 0, [77]),
        ):
            if call(s, p, r, answer) != (number, b"\xa5" * (r + BEHIND), answer):
                fail(f"refusal {number} of {s}")
    if library.header(sound, 40) != (14, b"\xa5" * (40 + BEHIND), [77]) or library.frame(sound, b"", 0)[0] != 1:
        fail("refusals of the pieces")
    if library.frame(sound, planes * 2, 900)[0] != 1 or library.read(b"", 0, [77] * 7) != (1, b"\xa5" * BEHIND, [77] * 7):
        fail("refusals by 1")


def main():
    full = "--full" in sys.argv[2:]
    library, rng = Library(sys.argv[1]), random.Random(1)
    refusals(library)
    count = 0
    rates, aspects = (1, 25, 50, 10**6, 2**31, 2**32 - 1), (0, 1, 7, 65536, 2**24 - 1)
    for w, h, pf in ((1, 1, 0), (2, 3, 2), (3, 1, 3), (1, 2, 0), (5, 2, 3)):
        for n in range(4):
            s = session(w, h, pf, (rng.choice(rates), rng.choice(rates)), (rng.choice(aspects), rng.choice(aspects)))
            hold_written(library, s, rng.randbytes(n * buffer_bytes(w, h, pf)))
            count += 1
    for rate in ((a, b) for a in rates for b in rates):
        for aspect in ((a, b) for a in aspects for b in aspects):
            for w, h in ((1, 65535), (65535, 65535)):
                hold(library, hold_header(library, session(w, h, rng.choice((0, 2, 3)), rate, aspect)))
                count += 1
    changed = changes(library, rng, full)
    print(f"streams: {count} written and read back; {changed} changed streams as by the second reader")


def hold_header(library, s):
    """A header alone, of a session whose frames may be too large for any memory."""
    s = s[:3] + [0, 0] + s[5:]
    text = second_writer(s, b"")
    if library.stream(s, b"", 90) != (0, text.ljust(90 + BEHIND, b"\xa5"), [len(text)]):
        fail(f"the header of {s}")
    return text


def changes(library, rng, full):
    """Every changed byte, cut and extension of small streams."""
    shapes = [(1, 1, 0, 0), (1, 1, 0, 1), (1, 1, 0, 2), (2, 1, 2, 1), (1, 1, 3, 1), (1, 2, 0, 1), (65535, 1, 0, 0)]
    count = 0
    for w, h, pf, n in shapes if full else shapes[:2]:
        s = session(w, h, pf, (4294967295, 1001), (16777215, 11))
        text = second_writer(s, rng.randbytes(n * buffer_bytes(w, h, pf)))
        head = len(second_writer(s, b"")) + 7
        whole = full or len(text) < head
        for stream in all_changes(text) if whole else head_changes(text, head):
            hold(library, stream)
            count += 1
        for more in (b"F", b"FRAME\n", b"\0", text, text[head - 7 :], b"FRAME\n" + bytes(buffer_bytes(w, h, pf)) if w < 9 else b"F"):
            hold(library, text + more)
            count += 1
    for text in (b"", b"\n", b"YUV4MPEG2\n", b"YUV4MPEG2 W16 H16 F25:1 Ip A0:0 C420jpeg XYSCSS=420JPEG\n"):
        hold(library, text)
    return count


def head_changes(text, head):
    """The changes in the first bytes of a text, and cuts everywhere."""
    for changed in all_changes(text[:head]):
        yield changed + text[head:]
    for at in range(len(text)):
        yield text[:at]


main()
