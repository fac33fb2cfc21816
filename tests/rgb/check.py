#!/usr/bin/env python3
"""Holds wedgepetal_rgb to the formulas of Rec. 470M by exact fractions.

    check.py LIBRARY.so [--full]

Tries all 256 of Y with pairs of Cb and Cr: with --full all 65,536 of them, so all 256 ** 3 pixels, else those of
multiples of 15 and some others. Then the layout (top row first, chroma repeated) in the three formats, and the
refusals. What is expected is computed here from the specification's numbers alone.
"""
import ctypes
import random
import sys
from fractions import Fraction

KR, KB = Fraction(299, 1000), Fraction(114, 1000)
UNITS = 255 * 65536
RULES = {
    "luma": lambda v: Fraction(v - 16, 219),
    "red_cr": lambda v: 2 * (1 - KR) * Fraction(v - 128, 224),
    "green_cb": lambda v: -2 * (1 - KB) * KB / (1 - KB - KR) * Fraction(v - 128, 224),
    "green_cr": lambda v: -2 * (1 - KR) * KR / (1 - KB - KR) * Fraction(v - 128, 224),
    "blue_cb": lambda v: 2 * (1 - KB) * Fraction(v - 128, 224),
}


def nearest(x):
    """The nearest integer, ties away from 0."""
    whole = (2 * abs(x.numerator) + x.denominator) // (2 * x.denominator)
    return -whole if x < 0 else whole


TABLES = {name: [nearest(UNITS * rule(v)) for v in range(256)] for name, rule in RULES.items()}
EXACT = {name: [255 * rule(v) for v in range(256)] for name, rule in RULES.items()}


def steps(total):
    """A sum of contributions in steps of 0 to 255, before clamping."""
    return (total + 32768) >> 16


def clamp(x):
    return min(max(x, 0), 255)


def pixel(y, cb, cr):
    light = TABLES["luma"][y]
    green = TABLES["green_cb"][cb] + TABLES["green_cr"][cr]
    return bytes(clamp(steps(light + c)) for c in (TABLES["red_cr"][cr], green, TABLES["blue_cb"][cb]))


class Library:
    def __init__(self, path):
        self.call = ctypes.CDLL(path).wedgepetal_rgb
        self.call.restype = ctypes.c_uint32

    def convert(self, session, planes, room, written=1, past=7):
        """The answer, the bytes lent for the picture and what lies behind them, and the number of bytes."""
        numbers = (ctypes.c_uint64 * max(len(session), 1))(*session)
        source = (ctypes.c_uint8 * max(len(planes), 1)).from_buffer_copy(bytes(planes) or b"\0")
        out = (ctypes.c_uint8 * (room + past))()
        ctypes.memset(out, 0xA5, room + past)
        count = (ctypes.c_uint64 * max(written, 1))(*[77] * max(written, 1))
        size = ctypes.c_size_t
        answer = self.call(numbers, size(len(session)), source, size(len(planes)), out, size(room), count, size(written))
        return answer, bytes(out), count[0]


def session(w, h, pf, cs=1):
    return [0, w, h, 16 * w, 16 * h, 0, 0, 25, 1, 1, 1, cs, 0, 0, 6, pf, 0, 0, 0]


def fail(text):
    sys.exit(f"check.py: {text}")


def all_pixels(library, pairs):
    """Rows of 256 pixels with all Y, for each pair of Cb and Cr, as 4:4:4 frames; how far green lies from the exact value."""
    ys = bytes(range(256))
    red = [bytes(clamp(steps(y + c)) for y in TABLES["luma"]) for c in TABLES["red_cr"]]
    blue = [bytes(clamp(steps(y + c)) for y in TABLES["luma"]) for c in TABLES["blue_cb"]]
    low = min(steps(min(TABLES["luma"]) + min(TABLES["green_cb"]) + min(TABLES["green_cr"])), 0)
    high = steps(max(TABLES["luma"]) + max(TABLES["green_cb"]) + max(TABLES["green_cr"]))
    clamped = {i: clamp(i) for i in range(low, high + 1)}
    # over one denominator: green less its exact value, times that
    over = 219 * 224 * 587000
    whole = {name: [int(x * over) for x in EXACT[name]] for name in EXACT}
    assert all(x * over == n for name in EXACT for x, n in zip(EXACT[name], whole[name]))
    farthest, unlike = 0, 0
    for name, chroma in (("red_cr", "red"), ("blue_cb", "blue")):
        for c in range(256):
            for y in range(256):
                d = abs(over * steps(TABLES["luma"][y] + TABLES[name][c]) - whole["luma"][y] - whole[name][c])
                if 10 * d > 6 * over:
                    fail(f"{chroma} is farther than 6/10 from its exact value at {y}, {c}")
    height = 16 * 64
    for start in range(0, len(pairs), height):
        part = pairs[start:start + height]
        part += part[-1:] * (-len(part) % 16)
        rows = len(part)
        planes = ys * rows + b"".join(bytes([cb]) * 256 for cb, _ in part) + b"".join(bytes([cr]) * 256 for _, cr in part)
        answer, out, count = library.convert(session(16, rows // 16, 3), planes, 768 * rows)
        if (answer, count) != (0, 768 * rows):
            fail(f"answer {answer}, {count} bytes")
        for r, (cb, cr) in enumerate(part):
            row = out[768 * (rows - 1 - r):768 * (rows - r)]
            total = TABLES["green_cb"][cb] + TABLES["green_cr"][cr] + 32768
            unclamped = [(y + total) >> 16 for y in TABLES["luma"]]
            exact = whole["green_cb"][cb] + whole["green_cr"][cr]
            far = [abs(over * g - n - exact) for g, n in zip(unclamped, whole["luma"])]
            farthest = max(farthest, max(far))
            unlike += sum(2 * d > over for d in far)
            green = bytes([clamped[g] for g in unclamped])
            if (row[0::3], row[1::3], row[2::3]) != (red[cr], green, blue[cb]):
                fail(f"a pixel with Cb {cb} and Cr {cr} is not as it should be")
    if 10 * farthest > 6 * over:
        fail("green is farther than 6/10 from its exact value")
    return Fraction(farthest, over), unlike


def layouts(library, rng):
    """Random frames in the three formats, whole: top row first, chroma repeated."""
    for pf, (sx, sy) in {0: (2, 2), 2: (2, 1), 3: (1, 1)}.items():
        for w, h in ((1, 1), (2, 3), (5, 2)):
            width, height = 16 * w, 16 * h
            across = width // sx
            n, m = width * height, across * (height // sy)
            planes = rng.randbytes(n + 2 * m)
            wanted = bytearray()
            for y in reversed(range(height)):
                for x in range(width):
                    c = n + (y // sy) * across + x // sx
                    wanted += pixel(planes[y * width + x], planes[c], planes[c + m])
            answer, out, count = library.convert(session(w, h, pf, rng.choice((1, 2))), planes, 3 * n)
            if (answer, count, out) != (0, 3 * n, bytes(wanted) + b"\xA5" * 7):
                fail(f"a frame of {w} by {h} macro blocks, format {pf}: answer {answer}")
            # a longer output keeps what lies behind the picture
            answer, out, count = library.convert(session(w, h, pf), planes, 3 * n + 5)
            if (answer, count, out) != (0, 3 * n, bytes(wanted) + b"\xA5" * 12):
                fail("a longer output")


def refusals(library):
    """Each number in its turn, with nothing written."""
    planes, room = bytes(384), 768
    sound = session(1, 1, 0)
    cases = [
        (1, sound[:-1], planes, room, 1),
        (1, sound + [0], planes, room, 1),
        (8, session(0, 1, 0), planes, room, 1),
        (8, session(1, 1, 1), planes, room, 1),
        (8, sound[:-1] + [64], planes, room, 1),
        (8, session(1, 1, 0, 256), planes, room, 2),
        (1, sound, planes, room, 2),
        (1, sound, planes, room, 0),
        (1, sound, planes[:-1], room, 1),
        (1, session(1, 1, 0, 0), planes + b"\0", room, 1),
        (18, session(1, 1, 0, 0), planes, room, 1),
        (18, session(1, 1, 0, 3), planes, room - 1, 1),
        (18, session(1, 1, 0, 255), planes, 0, 1),
        (14, sound, planes, room - 1, 1),
        (14, sound, planes, 0, 1),
        (14, session(1, 1, 0, 2), planes, room - 1, 1),
    ]
    for number, s, p, r, written in cases:
        answer, out, count = library.convert(s, p, r, written)
        if (answer, count, set(out)) != (number, 77, {0xA5}):
            fail(f"refusal {number}: answer {answer}, or something was written")
    for unit in range(256):
        answer, _, _ = library.convert(session(1, 1, 0, unit), planes, room)
        if answer != (0 if unit in (1, 2) else 18):
            fail(f"colour space {unit}: answer {answer}")


def main():
    full = "--full" in sys.argv[2:]
    library = Library(sys.argv[1])
    refusals(library)
    layouts(library, random.Random(8))
    edge = {0, 1, 3, 127, 128, 129, 178, 254, 255} | set(range(0, 256, 15))
    pairs = [(cb, cr) for cb in range(256) for cr in range(256) if full or (cb in edge and cr in edge)]
    farthest, unlike = all_pixels(library, pairs)
    print(
        f"rgb: {256 * len(pairs)} pixels as by exact fractions; green lies at most {float(farthest):.7f} from its exact value, "
        f"and at {unlike} of them is not the exact value rounded"
    )


main()
