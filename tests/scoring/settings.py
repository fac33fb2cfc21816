#!/usr/bin/env python3
"""Holds the calls on settings to a second reader and a second writer.

    settings.py LIBRARY.so [--full]

The second reader is one regular expression for each version, without numbers in between: ranges are written out in it, but
for shot_first being at most shot_last. It reads, for versions 0 to 3, a dozen texts with each byte changed, left out or put
in, and cut everywhere; without --full three of the texts. Then random values there and back: a million, else 20,000.
"""
import random
import re
import sys

from library import BEHIND, Library, all_changes, fail

NUMBER = rb"(0|[1-9][0-9]{0,5})"
LINES = rb"tile=(8|16|32)\nshot_first=" + NUMBER + rb"\nshot_last=" + NUMBER + rb"\n"
TEXTS = {1: re.compile(rb"version=1\n" + LINES), 2: re.compile(rb"version=2\n" + LINES + rb"plane=([012])\n")}


def second_reader(version, text):
    """The number, and the settings."""
    if version == 1 and text[:10] == b"version=2\n":
        return 19, None
    for kind in {1: (1,), 2: (1, 2)}.get(version, ()):
        found = TEXTS[kind].fullmatch(text)
        if found and int(found[2]) <= int(found[3]):
            return 0, [int(n) for n in found.groups()] + [0] * (2 - kind)
    return 20, None


def second_writer(version, tile, first, last, plane):
    fits = tile in (8, 16, 32) and first <= last <= 999999 and plane <= 2 and (version == 2 or (version, plane) == (1, 0))
    more = f"plane={plane}\n" if version == 2 else ""
    return f"version={version}\ntile={tile}\nshot_first={first}\nshot_last={last}\n{more}".encode() if fits else None


def hold(library, text):
    for version in range(4):
        number, values = second_reader(version, text)
        answer = library.settings(version, text)
        if answer != (number, values or [77] * 4):
            fail(f"{text!r} for version {version}: {answer}, by the second reader {number}, {values}")


def hold_value(library, version, values, room):
    """Writes a value, into this much room, and reads it back."""
    number, out, (count,) = library.settings_text(version, values, room)
    text = second_writer(version, *values)
    wanted = 20 if text is None else 14 if len(text) > room else 0
    left = (text if wanted == 0 else b"").ljust(room + BEHIND, b"\xa5")
    if (number, out, count) != (wanted, left, len(text) if wanted == 0 else 77):
        fail(f"writing {values} as version {version}: {number}, {out}, {count}")
    if wanted == 0 and library.settings(version, text) != (0, list(values)):
        fail(f"{text!r} is not read back")
    if wanted == 0 and version == 1 and library.settings(2, text) != (0, list(values)):
        fail(f"{text!r} is not read by the reader for version 2")
    return wanted


def ends(library):
    """Texts whose numbers are at and past the ends of their ranges."""
    near = (0, 1, 9, 10, 99999, 100000, 999998, 999999, 1000000, 9999999999, 10**10, 2**64, 10**30)
    values = [(tile, 0, 9, plane) for tile in range(70) for plane in range(12)]
    values += [(8, first, last, 0) for first in near for last in near]
    for tile, first, last, plane in values:
        for version in range(4):
            lines = f"version={version}\ntile={tile}\nshot_first={first}\nshot_last={last}\n"
            hold(library, lines.encode())
            hold(library, f"{lines}plane={plane}\n".encode())
    return 8 * len(values)


def draw(rng):
    """Settings in range, of which one number in thirty is then any other."""
    near = (0, 1, 7, 8, 9, 10, 16, 32, 99, 100, 999998, 999999, 1000000, 2**32, 2**64 - 1)
    last = rng.randrange(10 ** rng.randrange(1, 7))
    values = rng.choice((8, 16, 32)), rng.randrange(last + 1), last, rng.choice((0, 0, 1, 2))
    return tuple(v if rng.randrange(30) else rng.choice(near) for v in values)


def main():
    full = "--full" in sys.argv[2:]
    library, rng = Library(sys.argv[1]), random.Random(10)
    values = [(8, 0, 9, 0), (16, 0, 0, 1), (32, 999999, 999999, 2), (8, 10, 100, 0), (16, 99999, 100000, 1), (32, 1, 10, 2), (16, 7, 999999, 0)]
    texts = [t for s in values for v in (1, 2) if (t := second_writer(v, *s))]
    texts += [b"version=2\n", b"version=1\ntile=8\nshot_first=10\nshot_last=9\n", b"version=2\ntile=8\nshot_first=10\nshot_last=9\nplane=0\n"]
    count = ends(library)
    for text in texts if full else (texts[0], texts[3], texts[-2]):
        hold(library, text)
        for changed in all_changes(text):
            hold(library, changed)
            count += 1
    times = 1_000_000 if full else 20_000
    tally = {0: 0, 14: 0, 20: 0}
    for i in range(times):
        room = 61 if i % 8 else rng.randrange(62)
        values = draw(rng)
        version = rng.choice((0, 1, 2, 3)) if i % 16 == 0 else rng.choice((1, 2)) if values[3] == 0 else 2
        tally[hold_value(library, version, values, room)] += 1
    print(f"settings: {count} changed texts as by the second reader, for four versions each; of {times} values {tally[0]} there and back, {tally[20]} refused by 20, {tally[14]} by 14")


main()
