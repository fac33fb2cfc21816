"""An archive of small shots for the tests.

    shots.py FOLDER [COUNT]
"""
import sys
from pathlib import Path

from ogg_files import packet_file, packets, pages


def make(folder: Path, count: int = 24) -> None:
    """So many whole shots, some in a folder of their own, and four others: with a refused packet, with a gap, none at all, and
    a packet file with refused packets."""
    (folder / "older").mkdir(parents=True)
    sound = packets("three_by_five")
    del sound[9]
    for i in range(count):
        repeated = sound + sound[3:] * (3 + i % 5)
        (folder / ("older" if i % 3 else ".") / f"shot-{i:02}.ogv").write_bytes(b"".join(pages(repeated)))
    (folder / "refused.ogv").write_bytes(b"".join(pages(packets("three_by_five"))))
    file = pages(sound + sound[3:])
    (folder / "older" / "gap.ogv").write_bytes(b"".join([*file[:8], *file[9:]]))
    (folder / "other.ogv").write_bytes(b"a text that is none")
    (folder / "small.packets").write_bytes(packet_file(packets("one_by_one")))
    (folder / "notes.txt").write_text("not read")


if __name__ == "__main__":
    make(Path(sys.argv[1]), *map(int, sys.argv[2:]))
