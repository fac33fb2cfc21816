"""Changed tiles: what the library says beside what numpy finds in the planes."""
import io

import numpy as np
import pytest
import wedgepetal
from ogg_files import STREAMS, packets, pages
from wedgepetal import Settings

STORED = ["one_by_one", "two_by_one_444", "one_by_two_422", "three_by_five"]


def changed(before, plane, side):
    """The tiles in which two planes differ, the top row first; tiles are cut from the lower left corner on."""
    if before is None:
        differs = np.ones(plane.shape, bool)
    else:
        differs = before != plane
    upward = differs[::-1]
    rows = [[upward[y : y + side, x : x + side].any() for x in range(0, plane.shape[1], side)]
            for y in range(0, plane.shape[0], side)]
    return np.array(rows)[::-1]


@pytest.mark.parametrize("name", STORED)
@pytest.mark.parametrize("side", [8, 16, 32])
@pytest.mark.parametrize("plane", [0, 1, 2])
def test_maps_are_what_the_planes_say(name, side, plane):
    tiles = wedgepetal.tiles(STREAMS / name, Settings(tile=side, plane=plane), on_refusal="skip")
    before, wanted, packets_, kinds = None, [], [], []
    with wedgepetal.open(STREAMS / name, on_refusal="skip", region="coded", tiles=Settings(side, 0, 0, plane)) as shot:
        for frame in shot:
            wanted.append(changed(before, frame.plane(plane), side))
            np.testing.assert_array_equal(frame.changed, wanted[-1])
            before = frame.plane(plane)
            packets_.append(frame.packet)
            kinds.append(frame.kind)
        refused = [(refusal.number, refusal.place, refusal.packet) for refusal in shot.refused]
    np.testing.assert_array_equal(tiles, wanted)
    assert list(tiles.packets) == packets_ and tiles.kinds == kinds
    assert [(refusal.number, refusal.place, refusal.packet) for refusal in tiles.refused] == refused
    np.testing.assert_allclose(tiles.share, np.mean(wanted, axis=(1, 2)))
    np.testing.assert_array_equal(tiles.count, np.sum(wanted[1:], axis=0))
    assert list(tiles.compared) == [False] + [True] * (len(wanted) - 1)


def test_many_packets_and_gaps(monkeypatch):
    """Batches of any size give the same maps; behind a gap all tiles of the key frame are changed."""
    sound = packets("three_by_five")
    del sound[9]
    sound += sound[3:] * 3
    file = pages(sound)
    del file[20:22]
    wanted = None
    for batch in (64, 1, 5, 1000):
        monkeypatch.setattr("wedgepetal._tiles.BATCH", batch)
        tiles = wedgepetal.tiles(io.BytesIO(b"".join(file)), Settings(8), on_gap="key-frame")
        assert [(gap.packet, gap.lost, gap.left_out) for gap in tiles.gaps] == [(20, 2, 9)]
        assert tiles.maps[17].all() and tiles.kinds[17] == "intra" and len(tiles) == 17 + 28
        assert list(tiles.times[16:18]) == [0.64, 1.12]
        assert list(np.flatnonzero(~tiles.compared)) == [0, 17]
        wanted = tiles if wanted is None else wanted
        np.testing.assert_array_equal(tiles, wanted)
    with pytest.raises(wedgepetal.Gap):
        wedgepetal.tiles(io.BytesIO(b"".join(file)))


def test_refusals_are_raised(recordings):
    with pytest.raises(wedgepetal.Refused) as caught:
        wedgepetal.tiles(recordings / "damaged.ogv")
    assert (caught.value.number, caught.value.packet) == (4, 9)
    for settings in (Settings(9), Settings(plane=3), Settings(8, 2, 1), Settings(tile=-8)):
        with pytest.raises(wedgepetal.Refused) as caught:
            wedgepetal.tiles(recordings / "shot.ogv", settings)
        assert (caught.value.number, caught.value.packet) == (20, None)


def test_a_shot_without_frames():
    first, comment, setup = packets("three_by_five")[:3]
    tiles = wedgepetal.tiles(io.BytesIO(b"".join(pages([first, comment, setup]))))
    assert tiles.maps.shape == (0, 5, 3) and tiles.share.shape == (0,) and not tiles.count.any()


def test_the_picture_of_tiles(recordings, tmp_path):
    pytest.importorskip("matplotlib")
    tiles = wedgepetal.tiles(recordings / "shot.ogv", Settings(8))
    for name in ("tiles.png", "tiles.svg"):
        figure = wedgepetal.picture(tiles, tmp_path / name)
        assert (tmp_path / name).stat().st_size > 5000
    shown = figure.axes[0].images[0].get_array()
    np.testing.assert_array_equal(shown, tiles.count)
