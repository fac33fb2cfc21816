"""Films that are what a recording gives, and films that are not."""
import io

import numpy as np
import pytest
import wedgepetal
from ogg_files import STREAMS, packet_file, packets, pages
from wedgepetal import Differs, Passes


@pytest.fixture(scope="module", params=["three_by_five", "one_by_two_422", "two_by_one_444"])
def pair(request):
    """A recording without refusals, and its film."""
    with wedgepetal.open(STREAMS / request.param, on_refusal="skip") as shot:
        list(shot)
        refused = {refusal.packet for refusal in shot.refused}
    sound = packet_file(packet for i, packet in enumerate(packets(request.param)) if i not in refused)
    film = io.BytesIO()
    wedgepetal.write_y4m(io.BytesIO(sound), film)
    return sound, film.getvalue()


def test_own_films_pass(pair, tmp_path):
    recording, film = pair
    (tmp_path / "film.y4m").write_bytes(film)
    for given in (film, tmp_path / "film.y4m", str(tmp_path / "film.y4m")):
        answer = wedgepetal.check(io.BytesIO(recording), given)
        assert answer and answer == Passes()


def place(recording, byte):
    """Where a byte of a film is, by walking over the frames."""
    with wedgepetal.open(io.BytesIO(recording), region="coded") as shot:
        at = None
        for frame in shot:
            if at is None:
                length = 6 + sum(plane.size for plane in frame.planes)
                at = byte - LINE(recording)
                if at < 0:
                    return Differs(byte)
            if at < length:
                if at < 6:
                    return Differs(byte, frame.number)
                at -= 6
                for i, plane in enumerate(frame.planes):
                    if at < plane.size:
                        row, column = np.unravel_index(at, plane.shape)
                        return Differs(byte, frame.number, i, column, row)
                    at -= plane.size
            at -= length
    return Differs(byte)


def LINE(recording):
    """How long a film's first line is."""
    film = io.BytesIO()
    wedgepetal.write_y4m(io.BytesIO(recording), film)
    return film.getvalue().index(b"\n") + 1


def test_a_flipped_bit_is_named(pair):
    recording, film = pair
    step = max(len(film) // 40, 1)
    for byte in {0, 5, *range(30, 60), *range(0, len(film), step), len(film) - 1}:
        wrong = bytearray(film)
        wrong[byte] ^= 1 << byte % 8
        answer = wedgepetal.check(io.BytesIO(recording), bytes(wrong))
        assert not answer and answer == place(recording, byte)


def test_cuts_and_more_are_named(pair):
    recording, film = pair
    for cut in (0, 1, 20, 41, 45, 47, len(film) // 2, len(film) - 1):
        answer = wedgepetal.check(io.BytesIO(recording), film[:cut])
        assert not answer and answer.byte == cut
    assert wedgepetal.check(io.BytesIO(recording), film + b"F") == Differs(len(film))


def test_an_empty_file(recordings, tmp_path):
    (tmp_path / "empty.y4m").touch()
    assert wedgepetal.check(recordings / "shot.ogv", tmp_path / "empty.y4m") == Differs(0)


def test_words():
    assert str(Differs(3)) == "differs at byte 3"
    assert str(Differs(43, 0)) == "differs at byte 43: frame 0, its line"
    assert str(Differs(1_204_331, 7, 1, 12, 40)) == "differs at byte 1,204,331: frame 7, Cb, column 12, row 40 from the top"


def test_refusals_come_first(recordings):
    for film in (b"", b"YUV4MPEG2 "):
        with pytest.raises(wedgepetal.Refused) as caught:
            wedgepetal.check(recordings / "damaged.ogv", film)
        assert (caught.value.number, caught.value.place, caught.value.packet) == (4, 479, 9)
    first, comment, setup = packets("one_by_one")[:3]
    for number, wrong in ((0, [first[:20], comment, setup]), (2, [first, comment, setup[:100]])):
        with pytest.raises(wedgepetal.Refused) as caught:
            wedgepetal.check(io.BytesIO(packet_file(wrong)), b"")
        assert (caught.value.number, caught.value.packet) == (4, number)


def test_gaps_are_raised():
    file = pages(packets("three_by_five"))
    del file[7]
    with pytest.raises(wedgepetal.Gap, match="page 7 is damaged or missing"):
        wedgepetal.check(io.BytesIO(b"".join(file)), b"")
    with pytest.raises(wedgepetal.NoRecording):
        wedgepetal.check(io.BytesIO(b"".join(file[:2])), b"")


def test_memory():
    with pytest.raises(MemoryError):
        wedgepetal.check(STREAMS / "three_by_five", b"", max_memory=1000)
