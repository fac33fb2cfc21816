"""Films: what is written is what the frames are."""
import io

import numpy as np
import pytest
import wedgepetal
from ogg_files import STREAMS


@pytest.mark.parametrize("name, first", [
    ("one_by_one", b"YUV4MPEG2 W16 H16 F25:1 Ip A0:0 C420jpeg\n"),
    ("one_by_two_422", b"YUV4MPEG2 W16 H32 F25:1 Ip A0:0 C422\n"),
    ("two_by_one_444", b"YUV4MPEG2 W32 H16 F25:1 Ip A0:0 C444\n"),
])
def test_films(name, first):
    out = io.BytesIO()
    count = wedgepetal.write_y4m(STREAMS / name, out, on_refusal="skip")
    with wedgepetal.open(STREAMS / name, region="coded", on_refusal="skip") as shot:
        frames = [b"FRAME\n" + b"".join(plane.tobytes() for plane in frame.planes) for frame in shot]
    assert count == len(frames) and out.getvalue() == first + b"".join(frames)


def test_a_film_has_its_name_once_it_is_whole(recordings, tmp_path):
    with pytest.raises(wedgepetal.Refused):
        wedgepetal.write_y4m(recordings / "damaged.ogv", tmp_path / "film.y4m")
    assert list(tmp_path.iterdir()) == []
    assert wedgepetal.write_y4m(recordings / "shot.ogv", str(tmp_path / "film.y4m")) == 14
    assert [path.name for path in tmp_path.iterdir()] == ["film.y4m"]
    planes = np.fromfile(tmp_path / "film.y4m", np.uint8)[41:].reshape(14, 6 + 5760)[:, 6:]
    luma = planes[:, :3840].reshape(14, 80, 48)
    np.testing.assert_array_equal(luma, wedgepetal.load(recordings / "shot.ogv", region="coded"))
