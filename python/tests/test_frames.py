"""Frames: what the stored streams must give, planes, regions, colours, and memory that is viewed."""
import gc
import io
import pickle
from fractions import Fraction
from pathlib import Path

import numpy as np
import pytest
import wedgepetal
from ogg_files import STREAMS, packet_file, packets
from wedgepetal._memory import free

GOOD = ["one_by_one", "two_by_one_444", "one_by_two_422", "three_by_five"]


def wanted(name):
    """What libtheora makes of a stored stream (tests/streams/store)."""
    lines = (STREAMS.parent / "stdout").read_text().splitlines()
    start = lines.index(name) + 1
    for line in lines[start:]:
        if " " not in line:
            return
        if line.startswith("frame"):
            yield line


def fingerprint(frame):
    """FNV-1a with 64 bits, over the three planes with the lowest row first."""
    value = 0xCBF29CE484222325
    for plane in range(3):
        for byte in frame.plane(plane, "coded")[::-1].tobytes():
            value = (value ^ byte) * 0x100000001B3 & 0xFFFFFFFFFFFFFFFF
    return value


@pytest.mark.parametrize("name", GOOD)
def test_streams_give_what_libtheora_gives(name):
    said = {}
    with wedgepetal.open(STREAMS / name, on_refusal="skip") as shot:
        for number, frame in enumerate(shot):
            assert frame.number == number
            qi = ",".join(map(str, frame.qi)) or "-"
            said[frame.packet] = f"frame {frame.packet} {frame.kind} {qi} {fingerprint(frame):016x} {frame.tokens}"
        for refusal in shot.refused:
            said[refusal.packet] = f"frame {refusal.packet} refused {refusal.number} at {refusal.place}"
    assert [said[packet] for packet in sorted(said)] == list(wanted(name))


def test_a_refusal_is_raised_and_the_next_packet_can_be_decoded():
    with wedgepetal.open(STREAMS / "three_by_five") as shot:
        numbers = []
        with pytest.raises(wedgepetal.Refused) as caught:
            numbers.extend(frame.number for frame in shot)
        assert (caught.value.number, caught.value.place, caught.value.packet) == (4, 479, 9)
        numbers.extend(frame.number for frame in shot)
    assert numbers == list(range(14))


def test_refusals_and_gaps_go_through_pickle():
    """As they do on their way out of a pool of processes."""
    refused = pickle.loads(pickle.dumps(wedgepetal.Refused(12, 5311, 17)))
    assert repr(refused) == "Refused(12, 5311, 17)"
    assert str(refused) == "packet 17: refused by 12, a run exceeds the bits still wanted, at bit 5,311"
    assert str(wedgepetal.Refused(18)) == "refused by 18, CS is neither 1 nor 2"
    gap = wedgepetal.Gap("page 8 is damaged or missing, before byte 154511", 92, 5.933333, 13)
    gap.left_out = 26
    again = pickle.loads(pickle.dumps(gap))
    assert str(again) == str(gap) and again.left_out == 26


def test_headers_are_refused_with_their_packet():
    first, comment, setup = packets("one_by_one")[:3]
    for number, wrong in ((0, [first[:20], comment, setup]), (2, [first, comment, setup[:100]])):
        with pytest.raises(wedgepetal.Refused) as caught:
            wedgepetal.open(_file(wrong))
        assert (caught.value.number, caught.value.packet) == (4, number)


def _file(packets):
    """A packet file."""
    return io.BytesIO(packet_file(packets))


def test_session_and_sizes(recordings):
    with wedgepetal.open(recordings / "shot.ogv") as shot:
        assert (shot.session.fmbw, shot.session.fmbh, shot.session.pf) == (3, 5, 0)
        assert shot.rate == Fraction(25)
        assert [shot.shape(plane) for plane in range(3)] == [(80, 48), (40, 24), (40, 24)]
        assert shot.memory == 3 * 5760 + 153 * 90 + 2 * 10 + 15 + 28184


def cropped(picture, pf=0):
    """A session whose picture is another: x, y, width, height."""
    fields = dict(vrev=1, fmbw=20, fmbh=15, frn=25, frd=1, parn=1, pard=1, cs=1, nombr=0, qual=0, kfgshift=6, pf=pf)
    x, y, width, height = picture
    return wedgepetal.Session(picx=x, picy=y, picw=width, pich=height, **fields)


def test_regions():
    def chroma(picture, pf):
        return cropped(picture, pf).region("picture", 1)

    assert chroma((0, 0, 320, 240), 0) == (0, 0, 160, 120)
    assert chroma((4, 6, 311, 227), 0) == (2, 3, 156, 114)
    assert chroma((4, 6, 311, 227), 2) == (2, 7, 156, 227)
    assert chroma((4, 6, 311, 227), 3) == (4, 7, 311, 227)
    assert cropped((4, 6, 311, 227)).region("picture", 0) == (4, 7, 311, 227)
    assert cropped((4, 6, 311, 227)).region("coded", 2) == (0, 0, 160, 120)


def with_picture(x, y, width, height):
    """The stream one_by_two_422 with another picture: its packets that are accepted."""
    found = packets("one_by_two_422")
    first = bytearray(found[0])
    first[14:22] = width.to_bytes(3, "big") + height.to_bytes(3, "big") + bytes([x, y])
    return [bytes(first), *found[1:6]]


def test_the_picture_is_cut_out_of_the_coded_frame():
    stream = with_picture(3, 5, 9, 20)
    with wedgepetal.open(_file(stream)) as shot, wedgepetal.open(_file(stream), region="coded") as coded:
        for part, whole in zip(shot, coded):
            assert whole.y.shape == (32, 16) and whole.cb.shape == (32, 8)
            np.testing.assert_array_equal(part.y, whole.y[7:27, 3:12])
            np.testing.assert_array_equal(part.cr, whole.cr[7:27, 1:6])
            np.testing.assert_array_equal(part.rgb(1), whole.rgb(1)[7:27, 3:12])
            np.testing.assert_array_equal(part.plane(0, "coded"), whole.y)


def test_planes_are_views_that_can_only_be_read(recordings):
    with wedgepetal.open(recordings / "shot.ogv") as shot:
        frame = next(shot)
    for plane in frame.planes:
        assert not plane.flags.writeable and not plane.flags.owndata
        assert np.shares_memory(plane, frame._bytes)
        with pytest.raises(ValueError):
            plane.flags.writeable = True


def test_held_frames_stay_as_they_were(recordings):
    """Every frame and every view of it is as it was when it came, however many came since."""
    with wedgepetal.open(recordings / "shot.ogv") as shot:
        held = [(frame, frame.y[::2], frame.y.copy()) for frame in shot]
    for frame, view, copy in held:
        np.testing.assert_array_equal(frame.y, copy)
        np.testing.assert_array_equal(view, copy[::2])
    assert len({frame._bytes.ctypes.data for frame, _, _ in held}) == len(held)


def test_frames_that_nobody_holds_take_three_buffers(recordings):
    with wedgepetal.open(recordings / "shot.ogv") as shot:
        assert len({frame._bytes.ctypes.data for frame in shot}) <= 3


def test_two_neighbours_can_be_compared_in_three_buffers(recordings):
    with wedgepetal.open(recordings / "shot.ogv", held="refuse") as shot:
        before, changes = None, []
        for frame in shot:
            if before is not None:
                changes.append(int(np.abs(frame.y.astype(int) - before.y).sum()))
            before = frame
    assert len(changes) == 13 and changes[3] == changes[4] == 0 < changes[0]


def test_a_held_view_is_refused_and_the_shot_goes_on(recordings):
    with wedgepetal.open(recordings / "shot.ogv") as shot:
        all_frames = [frame.y.copy() for frame in shot]
    with wedgepetal.open(recordings / "shot.ogv", held="refuse") as shot:
        views = [next(shot).y[3:5], next(shot).cb]
        third = next(shot)
        with pytest.raises(wedgepetal.Held):
            next(shot)
        with pytest.raises(wedgepetal.Held):
            next(shot)
        np.testing.assert_array_equal(views[0], all_frames[0][3:5])
        del views[1]
        gc.collect()
        np.testing.assert_array_equal(third.y, all_frames[2])
        del third
        rest = [frame.y.copy() for frame in shot]
        np.testing.assert_array_equal(views[0], all_frames[0][3:5])
    np.testing.assert_array_equal(rest, all_frames[3:])


def test_load(recordings):
    path = recordings / "shot.ogv"
    with wedgepetal.open(path) as shot:
        frames = [(frame.y.copy(), frame.cr.copy(), frame.rgb()) for frame in shot]
    for i, plane in enumerate(("y", "cr", "rgb")):
        whole = np.stack([frame[i] for frame in frames])
        np.testing.assert_array_equal(wedgepetal.load(path, plane), whole)
        np.testing.assert_array_equal(wedgepetal.load(str(path), plane, range(3, 9, 2)), whole[3:9:2])
        np.testing.assert_array_equal(wedgepetal.load(path, plane, slice(10, 99)), whole[10:99])
        assert wedgepetal.load(path, plane, range(5, 5)).shape == whole[:0].shape
        assert wedgepetal.load(path, plane, slice(50, None)).shape == whole[:0].shape
    assert wedgepetal.load(path, "cb", region="coded").shape == (14, 40, 24)
    for frames in (range(5, 2, -1), slice(-3, None)):
        with pytest.raises(ValueError):
            wedgepetal.load(path, "y", frames)
    with pytest.raises(wedgepetal.Refused):
        wedgepetal.load(recordings / "damaged.ogv")


def test_memory_is_known_before_it_is_asked_for():
    first, comment, setup = packets("one_by_one")[:3]
    largest = bytearray(first)
    largest[10:22] = b"\xff\xff\xff\xff" + (16).to_bytes(3, "big") * 2 + b"\0\0"
    needed = 3 * 64 * 6 * 65535**2 + 153 * 6 * 65535**2 + 2 * (32768**2 + 2 * 16384**2) + 65535**2 + 28184
    with pytest.raises(MemoryError, match=f"needs {needed} bytes, more than the 1000000"):
        wedgepetal.open(_file([bytes(largest), comment, setup]), max_memory=1_000_000)
    with pytest.raises(MemoryError, match=f"needs {needed} bytes, more than the .* that are free here"):
        wedgepetal.open(_file([bytes(largest), comment, setup]))
    with wedgepetal.open(_file([first, comment, setup]), max_memory=3 * 384 + 153 * 6 + 2 * 3 + 1 + 28184) as shot:
        assert list(shot) == []


def test_free_memory(tmp_path):
    def write(place, text):
        (tmp_path / place).parent.mkdir(parents=True, exist_ok=True)
        (tmp_path / place).write_text(text)

    assert free(tmp_path) is None
    write("proc/meminfo", "MemTotal:  16384 kB\nMemFree: 1 kB\nMemAvailable:    8000 kB\n")
    assert free(tmp_path) == 8_192_000
    write("proc/self/cgroup", "0::/a/b\n")
    assert free(tmp_path) == 8_192_000
    write("sys/fs/cgroup/a/memory.max", "1000\n")
    write("sys/fs/cgroup/a/memory.current", "300\n")
    write("sys/fs/cgroup/a/b/memory.max", "max\n")
    assert free(tmp_path) == 700
    write("sys/fs/cgroup/memory/job/memory.limit_in_bytes", "500\n")
    write("proc/self/cgroup", "9:name=systemd:/\n8:memory:/job\n")
    assert free(tmp_path) == 500


def test_wrong_choices_are_said():
    for name in ("region", "held", "on_refusal", "on_gap"):
        with pytest.raises(ValueError, match=name):
            wedgepetal.open(STREAMS / "one_by_one", **{name: "other"})
    with pytest.raises(ValueError, match="plane"):
        wedgepetal.load(STREAMS / "one_by_one", "u")


def test_a_closed_shot_gives_no_frames(recordings):
    with wedgepetal.open(recordings / "shot.ogv") as shot:
        frame = next(shot)
    assert frame.y.shape == (80, 48)
    with pytest.raises(ValueError, match="closed"):
        next(shot)


def test_versions():
    version, place = wedgepetal.library_version()
    assert version == wedgepetal.__version__
    assert Path(place).name.startswith("libwedgepetal.so")
