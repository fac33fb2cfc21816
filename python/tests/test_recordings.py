"""Recordings: Ogg files that are whole, damaged, cut, joined, side by side; packet files; other files."""
import ctypes
import io
import subprocess

import pytest
import wedgepetal
from ogg_files import STREAMS, is_key_frame, packet_file, packets, pages
from wedgepetal import _ogg


@pytest.fixture
def sound():
    """The packets of a recording without refusals: a key frame, 13 others; then the same again with its key frame."""
    found = packets("three_by_five")
    del found[9]
    return found + found[3:]


def numbers(file, **choices):
    """Number, packet and position of each frame, and the shot."""
    with wedgepetal.open(io.BytesIO(file), **choices) as shot:
        return [(frame.number, frame.packet, frame.position) for frame in shot], shot


def test_ogg_files_give_what_packet_files_give(sound):
    frames, shot = numbers(b"".join(pages(sound)))
    assert frames == [(i, i + 3, i) for i in range(28)]
    assert frames == numbers(packet_file(sound))[0]
    assert not shot.refused and not shot.gaps and not shot.notes


def test_times_and_key_frames(sound):
    with wedgepetal.open(io.BytesIO(b"".join(pages(sound)))) as shot:
        frames = list(shot)
    assert [frame.time for frame in frames[:4]] == [0.0, 0.04, 0.08, 0.12]
    assert [(frame.key_frame, frame.since) for frame in frames[12:16]] == [(1, 12), (1, 13), (2, 0), (2, 1)]
    assert sum(frame.kind == "repeat" for frame in frames) == 8


def test_lost_pages_are_a_gap(sound):
    file = pages(sound)
    del file[8:10]
    frames, caught = [], None
    with wedgepetal.open(io.BytesIO(b"".join(file))) as shot:
        try:
            frames.extend(shot)
        except wedgepetal.Gap as gap:
            caught = gap
        assert caught is not None and (caught.packet, caught.lost, caught.time) == (8, 2, 0.2)
        assert "pages 8 to 9 are damaged or missing" in str(caught)
        frames = list(shot)
        # Nothing before the next key frame, and its place in time is right.
        assert (frames[0].kind, frames[0].number, frames[0].position) == ("intra", 5, 14)
        assert caught.left_out == 7 and not shot.refused
    again, shot = numbers(b"".join(file), on_gap="key-frame")
    assert [position for _, _, position in again] == [0, 1, 2, 3, 4] + list(range(14, 28))
    assert [(gap.packet, gap.lost, gap.left_out) for gap in shot.gaps] == [(8, 2, 7)]


def test_damaged_bytes_are_a_gap_and_a_note(sound):
    file = pages(sound)
    damaged = bytearray(file[9])
    damaged[-1] ^= 1
    frames, shot = numbers(b"".join([*file[:9], bytes(damaged), *file[10:]]), on_gap="key-frame")
    assert len(frames) == 6 + 14 and shot.gaps[0].lost == 1
    start = sum(map(len, file[:9]))
    assert shot.notes == [
        f"bytes {start} to {start + len(damaged) - 1} are no whole Ogg page: damaged, cut short or foreign"
    ]


def test_a_page_that_comes_again_is_passed_over(sound):
    file = pages(sound)
    frames, shot = numbers(b"".join([*file[:9], file[7], *file[9:]]), on_gap="key-frame")
    assert len(frames) == 28
    assert [gap.what.split(",")[0] for gap in shot.gaps] == ["page 7 comes again or too late"]


@pytest.mark.parametrize("cut", range(1, 200, 23))
def test_cut_files_are_said(sound, cut):
    whole = b"".join(pages(sound))
    with pytest.raises(wedgepetal.Gap, match="cut short"):
        numbers(whole[:-cut])
    with pytest.raises(wedgepetal.Gap, match="cut short inside a packet"):
        numbers(packet_file(sound[:5])[:-1])


def test_no_last_page(sound):
    with pytest.raises(wedgepetal.Gap, match="its last page is not there"):
        numbers(b"".join(pages(sound, last=False)))
    frames, shot = numbers(b"".join(pages(sound, last=False)), on_gap="key-frame")
    assert len(frames) == 28 and len(shot.gaps) == 1


def test_many_packets_on_a_page(sound):
    file = pages(sound + sound[3:] * 4, single=False)
    frames, _ = numbers(b"".join(file))
    assert len(file) < 20 and frames == [(i, i + 3, i) for i in range(140)]
    frames, shot = numbers(b"".join([*file[:4], *file[5:]]), on_gap="key-frame")
    positions = [position for _, _, position in frames]
    first = shot.gaps[0].packet - 3
    again = -(-(first + shot.gaps[0].lost) // 14) * 14
    assert shot.gaps[0].lost > 1 and positions == [*range(first), *range(again, 140)]


def test_packets_over_several_pages(sound):
    """What follows a packet's last bit is ignored, so that a packet can be as long as one likes."""
    sound[8] += bytes(150_000)
    file = pages(sound)
    assert len(file) == 31 + 2
    assert len(numbers(b"".join(file))[0]) == 28
    for missing in (8, 9, 10):
        frames, shot = numbers(b"".join(file[:missing] + file[missing + 1 :]), on_gap="key-frame")
        assert [position for _, _, position in frames] == [0, 1, 2, 3, 4] + list(range(14, 28))
        assert [gap.lost for gap in shot.gaps] == [1] and not shot.refused


def test_a_packet_that_does_not_go_on(sound):
    """The first page of a long packet, and behind it a page that begins with another packet."""
    long = [*sound[:8], sound[8] + bytes(150_000), *sound[9:]]
    frames, shot = numbers(b"".join(pages(long)[:9] + pages(sound)[9:]), on_gap="key-frame")
    assert [position for _, _, position in frames] == [0, 1, 2, 3, 4] + list(range(14, 28))
    assert [gap.what.split(",")[0] for gap in shot.gaps] == ["page 9 does not go on where the one before it ends"]
    assert shot.gaps[0].lost == 1 and not shot.refused


def test_a_page_of_which_only_zeros_are_missing_is_cut_short(sound):
    whole = b"".join(pages([*sound[:-1], sound[-1] + bytes(9)]))
    assert len(numbers(whole)[0]) == 28
    with wedgepetal.open(io.BytesIO(whole[:-5])) as shot:
        with pytest.raises(wedgepetal.Gap, match="its last page is not there"):
            list(shot)
        assert shot.notes == [f"bytes {whole.rindex(b'OggS')} to {len(whole) - 6} are no whole Ogg page: damaged, cut short or foreign"]


def test_joined_recordings(sound):
    first, second = b"".join(pages(sound)), b"".join(pages(sound[:17], serial=9))
    with wedgepetal.open(io.BytesIO(first + second)) as shot:
        with pytest.raises(wedgepetal.SeveralStreams):
            list(shot)
    assert len(numbers(first + second, stream=1)[0]) == 28
    assert len(numbers(first + second, stream=2)[0]) == 14
    with pytest.raises(wedgepetal.NoRecording, match="no Theora stream 3"):
        numbers(first + second, stream=3)


def test_streams_side_by_side(sound):
    one, two = pages(sound), pages(packets("two_by_one_444")[:6], serial=9)
    file = b"".join([one[0], two[0], *one[1:4], *two[1:], *one[4:]])
    with pytest.raises(wedgepetal.SeveralStreams):
        wedgepetal.open(io.BytesIO(file))
    assert len(numbers(file, stream=1)[0]) == 28
    assert len(numbers(file, stream=2)[0]) == 3


def test_pages_of_no_stream_are_a_note(sound):
    file = pages(sound)
    stray = pages(sound[:5], serial=9)[2]
    frames, shot = numbers(b"".join([*file[:9], stray, *file[9:]]))
    assert len(frames) == 28
    assert shot.notes == ["1 pages of serial 9 belong to no stream that began here"]


def test_other_files_are_none(tmp_path):
    for data in (b"", b"RIFF\x24\x08\0\0WAVEfmt ", b"a text that is none"):
        with pytest.raises(wedgepetal.NoRecording):
            wedgepetal.open(io.BytesIO(data))
    with pytest.raises(FileNotFoundError):
        wedgepetal.open(tmp_path / "none.ogv")
    with pytest.raises(wedgepetal.NoRecording, match="ends before its first frame"):
        wedgepetal.open(io.BytesIO(packet_file(packets("one_by_one")[:2])))


def test_headers_that_are_missing_are_a_gap(sound):
    file = pages(sound)
    del file[1]
    with pytest.raises(wedgepetal.Gap, match="headers are not whole"):
        wedgepetal.open(io.BytesIO(b"".join(file)))


def test_a_file_that_is_opened_here_is_closed(recordings):
    with wedgepetal.open(recordings / "shot.ogv") as shot:
        file = shot._file
    assert file.closed
    with (STREAMS / "one_by_one").open("rb") as file:
        wedgepetal.open(file, on_refusal="skip").close()
        assert not file.closed


def test_the_structs_are_those_of_libogg():
    """As the compiler lays them out; it needs libogg-dev."""
    lines = ["#include <stddef.h>", "#include <ogg/ogg.h>"]
    for struct, name in ((_ogg.SyncState, "ogg_sync_state"), (_ogg.StreamState, "ogg_stream_state")):
        lines.append(f'_Static_assert(sizeof({name}) <= {ctypes.sizeof(struct)}, "");')
    for struct, name in ((_ogg.OggPage, "ogg_page"), (_ogg.OggPacket, "ogg_packet")):
        lines.append(f'_Static_assert(sizeof({name}) == {ctypes.sizeof(struct)}, "");')
        for field, _ in struct._fields_:
            lines.append(f'_Static_assert(offsetof({name}, {field}) == {getattr(struct, field).offset}, "");')
    command = ["cc", "-x", "c", "-std=c11", "-fsyntax-only", "-"]
    subprocess.run(command, input="\n".join(lines) + "\n", text=True, check=True)


def test_key_frames_of_the_test_are_the_library_s(sound):
    with wedgepetal.open(io.BytesIO(packet_file(sound))) as shot:
        assert [frame.kind == "intra" for frame in shot] == [is_key_frame(packet) for packet in sound[3:]]
