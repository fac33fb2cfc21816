"""Censuses: beside the frames of the same recordings, and how reports add up."""
import io
import json
from collections import Counter

import pytest
import wedgepetal
from ogg_files import STREAMS, packet_file, packets, pages
from wedgepetal import Census

STORED = ["one_by_one", "two_by_one_444", "one_by_two_422", "three_by_five"]


@pytest.mark.parametrize("name", STORED)
def test_counts_are_those_of_the_frames(name):
    report = wedgepetal.census(STREAMS / name)
    with wedgepetal.open(STREAMS / name, on_refusal="skip", region="coded") as shot:
        kinds = Counter(str(frame.kind) for frame in shot)
        refused = Counter(refusal.number for refusal in shot.refused)
        blocks = [height * width // 64 for height, width in (shot.shape(plane) for plane in range(3))]
    assert (report.intra, report.inter, report.repeat) == (kinds["intra"], kinds["inter"], kinds["repeat"])
    assert report.refusals == refused and report.recordings == 1
    for plane in range(3):
        assert report.coded[plane] + report.uncoded[plane] == blocks[plane] * (report.intra + report.inter)
    assert sum(report.modes) == shot.session.fmbw * shot.session.fmbh * report.inter


def test_reports_add_up(tmp_path):
    reports = [wedgepetal.census(STREAMS / name) for name in STORED]
    whole = wedgepetal.census([STREAMS / name for name in STORED])
    assert whole == sum(reports) == reports[0] + reports[1] + reports[2] + reports[3]
    assert whole.recordings == 4 and whole.numbers == tuple(map(sum, zip(*(report.numbers for report in reports))))
    assert Census.of(whole.json) == whole == Census.of(json.loads(whole.json))
    assert Census() + whole == whole
    full = Census((*(0,) * 33, (1 << 64) - 1), 1)
    with pytest.raises(wedgepetal.Refused) as caught:
        full + Census((*(0,) * 33, 1), 1)
    assert caught.value.number == 15
    with pytest.raises(TypeError):
        whole + "a report"


def test_refused_headers_are_counted():
    first, comment, setup, *frames = packets("one_by_one")
    for wrong, number in (([first[:20], comment, setup], 4), ([first, comment, setup[:100]], 4), ([comment], 2),
                          ([first, comment], 4), ([first], 4), ([first, comment, first], 2)):
        data = io.BytesIO(b"".join(pages([*wrong, *frames] if len(wrong) == 3 else wrong)))
        if wrong == [comment]:
            with pytest.raises(wedgepetal.NoRecording):
                wedgepetal.census(data)
            continue
        report = wedgepetal.census(data)
        assert report.refusals == {number: 1} and report.frames == 0


def test_a_skipped_comment_may_be_anything():
    first, comment, setup, *frames = packets("three_by_five")
    wanted = wedgepetal.census(STREAMS / "three_by_five")
    for other in (b"", b"rubbish", comment * 50):
        assert wedgepetal.census(io.BytesIO(packet_file([first, other, setup, *frames]))) == wanted


def test_gaps_are_said_and_what_is_there_is_counted():
    sound = packets("three_by_five")
    file = pages(sound)
    wanted = wedgepetal.census(io.BytesIO(packet_file([*sound[:7], *sound[8:]])))
    report = wedgepetal.census(io.BytesIO(b"".join([*file[:7], *file[8:]])))
    assert report == wanted and len(report.gaps) == 1
    assert report.gaps[0].startswith("before packet 7: page 7 is damaged or missing")


def test_several_streams_and_other_files(recordings):
    data = (recordings / "shot.ogv").read_bytes()
    with pytest.raises(wedgepetal.SeveralStreams):
        wedgepetal.census(io.BytesIO(data + b"".join(pages(packets("one_by_one"), serial=9))))
    with pytest.raises(wedgepetal.NoRecording):
        wedgepetal.census(io.BytesIO(b"RIFF"))
    with pytest.raises(MemoryError):
        wedgepetal.census(recordings / "shot.ogv", max_memory=1000)
