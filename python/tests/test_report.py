"""Pages of shots: what stands on them is what the library gives. How they look is tried in a browser (tests/archive)."""
import base64
import re
import struct
import zlib
from pathlib import Path

import numpy as np
import pytest
import wedgepetal
from ogg_files import packets, pages
from wedgepetal import Settings
from wedgepetal._page import CIVIDIS, _ramp
from wedgepetal._png import png


def read_png(data):
    """Width, height and bytes of a PNG file as it is written here, and its palette."""
    assert data[:8] == b"\x89PNG\r\n\x1a\n"
    at, chunks = 8, {}
    while at < len(data):
        length, = struct.unpack(">I", data[at : at + 4])
        kind, body = data[at + 4 : at + 8], data[at + 8 : at + 8 + length]
        assert struct.unpack(">I", data[at + 8 + length : at + 12 + length])[0] == zlib.crc32(kind + body)
        chunks[kind] = body
        at += 12 + length
    width, height, depth, colour = struct.unpack(">IIBB", chunks[b"IHDR"][:10])
    assert depth == 8
    lines = np.frombuffer(zlib.decompress(chunks[b"IDAT"]), np.uint8).reshape(height, -1)
    assert not lines[:, 0].any()
    shape = (height, width, 3) if colour == 2 else (height, width)
    return lines[:, 1:].reshape(shape), chunks.get(b"PLTE")


def pictures(page):
    return [read_png(base64.b64decode(found)) for found in re.findall(r"data:image/png;base64,([^\"]+)", page)]


def test_png_files():
    grey = np.arange(12, dtype=np.uint8).reshape(3, 4)
    np.testing.assert_array_equal(read_png(png(grey))[0], grey)
    colours = np.arange(36, dtype=np.uint8).reshape(3, 4, 3)
    np.testing.assert_array_equal(read_png(png(colours))[0], colours)
    np.testing.assert_array_equal(read_png(png(colours[::-1, ::2]))[0], colours[::-1, ::2])


def test_a_page(recordings, tmp_path):
    sheet = wedgepetal.report(recordings / "shot.ogv", tmp_path / "shot.html", settings=Settings(8))
    page = (tmp_path / "shot.html").read_text()
    assert sheet.is_whole and "Whole: all 14 packets are accepted, none is missing." in page
    assert [path.name for path in tmp_path.iterdir()] == ["shot.html"]
    *strip, (heat, palette) = pictures(page)
    luma = wedgepetal.load(recordings / "shot.ogv")
    assert len(strip) == 14
    with wedgepetal.open(recordings / "shot.ogv") as shot:
        in_colour = shot.session.cs in (1, 2)
        wanted = [frame.rgb() if in_colour else frame.y for frame in shot]
    for (shown, none), frame in zip(strip, wanted):
        assert none is None
        np.testing.assert_array_equal(shown, frame)
    count = wedgepetal.tiles(recordings / "shot.ogv", Settings(8)).count
    assert len(luma) == 14 and palette == _ramp(256).tobytes()
    np.testing.assert_array_equal(heat, (count * 255 + count.max() // 2) // count.max())
    report = wedgepetal.census(recordings / "shot.ogv")
    for number in (*report.coded, *report.uncoded, *report.modes):
        assert f'<td class="n">{number:,}</td>' in page


def test_it_names_nothing_outside_itself(recordings, tmp_path):
    wedgepetal.report(recordings / "shot.ogv", tmp_path / "shot.html")
    page = (tmp_path / "shot.html").read_text()
    assert "<script" not in page and "http" not in page and "<link" not in page
    assert set(re.findall(r'src="([a-z]+:)', page)) == {"data:"} and "url(" not in page


def test_refusals_gaps_and_notes_are_on_the_page(recordings, tmp_path):
    sheet = wedgepetal.report(recordings / "damaged.ogv", tmp_path / "page.html")
    page = (tmp_path / "page.html").read_text()
    assert not sheet.is_whole and "Not whole. Refused packets: 1." in page
    assert re.search(r'<td class="n">9</td><td class="n">4</td><td>479</td><td>a read passes the end of the packet</td>', page)
    sound = packets("three_by_five")
    del sound[9]
    file = pages(sound * 1 + sound[3:])
    (tmp_path / "<gap> & co.ogv").write_bytes(b"".join([*file[:8], b"foreign", *file[10:]]))
    sheet = wedgepetal.report(tmp_path / "<gap> & co.ogv", tmp_path / "page.html")
    page = (tmp_path / "page.html").read_text()
    assert "<h1>&lt;gap&gt; &amp; co.ogv</h1>" in page and "<gap>" not in page
    assert "Gaps: 1 (packets lost: 2; left out behind them: 7); foreign or damaged parts of the file: 1." in page
    assert "pages 8 to 9 are damaged or missing" in page and "are no whole Ogg page" in page


def test_long_shots_have_few_thumbnails_and_bins(tmp_path):
    sound = packets("three_by_five")
    del sound[9]
    (tmp_path / "long.ogv").write_bytes(b"".join(pages(sound + sound[3:] * 50, single=False)))
    sheet = wedgepetal.report(tmp_path / "long.ogv", tmp_path / "long.html")
    assert len(sheet.lines) == 51 * 14 and 8 < len(sheet.thumbnails) <= 16
    assert [thumbnail.number for thumbnail in sheet.thumbnails] == list(range(0, 714, 64))
    page = (tmp_path / "long.html").read_text()
    assert 'viewBox="0 0 360 100"' in page and "Each column is 2.0 frames" in page


def test_a_shot_without_frames(tmp_path):
    (tmp_path / "none.ogv").write_bytes(b"".join(pages(packets("three_by_five")[:3])))
    assert wedgepetal.report(tmp_path / "none.ogv", tmp_path / "none.html").is_whole
    assert "all 0 packets" in (tmp_path / "none.html").read_text()


def test_no_page_of_what_is_none(tmp_path):
    (tmp_path / "text.ogv").write_bytes(b"a text that is none")
    with pytest.raises(wedgepetal.NoRecording):
        wedgepetal.report(tmp_path / "text.ogv", tmp_path / "text.html")
    assert not (tmp_path / "text.html").exists()


# What people see who lack one of the three kinds of cones (Machado, Oliveira and Fernandes 2009), in linear light.
VISION = {
    "any": np.eye(3),
    "protanopia": np.array([[0.152286, 1.052583, -0.204868], [0.114503, 0.786281, 0.099216], [-0.003882, -0.048116, 1.051998]]),
    "deuteranopia": np.array([[0.367322, 0.860646, -0.227968], [0.280085, 0.672501, 0.047413], [-0.011820, 0.042940, 0.968881]]),
    "tritanopia": np.array([[1.255528, -0.076749, -0.178779], [-0.078411, 0.930809, 0.147602], [0.004733, 0.691367, 0.303900]]),
}


def lightness_and_colour(colours):
    """CIE L*a*b* of linear red, green, blue."""
    xyz = np.clip(colours, 0, 1) @ np.array([[0.4124, 0.2126, 0.0193], [0.3576, 0.7152, 0.1192], [0.1805, 0.0722, 0.9505]])
    f = np.cbrt(np.maximum(xyz / (0.9505, 1.0, 1.089), 0.008856))
    return np.stack([116 * f[:, 1] - 16, 500 * (f[:, 0] - f[:, 1]), 200 * (f[:, 1] - f[:, 2])], axis=1)


@pytest.mark.parametrize("vision", VISION)
def test_colours_are_told_apart(vision):
    style = (Path(wedgepetal.__file__).parent / "_page.css").read_text()
    named = dict(re.findall(r"--(\w+): #([0-9a-f]{6})", style))
    shown = [named[name] for name in ("blue", "sky", "orange", "grey", "plum")]
    values = np.array([[int(colour[i : i + 2], 16) for i in (0, 2, 4)] for colour in shown]) / 255
    seen = lightness_and_colour((values ** 2.2) @ VISION[vision].T)
    apart = np.linalg.norm(seen[:, None] - seen[None], axis=2)
    assert apart[~np.eye(len(shown), dtype=bool)].min() > 20
    scale = lightness_and_colour(((np.array(CIVIDIS) / 255) ** 2.2) @ VISION[vision].T)
    assert (np.diff(scale[:, 0]) > 8).all()
