"""Pages of shots and of an archive, looked at in chromium, without a window: at a wide and at a narrow width each is drawn, not
blank, and nothing is wider than the window.
    pages.py FOLDER [SHOT..]    (with tests/python's shots.py and the module on the path; more shots to make pages of)
"""
import re
import subprocess
import sys
from pathlib import Path

import matplotlib.image
import numpy as np
import wedgepetal
from shots import make

WIDTHS = (1280, 400)
# A page in a frame, since chromium's window is never narrower than 500; it says there how wide it is.
FRAME = """<!DOCTYPE html><body style="margin: 0"><iframe src="{page}" width="{width}" height="{height}" style="border: 0; display: block">
</iframe><script>addEventListener("message", event => document.body.setAttribute("data-probe", event.data));</script>"""
PROBE = """<script>addEventListener("load", () => {
const wide = [...document.querySelectorAll("body *")].filter(e => e.getBoundingClientRect().right > innerWidth + 1);
const pictures = [...document.images];
parent.postMessage([innerWidth, document.documentElement.scrollWidth, wide.length, pictures.length,
    pictures.filter(e => e.complete && e.naturalWidth > 0).length, document.body.offsetHeight].join(" "), "*");
});</script>"""


def chromium(folder, height, page, *words):
    """Runs chromium on a page. Gives what it prints."""
    command = ["chromium", "--headless=new", "--no-sandbox", "--disable-gpu", "--hide-scrollbars", "--no-first-run",
               f"--user-data-dir={folder / 'profile'}", f"--window-size={max(WIDTHS)},{height}", "--virtual-time-budget=5000", "--host-resolver-rules=MAP * ~NOTFOUND",
               *words, page.as_uri()]
    return subprocess.run(command, stdout=subprocess.PIPE, stderr=subprocess.DEVNULL, text=True, timeout=120, check=True).stdout


def look(folder, page):
    """Looks at a page in both widths."""
    probed, frame = folder / "probed.html", folder / "frame.html"
    probed.write_text(page.read_text().replace("</body>", PROBE + "</body>"))
    for width in WIDTHS:
        frame.write_text(FRAME.format(page=probed.as_uri(), width=width, height=900))
        dom = chromium(folder, 900, frame, "--dump-dom")
        inner, scroll, beyond, pictures, drawn, height = map(int, re.search(r'data-probe="([\d ]+)"', dom)[1].split())
        assert inner == width, f"the window is {inner} wide, not {width}"
        assert scroll <= width and beyond == 0, f"{page.name} at {width}: {scroll} wide, {beyond} things beyond the window"
        assert pictures == drawn, f"{page.name}: {drawn} of {pictures} pictures are drawn"
        shown = folder / f"{page.stem}-{width}.png"
        frame.write_text(FRAME.format(page=page.as_uri(), width=width, height=height))
        chromium(folder, height, frame, f"--screenshot={shown}")
        whole = matplotlib.image.imread(shown)[:, :, :3]
        picture = whole[:, :width]
        assert whole.shape[:2] == (height, max(WIDTHS)), whole.shape
        back = picture[0, 0]
        ink = np.abs(picture - back).max(axis=2) > 0.1
        rows = ink.any(axis=1)
        assert 0.01 < ink.mean() < 0.9, f"{page.name} at {width}: {ink.mean():.3f} of it is drawn"
        assert rows[: height // 2].mean() > 0.3 and rows[height // 2 :].mean() > 0.2, f"{page.name} at {width}: parts are blank"
        assert len(np.unique((picture * 15).astype(int).reshape(-1, 3), axis=0)) > 10, "hardly any colours"
        margin = ink[:, -4:].any() or ink[:, :4].any()
        assert not margin, f"{page.name} at {width}: something is drawn at its edge"
        print(f"pages: {page.name} at {width} pixels: {height} high, {100 * ink.mean():.0f} % drawn, {pictures} pictures")


def main():
    folder = Path(sys.argv[1]).resolve()
    make(folder / "shots", 6)
    pages = []
    for shot in [folder / "shots" / "refused.ogv", folder / "shots" / "older" / "gap.ogv", *map(Path, sys.argv[2:])]:
        pages.append(folder / f"{shot.stem}.html")
        wedgepetal.report(shot, pages[-1], colour_space=1 if shot.stem == "gap" else None)
    wedgepetal.archive("report", folder / "shots", folder / "archive")
    for page in [*pages, folder / "archive" / "index.html"]:
        text = page.read_text()
        assert not re.search(r"https?://", text), "a page names something of the network"
        look(folder, page)


if __name__ == "__main__":
    main()
