"""Theora recordings as numpy arrays, decoded by a library in which every function is proved to do what its contract says.

>>> import wedgepetal
>>> with wedgepetal.open(recording) as shot:
...     print(shot)
...     kinds = [str(frame.kind) for frame in shot]
<Shot of 48 by 80 samples, 25.000 frames a second>
>>> kinds[:5], len(kinds)
(['intra', 'inter', 'inter', 'inter', 'repeat'], 14)

Every accepted packet is a frame, repeats too. FFmpeg's decoder leaves repeats out, and with it PyAV and OpenCV: there the
number of a frame is not its place in time. Here frames keep the number of their packet and their place in time.
"""
from ._archive import Archive, archive
from ._census import Census, census
from ._check import Differs, Passes, check
from ._faults import Fault, Gap, Held, NoRecording, Refused, SeveralStreams
from ._frame import Frame, Kind
from ._library import VERSION as __version__
from ._library import version as library_version
from ._log import OtherRun
from ._picture import picture
from ._report import report
from ._session import Region, Session
from ._settings import Settings, read_settings
from ._shot import Shot, load, open
from ._tiles import Tiles, tiles
from ._y4m import write_y4m

__all__ = [
    "Archive", "Census", "Differs", "Fault", "Frame", "Gap", "Held", "Kind", "NoRecording", "OtherRun", "Passes", "Refused",
    "Region", "Session", "Settings", "SeveralStreams", "Shot", "Tiles", "archive", "census", "check", "library_version",
    "load", "open", "picture", "read_settings", "report", "tiles", "write_y4m",
]

# Tracebacks name exceptions as users do.
for _fault in (Fault, Gap, Held, NoRecording, OtherRun, Refused, SeveralStreams):
    _fault.__module__ = "wedgepetal"
