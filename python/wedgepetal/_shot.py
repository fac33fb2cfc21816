"""A shot: its frames one after the other, or many at once."""
from __future__ import annotations

import os
from fractions import Fraction
from pathlib import Path
from types import TracebackType
from typing import BinaryIO, Callable, Iterator, List, NamedTuple, Optional, Tuple, Type, TypeVar, Union

import numpy as np

from . import _library as lib
from ._decoder import KINDS, Answer, Decoder
from ._faults import Gap, NoRecording, Refused, SeveralStreams
from ._frame import Frame, Kind, Map
from ._parts import Begin, End, Foreign, Hole, Packet, Part, Source, parts
from ._session import Bytes, Numbers, Session, identification
from ._settings import Settings

Recording = Union[str, "os.PathLike[str]", BinaryIO]
T = TypeVar("T")

_PLANES = ("y", "cb", "cr")


class Clock:
    """The place of packets in time: by the granule position of their page where that says one, else one after the
    last."""

    def __init__(self, session: Session) -> None:
        self._shift = session.kfgshift
        # Until version 3.2.1 a granule position was that of a frame's beginning, since then that of its end.
        self._first = 1 if session.vrev >= 1 else 0
        self._rate = session.rate
        self.next = 0

    def position(self, packet: Packet) -> int:
        """The position of the next packet, from 0."""
        if packet.granule is not None:
            key = packet.granule >> self._shift
            after = packet.granule - (key << self._shift)
            position = key + after - self._first - packet.behind
            if position >= 0:
                return position
        return self.next

    def time(self, position: int) -> float:
        """When the frame of a position begins, in seconds."""
        return float(position / self._rate)


class Coded(NamedTuple):
    """A frame packet of a stream."""

    bytes: bytes
    number: int
    """Its number in the stream, from 0."""
    position: int
    """Its place in time, counted in frames from 0."""


class Answered(NamedTuple):
    """A packet that was accepted, where its planes are not wanted."""

    packet: Coded
    time: float
    kind: Kind
    tokens: int
    changed: Optional[Map]
    is_compared: bool
    """Whether there is a frame before it; if not all its tiles are changed."""


class Shot(Iterator[Frame]):
    """A recording that is being decoded: an iterator over its frames, and a context manager. `open` gives one.

    What a packet means and which packets are refused is the library's answer alone. A shot must not be used by two
    threads at once; several shots may be, and the library runs in parallel then.
    """

    session: Session
    """What the identification header says."""
    region: str
    """What the planes of its frames show: the "picture" or the whole "coded" frame."""
    memory: int
    """How many bytes decoding takes: three plane buffers, work memory and table memory."""
    refused: List[Refused]
    """The refusals so far."""
    gaps: List[Gap]
    """The gaps so far."""
    notes: List[str]
    """What else was met that belongs to no stream: foreign or damaged bytes, stray pages."""

    def __init__(self, recording: Recording, region: str, held: str, on_refusal: str, on_gap: str,
                 stream: Optional[int], max_memory: Optional[int], tiles: Optional[Settings]) -> None:
        _choose("region", region, "picture", "coded")
        _choose("held", held, "keep", "refuse")
        _choose("on_refusal", on_refusal, "raise", "skip")
        _choose("on_gap", on_gap, "raise", "key-frame")
        self.region, self._on_refusal, self._on_gap, self._stream = region, on_refusal, on_gap, stream
        self.refused, self.gaps, self.notes = [], [], []
        self._packets = self._frames = 0
        # A packet that was read and not yet decoded; the gap behind which packets are left out.
        self._waiting: Optional[Coded] = None
        self._gap: Optional[Gap] = None
        self._closed = False
        self._file, source = opened(recording)
        try:
            self._parts = parts(source, stream)
            first, _, setup = [self._header() for _ in range(3)]
            self.session, numbers = _of_packet(0, lambda: identification(first))
            self._clock = Clock(self.session)
            self._decoder = _of_packet(2, lambda: Decoder(numbers, setup, held == "keep", max_memory, tiles))
            self.memory = self._decoder.memory
            self._headers = first, setup
            self._coming = self._items()
        except BaseException:
            self.close()
            raise

    @property
    def rate(self) -> Fraction:
        """Frames a second, exact."""
        return self.session.rate

    def shape(self, plane: int = 0) -> Tuple[int, int]:
        """Height and width of a plane of its frames: 0 is Y', 1 is Cb, 2 is Cr."""
        region = self.session.region(self.region, plane)
        return region.height, region.width

    def __repr__(self) -> str:
        height, width = self.shape()
        return f"<Shot of {width} by {height} samples, {float(self.rate):.3f} frames a second>"

    def __enter__(self) -> Shot:
        return self

    def __exit__(self, kind: Optional[Type[BaseException]], error: Optional[BaseException],
                 trace: Optional[TracebackType]) -> None:
        self.close()

    def close(self) -> None:
        """Closes the file. Frames stay as they are."""
        self._closed = True
        if self._file is not None:
            self._file.close()

    def __next__(self) -> Frame:
        if self._closed:
            raise ValueError("the shot is closed")
        while True:
            if self._waiting is None:
                item = next(self._coming)
                if isinstance(item, Gap):
                    self._meet(item)
                    continue
                self._waiting = item
            # If there is none the packet waits.
            self._decoder.make_room()
            packet, self._waiting = self._waiting, None
            frame = self._decode(packet)
            if frame is not None:
                return frame

    def _decode(self, packet: Coded) -> Optional[Frame]:
        """The frame of a packet, if it is accepted."""
        try:
            answer = self._decoder.decode(packet.bytes)
        except Refused as error:
            refused = Refused(error.number, error.place, packet.number)
        else:
            self._gap = None
            return self._frame(answer, packet)
        self._refuse(refused)
        return None

    def _refuse(self, refused: Refused) -> None:
        """A packet is refused; behind a gap those that need what is missing are left out."""
        if self._gap is not None and refused.number == lib.NO_REFERENCES:
            self._gap.left_out += 1
            return
        self.refused.append(refused)
        if self._on_refusal == "raise":
            raise refused

    def _frame(self, answer: Answer, packet: Coded) -> Frame:
        number, self._frames = self._frames, self._frames + 1
        numbers = self._decoder.session
        return Frame(
            answer.lease, self._decoder.sizes, numbers.copy(), number=number, packet=packet.number, kind=answer.kind,
            position=packet.position, time=self._clock.time(packet.position), qi=answer.qi, tokens=answer.tokens,
            key_frame=int(numbers[lib.KEY_FRAMES]), since=int(numbers[lib.OTHERS]), region=self.region,
            session=self.session, changed=answer.changed,
        )

    def _batches(self, most: Callable[[], int]) -> Iterator[List[Answered]]:
        """Decodes what is left, at each call as many packets as are wanted then; no frame may be viewed meanwhile. Gives
        what was accepted of them."""
        batch: List[Coded] = []
        wanted = most()
        for item in self._coming:
            if isinstance(item, Coded):
                batch.append(item)
            if isinstance(item, Gap) or len(batch) >= wanted:
                yield self._accepted(batch)
                batch, wanted = [], most()
            if isinstance(item, Gap):
                self._meet(item)
        yield self._accepted(batch)

    def _accepted(self, batch: List[Coded]) -> List[Answered]:
        """Decodes packets in one call."""
        if not batch:
            return []
        found: List[Answered] = []
        is_compared = bool(self._decoder.session[lib.REFERENCES])
        answers, maps = self._decoder.shot([packet.bytes for packet in batch])
        for i, packet in enumerate(batch):
            answer = answers[i]
            if answer[lib.NUMBER]:
                self._refuse(Refused(int(answer[lib.NUMBER]), int(answer[lib.PLACE]), packet.number))
            else:
                self._gap = None
                kind, tokens = KINDS[int(answer[lib.KIND])], int(answer[lib.TOKENS])
                time = self._clock.time(packet.position)
                found.append(Answered(packet, time, kind, tokens, None if maps is None else maps[i], is_compared))
                is_compared = True
        return found

    def _shown(self) -> Frame:
        """The planes of the frame that was decoded last."""
        decoder = self._decoder
        return Frame(decoder.previous(), decoder.sizes, decoder.session.copy(), region=self.region, session=self.session)

    def _part(self) -> Optional[Part]:
        """The next part of the stream; none at the end of the file."""
        for part in self._parts:
            if isinstance(part, Foreign):
                self.notes.append(part.what)
            elif not isinstance(part, Begin):
                return part
            elif self._stream is None and part.number > 1:
                raise SeveralStreams("the file has another Theora stream; stream=1 or stream=2 chooses one")
        return None

    def _header(self) -> bytes:
        """The next header packet."""
        part = self._part()
        if isinstance(part, Packet):
            self._packets += 1
            return part.bytes
        if isinstance(part, Hole):
            raise Gap(f"{part.what}: its headers are not whole", self._packets, 0.0)
        if self._packets == 0:
            raise NoRecording(f"there is no Theora stream{'' if self._stream is None else f' {self._stream}'}")
        raise NoRecording("it ends before its first frame")

    def _items(self) -> Iterator[Union[Gap, Coded]]:
        """The frame packets, and before them the gaps, of which is known by then what they lost."""
        gap: Optional[Gap] = None
        while True:
            part = self._part()
            if isinstance(part, Hole):
                gap = self._hole(gap, part)
            elif isinstance(part, Packet):
                position = self._clock.position(part)
                if gap is not None:
                    lost = position - self._clock.next
                    gap.lost = lost if lost >= 0 else None
                    yield gap
                    gap = None
                self._clock.next = position + 1
                self._packets += 1
                yield Coded(part.bytes, self._packets - 1, position)
            else:
                if isinstance(part, End) and part.what is not None:
                    gap = self._hole(gap, Hole(part.what, False))
                if gap is not None:
                    yield gap
                    gap = None
                if part is None:
                    return

    def _hole(self, gap: Optional[Gap], hole: Hole) -> Gap:
        """The stream does not go on as it should: a gap begins, or the last one goes on."""
        if gap is None:
            gap = Gap(hole.what, self._packets, self._clock.time(self._clock.next))
        else:
            gap.what += f"; {hole.what}"
        gap._loses_packets = gap._loses_packets or hole.loses_packets
        return gap

    def _meet(self, gap: Gap) -> None:
        """Behind a gap in which packets are lost only a key frame is accepted."""
        if gap._loses_packets:
            self._decoder.restart()
        self._gap = gap
        self.gaps.append(gap)
        if self._on_gap == "raise":
            raise gap


def _choose(name: str, value: str, *choices: str) -> None:
    if value not in choices:
        raise ValueError(f"{name} is one of {', '.join(map(repr, choices))}, not {value!r}")


def opened(recording: Recording) -> Tuple[Optional[BinaryIO], Source]:
    """The file that is to be closed afterwards, if there is one, and what is read."""
    if isinstance(recording, (str, os.PathLike)):
        file = Path(recording).open("rb")
        return file, file
    return None, recording


def _of_packet(number: int, read: Callable[[], T]) -> T:
    """Reads a header packet; its refusal says which it was."""
    try:
        return read()
    except Refused as error:
        refused = Refused(error.number, error.place, number if error.has_place else None)
    raise refused


def open(recording: Recording, *, region: str = "picture", held: str = "keep", on_refusal: str = "raise",
         on_gap: str = "raise", stream: Optional[int] = None, max_memory: Optional[int] = None,
         tiles: Optional[Settings] = None) -> Shot:
    """Opens a recording: an Ogg file (through Debian's libogg0) or a packet file, by its path or as a binary file.

    >>> with wedgepetal.open(recording) as shot:
    ...     for frame in shot:
    ...         print(frame.number, frame.kind, frame.time, frame.y.shape, round(frame.y.mean(), 2))
    ...         if frame.number == 3:
    ...             break
    0 intra 0.0 (80, 48) 128.66
    1 inter 0.04 (80, 48) 129.67
    2 inter 0.08 (80, 48) 131.03
    3 inter 0.12 (80, 48) 131.18

    region
        What planes show: the "picture", which is what should be seen, or the whole "coded" frame.
    held
        What becomes of a frame that is still viewed when its memory is needed again. "keep" leaves the memory to its
        views and takes other memory for the new frame: every frame stays as it was, and each that is held costs its
        memory. "refuse" raises `Held` instead: decoding takes three plane buffers and no more.
    on_refusal
        "raise" raises `Refused` at a packet that is refused; ``next(shot)`` then goes on with the packet behind it, as
        if it had not been there. "skip" goes on by itself; ``shot.refused`` has all refusals.
    on_gap
        "raise" raises `Gap` where packets are missing; ``next(shot)`` then goes on at the next key frame. "key-frame"
        goes on by itself; ``shot.gaps`` has all gaps. Frames are never decoded on others that are out of date.
    stream
        Which Theora stream is read, from 1. Without it a file with more than one raises `SeveralStreams`.
    max_memory
        The most bytes that decoding may take; without it, what is free on the machine and in its control group. If it
        needs more, `MemoryError` is raised before any are asked for.
    tiles
        `Settings` with which each frame has its map of changed tiles, ``frame.changed``. `wedgepetal.tiles` gives those of
        a whole shot at once.
    """
    return Shot(recording, region, held, on_refusal, on_gap, stream, max_memory, tiles)


def load(recording: Recording, plane: str = "y", frames: Union[range, slice, None] = None, *, region: str = "picture",
         colour_space: Optional[int] = None, stream: Optional[int] = None) -> Bytes:
    """A plane of many frames as one array: frames, height, width; or, of "rgb", frames, height, width and 3.

    >>> wedgepetal.load(recording).shape
    (14, 80, 48)
    >>> wedgepetal.load(recording, "cb", range(2, 12, 3)).shape
    (4, 40, 24)
    >>> wedgepetal.load(recording, "y", range(10, 20))
    Traceback (most recent call last):
    IndexError: there is no frame 14

    ``frames`` is a range of frame numbers, which must all be there, or a slice, of which those are taken that are there;
    without it all are. Frames before them are decoded too, since later ones are made of them. A refused packet raises
    `Refused`, a missing one `Gap`.
    """
    _choose("plane", plane, *_PLANES, "rgb")
    start, stop, step = _bounds(frames)
    out: Optional[Bytes] = None
    count = 0
    with open(recording, region=region, stream=stream) as shot:
        for frame in shot:
            if stop is not None and frame.number >= stop:
                break
            if frame.number < start or (frame.number - start) % step:
                continue
            samples = frame.rgb(colour_space) if plane == "rgb" else getattr(frame, plane)
            if out is None:
                room = len(frames) if isinstance(frames, range) else 16
                out = np.empty((room, *samples.shape), np.uint8)
            elif count == len(out):
                out.resize((count + count // 2, *samples.shape), refcheck=False)
            out[count] = samples
            count += 1
        if isinstance(frames, range) and count < len(frames):
            raise IndexError(f"there is no frame {frames[count]}")
        if out is None:
            shape = (*shot.shape(0), 3) if plane == "rgb" else shot.shape(_PLANES.index(plane))
            return np.empty((0, *shape), np.uint8)
    out.resize((count, *out.shape[1:]), refcheck=False)
    return out


def _bounds(frames: Union[range, slice, None]) -> Tuple[int, Optional[int], int]:
    """Start, stop and step of the wanted frames."""
    if frames is None:
        return 0, None, 1
    start, stop, step = frames.start or 0, frames.stop, 1 if frames.step is None else frames.step
    if step < 1 or start < 0 or (stop is not None and stop < 0):
        raise ValueError("frames are taken forward, by numbers from 0 on")
    return start, stop, step
