"""Ogg files through Debian's libogg (package libogg0), which is loaded when the first is met."""
from __future__ import annotations

import ctypes
import functools
from typing import Dict, Generator, Iterator, List, NamedTuple, Optional, Union

from ._parts import HEADER, Begin, End, Foreign, Hole, Packet, Part, Source

FILE = "libogg.so.0"
CHUNK = 1 << 16


class OggPage(ctypes.Structure):
    """``ogg_page``."""

    _fields_ = [("header", ctypes.c_void_p), ("header_len", ctypes.c_long), ("body", ctypes.c_void_p),
                ("body_len", ctypes.c_long)]


class OggPacket(ctypes.Structure):
    """``ogg_packet``."""

    _fields_ = [("packet", ctypes.c_void_p), ("bytes", ctypes.c_long), ("b_o_s", ctypes.c_long),
                ("e_o_s", ctypes.c_long), ("granulepos", ctypes.c_int64), ("packetno", ctypes.c_int64)]


class SyncState(ctypes.Structure):
    """Room for an ``ogg_sync_state``, into which libogg alone looks."""

    _fields_ = [("room", ctypes.c_uint64 * 8)]


class StreamState(ctypes.Structure):
    """Room for an ``ogg_stream_state``, into which libogg alone looks."""

    _fields_ = [("room", ctypes.c_uint64 * 64)]


@functools.lru_cache(maxsize=None)
def libogg() -> ctypes.CDLL:
    """The library, with the types of its functions as ogg/ogg.h has them."""
    try:
        library = ctypes.CDLL(FILE)
    except OSError as error:
        raise OSError(f"libogg (Debian package libogg0) cannot be loaded: {error}") from None
    sync, stream, page, packet = (ctypes.POINTER(t) for t in (SyncState, StreamState, OggPage, OggPacket))
    long, number = ctypes.c_long, ctypes.c_int
    for name, answer, arguments in (
        ("ogg_sync_init", number, [sync]),
        ("ogg_sync_clear", number, [sync]),
        ("ogg_sync_buffer", ctypes.c_void_p, [sync, long]),
        ("ogg_sync_wrote", number, [sync, long]),
        ("ogg_sync_pageseek", long, [sync, page]),
        ("ogg_page_bos", number, [page]),
        ("ogg_page_eos", number, [page]),
        ("ogg_page_continued", number, [page]),
        ("ogg_page_version", number, [page]),
        ("ogg_page_serialno", number, [page]),
        ("ogg_page_pageno", long, [page]),
        ("ogg_page_granulepos", ctypes.c_int64, [page]),
        ("ogg_stream_init", number, [stream, number]),
        ("ogg_stream_clear", number, [stream]),
        ("ogg_stream_reset", number, [stream]),
        ("ogg_stream_pagein", number, [stream, page]),
        ("ogg_stream_packetout", number, [stream, packet]),
    ):
        function = getattr(library, name)
        function.restype = answer
        function.argtypes = arguments
    return library


class Page(NamedTuple):
    """A page, which libogg keeps until the next is asked for."""

    raw: OggPage
    place: int
    length: int

    def ask(self, name: str) -> int:
        """What the page's header says."""
        return int(getattr(libogg(), f"ogg_page_{name}")(ctypes.byref(self.raw)))

    @property
    def serial(self) -> int:
        return self.ask("serialno") & 0xFFFFFFFF

    @property
    def number(self) -> int:
        return self.ask("pageno") & 0xFFFFFFFF

    @property
    def body(self) -> bytes:
        return ctypes.string_at(self.raw.body, self.raw.body_len)

    def is_open(self, before: bool) -> bool:
        """Whether its last packet goes on in the next page; as before if no packet touches it."""
        lacing = ctypes.string_at(self.raw.header, self.raw.header_len)[27:]
        return lacing[-1] == 255 if lacing else before


class Bytes(NamedTuple):
    """These bytes are no whole page."""

    start: int
    end: int


def pages(file: Source) -> Iterator[Union[Page, Bytes]]:
    """The pages of a file, and the bytes between them."""
    ogg = libogg()
    state = SyncState()
    ogg.ogg_sync_init(ctypes.byref(state))
    try:
        place = read = 0
        padded = False
        # Behind the last byte come others, so that libogg waits for none.
        while not (padded and place >= read):
            raw = OggPage()
            length = ogg.ogg_sync_pageseek(ctypes.byref(state), ctypes.byref(raw))
            if length == 0:
                chunk = file.read(CHUNK)
                if chunk:
                    read += len(chunk)
                else:
                    chunk, padded = bytes(CHUNK), True
                room = ogg.ogg_sync_buffer(ctypes.byref(state), len(chunk))
                if not room:
                    raise MemoryError("no memory for a page")
                ctypes.memmove(room, chunk, len(chunk))
                ogg.ogg_sync_wrote(ctypes.byref(state), len(chunk))
                continue
            start = place
            place += abs(length)
            if length > 0 and place <= read and ogg.ogg_page_version(ctypes.byref(raw)) == 0:
                yield Page(raw, start, length)
            elif start < read:
                yield Bytes(start, min(place, read))
    finally:
        ogg.ogg_sync_clear(ctypes.byref(state))


class Stream:
    """A Theora stream that is read."""

    def __init__(self, first: Page, number: int) -> None:
        self.number = number
        self._ogg = libogg()
        self._state = StreamState()
        self._ogg.ogg_stream_init(ctypes.byref(self._state), ctypes.c_int32(first.serial).value)
        self._next = first.number
        self._open = False

    def __del__(self) -> None:
        self._ogg.ogg_stream_clear(ctypes.byref(self._state))

    def hole(self, page: Page) -> Optional[Hole]:
        """What is wrong with a page of this stream, if something is."""
        missing = (page.number - self._next) & 0xFFFFFFFF
        if missing == 0 and bool(page.ask("continued")) == self._open:
            return None
        if missing == 0:
            text = f"page {page.number} does not go on where the one before it ends, at byte {page.place}"
        elif missing == 1:
            text = f"page {self._next} is damaged or missing, before byte {page.place}"
        elif missing < 1 << 31:
            last = (page.number - 1) & 0xFFFFFFFF
            text = f"pages {self._next} to {last} are damaged or missing, before byte {page.place}"
        else:
            return Hole(f"page {page.number} comes again or too late, at byte {page.place}", loses_packets=False)
        return Hole(text, loses_packets=True)

    def take(self, page: Page) -> Iterator[Part]:
        """What a page gives."""
        hole = self.hole(page)
        if hole is not None:
            yield hole
            if not hole.loses_packets:
                return
            self._ogg.ogg_stream_reset(ctypes.byref(self._state))
        self._next = (page.number + 1) & 0xFFFFFFFF
        self._open = page.is_open(self._open)
        self._ogg.ogg_stream_pagein(ctypes.byref(self._state), ctypes.byref(page.raw))
        packets = self._packets()
        granule = page.ask("granulepos")
        for i, packet in enumerate(packets):
            yield Packet(packet, granule if granule >= 0 else None, len(packets) - 1 - i)

    def _packets(self) -> List[bytes]:
        found: List[bytes] = []
        packet = OggPacket()
        # -1 says that a packet was torn, which a hole has said already.
        while True:
            answer = self._ogg.ogg_stream_packetout(ctypes.byref(self._state), ctypes.byref(packet))
            if answer == 0:
                return found
            if answer == 1:
                found.append(ctypes.string_at(packet.packet, packet.bytes))

    def end(self, said: bool, place: int) -> End:
        """The stream ends at this byte; its last page may say so."""
        if self._open:
            return End(f"the stream is cut short inside a packet, at byte {place}")
        return End(None if said else "the stream is cut short: its last page is not there")


def parts(file: Source, chosen: Optional[int]) -> Generator[Part, None, None]:
    """The parts of an Ogg file. Without a chosen stream all Theora streams begin, and the first is read."""
    streams: Dict[int, Optional[Stream]] = {}
    strays: Dict[int, int] = {}
    wanted = 1 if chosen is None else chosen
    count = place = 0
    begun = False
    foreign: Optional[Bytes] = None
    for found in pages(file):
        if isinstance(found, Bytes):
            if foreign is not None and foreign.end == found.start:
                found = Bytes(foreign.start, found.end)
            elif foreign is not None:
                yield _unread(foreign)
            foreign, place = found, found.end
            continue
        if foreign is not None:
            yield _unread(foreign)
            foreign = None
        place = found.place + found.length
        serial = found.serial
        if found.ask("bos"):
            if begun:
                yield from (stream.end(False, found.place) for stream in streams.values() if stream is not None)
                streams, begun = {}, False
            streams[serial] = None
            if found.body.startswith(HEADER):
                count += 1
                yield Begin(count)
                if count == wanted:
                    streams[serial] = Stream(found, count)
        else:
            begun = True
            if serial not in streams:
                strays[serial] = strays.get(serial, 0) + 1
        stream = streams.get(serial)
        if stream is not None:
            yield from stream.take(found)
            if found.ask("eos"):
                yield stream.end(True, place)
                del streams[serial]
    if foreign is not None:
        yield _unread(foreign)
    for serial, number in strays.items():
        yield Foreign(f"{number} pages of serial {serial} belong to no stream that began here")
    yield from (stream.end(False, place) for stream in streams.values() if stream is not None)


def _unread(unread: Bytes) -> Foreign:
    return Foreign(f"bytes {unread.start} to {unread.end - 1} are no whole Ogg page: damaged, cut short or foreign")
