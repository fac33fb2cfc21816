"""Ogg files of packets, through libogg: what the tests read. It needs nothing else.

    ogg_files.py STORED_STREAM OUT.ogv    a stored stream as an Ogg file
"""
import ctypes
import sys
from pathlib import Path
from typing import Iterable, List

STREAMS = Path(__file__).resolve().parents[2] / "crates" / "play" / "data"
"""The stored streams, as packet files."""


class Page(ctypes.Structure):
    """``ogg_page``."""

    _fields_ = [("header", ctypes.c_void_p), ("header_len", ctypes.c_long), ("body", ctypes.c_void_p),
                ("body_len", ctypes.c_long)]


class Packet(ctypes.Structure):
    """``ogg_packet``."""

    _fields_ = [("packet", ctypes.c_char_p), ("bytes", ctypes.c_long), ("b_o_s", ctypes.c_long),
                ("e_o_s", ctypes.c_long), ("granulepos", ctypes.c_int64), ("packetno", ctypes.c_int64)]


def packets(name: str) -> List[bytes]:
    """The packets of a stored stream."""
    data = (STREAMS / name).read_bytes()
    found = []
    while data:
        end = 4 + int.from_bytes(data[:4], "little")
        found.append(data[4:end])
        data = data[end:]
    return found


def packet_file(packets: Iterable[bytes]) -> bytes:
    return b"".join(len(packet).to_bytes(4, "little") + packet for packet in packets)


def is_key_frame(packet: bytes) -> bool:
    """Whether a frame packet is that of an intra frame."""
    return packet != b"" and packet[0] & 0x40 == 0


def granules(packets: List[bytes], shift: int = 6) -> List[int]:
    """Granule positions as an encoder gives them: headers 0, then key frame and packets since, counted from 1."""
    positions, key, number = [0, 0, 0], 0, 0
    for packet in packets[3:]:
        number += 1
        if is_key_frame(packet):
            key = number
        positions.append(key << shift | number - key)
    return positions


def pages(packets: List[bytes], serial: int = 7, last: bool = True, single: bool = True) -> List[bytes]:
    """The pages of an Ogg stream. Each packet ends a page, or, if not single, each header and whatever libogg thinks."""
    ogg = ctypes.CDLL("libogg.so.0")
    state, page, found = (ctypes.c_uint64 * 64)(), Page(), []
    ogg.ogg_stream_init(ctypes.byref(state), serial)
    for i, (packet, granule) in enumerate(zip(packets, granules(packets))):
        raw = Packet(packet, len(packet), 0, last and i + 1 == len(packets), granule, 0)
        ogg.ogg_stream_packetin(ctypes.byref(state), ctypes.byref(raw))
        ends = single or i < 3 or i + 1 == len(packets)
        out = ogg.ogg_stream_flush if ends else ogg.ogg_stream_pageout
        while out(ctypes.byref(state), ctypes.byref(page)):
            found.append(ctypes.string_at(page.header, page.header_len) + ctypes.string_at(page.body, page.body_len))
    ogg.ogg_stream_clear(ctypes.byref(state))
    return found


if __name__ == "__main__":
    Path(sys.argv[2]).write_bytes(b"".join(pages(packets(sys.argv[1]))))
