"""Frame packets into plane buffers. What a packet means is the library's; here is the memory that it is lent."""
from __future__ import annotations

import weakref
from typing import Callable, List, NamedTuple, Optional, Sequence, Tuple

import numpy as np

from . import _library as lib
from ._faults import Held, Refused
from ._frame import Kind, Lease, Map
from ._lent import Work, need
from ._library import Lent, call
from ._session import Bytes, Numbers, Sizes, sizes
from ._settings import Settings, map_length, numbers

KINDS = (Kind.INTRA, Kind.INTER, Kind.REPEAT)
"""The kinds, as answers number them."""


class Buffer:
    """A plane buffer, and whether someone views it."""

    def __init__(self, length: int) -> None:
        self.memory: Bytes = np.zeros(length, np.uint8)
        self._lease: Callable[[], Optional[Lease]] = lambda: None

    def lease(self) -> Lease:
        """Someone views it now."""
        lease = Lease(self.memory)
        self._lease = weakref.ref(lease)
        return lease

    @property
    def is_held(self) -> bool:
        return self._lease() is not None


class Answer(NamedTuple):
    """An accepted packet."""

    lease: Lease
    kind: Kind
    qi: Tuple[int, ...]
    tokens: int
    changed: Optional[Map]


class Decoder:
    """Lends the library a session, table memory, work memory and three plane buffers.

    Each packet is a shot of one: the library puts the next frame into the first buffer that holds neither golden nor
    previous, and says where both lie. If that buffer is still viewed it is left to its views and other memory takes its
    place (``keep``), or there is no room for a frame (`Held`).
    """

    def __init__(self, session: Numbers, setup: bytes, keep: bool, max_memory: Optional[int],
                 settings: Optional[Settings]) -> None:
        self.session = session
        self.sizes: Sizes = sizes(session)
        work = Work(session)
        self.memory = 3 * self.sizes.buffer + work.bytes + lib.TABLE_BYTES
        need(self.memory, max_memory)
        self._tiles = None if settings is None else Tiling(settings, session, self.sizes)
        self._table = self._read_setup(setup)
        self._work = work.lend()
        self._keep = keep
        self._buffers: List[Buffer] = [Buffer(self.sizes.buffer) for _ in range(3)]
        self._names = np.zeros(2, np.uint64)

    @staticmethod
    def _read_setup(setup: bytes) -> Bytes:
        table = np.zeros(lib.TABLE_BYTES, np.uint8)
        place = np.zeros(1, np.uint64)
        number = call("setup", setup, table, place)
        if number:
            raise Refused(number, int(place[0]))
        return table

    @property
    def tile_rows_and_columns(self) -> Tuple[int, int]:
        """Rows and columns of a map; none without settings."""
        return (0, 0) if self._tiles is None else self._tiles.shape

    def restart(self) -> None:
        """Packets are missing here: only an intra frame is accepted next."""
        self.session[lib.REFERENCES] = 0

    def make_room(self) -> None:
        """Sees to it that nobody views the buffer that the next frame goes into."""
        held = {int(name) for name in self._names} if self.session[lib.REFERENCES] else set()
        new = min({0, 1, 2} - held)
        if self._buffers[new].is_held:
            if not self._keep:
                raise Held('an earlier frame is still viewed: drop it or copy its planes, or open with held="keep"')
            self._buffers[new] = Buffer(self.sizes.buffer)

    def decode(self, packet: bytes) -> Answer:
        """Decodes a packet. A refusal changes nothing."""
        self.make_room()
        answers, maps = self.shot([packet])
        answer = [int(n) for n in answers[0]]
        if answer[lib.NUMBER]:
            raise Refused(answer[lib.NUMBER], answer[lib.PLACE])
        qi = tuple(answer[lib.QIS : lib.QIS + answer[lib.QI_COUNT]])
        return Answer(self.previous(), KINDS[answer[lib.KIND]], qi, answer[lib.TOKENS], None if maps is None else maps[0])

    def previous(self) -> Lease:
        """The frame that was decoded last."""
        return self._buffers[int(self._names[lib.PREVIOUS])].lease()

    def shot(self, packets: Sequence[bytes]) -> Tuple[Numbers, Optional[Map]]:
        """Decodes packets in one call: the answer of each, 8 numbers, and its map of tiles if there are settings. The
        map of a refused packet is all zero."""
        lengths = np.array([len(packet) for packet in packets], np.uint64)
        joined = packets[0] if len(packets) == 1 else b"".join(packets)
        answers = np.zeros((len(packets), lib.ANSWER_NUMBERS), np.uint64)
        buffers = (buffer.memory for buffer in self._buffers)
        given: Tuple[Lent, ...] = (self.session, self._names, lengths, joined, self._table, *self._work, *buffers, answers)
        if self._tiles is None:
            maps, number = None, call("shot", *given)
        else:
            maps = np.zeros((len(packets), *self._tiles.shape), np.uint8)
            number = call("tiles_shot", self._tiles.settings, *given, maps)
        if number:
            raise Refused(number)
        return answers, None if maps is None else maps[:, ::-1].view(np.bool_)

    def check(self, first: bytes, setup: bytes, packets: Sequence[bytes], film: Bytes) -> Tuple[int, int, bool, Numbers]:
        """Compares a film with what the packets give: the number of the refusal, its place or the first byte that differs,
        whether one does, and the answer of each packet. No frame may be viewed meanwhile."""
        lengths = np.array([len(packet) for packet in packets], np.uint64)
        answers = np.zeros((len(packets), lib.ANSWER_NUMBERS), np.uint64)
        found = np.zeros(2, np.uint64)
        buffers = (buffer.memory for buffer in self._buffers)
        number = call("check", first, setup, lengths, b"".join(packets), film, self._table, *self._work, *buffers, answers,
                      found)
        return number, int(found[1]), bool(found[0]), answers


class Tiling:
    """How a plane is cut into tiles."""

    def __init__(self, settings: Settings, session: Numbers, sizes: Sizes) -> None:
        self.settings = numbers(settings)
        length = map_length(self.settings, session)
        columns = -(-sizes.planes[settings.plane][1] // settings.tile)
        self.shape = length // columns, columns
        """Rows and columns of tiles."""
