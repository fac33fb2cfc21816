"""The calls for streams and settings of the shared library, for the checks in this folder."""
import ctypes
import sys

SIZE = ctypes.c_size_t
BEHIND = 7


def fail(text):
    sys.exit(f"{sys.argv[0]}: {text}")


def session(w, h, pf, rate=(25, 1), aspect=(0, 0)):
    return [0, w, h, 16 * w, 16 * h, 0, 0, *rate, *aspect, 0, 0, 0, 6, pf, 0, 0, 0]


def buffer_bytes(w, h, pf):
    return {0: 384, 2: 512, 3: 768}[pf] * w * h


def numbers(values):
    return (ctypes.c_uint64 * max(len(values), 1))(*values), SIZE(len(values))


class Library:
    """Each call answers its number, what the lent output holds afterwards with the bytes behind it, and the list of the answer."""

    def __init__(self, path):
        library = ctypes.CDLL(path)
        for name in ("y4m_write", "y4m_header", "y4m_frame", "y4m_read", "settings_write", "settings_read"):
            call = getattr(library, "wedgepetal_" + name)
            call.restype = ctypes.c_uint32
            setattr(self, name, call)

    def write(self, call, head, source, room, answer):
        out = ctypes.create_string_buffer(b"\xa5" * (room + BEHIND), room + BEHIND)
        told, length = numbers(answer)
        number = call(*head, *source, out, SIZE(room), told, length)
        return number, out.raw, list(told)[: len(answer)]

    def stream(self, s, frames, room, answer=(77,)):
        return self.write(self.y4m_write, numbers(s), (bytes(frames), SIZE(len(frames))), room, answer)

    def header(self, s, room, answer=(77,)):
        return self.write(self.y4m_header, numbers(s), (), room, answer)

    def frame(self, s, planes, room, answer=(77,)):
        return self.write(self.y4m_frame, numbers(s), (bytes(planes), SIZE(len(planes))), room, answer)

    def read(self, stream, room, answer=(77,) * 8):
        planes = ctypes.create_string_buffer(b"\xa5" * (room + BEHIND), room + BEHIND)
        told, length = numbers(answer)
        number = self.y4m_read(stream, SIZE(len(stream)), planes, SIZE(room), told, length)
        return number, planes.raw, list(told)[: len(answer)]

    def settings_text(self, version, values, room=61):
        return self.write(self.settings_write, (ctypes.c_uint64(version), *numbers(values)), (), room, (77,))

    def settings(self, version, text, in_use=(77,) * 4):
        told, length = numbers(in_use)
        number = self.settings_read(ctypes.c_uint64(version), text, SIZE(len(text)), told, length)
        return number, list(told)[: len(in_use)]


def all_changes(text):
    """The text with each byte changed to each other one, left out, and each byte put in at each place; and cut everywhere."""
    for at in range(len(text)):
        yield text[:at] + text[at + 1 :]
        yield text[:at]
        for byte in range(256):
            if byte != text[at]:
                yield text[:at] + bytes([byte]) + text[at + 1 :]
    for at in range(len(text) + 1):
        for byte in range(256):
            yield text[:at] + bytes([byte]) + text[at:]
