"""A take: how its requests are judged, and the file that they make, by docs/FORMATS.md (A take's file, Replies)."""
import re
import struct

from frames import ALREADY_OPEN, BAD_BLOCK, BAD_FIELD, BAD_FORMAT, BAD_MARKER, BEXT, BLOCK, CLOSE, CLOSED
from frames import DUPLICATE_MARKER, little, MARK, NAME_TAKEN, NOT_OPEN, OPEN, STORED, TOO_MANY_MARKERS, WRONG_TOTAL

LARGEST_LIMIT = 4_294_967_294
MOST_MARKERS = 1_024
UNSAID = 0xFFFFFFFF
NOT_GIVEN = b"\xff\x7f"

# The fields of `bext` by tag: the place, the width, and what a message may set.
PRINTABLE = b"[\x20-\x7e]"
FIELDS = {
    1: (0, 256, PRINTABLE + b"{0,256}"),
    2: (256, 32, PRINTABLE + b"{0,32}"),
    3: (288, 32, PRINTABLE + b"{0,32}"),
    4: (320, 10, rb"([0-9]{4}-[0-9]{2}-[0-9]{2})?"),
    5: (330, 8, rb"([0-9]{2}:[0-9]{2}:[0-9]{2})?"),
    6: (338, 8, b"(?s:.{8})"),
    7: (348, 64, b"(?s:.{64})?"),
} | {tag: (412 + 2 * (tag - 8), 2, b"(?s:.{2})?") for tag in range(8, 13)}


def chunk(name, content, size=None):
    return name + little(len(content) if size is None else size, 4) + content + bytes(len(content) % 2)


class Take:
    """What the requests under one name have made so far."""

    def __init__(self, existed=False):
        self.existed = existed
        self.format = None  # rate, channels, bits
        self.history = b""
        self.fields = {}
        self.samples = bytearray()
        self.markers = []
        self.is_closed = False

    @property
    def align(self):
        return self.format[1] * self.format[2] // 8

    @property
    def frames(self):
        return len(self.samples) // self.align

    def judge(self, request):
        kind, payload = request[0], request[1:]
        if self.is_closed:
            return CLOSED
        if kind == OPEN:
            return self.judge_open(payload)
        if self.format is None:
            return NOT_OPEN
        if kind == BLOCK:
            return BAD_BLOCK if len(payload) % self.align else STORED
        if kind == MARK:
            return self.judge_mark(*struct.unpack("<II", payload))
        if kind == BEXT:
            allowed = FIELDS[payload[0]][2] if payload[0] in FIELDS else None
            return STORED if allowed and re.fullmatch(allowed, payload[1:]) else BAD_FIELD
        return STORED if int.from_bytes(payload, "little") == self.frames else WRONG_TOTAL

    def judge_open(self, payload):
        rate, channels, bits = struct.unpack("<IHH", payload[:8])
        if self.format is not None:
            return ALREADY_OPEN
        is_format = 1 <= rate <= 768_000 and 1 <= channels <= 64 and bits in (16, 24, 32)
        if not is_format or not re.fullmatch(b"[\x0d\x0a\x20-\x7e]*", payload[10:]):
            return BAD_FORMAT
        return NAME_TAKEN if self.existed else STORED

    def judge_mark(self, identifier, place):
        if place > self.frames:
            return BAD_MARKER
        if any(identifier == known for known, _ in self.markers):
            return DUPLICATE_MARKER
        return TOO_MANY_MARKERS if len(self.markers) == MOST_MARKERS else STORED

    def apply(self, request):
        """Judges a request, and changes the take by it if it is stored; the verdict."""
        code, kind, payload = self.judge(request), request[0], request[1:]
        if code == STORED:
            if kind == OPEN:
                self.format, self.history = struct.unpack("<IHH", payload[:8]), payload[10:]
            elif kind == BLOCK:
                self.samples += payload
            elif kind == MARK:
                self.markers.append(struct.unpack("<II", payload))
            elif kind == BEXT:
                self.fields[payload[0]] = payload[1:]
            self.is_closed = kind == CLOSE
        return code

    def broadcast(self):
        """The content of `bext`."""
        content = bytearray(602)
        for tag, value in self.fields.items():
            place, width, _ = FIELDS[tag]
            content[place : place + width] = value.ljust(width, b"\0")
        levels = [self.fields.get(tag) or NOT_GIVEN for tag in range(8, 13)]
        is_given = any(level != NOT_GIVEN for level in levels)
        content[346:348] = little(2 if is_given else 1, 2)
        content[412:422] = b"".join(levels) if is_given else bytes(10)
        return bytes(content) + self.history

    def file(self, limit=LARGEST_LIMIT):
        """The file, or None if the take isn't opened."""
        if self.format is None:
            return None
        rate, channels, bits = self.format
        numbers = struct.pack("<HHIIHH", 1, channels, rate, rate * self.align, self.align, bits)
        points = self.markers if self.is_closed else []
        cue = b"".join(struct.pack("<II4sIII", i, place, b"data", 0, 0, place) for i, place in points)
        cue = chunk(b"cue ", little(len(points), 4) + cue) if points else b""
        after = chunk(b"fmt ", numbers) + chunk(b"bext", self.broadcast())
        size = len(self.samples)
        form = 4 + 36 + len(after) + 8 + size + size % 2 + len(cue)
        if form <= limit:
            head = b"RIFF" + little(form, 4) + b"WAVE" + chunk(b"JUNK", bytes(28))
            return head + after + chunk(b"data", bytes(self.samples)) + cue
        head = b"BW64" + little(UNSAID, 4) + b"WAVE" + chunk(b"ds64", struct.pack("<QQQI", form, size, 0, 0))
        return head + after + chunk(b"data", bytes(self.samples), UNSAID) + cue
