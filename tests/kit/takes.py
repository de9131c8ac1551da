"""Takes with their requests, messages and files, as docs/FORMATS.md lays them out."""
import random
import struct

LONGEST_BLOCK = 32_768
LARGEST_LIMIT = 4_294_967_294
OPEN, BLOCK, MARK, BEXT, CLOSE, ASK = range(1, 7)
BYE_FRAME = bytes.fromhex("0100000009")
STORED, CONFLICT, DELAYED_STORE, NEXT = 0, 34, 37, 39


def little(value, length):
    return value.to_bytes(length, "little")


def chunk(identifier, content, size=None):
    size = len(content) if size is None else size
    return identifier + little(size, 4) + content + bytes(len(content) % 2)


class Take:
    """A take of one channel with 24 bits a sample, with a description, a loudness and markers."""

    RATE, ALIGN = 48_000, 3
    FIRST_BLOCK = 3  # its number: the opening and two fields precede it

    def __init__(self, name, length, seed, block=LONGEST_BLOCK, markers=()):
        self.name = name
        self.samples = random.Random(seed).randbytes(length - length % self.ALIGN)
        step = block - block % self.ALIGN
        self.blocks = [self.samples[place : place + step] for place in range(0, len(self.samples), step)]
        self.description = b"a take of noise"
        self.loudness = -2_300
        self.markers = list(markers)

    def requests(self):
        """Each request as its kind and its payload."""
        opening = little(self.RATE, 4) + little(1, 2) + little(8 * self.ALIGN, 2) + little(0, 2)
        described = [bytes([1]) + self.description, bytes([8]) + struct.pack("<h", self.loudness)]
        frames = len(self.samples) // self.ALIGN
        return [
            bytes([OPEN]) + opening,
            *(bytes([BEXT]) + field for field in described),
            *(bytes([BLOCK]) + block for block in self.blocks),
            *(bytes([MARK]) + little(number, 4) + little(frame, 4) for number, frame in self.markers),
            bytes([CLOSE]) + little(frames, 8),
        ]

    def lines(self):
        return b"".join(request.hex().encode() + b"\n" for request in self.requests())

    def messages(self):
        return [message(self.name, number, request) for number, request in enumerate(self.requests())]

    def bext(self):
        content = bytearray(602)
        content[: len(self.description)] = self.description
        content[346:348] = little(2, 2)
        content[412:422] = struct.pack("<hhhhh", self.loudness, *[0x7FFF] * 4)
        return bytes(content)

    def file(self, blocks=None, limit=LARGEST_LIMIT):
        """Its file with this many of its blocks, still open, or with all of it, closed."""
        data = self.samples if blocks is None else b"".join(self.blocks[:blocks])
        points = self.markers if blocks is None else []
        cue = b"".join(
            little(number, 4) + little(frame, 4) + b"data" + bytes(8) + little(frame, 4) for number, frame in points
        )
        cues = chunk(b"cue ", little(len(points), 4) + cue) if points else b""
        form = 682 + len(data) + len(data) % 2 + len(cues)
        second = self.RATE * self.ALIGN
        numbers = struct.pack("<HHIIHH", 1, 1, self.RATE, second, self.ALIGN, 8 * self.ALIGN)
        if form <= limit:
            head = b"RIFF" + little(form, 4) + b"WAVE" + chunk(b"JUNK", bytes(28))
            size = len(data)
        else:
            head = b"BW64" + b"\xff" * 4 + b"WAVE"
            head += chunk(b"ds64", little(form, 8) + little(len(data), 8) + bytes(12))
            size = 0xFFFFFFFF
        return head + chunk(b"fmt ", numbers) + chunk(b"bext", self.bext()) + chunk(b"data", data, size) + cues


def message(name, number, request):
    body = request[:1] + bytes([len(name)]) + name.encode() + little(number, 4) + request[1:]
    return little(len(body), 4) + body


def verdict(name, number, code):
    return message(name, number, bytes([0x81, code]))


def notice(name, number, code, following):
    return message(name, number, bytes([0x82, code]) + little(following, 4))


def bad_frame(reason, offset):
    return little(10, 4) + bytes([0x83, reason]) + little(offset, 8)
