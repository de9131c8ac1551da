"""WAVE files of recordings, and the requests that bring them, as docs/FORMATS.md lays both out."""
import struct
from dataclasses import dataclass, field

from kit.takes import BEXT, BLOCK, chunk, CLOSE, little, LONGEST_BLOCK, MARK, OPEN

PCM, FLOAT, ALAW, EXTENSIBLE = 1, 3, 6, 0xFFFE
PCM_SUBFORMAT = bytes.fromhex("0100000000001000800000aa00389b71")
FLOAT_SUBFORMAT = bytes.fromhex("0300000000001000800000aa00389b71")
NOT_GIVEN = 0x7FFF
DESCRIPTION, ORIGINATOR, REFERENCE, DATE, CLOCK, TIME, UMID, VALUE, RANGE, PEAK, MOMENTARY, SHORT = range(1, 13)


@dataclass
class Recording:
    """What a take is made of."""

    rate: int = 48_000
    channels: int = 1
    bits: int = 16
    samples: bytes = b""
    history: bytes = b""
    fields: dict = field(default_factory=dict)  # values by tag
    markers: list = field(default_factory=list)  # identifier and frame

    @property
    def align(self):
        return self.channels * self.bits // 8

    def requests(self, frames=None):
        """Each request as its kind and its payload, in blocks of so many frames, or of as many as fit."""
        size = self.align * (frames or LONGEST_BLOCK // self.align)
        opening = struct.pack("<IHHH", self.rate, self.channels, self.bits, len(self.history)) + self.history
        return [
            bytes([OPEN]) + opening,
            *(bytes([BEXT, tag]) + value for tag, value in sorted(self.fields.items())),
            *(bytes([BLOCK]) + self.samples[at : at + size] for at in range(0, len(self.samples), size)),
            *(bytes([MARK]) + struct.pack("<II", *marker) for marker in self.markers),
            bytes([CLOSE]) + little(len(self.samples) // self.align, 8),
        ]

    def lines(self, frames=None):
        return b"".join(request.hex().encode() + b"\n" for request in self.requests(frames))


# Chunks of a file


def fmt(recording, tag=PCM, align=None, bits=None, extension=b""):
    """The chunk `fmt `; an extension is preceded by its length."""
    align = recording.align if align is None else align
    bits = recording.bits if bits is None else bits
    numbers = struct.pack(
        "<HHIIHH", tag, recording.channels, recording.rate, recording.rate * align % (1 << 32), align, bits
    )
    return chunk(b"fmt ", numbers + (little(len(extension), 2) + extension if extension else b""))


def extensible(recording, valid=None, mask=4, subformat=PCM_SUBFORMAT):
    """The chunk `fmt ` of an extensible format."""
    valid = recording.bits if valid is None else valid
    return fmt(recording, tag=EXTENSIBLE, extension=struct.pack("<HI", valid, mask) + subformat)


def bext(texts=(), time=0, version=0, umid=bytes(64), levels=(0,) * 5, history=b""):
    """The chunk `bext`: description, originator, reference, date and clock, and what follows them."""
    widths = (256, 32, 32, 10, 8)
    given = [*texts, *[b""] * (len(widths) - len(texts))]
    content = b"".join(text.ljust(width, b"\0") for text, width in zip(given, widths))
    content += struct.pack("<QH", time, version) + umid + struct.pack("<5h", *levels)
    return chunk(b"bext", content.ljust(602, b"\0") + history)


def cue(points):
    """The chunk `cue `: of each point the identifier, the position and the offset."""
    entries = (little(i, 4) + little(p, 4) + b"data" + bytes(8) + little(o, 4) for i, p, o in points)
    return chunk(b"cue ", little(len(points), 4) + b"".join(entries))


def data(samples):
    return chunk(b"data", samples)


def riff(*chunks):
    content = b"WAVE" + b"".join(chunks)
    return b"RIFF" + little(len(content), 4) + content


def long_form(identifier, samples_len, *chunks):
    """A BW64 or RF64 file whose sizes are in `ds64`."""
    content = b"".join(chunks)
    form = 4 + 36 + len(content)
    ds64 = chunk(b"ds64", little(form, 8) + little(samples_len, 8) + bytes(8) + bytes(4))
    return identifier + b"\xff" * 4 + b"WAVE" + ds64 + content


def long_data(samples):
    """A chunk `data` whose size is in `ds64`."""
    return b"data" + b"\xff" * 4 + samples + bytes(len(samples) % 2)


def place_of(file, identifier):
    """The place of the head of the first chunk with an identifier."""
    return file.index(identifier)
