"""Files with what `inspect` prints of them, worked out by hand from docs/FORMATS.md, BS.2088 and Tech 3306.

The files with faults are worked ones in which some bytes are changed.
"""
from typing import NamedTuple

from kit.hints import CONVERT, converted, hinted
from kit.takes import little
from kit.worked import SMALL

SMALL_FILE = bytes.fromhex(SMALL)
CUE = b"cue \x1c\0\0\0\x01\0\0\0\x07\0\0\0\x02\0\0\0data\0\0\0\0\0\0\0\0\x02\0\0\0"  # a marker 7 at frame 2

# `ds64` has the sizes of the form and of the data.
RF64 = b"".join(
    (
        b"RF64\xff\xff\xff\xffWAVE",
        b"ds64\x1c\0\0\0\x5a\0\0\0\0\0\0\0\x04\0\0\0\0\0\0\0\x02\0\0\0\0\0\0\0\0\0\0\0",
        b"fmt \x12\0\0\0\x01\0\x01\0\x80\xbb\0\0\0\x77\x01\0\x02\0\x10\0\0\0",
        b"LIST\x04\0\0\0\0\0\0\0data\xff\xff\xff\xff\x01\0\x02\0",
    )
)

# The table of `ds64` has the size of the chunk `LIST`.
TABLED = b"".join(
    (
        b"BW64\xff\xff\xff\xffWAVE",
        b"ds64\x28\0\0\0\x66\0\0\0\0\0\0\0\x04\0\0\0\0\0\0\0\0\0\0\0\0\0\0\0\x01\0\0\0LIST\x04\0\0\0\0\0\0\0",
        b"fmt \x12\0\0\0\x01\0\x01\0\x80\xbb\0\0\0\x77\x01\0\x02\0\x10\0\0\0",
        b"LIST\xff\xff\xff\xff\0\0\0\0data\xff\xff\xff\xff\x01\0\x02\0",
    )
)


def changed(file, *parts):
    """The file with other bytes at places."""
    found = bytearray(file)
    for place, part in parts:
        found[place : place + len(part)] = part
    return bytes(found)


MARKED = changed(SMALL_FILE, (4, b"\xd2\x02\0\0")) + CUE
LOUD = changed(SMALL_FILE, (426, b"\x02"), (492, b"\x04\xf7\xff\x7f\xff\x7f\xff\x7f\xff\x7f"))
ODD_TEXT = changed(SMALL_FILE, (80, b"A ~\\\n\x7f\xff\x1f\0B"))
NO_PAD = changed(SMALL_FILE, (686, b"\x03"))[:693]  # three bytes of data, and no pad byte


def empty_chunks(count):
    """A RIFF file of this many empty chunks."""
    return b"RIFF" + little(4 + 8 * count, 4) + b"WAVE" + count * b"abcd\0\0\0\0"


RF64_TEXT = """\
form RF64 90
chunk ds64 12 28
chunk fmt. 48 18
chunk LIST 74 4
chunk data 86 4
fmt tag=1 channels=1 rate=48000 bytes=96000 align=2 bits=16
data at=94 bytes=4 frames=2
"""
TABLED_TEXT = """\
form BW64 102
chunk ds64 12 40
chunk fmt. 60 18
chunk LIST 86 4
chunk data 98 4
fmt tag=1 channels=1 rate=48000 bytes=96000 align=2 bits=16
data at=106 bytes=4 frames=2
"""
SMALL_CHUNKS = """\
chunk JUNK 12 28
chunk fmt. 48 16
chunk bext 72 602
"""
FORMAT = "fmt tag=1 channels=1 rate=48000 bytes=96000 align=2 bits=16\n"
RIFF_TEXT = f"form RIFF 686\n{SMALL_CHUNKS}chunk data 682 4\n{FORMAT}data at=690 bytes=4 frames=2\n"
NO_TEXTS = f"originator=\nreference=\ndate=\nclock=\numid={128 * '0'}\n"
BEXT = f"bext version=1 time=0 history=0\ndescription=\n{NO_TEXTS}"
LOUDNESS = "loudness value=-2300 range=unset peak=unset momentary=unset short=unset\n"


class Report(NamedTuple):
    """A file and its report."""

    of: str
    file: bytes
    text: str


REPORTS = [
    Report("RF64", RF64, RF64_TEXT),
    Report("BW64 with a table", TABLED, TABLED_TEXT),
    Report("RIFF", SMALL_FILE, RIFF_TEXT + BEXT),
    Report(
        "RIFF with a marker",
        MARKED,
        f"form RIFF 722\n{SMALL_CHUNKS}chunk data 682 4\nchunk cue. 694 28\n{FORMAT}data at=690 bytes=4 frames=2\n"
        + f"{BEXT}cue id=7 position=2 offset=2\n",
    ),
    Report(
        "a loudness",
        LOUD,
        f"{RIFF_TEXT}bext version=2 time=0 history=0\ndescription=\n{NO_TEXTS}{LOUDNESS}",
    ),
    Report(
        "a text of all kinds of bytes",
        ODD_TEXT,
        RIFF_TEXT
        + r"bext version=1 time=0 history=0" + "\n" + r"description=A ~\x5c\x0a\x7f\xff\x1f" + "\n" + NO_TEXTS,
    ),
    Report(
        "no pad byte at the end",
        NO_PAD,
        f"form RIFF 686\n{SMALL_CHUNKS}chunk data 682 3\n{FORMAT}data at=690 bytes=3 frames=1\n{BEXT}",
    ),
]


def fault_of_cut(count):
    """The fault of the small file of which this many bytes are there: at the chunk that is cut."""
    if count < 12:
        return "NotWave at 0"
    chunk = next(at for at in (682, 72, 48, 12) if count >= at)
    return f"Truncated at {chunk}"


FAULTS = [
    *((f"{count} bytes", SMALL_FILE[:count], fault_of_cut(count)) for count in range(694)),
    ("a form of 2^63 bytes", changed(RF64, (20, b"\0\0\0\0\0\0\0\x80")), "TooLarge at 4"),
    ("a form that ends before `fmt `", changed(RF64, (20, b"\x27\0\0\0\0\0\0\0")), "Truncated at 12"),
    ("a form that ends after `ds64`", changed(RF64, (20, b"\x28\0\0\0\0\0\0\0")), "NoFmt at 48"),
    ("a form of three bytes", changed(RF64, (20, b"\x03\0\0\0\0\0\0\0")), "NotWave at 4"),
    ("data of 2^64 - 1 bytes", changed(RF64, (28, 8 * b"\xff")), "TooLarge at 86"),
    ("data of 2^62 bytes", changed(RF64, (28, b"\0\0\0\0\0\0\0\x40")), "Truncated at 86"),
    ("a table that isn't there", changed(RF64, (44, b"\x01\0\0\0")), "BadDs64 at 12"),
    ("a table of 4,097 sizes", changed(RF64, (44, b"\x01\x10\0\0")), "TooMany at 12"),
    ("a size that no table has", changed(RF64, (78, b"\xff\xff\xff\xff")), "NoSize at 74"),
    ("RF64 without `ds64`", changed(RF64, (12, b"fmt ")), "NoDs64 at 12"),
    ("BW64 without `ds64`", changed(TABLED, (12, b"fmt ")), "NoDs64 at 12"),
    ("two cue points, and room for one", changed(MARKED, (702, b"\x02\0\0\0")), "BadCue at 694"),
    ("65,537 cue points", changed(MARKED, (702, b"\x01\0\x01\0")), "TooMany at 694"),
    ("data twice", changed(MARKED, (48, b"data")), "Twice at 682"),
    ("4,096 chunks, and no `fmt `", empty_chunks(4_096), "NoFmt at 32780"),
    ("4,097 chunks", empty_chunks(4_097), "TooMany at 32780"),
]

# Files of other formats by their first bytes, and the hint: a FLAC file (RFC 9639, D.1), AIFF and AIFF-C, Wave64 (its GUID
# `riff`), and what only begins as they do.
WAVE64 = bytes.fromhex("726966662e91cf11a5d628db04c10000")
OTHER_FORMATS = [
    ("FLAC", bytes.fromhex("664c614380000022100010000000"), converted("a FLAC")),
    ("12 bytes of FLAC", b"fLaC" + bytes(8), converted("a FLAC")),
    ("11 bytes of FLAC", b"fLaC" + bytes(7), CONVERT),
    ("AIFF", b"FORM\0\0\0\x2eAIFFCOMM", converted("an AIFF")),
    ("AIFF-C", b"FORM\0\0\0\x2eAIFCFVER", converted("an AIFF")),
    ("another FORM", b"FORM\0\0\0\x2e8SVXVHDR", CONVERT),
    ("AIFF in RIFF's order", b"FIRM\0\0\0\x2eAIFFCOMM", CONVERT),
    ("Wave64", WAVE64 + (1_000).to_bytes(8, "little"), converted("a Wave64")),
    ("another GUID", WAVE64[:11] + bytes(13), CONVERT),
    ("OggS", b"OggS" + bytes(24), CONVERT),
]

# What is given in pieces: reports, and a file that is cut off.
IN_PIECES = [
    *((one.of, one.file, 0, one.text, "") for one in REPORTS if one.file in (RF64, TABLED, MARKED)),
    ("500 bytes", SMALL_FILE[:500], 1, "", hinted("inspect", "Truncated at 72")),
]
