"""Files of recordings: the requests that bring them and what is said of what they lose, and those that are refused.

Each is worked out by hand from docs/FORMATS.md, and not by the program.
"""
import math
import random
from typing import NamedTuple

from kit import recordings as rec
from kit.hints import CUES_LEFT, floats, LONG_HISTORY, NOT_PCM, unclean_byte, unclean_form
from kit.recordings import bext, cue, data, extensible, fmt, long_data, long_form, place_of, Recording, riff
from kit.takes import chunk


class Sent(NamedTuple):
    """A file that is taken, the options beside it, its recording, and what is said of what is lost."""

    of: str
    file: bytes
    recording: Recording
    options: tuple = ()
    lost: str = ""


class Refused(NamedTuple):
    """A file that isn't taken, what is said: `KIND at OFFSET`, the options beside it, and the hint if it is special."""

    of: str
    file: bytes
    said: str
    options: tuple = ()
    hint: str = ""


def noise(length, seed=1):
    return random.Random(seed).randbytes(length)


PLAIN = Recording(samples=noise(9_600))
STEREO = Recording(rate=96_000, channels=2, bits=24, samples=noise(6 * 8_000, 2))  # two blocks, the second shorter
SIXTY_FOUR = Recording(channels=64, bits=32, samples=noise(256 * 300, 3))
ODD = Recording(bits=24, samples=noise(3 * 1_001, 4))
EMPTY = Recording()

UMID = bytes(range(1, 65))
FIELDS = {
    rec.DESCRIPTION: b"River at dawn",
    rec.ORIGINATOR: b"Recorder 7",
    rec.REFERENCE: b"XX1",
    rec.DATE: b"2024-05-17",
    rec.CLOCK: b"05:31:00",
    rec.TIME: (172_800_000).to_bytes(8, "little"),
    rec.UMID: UMID,
    rec.VALUE: (-2_300).to_bytes(2, "little", signed=True),
    rec.PEAK: (-100).to_bytes(2, "little", signed=True),
}
TEXTS = tuple(FIELDS[tag] for tag in (rec.DESCRIPTION, rec.ORIGINATOR, rec.REFERENCE, rec.DATE, rec.CLOCK))
HISTORY = b"A=PCM,F=48000,W=24,M=mono\r\n"
LEVELS = (-2_300, rec.NOT_GIVEN, -100, rec.NOT_GIVEN, rec.NOT_GIVEN)
SECOND = bext(TEXTS, 172_800_000, 2, UMID, LEVELS, HISTORY)
WITHOUT_LEVELS = {tag: value for tag, value in FIELDS.items() if tag < rec.VALUE}


def of(recording, **changes):
    return Recording(**{**vars(recording), **changes})


# Half a second of a tone of 400 Hz at 8,000 Hz: twenty samples a period, of an amplitude of 8,000. This is
# examples/tone.wav.
PERIOD = b"".join(round(8_000 * math.sin(math.pi * at / 10)).to_bytes(2, "little", signed=True) for at in range(20))
TONE_FIELDS = {
    rec.DESCRIPTION: b"A tone of 400 Hz",
    rec.ORIGINATOR: b"bwingest",
    rec.DATE: b"2024-05-17",
    rec.CLOCK: b"05:31:00",
    rec.TIME: (8_000 * 19_860).to_bytes(8, "little"),
}
TONE_HISTORY = b"A=PCM,F=8000,W=16,M=mono\r\n"
TONE = Recording(rate=8_000, samples=PERIOD * 200, history=TONE_HISTORY, fields=TONE_FIELDS, markers=[(1, 2_000)])
TONE_BEXT = bext(
    (b"A tone of 400 Hz", b"bwingest", b"", b"2024-05-17", b"05:31:00"), 8_000 * 19_860, 1, history=TONE_HISTORY
)
TONE_FILE = riff(fmt(TONE), TONE_BEXT, data(TONE.samples), cue([(1, 2_000, 2_000)]))

SENT = [
    Sent("the example", TONE_FILE, TONE),
    Sent("16 bits", riff(fmt(PLAIN), data(PLAIN.samples)), PLAIN),
    Sent("24 bits in two blocks", riff(fmt(STEREO), data(STEREO.samples)), STEREO),
    Sent("64 channels of 32 bits", riff(fmt(SIXTY_FOUR), data(SIXTY_FOUR.samples)), SIXTY_FOUR),
    Sent("an odd length", riff(fmt(ODD), data(ODD.samples)), ODD),
    Sent("an odd length without its pad byte", riff(fmt(ODD), data(ODD.samples))[:-1], ODD),
    Sent("no samples", riff(fmt(EMPTY), data(b"")), EMPTY),
    Sent(
        "an extensible format",
        riff(extensible(STEREO), data(STEREO.samples)),
        STEREO,
        lost="left out: channel mask\n",
    ),
    Sent(
        "an extensible format whose mask is 0, which says nothing",
        riff(extensible(STEREO, mask=0), data(STEREO.samples)),
        STEREO,
    ),
    Sent(
        "fields of version 2, a history and cue points",
        riff(fmt(PLAIN), SECOND, data(PLAIN.samples), cue([(1, 0, 0), (7, 9, 4_800), (2, 1, 100)])),
        of(PLAIN, fields=FIELDS, history=HISTORY, markers=[(1, 0), (7, 4_800), (2, 100)]),
    ),
    Sent(
        "fields of version 1, whose levels mean nothing",
        riff(fmt(PLAIN), bext(TEXTS, 172_800_000, 1, UMID, LEVELS, HISTORY), data(PLAIN.samples)),
        of(PLAIN, fields=WITHOUT_LEVELS, history=HISTORY),
    ),
    Sent("chunks after the samples", riff(fmt(PLAIN), data(PLAIN.samples), SECOND), of(PLAIN, fields=FIELDS, history=HISTORY)),
    Sent(
        "RF64",
        long_form(b"RF64", len(ODD.samples), fmt(ODD), long_data(ODD.samples)),
        ODD,
    ),
    Sent("BW64", long_form(b"BW64", len(PLAIN.samples), fmt(PLAIN), long_data(PLAIN.samples)), PLAIN),
    Sent(
        "UTF-8 in the description and in the history",
        riff(fmt(PLAIN), bext(("Bäche".encode(),), history="é\r\n".encode()), data(PLAIN.samples)),
        of(PLAIN, fields={rec.DESCRIPTION: b"Bache"}, history=b"??\r\n"),
        lost='cleaned: description "B\\xc3\\xa4che" -> "Bache"\ncleaned: history "\\xc3\\xa9\\x0d\\x0a" -> "??\\x0d\\x0a"\n',
    ),
    Sent(
        "other separators, and a time that is none",
        riff(fmt(PLAIN), bext((b"", b"", b"", b"2024_05_17", b"noon")), data(PLAIN.samples)),
        of(PLAIN, fields={rec.DATE: b"2024-05-17"}),
        lost='cleaned: date "2024_05_17" -> "2024-05-17"\nleft out: clock\n',
    ),
    Sent(
        "ends of lines in a text, as recorders write them",
        riff(fmt(PLAIN), bext((b"sSCENE=12A\r\nsTAKE=1\nsNOTE=a\rb", b"1\n\r2")), data(PLAIN.samples)),
        of(PLAIN, fields={rec.DESCRIPTION: b"sSCENE=12A sTAKE=1 sNOTE=a b", rec.ORIGINATOR: b"1  2"}),
        lost='cleaned: description "sSCENE=12A\\x0d\\x0asTAKE=1\\x0asNOTE=a\\x0db" -> "sSCENE=12A sTAKE=1 sNOTE=a b"\n'
        'cleaned: originator "1\\x0a\\x0d2" -> "1  2"\n',
    ),
    Sent(
        "a text that isn't UTF-8 is ISO 8859-1",
        riff(fmt(PLAIN), bext(("Göteborg, Ærø ß".encode("latin-1"),)), data(PLAIN.samples)),
        of(PLAIN, fields={rec.DESCRIPTION: b"Goteborg, ?r? ?"}),
        lost='cleaned: description "G\\xf6teborg, \\xc6r\\xf8 \\xdf" -> "Goteborg, ?r? ?"\n',
    ),
    Sent(
        "letters of other alphabets and with accents of their own, and what must be escaped",
        riff(fmt(PLAIN), bext(("Ấ ǎ e\u0301 Ж ’ \"\\".encode(),)), data(PLAIN.samples)),
        of(PLAIN, fields={rec.DESCRIPTION: b'A a e ? ? "\\'}),
        lost='cleaned: description "\\xe1\\xba\\xa4 \\xc7\\x8e e\\xcc\\x81 \\xd0\\x96 \\xe2\\x80\\x99 \\x22\\x5c" -> '
        '"A a e ? ? \\x22\\x5c"\n',
    ),
    Sent(
        "a history that is cut",
        riff(fmt(PLAIN), bext(history=b"x" * 4_097), data(PLAIN.samples)),
        of(PLAIN, history=b"x" * 4_096),
        lost=f'cleaned: history "{"x" * 4_097}" -> "{"x" * 4_096}"\n',
    ),
    Sent(
        "cue points of one identifier, and after the end",
        riff(fmt(PLAIN), data(PLAIN.samples), cue([(1, 0, 5), (1, 0, 6), (2, 0, 4_801), (3, 0, 4_800)])),
        of(PLAIN, markers=[(1, 5), (3, 4_800)]),
        lost="left out: cue points 2\n",
    ),
    Sent(
        "a filler, and a chunk that isn't carried",
        riff(chunk(b"JUNK", bytes(28)), fmt(PLAIN), data(PLAIN.samples), chunk(b"iXML", b"<a/>" * 10)),
        PLAIN,
        lost="left out: iXML 40\n",
    ),
    Sent(
        "settings in place of what the file has",
        riff(fmt(PLAIN), SECOND, data(PLAIN.samples)),
        of(PLAIN, fields={**FIELDS, rec.ORIGINATOR: b"h3", rec.RANGE: b"\x64\0", rec.PEAK: b"\0\0"}, history=b"none"),
        ("--set", "originator=Someone", "--set=originator=h3", "--set=range=1.00", "--set=peak=0.00", "--set=history=none"),
    ),
    Sent(
        "settings that take fields away",
        riff(fmt(PLAIN), bext(TEXTS), data(PLAIN.samples)),
        of(PLAIN, fields={rec.DESCRIPTION: b"a=b"}),
        ("--set=description=a=b", "--set=originator=", "--set=reference=", "--set=date=", "--set=clock="),
    ),
    Sent(
        "only texts are refused, and chunks are lost",
        riff(extensible(STEREO), data(STEREO.samples), chunk(b"LIST", b"INFOINAM" + bytes([2, 0, 0, 0]) + b"a\0")),
        STEREO,
        ("--strict-texts",),
        "left out: channel mask\nleft out: LIST 14\n",
    ),
]

FLOATS = riff(fmt(Recording(bits=32), tag=rec.FLOAT), data(bytes(8)))
PART = riff(fmt(STEREO), data(bytes(7)))
UTF8 = riff(fmt(PLAIN), bext(("é".encode(),)), data(PLAIN.samples))
CUES = riff(fmt(PLAIN), data(PLAIN.samples), cue([(1, 0, 0), (1, 0, 1)]))
CUT = riff(fmt(PLAIN), data(PLAIN.samples))[:-100]


def with_bext(texts=(), history=b""):
    """A file with these texts, and this coding history."""
    return riff(fmt(PLAIN), bext(texts, history=history), data(PLAIN.samples))


def strict(of, file, chunk_id, hint):
    """A file that isn't taken with --strict-texts, at the chunk with this id."""
    return Refused(f"{of}, strict", file, f"Unclean at {place_of(file, chunk_id)}", ("--strict-texts",), hint)



REFUSED = [
    Refused("floating point", FLOATS, "NotPcm at 12", hint=floats(32)),
    Refused("64-bit floating point", riff(fmt(Recording(bits=64), tag=rec.FLOAT), data(bytes(8))), "NotPcm at 12", hint=floats(64)),
    Refused("A-law", riff(fmt(Recording(bits=8), tag=rec.ALAW), data(bytes(8))), "NotPcm at 12", hint=NOT_PCM),
    Refused(
        "extensible floating point",
        riff(extensible(Recording(bits=32), subformat=rec.FLOAT_SUBFORMAT), data(bytes(8))),
        "NotPcm at 12",
        hint=floats(32),
    ),
    Refused("an extensible format of 16 bytes", riff(fmt(PLAIN, tag=rec.EXTENSIBLE), data(bytes(8))), "NotPcm at 12", hint=NOT_PCM),
    Refused("8 bits", riff(fmt(Recording(bits=8)), data(bytes(8))), "Bits at 12"),
    Refused("20 bits", riff(fmt(PLAIN, bits=20, align=3), data(bytes(9))), "Bits at 12"),
    Refused("20 valid bits", riff(extensible(Recording(bits=24), valid=20), data(bytes(9))), "ValidBits at 12"),
    Refused("24 bits in 4 bytes", riff(fmt(Recording(bits=24), align=4), data(bytes(8))), "Align at 12"),
    Refused("a rate of 0", riff(fmt(Recording(rate=0)), data(bytes(8))), "Rate at 12"),
    Refused("a rate above the greatest", riff(fmt(Recording(rate=768_001)), data(bytes(8))), "Rate at 12"),
    Refused("no channel", riff(fmt(Recording(channels=0)), data(bytes(8))), "Channels at 12"),
    Refused("65 channels", riff(fmt(Recording(channels=65)), data(bytes(130))), "Channels at 12"),
    Refused("a part of a frame", PART, f"PartFrame at {place_of(PART, b'data')}"),
    strict("UTF-8", UTF8, b"bext", unclean_byte("description", 0, 0xC3)),
    strict("a tab in the third byte", with_bext((b"", b"12\t")), b"bext", unclean_byte("originator", 2, 9)),
    strict("the last byte of a field", with_bext((b"", b"", b"x" * 31 + b"\x7f")), b"bext", unclean_byte("reference", 31, 0x7F)),
    strict("two fields", with_bext((b"\x01", b"\x02")), b"bext", unclean_byte("description", 0, 1)),
    strict("a date with other separators", with_bext((b"", b"", b"", b"2024_05_17")), b"bext", unclean_form("date")),
    strict("a short time", with_bext((b"", b"", b"", b"", b"05:31")), b"bext", unclean_form("clock")),
    strict("a byte of the history", with_bext(history=b"A=PCM\r\n\xff"), b"bext", unclean_byte("history", 7, 0xFF)),
    strict("a long history", with_bext(history=b"x" * 4_097), b"bext", LONG_HISTORY),
    strict("a repeated identifier", CUES, b"cue ", CUES_LEFT),
    Refused("no file at all", b"", "NotWave at 0"),
    Refused("a text", b"a text\n", "NotWave at 0"),
    Refused("a cut file", CUT, f"Truncated at {place_of(CUT, b'data')}"),
    Refused("no format", riff(data(bytes(8))), "NoFmt at 28"),
    Refused("no samples", riff(fmt(PLAIN)), "NoData at 36"),
]
