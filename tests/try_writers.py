#!/usr/bin/env python3
"""Tries files of real writers: ffmpeg, sox, libsndfile's tools and arecord, as far as they are installed.

  tests/try_writers.py [PROGRAM]

Each writes recordings of 16, 24 and 32 bits and of 1, 2, 6 and 64 channels, as far as it can; some with the fields of
`bext`, with other chunks, or as RF64. `pack` of the program reads each. Prints a table in Markdown: who wrote what,
which format tag and which chunks it has, what is said of it, and whether format and samples came through (their
SHA-256 is compared with that of what the writer was given; of arecord, which reads the device `null` and writes what its
buffer held, with that of what its file has after 44 bytes). The
last line is 'N passed, M failed'. Run by hand: the gate needs none of these writers.
"""
import hashlib
import pathlib
import random
import shutil
import struct
import subprocess
import sys
import tempfile

sys.dont_write_bytecode = True  # nothing is left beside this script
from kit.recordings import cue, data, fmt, Recording, riff
from kit.repository import program
from kit.takes import BEXT, BLOCK, MARK, OPEN
from kit.tally import Tally

LONGEST_RUN = 60  # seconds
FRAMES = 5_001  # an odd number, so that one channel of 24 bits has an odd number of bytes
RATE = 48_000
TALLY = Tally()
FFMPEG_FORMATS = {16: "s16le", 24: "s24le", 32: "s32le"}
ARECORD_FORMATS = {16: "S16_LE", 24: "S24_3LE", 32: "S32_LE"}


def noise(bits, channels, seed=1):
    return random.Random(seed).randbytes(FRAMES * channels * bits // 8)


def run(words, given=b""):
    ran = subprocess.run(words, input=given, capture_output=True, timeout=LONGEST_RUN)
    if ran.returncode:
        raise OSError(ran.stderr.decode(errors="replace").strip().rpartition("\n")[2])


def by_ffmpeg(path, bits, channels, samples, *options):
    given = ("-f", FFMPEG_FORMATS[bits], "-ar", str(RATE), "-ac", str(channels), "-i", "pipe:0")
    run(("ffmpeg", "-v", "error", "-y", *given, "-c:a", f"pcm_{FFMPEG_FORMATS[bits]}", *options, str(path)), samples)


def by_sox(path, bits, channels, samples, *options):
    given = ("-t", "raw", "-r", str(RATE), "-e", "signed", "-b", str(bits), "-c", str(channels), "-")
    run(("sox", "-D", *given, *options, str(path)), samples)


def plain_file(folder, bits, channels, samples):
    """A file of our own for writers that read one."""
    recording = Recording(rate=RATE, channels=channels, bits=bits, samples=samples)
    path = folder / "given.wav"
    path.write_bytes(riff(fmt(recording), data(samples), cue([(1, 0, 0), (2, 100, 100)])))
    return path


def by_sndfile(path, bits, channels, samples, *options):
    given = plain_file(path.parent, bits, channels, samples)
    run(("sndfile-convert", f"-pcm{bits}", *options, str(given), str(path)))


def with_sndfile_fields(path, bits, channels, samples):
    """The fields are set in a copy, which gets a `bext` chunk of version 2."""
    plain = path.with_name("plain.wav")
    by_sndfile(plain, bits, channels, samples)
    fields = ("--bext-description", "Bäche am Morgen", "--bext-originator", "recorder", "--bext-orig-ref", "XX1")
    when = ("--bext-orig-date", "2024-05-17", "--bext-orig-time", "05:31:00", "--bext-time-ref", "953280000")
    levels = ("--bext-loudness-value", "-23.00", "--bext-max-truepeak", "-1.50")
    more = ("--bext-umid", "060A2B34", "--bext-coding-hist", "A=PCM", "--str-title", "River")
    run(("sndfile-metadata-set", *fields, *when, *levels, *more, str(plain), str(path)))


def by_arecord(path, bits, channels, _samples):
    words = ("arecord", "-q", "-D", "null", "-t", "wav", "-f", ARECORD_FORMATS[bits], "-c", str(channels))
    run((*words, "-r", str(RATE), "-s", str(FRAMES), str(path)))


FIELDS = (
    *("-write_bext", "1", "-metadata", "description=Bäche am Morgen", "-metadata", "originator=recorder"),
    *("-metadata", "originator_reference=XX1", "-metadata", "origination_date=2024-05-17"),
    *("-metadata", "origination_time=05:31:00", "-metadata", "time_reference=953280000"),
    *("-metadata", "coding_history=A=PCM,F=48000"),
)
LISTED = ("-metadata", "title=River", "-metadata", "artist=Someone")

# Each writer: its program, its name in the table, its function, what it can, and other options of it.
PLAIN = [(bits, channels) for bits in (16, 24, 32) for channels in (1, 2, 6, 64)]
WRITERS = [
    *(("ffmpeg", "ffmpeg", by_ffmpeg, bits, channels, ()) for bits, channels in PLAIN if channels != 64),
    ("ffmpeg", "ffmpeg, `-write_bext 1`", by_ffmpeg, 24, 2, FIELDS),
    ("ffmpeg", "ffmpeg, `LIST`", by_ffmpeg, 16, 2, LISTED),
    ("ffmpeg", "ffmpeg, `-rf64 always`", by_ffmpeg, 24, 2, ("-rf64", "always")),
    *(("sox", "sox", by_sox, bits, channels, ()) for bits, channels in PLAIN),
    *(("sndfile-convert", "libsndfile", by_sndfile, bits, channels, ()) for bits, channels in PLAIN),
    ("sndfile-metadata-set", "libsndfile, fields", with_sndfile_fields, 24, 2, None),
    *(("arecord", "arecord -D null", by_arecord, bits, channels, None) for bits, channels in PLAIN),
]


def requests_of(path):
    """What `pack` prints of a file: its status, the payloads by kind, and what it says."""
    ran = subprocess.run((PROGRAM, "pack", str(path)), capture_output=True, timeout=LONGEST_RUN)
    kinds = {OPEN: [], BLOCK: [], MARK: [], BEXT: []}
    for line in ran.stdout.splitlines():
        request = bytes.fromhex(line.decode())
        kinds.setdefault(request[0], []).append(request[1:])
    return ran.returncode, kinds, ran.stderr.decode(errors="replace").strip()


def chunks_of(path):
    """The format tag and the chunks of a file, as `inspect` lists them."""
    out = subprocess.run((PROGRAM, "inspect", str(path)), capture_output=True, timeout=LONGEST_RUN).stdout.decode()
    tag = next((word for line in out.splitlines() for word in line.split() if word.startswith("tag=")), "no format")
    names = [line.split()[1] for line in out.splitlines() if line.startswith("chunk ")]
    return tag.removeprefix("tag="), " ".join(names)


def try_file(name, path, bits, channels, samples):
    """A row of the table: what came through of a file."""
    status, kinds, said = requests_of(path)
    tag, chunks = chunks_of(path)
    brought = b"".join(kinds[BLOCK])
    opened = struct.unpack("<IHH", kinds[OPEN][0][:8]) if kinds[OPEN] else None
    same = hashlib.sha256(brought).digest() == hashlib.sha256(samples).digest()
    came = "yes" if same and opened == (RATE, channels, bits) else f"no, {opened}, {len(brought)} bytes"
    fields, marks = len(kinds[BEXT]), len(kinds[MARK])
    of = f"{name}, {bits} bits, {channels} channels"
    TALLY.holds(of, status == 0 and came == "yes", f"status {status}, {said}, {came}")
    print(f"| {name} | {bits} | {channels} | {tag} | {chunks} | {came} | {fields} | {marks} | {said.replace(chr(10), '; ')} |")


def main():
    print("| Writer | Bits | Channels | Tag | Chunks | Samples equal | Fields | Markers | Said |")
    print("|---|---|---|---|---|---|---|---|---|")
    missing = {command for command, *_ in WRITERS if not shutil.which(command)}
    for command, name, write, bits, channels, options in WRITERS:
        if command in missing:
            continue
        samples = noise(bits, channels)
        with tempfile.TemporaryDirectory() as folder:
            path = pathlib.Path(folder) / "written.wav"
            try:
                write(path, bits, channels, samples, *(options or ()))
            except OSError as fault:
                print(f"| {name} | {bits} | {channels} | | | not written | | | {fault} |")
                continue
            if write is by_arecord:
                samples = path.read_bytes()[44:][: len(samples)]  # after a header of 44 bytes
            try_file(name, path, bits, channels, samples)
    for command in sorted(missing):
        print(f"\n{command} isn't installed")
    return TALLY.end()


PROGRAM = program(sys.argv[1:])
sys.exit(main())
