#!/usr/bin/env python3
"""Runs `picture` of the built program on files of recordings.

Each picture is compared with the one that pictures.py makes of the same file, and read as XML. The files are in
cases/recordings.py, and more are made here: each width of samples, many channels, numbers of frames around those of
the columns, markers. Files without a recording are refused as `pack` refuses them. The program is the first argument,
or the one of this repository. Prints what differs, and last 'N passed, M failed'.
"""
import itertools
import os
import subprocess
import sys
import time
import xml.etree.ElementTree as xml

sys.dont_write_bytecode = True  # nothing is left beside this script
from cases.inspections import FAULTS
from cases.recordings import noise, REFUSED, SENT, TONE_FILE
from kit.hints import hinted
from kit.network import PROGRAM, run, run_cases, TALLY
from kit.pictures import picture
from kit.recordings import cue, data, extensible, fmt, long_data, long_form, Recording, riff
from kit.repository import ROOT

LONGEST_RUN = 120  # seconds, for all of it
LARGE = 1 << 28  # the bytes of samples of a sparse file
SLOW = 20.0  # seconds: far more than it takes to draw them, also beside other work
FRAMES = (0, 1, 2, 149, 150, 151, 1_199, 1_200, 1_201, 2_399, 2_400, 2_401, 5_003)
EXTREMES = {16: (b"\x00\x80", b"\xff\x7f", b"\xff\xff", b"\x00\x00"), 24: (b"\x00\x00\x80", b"\xff\xff\x7f")}
EXTREMES[32] = (b"\x00\x00\x00\x80", b"\xff\xff\xff\x7f", b"\xff\xff\xff\xff", b"\x00\x00\x00\x00")


def written(folder, file, name="take.wav"):
    """The path of a file with these bytes."""
    path = folder / name
    path.write_bytes(file)
    return str(path)


def check(name, folder, file):
    """A file has its picture, which is XML."""
    found = run("picture", written(folder, file))
    TALLY.same(f"picture, {name}", found, (0, picture(file), ""))
    try:
        root = xml.fromstring(found[1])
        TALLY.same(f"picture, {name}, root", root.tag, "{http://www.w3.org/2000/svg}svg")
    except xml.ParseError as fault:
        TALLY.holds(f"picture, {name}, XML", False, fault)


def case_recordings(folder):
    """The files that `pack` takes, and the examples."""
    for case in SENT:
        check(case.of, folder, case.file)
    for name in ("a1.wav", "tone.wav"):
        check(name, folder, (ROOT / "examples" / name).read_bytes())


def case_frames(folder):
    """Numbers of frames around those of columns and of times on the axis, in each width, of several channels."""
    for frames, bits, channels in itertools.product(FRAMES, (16, 24, 32), (1, 2, 5)):
        one = Recording(44_100, channels, bits)
        one.samples = noise(frames * one.align, frames)
        check(f"{frames} frames of {channels} samples of {bits} bits", folder, riff(fmt(one), data(one.samples)))


def case_levels(folder):
    """The least and the greatest sample, and those on both sides of 0."""
    for bits, samples in EXTREMES.items():
        for order in itertools.permutations(samples):
            one = Recording(bits=bits, samples=b"".join(order))
            check(f"{bits} bits, {one.samples.hex()}", folder, riff(fmt(one), data(one.samples)))


def case_channels(folder):
    """As many channels as a recording may have."""
    one = Recording(192_000, 64, 32, noise(256 * 1_300))
    check("64 channels", folder, riff(fmt(one), data(one.samples)))


def case_forms(folder):
    """An extensible format, and sizes in `ds64`."""
    one = Recording(48_000, 2, 24, noise(6 * 2_000))
    check("an extensible format", folder, riff(extensible(one), data(one.samples)))
    for form in (b"BW64", b"RF64"):
        check(form.decode(), folder, long_form(form, len(one.samples), fmt(one), long_data(one.samples)))


def case_markers(folder):
    """Markers are at the column of their offset, also of a repeated identifier; none is past the last frame."""
    one = Recording(samples=noise(2 * 3_000))
    places = ((1, 0), (2, 2_999), (3, 3_000), (4, 0xFFFF_FFFF), (1, 1_500), (0xFFFF_FFFF, 2), (5, 3))
    points = [(name, 9, frame) for name, frame in places]
    check("markers", folder, riff(fmt(one), data(one.samples), cue(points)))
    check("markers, no frame", folder, riff(fmt(Recording()), data(b""), cue(points)))


def case_times(folder):
    """The axis has the times of its frames: below a second, and above an hour."""
    for rate, frames in ((768_000, 1_200), (1, 2_500), (3, 40_000)):
        one = Recording(rate, samples=noise(2 * frames))
        check(f"{frames} frames at {rate} Hz", folder, riff(fmt(one), data(one.samples)))


def case_refusals(folder):
    """Files without a recording are refused as `pack` does, and those with a fault as `inspect`."""
    for case in REFUSED:
        if not case.options:
            found = run("picture", written(folder, case.file))
            TALLY.same(f"picture, {case.of}", found, (1, "", hinted("picture", case.said, case.hint)))
    for of, file, said in (*FAULTS[::7], *FAULTS[-16:]):
        TALLY.same(f"picture, {of}", run("picture", written(folder, file)), (1, "", hinted("picture", said)))


def case_cut(folder):
    """A file that is cut at any byte is refused as `inspect` refuses it."""
    whole = riff(fmt(Recording()), data(noise(40)))
    for length in range(len(whole)):
        path = written(folder, whole[:length])
        status, out, faults = run("inspect", path)
        wanted = (status, out, faults.replace("inspect: ", "picture: "))
        TALLY.same(f"picture, cut to {length}", run("picture", path), wanted)


def case_streams(folder):
    """A file that can't be opened or read, and an output that can't be written."""
    for path in (folder / "none.wav", folder):
        status, out, faults = run("inspect", str(path))
        wanted = (status, out, faults.replace("inspect: ", "picture: "))
        TALLY.same(f"picture, {path.name}", run("picture", str(path)), wanted)
        TALLY.same(f"picture, {path.name}, status", status, 3)
    path = written(folder, SENT[0].file)
    with open("/dev/full", "wb") as full:
        tried = subprocess.run([PROGRAM, "picture", path], stdout=full, stderr=subprocess.PIPE, text=True, check=False)
    TALLY.same("a full disk", (tried.returncode, tried.stderr), (3, "the output can't be written\n"))


def case_pipe(_folder):
    """What is opened again has to be the same file: a pipe has nothing more then."""
    given, giving = os.pipe()
    os.write(giving, TONE_FILE)
    os.close(giving)
    words = [PROGRAM, "picture", f"/dev/fd/{given}"]
    pipes = {"pass_fds": (given,), "capture_output": True, "text": True, "check": False, "timeout": 20}
    tried = subprocess.run(words, **pipes)
    os.close(given)
    TALLY.same("a pipe", (tried.returncode, tried.stdout, tried.stderr), (1, "", "picture: Changed\n"))


def case_large(folder):
    """Many samples are read in pieces: the strokes of silence are those of a short silence. The file is sparse."""
    one = Recording(48_000, 2, 16)
    head = riff(fmt(one), data(b""))[:-4] + LARGE.to_bytes(4, "little")
    head = head[:4] + (len(head) - 8 + LARGE).to_bytes(4, "little") + head[8:]
    path = written(folder, head)
    os.truncate(path, len(head) + LARGE)
    began = time.monotonic()
    status, out, faults = run("picture", path)
    took = time.monotonic() - began
    columns = -(-(LARGE // 4) // -(-(LARGE // 4) // 1_200))
    short = picture(riff(fmt(one), data(bytes(4 * columns))))
    TALLY.same("much silence", (status, faults, out.splitlines()[2:5]), (0, "", short.splitlines()[2:5]))
    TALLY.holds("much silence, quick", took < SLOW, f"{took:.1f} s")


CASES = [
    case_recordings,
    case_frames,
    case_levels,
    case_channels,
    case_forms,
    case_markers,
    case_times,
    case_refusals,
    case_cut,
    case_streams,
    case_pipe,
    case_large,
]

if __name__ == "__main__":
    sys.exit(run_cases(CASES, LONGEST_RUN))
