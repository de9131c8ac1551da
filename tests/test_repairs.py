#!/usr/bin/env python3
"""Runs `repair` of the built program on files that killed writers leave, and on files that it must leave alone.

Writers that are installed (ffmpeg, sox, arecord) are killed in the middle of a recording; the headers that they and
others leave are also made here. Each repaired file is read by python, by `inspect`, and by ffprobe and sndfile-info
where they are installed, and but for its two sizes it has to be what it was. Writes are refused and the program is
killed between them. The program is the first argument, or the one of this repository. Prints what differs, and last 'N
passed, M failed'.
"""
import os
import resource
import shutil
import signal
import struct
import subprocess
import sys
import wave
from dataclasses import dataclass

sys.dont_write_bytecode = True  # nothing is left beside this script
from kit.at_writes import AtWrite
from kit.hints import hinted
from kit.network import finish, PROGRAM, run, run_cases, start, TALLY
from kit.repository import ROOT
from kit.tracer import Traced
from kit.watcher import Watcher

LONGEST_RUN = 120  # seconds, for all of it
UNKNOWN = 0xFFFF_FFFF
FMT_16 = struct.pack("<HHIIHH", 1, 2, 48_000, 192_000, 4, 16)
FMT_24 = struct.pack("<HHIIHH", 1, 2, 48_000, 288_000, 6, 24)
FMT_8 = struct.pack("<HHIIHH", 1, 1, 8_000, 8_000, 1, 8)
LIST = b"LIST" + struct.pack("<I", 26) + b"INFOISFT" + struct.pack("<I", 14) + b"Lavf59.27.100\0"
SAMPLES = bytes(range(256)) * 40


@dataclass
class Left:
    """What a writer leaves: its name, the sizes in its header, what comes before the samples, and these."""

    writer: str
    form: int
    size: int
    fmt: bytes = FMT_16
    more: bytes = b""
    samples: bytes = SAMPLES
    kept: int = None  # bytes of samples that come back, where not all do

    @property
    def place(self):
        """Where the head of the samples is."""
        return 12 + 8 + len(self.fmt) + len(self.more)

    @property
    def frames(self):
        return self.data // struct.unpack_from("<H", self.fmt, 12)[0]

    @property
    def data(self):
        return len(self.samples) if self.kept is None else self.kept

    def file(self):
        return self.with_sizes(self.form, self.size)

    def repaired(self):
        return self.with_sizes(self.place + self.data + self.data % 2, self.data)

    def with_sizes(self, form, size):
        chunks = b"fmt " + struct.pack("<I", len(self.fmt)) + self.fmt + self.more
        return b"RIFF" + struct.pack("<I", form) + b"WAVE" + chunks + b"data" + struct.pack("<I", size) + self.samples

    def text(self, is_written):
        """What `repair` prints of it."""
        return (
            f"form at=4 old={self.form} new={self.place + self.data + self.data % 2}\n"
            f"data at={self.place + 4} old={self.size} new={self.data}\n"
            f"frames={self.frames} written={'yes' if is_written else 'no'}\n"
        )


LEFT = [
    Left("ffmpeg", UNKNOWN, UNKNOWN, more=LIST),
    Left("ffmpeg, 24 bits", UNKNOWN, UNKNOWN, FMT_24, LIST, SAMPLES[:9_996]),
    Left("sox", 0x7FFF_F024, 0x7FFF_F000),
    Left("arecord", 0x8000_0024, 0x8000_0000),
    Left("gst", 36, 0),
    Left("libsndfile", 8, 0),
    Left("one that gives zeros", 0, 0),
    Left("one in the middle of a frame", UNKNOWN, UNKNOWN, samples=SAMPLES[:1_003], kept=1_000),
    Left("one with an odd length", UNKNOWN, UNKNOWN, FMT_8, samples=SAMPLES[:255]),
    Left("one that had given the samples' size", UNKNOWN, len(SAMPLES)),
    Left("one after a part of a frame", 0x8000_0024, 1_000, samples=SAMPLES[:1_003], kept=1_000),
    Left("one before any sample", UNKNOWN, UNKNOWN, samples=b""),
    # samples of the size 0, and less after them than a frame and a head
    Left("one that gives no form, after a frame", UNKNOWN, 0, samples=SAMPLES[:7], kept=4),
    Left("one that gives too long a form, after a frame", 100_000, 0, samples=SAMPLES[:5], kept=4),
]


def with_form(form, *chunks):
    """A file with this form's size and these chunks, each with the size that it gives."""
    body = b"".join(name + struct.pack("<I", size) + content for name, size, content in chunks)
    return b"RIFF" + struct.pack("<I", form) + b"WAVE" + body


FMT = (b"fmt ", 16, FMT_16)
REFUSED = {
    "NotWave at 0": b"RIFX" + bytes(40),
    "NotWave at 8": b"RIFF" + bytes(4) + b"AVI " + bytes(32),
    "NoData at 36": with_form(UNKNOWN, FMT),
    "NoSize at 36": with_form(UNKNOWN, FMT, (b"LIST", UNKNOWN, bytes(40))),
    "Truncated at 36": with_form(UNKNOWN, FMT, (b"LIST", 100_000, bytes(40)), (b"data", UNKNOWN, SAMPLES)),
    "BadFmt at 12": with_form(UNKNOWN, (b"fmt ", 14, FMT_16[:14]), (b"data", UNKNOWN, SAMPLES)),
    "NoFmt at 12": with_form(UNKNOWN, (b"data", UNKNOWN, SAMPLES)),
    "Twice at 36": with_form(UNKNOWN, FMT, FMT, (b"data", UNKNOWN, SAMPLES)),
    # closed, so that other chunks may follow samples whose size isn't known
    "NotLast at 36": with_form(36 + 1_000, FMT, (b"data", UNKNOWN, bytes(1_000))),
    # the samples end after the form, and after the file
    "Overlap at 36": with_form(36 + 1_000, FMT, (b"data", 2_000, bytes(1_000))),
}
NOT_LAST_EITHER = with_form(UNKNOWN, FMT, (b"data", 1_000, bytes(1_000)), (b"LIST", 8, bytes(8)))
OVERLAP_IN_THE_FILE = with_form(36 + 1_000, FMT, (b"data", 2_000, bytes(4_000)))


def repair_traced(path, number, does):
    """The status, output and standard error of `repair --write`, where so is done at a write into the file."""
    observer = AtWrite(number, does)
    pipes = {"stdout": subprocess.PIPE, "stderr": subprocess.PIPE, "stdin": subprocess.DEVNULL}
    with Traced([PROGRAM, "repair", str(path), "--write"], observer, **pipes) as process:
        observer.process = process.pid
        out, faults = process.stdout.read(), process.stderr.read()
        return process.wait(), out.decode(), faults.decode()


def case_left(folder):
    """Each file is printed and stays, is written, and is sound then."""
    path = folder / "take.wav"
    for left in LEFT:
        path.write_bytes(left.file())
        TALLY.same(f"{left.writer}, printed", run("repair", str(path)), (0, left.text(False), ""))
        TALLY.same(f"{left.writer}, printed, file", path.read_bytes(), left.file())
        TALLY.same(f"{left.writer}, written", run("repair", "--write", str(path)), (0, left.text(True), ""))
        TALLY.same(f"{left.writer}, written, file", path.read_bytes(), left.repaired())
        check_repaired(left.writer, path, left.frames, left.place)
        check_unchanged(f"{left.writer}, again", path, left.frames)


def check_repaired(writer, path, frames, place):
    """Other programs read as many frames of a repaired file."""
    with wave.open(str(path)) as found:
        TALLY.same(f"{writer}, python", found.getnframes(), frames)
        held = found.readframes(frames)
    TALLY.same(f"{writer}, python, samples", held, path.read_bytes()[place + 8 :][: len(held)])
    status, out, _ = run("inspect", str(path))
    TALLY.same(f"{writer}, inspect", (status, f"frames={frames}\n" in out), (0, True))
    if shutil.which("sndfile-info") and frames:
        told = subprocess.run(["sndfile-info", path], capture_output=True, text=True, check=False).stdout
        TALLY.holds(f"{writer}, sndfile-info", f"Frames      : {frames}\n" in told, told)
    if shutil.which("ffprobe") and frames:
        words = ["-v", "error", "-count_packets", "-show_entries", "stream=duration_ts", "-of", "csv=p=0", path]
        told = subprocess.run(["ffprobe", *words], capture_output=True, text=True, check=False).stdout
        TALLY.same(f"{writer}, ffprobe", told.strip(), str(frames))


def case_order(folder):
    """Each size is synced before the next one is written, and both before they are reported."""
    path, left, watcher = folder / "take.wav", LEFT[0], Watcher()
    path.write_bytes(left.file())
    words = ("repair", "--write", str(path))
    told = finish(start(*words, observer=watcher, stdout=subprocess.PIPE, stderr=subprocess.PIPE))
    TALLY.same("watched", told, (0, left.text(True), ""))
    whole = left.repaired()
    form, size = whole[4:8].hex(), whole[left.place + 4 : left.place + 8].hex()
    wanted = [f"seek take.wav {left.place + 4}", f"write take.wav {size}", "sync take.wav"]
    wanted += ["seek take.wav 4", f"write take.wav {form}", "sync take.wav", f"write out {told[1].encode().hex()}"]
    lines = watcher.lines[watcher.lines.index(f"open {path} to-read-and-write") :]
    TALLY.same("the order", [line for line in lines if line.startswith(("seek", "write", "sync"))], wanted)


def check_unchanged(name, path, frames):
    """A sound file is reported as such, and stays, its time of change too."""
    file, changed = path.read_bytes(), path.stat().st_mtime_ns
    for words in (("repair", str(path)), ("repair", str(path), "--write")):
        TALLY.same(name, run(*words), (0, f"sound frames={frames}\n", ""))
    TALLY.same(f"{name}, file", (path.read_bytes(), path.stat().st_mtime_ns), (file, changed))


def case_sound(folder):
    """Sound files stay as they are: RIFF, with chunks after the samples, without a pad byte, without frames, RF64."""
    path = folder / "take.wav"
    odd = with_form(36 + 255, (b"fmt ", 16, FMT_8), (b"data", 255, bytes(255)))
    later = with_form(36 + 1_000 + 16, FMT, (b"data", 1_000, bytes(1_000)), (b"LIST", 8, bytes(8)))
    empty = with_form(36 + 16, FMT, (b"data", 0, b""), (b"LIST", 8, bytes(8)))
    sizes = struct.pack("<QQQI", 72 + 1_000, 1_000, 0, 0)
    wide = b"RF64" + struct.pack("<I", UNKNOWN) + b"WAVE" + with_form(
        0, (b"ds64", 28, sizes), FMT, (b"data", UNKNOWN, bytes(1_000))
    )[12:]
    files = {"odd": (odd, 255), "chunk after the samples": (later, 250), "no frames": (empty, 0), "RF64": (wide, 250)}
    for name, (file, frames) in files.items():
        path.write_bytes(file)
        check_unchanged(name, path, frames)
    for name in ("a1.wav", "tone.wav"):
        shutil.copy(ROOT / "examples" / name, path)
        with wave.open(str(path)) as found:
            frames = found.getnframes()
        check_unchanged(name, path, frames)


def case_refusals(folder):
    """A file of which nothing is certain is refused, with the place, and stays."""
    path = folder / "take.wav"
    cases = [*REFUSED.items(), ("NotLast at 36", NOT_LAST_EITHER), ("Overlap at 36", OVERLAP_IN_THE_FILE)]
    for fault, file in cases:
        path.write_bytes(file)
        for words in (("repair", str(path)), ("repair", str(path), "--write")):
            TALLY.same(f"refused, {fault}", run(*words), (1, "", hinted("repair", fault)))
        TALLY.same(f"refused, {fault}, file", path.read_bytes(), file)


def case_cut(folder):
    """Cut at each byte of its header, a file is refused; cut later, it is repaired."""
    path, left = folder / "take.wav", Left("ffmpeg", UNKNOWN, UNKNOWN, more=LIST, samples=SAMPLES[:64])
    whole = left.file()
    for length in range(len(whole) + 1):
        path.write_bytes(whole[:length])
        status, out, faults = run("repair", str(path), "--write")
        if length < left.place + 8:
            is_right = status == 1 and not out and faults.startswith("repair: ")
            TALLY.holds(f"cut to {length}", is_right, f"{status} {out!r} {faults!r}")
            TALLY.same(f"cut to {length}, file", path.read_bytes(), whole[:length])
            continue
        frames = (length - left.place - 8) // 4
        TALLY.same(f"cut to {length}", (status, f"frames={frames} written=yes\n" in out), (0, True))
        TALLY.same(f"cut to {length}, rest", path.read_bytes()[left.place + 8 :], whole[left.place + 8 : length])


def case_large(folder):
    """More samples than a RIFF form can say are refused; a little fewer aren't. The files are sparse."""
    path, left = folder / "take.wav", Left("ffmpeg", UNKNOWN, UNKNOWN, samples=b"")
    for length, wanted in (((1 << 32) + 40, 1), ((1 << 32) - 8, 0)):
        path.write_bytes(left.file())
        os.truncate(path, length)
        found = run("repair", str(path), "--write")
        TALLY.same(f"{length} bytes", found[0], wanted)
        if wanted:
            TALLY.same(f"{length} bytes, fault", found[1:], ("", "repair: TooLarge at 36\n"))
        else:
            TALLY.same(f"{length} bytes, sound", run("inspect", str(path))[0], 0)


def case_unopened(folder):
    """A file that can't be opened, and one that may not be written."""
    path, left = folder / "none.wav", LEFT[0]
    status, out, faults = run("repair", str(path))
    TALLY.same("no file", (status, out, faults.startswith(f"{path} can't be opened: ")), (3, "", True))
    path.write_bytes(left.file())
    limit = {"preexec_fn": write_nothing, "capture_output": True, "text": True, "check": False}
    tried = subprocess.run([PROGRAM, "repair", str(path), "--write"], **limit)
    found = (tried.returncode, tried.stdout, tried.stderr.startswith(f"{path} can't be written: "))
    TALLY.same("no room for files", found, (3, "", True))
    TALLY.same("no room for files, file", path.read_bytes(), left.file())
    if os.geteuid() == 0:
        path.chmod(0o444)
        folder.chmod(0o755)
        words = ["setpriv", "--reuid=65534", "--regid=65534", "--clear-groups", PROGRAM, "repair", str(path), "--write"]
        if shutil.which("setpriv"):
            tried = subprocess.run(words, capture_output=True, text=True, check=False)
            TALLY.same("read-only", (tried.returncode, path.read_bytes()), (3, left.file()))


def write_nothing():
    """No file may be written, as on a full disk."""
    signal.signal(signal.SIGXFSZ, signal.SIG_IGN)
    resource.setrlimit(resource.RLIMIT_FSIZE, (0, 0))


def case_stopped(folder):
    """A write that is refused, torn or never made leaves a file that is repaired then."""
    path = folder / "take.wav"
    for left in LEFT:
        sizes = left.with_sizes(left.form, left.data)
        for number, does, held in (
            (1, AtWrite.refuse, left.file()),
            (2, AtWrite.refuse, sizes),
            (1, AtWrite.kill, left.file()),
            (2, AtWrite.kill, sizes),
        ):
            name = f"{left.writer}, {does.__name__} at write {number}"
            path.write_bytes(left.file())
            status, out, faults = repair_traced(path, number, does)
            is_kill = does is AtWrite.kill
            TALLY.same(f"{name}, status", (status, out), (-signal.SIGKILL if is_kill else 3, ""))
            TALLY.holds(f"{name}, reported", is_kill or "can't be written" in faults, faults)
            TALLY.same(f"{name}, file", path.read_bytes(), held)
            TALLY.same(f"{name}, again", run("repair", str(path), "--write")[0], 0)
            TALLY.same(f"{name}, again, file", path.read_bytes(), left.repaired())


def case_writers(folder):
    """Writers that are killed by their first write past 1 MB leave what comes back whole."""
    path = folder / "take.wav"
    tone = ["-f", "lavfi", "-i", "sine=frequency=440:sample_rate=48000"]
    writers = {
        "ffmpeg": ["ffmpeg", "-loglevel", "quiet", *tone, "-t", "60", "-ac", "2", "-y", path],
        "sox": ["sox", "-q", "-n", "-r", "48000", "-b", "16", "-c", "2", path, "synth", "60", "sine", "440"],
        "arecord": ["arecord", "-q", "-D", "null", "-f", "dat", "-t", "wav", path],
    }
    for writer, words in writers.items():
        if not shutil.which(writer):
            continue
        path.unlink(missing_ok=True)
        streams = {"stdin": subprocess.DEVNULL, "stdout": subprocess.DEVNULL, "stderr": subprocess.DEVNULL}
        ended = subprocess.run(words, preexec_fn=write_a_megabyte, check=False, timeout=60, **streams).returncode
        file = path.read_bytes()
        place = file.index(b"data")
        frames = (len(file) - place - 8) // 4
        TALLY.holds(f"{writer}, killed", ended != 0 and frames > 200_000, f"status {ended}, {frames} frames")
        status, out, faults = run("repair", str(path), "--write")
        TALLY.same(f"{writer}, repaired", (status, f"frames={frames} written=yes\n" in out, faults), (0, True, ""))
        check_repaired(writer, path, frames, place)
        TALLY.same(f"{writer}, samples", path.read_bytes()[place + 8 :], file[place + 8 :])


def write_a_megabyte():
    resource.setrlimit(resource.RLIMIT_FSIZE, (1 << 20, 1 << 20))


CASES = [
    case_left,
    case_order,
    case_sound,
    case_refusals,
    case_cut,
    case_large,
    case_unopened,
    case_stopped,
    case_writers,
]

if __name__ == "__main__":
    sys.exit(run_cases(CASES, LONGEST_RUN))
