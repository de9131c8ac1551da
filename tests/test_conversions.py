#!/usr/bin/env python3
"""Runs `convert` of the built program on worked BW64 and RF64 files, and on what it must refuse.

What is made has to be the file with another id, and converted back the file itself; ffprobe, mediainfo, sndfile-info,
soxi and `file` read it where they are installed. The program is killed at each of its writes, writes and syncs are
refused, and what is left then must not read as a WAVE file. The program is the first argument, or the one of this
repository. Prints what differs, and last 'N passed, M failed'.
"""
import errno
import resource
import shutil
import signal
import struct
import subprocess
import sys

sys.dont_write_bytecode = True  # nothing is left beside this script
from kit.at_writes import AtWrite
from kit.forms import put_together
from kit.hints import hinted
from kit.network import finish, PROGRAM, run, run_cases, start, TALLY
from kit.repository import ROOT
from kit.tracer import Traced
from kit.watcher import Fault, Watcher

LONGEST_RUN = 120  # seconds, for all of it
PIECE = 65_536  # so many bytes are written at a time
FLAGS = {b"RF64": "--rf64", b"BW64": "--bw64"}
OTHER = {b"RF64": b"BW64", b"BW64": b"RF64"}
FMT = struct.pack("<HHIIHH", 1, 2, 48_000, 192_000, 4, 16)
SAMPLES = bytes(range(256)) * 40
HINTS = {
    "Riff at 0": "hint: RIFF has no ds64 chunk: it is read as it is\n",
    "SameForm at 0": "hint: FILE has this id already\n",
    "Exists at 0": "hint: something is at OUT: give a path where nothing is\n",
    "Unwritten": "hint: OUT can't be written: remove what is there of it\n",
}


def wide(name, *others, samples=SAMPLES, dummy=0, table=(), after=b""):
    """A file of this form: `ds64`, `fmt `, these chunks and the samples, and bytes after the form."""
    file = put_together(name, [(b"fmt ", FMT), *others, (b"data", samples)], table)
    return file[:36] + struct.pack("<Q", dummy) + file[44:] + after


AXML = b"axml", b"<ebuCoreMain/>"
CHNA = b"chna", struct.pack("<HHH", 1, 1, 1) + b"ATU_00000001AT_00010001_01AP_00010001" + b"\0"
WORKED = {
    "stereo": wide(b"BW64"),
    "axml and chna": wide(b"BW64", AXML, CHNA),
    "RF64 with its sample count": wide(b"RF64", dummy=len(SAMPLES) // 4),
    "r64m": wide(b"RF64", (b"r64m", bytes(8))),
    "odd": wide(b"BW64", samples=SAMPLES[:255]),
    "no samples": wide(b"RF64", samples=b""),
    "a chunk whose size is in the table": wide(b"BW64", (b"LIST", bytes(6)), table=[(b"LIST", 6)]),
    "bytes after the form": wide(b"BW64", after=b"trailing"),
    "one piece": wide(b"BW64", samples=bytes(PIECE - 80)),
    "some pieces": wide(b"RF64", samples=SAMPLES * 20),
}


def made_line(name, file):
    return f"form={name.decode()} bytes={len(file)}\n"


def case_worked(folder):
    """OUT has FILE's bytes but for the id, and converted back it is FILE."""
    path, out, back = folder / "take.wav", folder / "out.wav", folder / "back.wav"
    for about, file in WORKED.items():
        name = OTHER[file[:4]]
        path.write_bytes(file)
        changed = path.stat().st_mtime_ns
        TALLY.same(about, run("convert", FLAGS[name], str(path), str(out)), (0, made_line(name, file), ""))
        TALLY.same(f"{about}, OUT", out.read_bytes(), name + file[4:])
        TALLY.same(f"{about}, FILE", (path.read_bytes(), path.stat().st_mtime_ns), (file, changed))
        TALLY.same(f"{about}, inspected", run("inspect", str(out))[0], 0)
        words = ("convert", str(out), str(back), FLAGS[file[:4]])
        TALLY.same(f"{about}, back", run(*words), (0, made_line(file[:4], file), ""))
        TALLY.same(f"{about}, back, OUT", back.read_bytes(), file)
        out.unlink()
        back.unlink()


def case_readers(folder):
    """Other programs read as many frames of a converted file."""
    path, out, file = folder / "take.wav", folder / "out.wav", WORKED["some pieces"]
    path.write_bytes(b"BW64" + file[4:])
    TALLY.same("converted", run("convert", "--rf64", str(path), str(out))[0], 0)
    frames, told_by = len(SAMPLES) * 20 // 4, {}
    packets = ["-v", "error", "-show_entries", "stream=duration_ts", "-of", "csv=p=0", out]
    for words, wanted in (
        (["ffprobe", *packets], str(frames)),
        (["sndfile-info", out], f"Frames      : {frames}\n"),
        (["mediainfo", "--Inform=Audio;%SamplingCount%", out], str(frames)),
        (["soxi", "-s", out], str(frames)),
        (["file", "-b", out], "RF64"),
    ):
        if shutil.which(words[0]):
            told_by[words[0]] = subprocess.run(words, capture_output=True, text=True, check=False).stdout
            TALLY.holds(words[0], wanted in told_by[words[0]], told_by[words[0]])


def case_refusals(folder):
    """What isn't of the other form, or has a fault, is refused, and nothing is made."""
    path, out = folder / "take.wav", folder / "out.wav"
    sound = WORKED["stereo"]
    cases = [
        ("Riff at 0", (ROOT / "examples/a1.wav").read_bytes(), b"RF64"),
        ("Riff at 0", (ROOT / "examples/a1.wav").read_bytes(), b"BW64"),
        ("SameForm at 0", sound, b"BW64"),
        ("SameForm at 0", b"RF64" + sound[4:], b"RF64"),
        ("NotWave at 0", b"", b"RF64"),
        ("NotWave at 0", b"RIFX" + sound[4:], b"RF64"),
        ("NotWave at 8", sound[:8] + b"AVI " + sound[12:], b"RF64"),
        ("NoDs64 at 12", sound[:12] + b"JUNK" + sound[16:], b"RF64"),
        ("Truncated at 72", sound[:-1], b"RF64"),
    ]
    for fault, file, name in cases:
        path.write_bytes(file)
        told = run("convert", FLAGS[name], str(path), str(out))
        TALLY.same(f"refused, {fault}", told, (1, "", hinted("convert", fault, HINTS.get(fault, ""))))
        TALLY.same(f"refused, {fault}, files", (path.read_bytes(), out.exists()), (file, False))
    status, text, faults = run("convert", "--rf64", str(folder / "none.wav"), str(out))
    TALLY.same("no FILE", (status, text, faults.startswith(f"{folder}/none.wav can't be opened: ")), (3, "", True))
    path.write_bytes(sound)
    told = run("convert", "--rf64", str(path), str(folder / "none" / "out.wav"))
    TALLY.same("no folder", told, (3, "", hinted("convert", "Unwritten at 0", HINTS["Unwritten"])))


def case_standing(folder):
    """What is at OUT stays: a file, FILE itself, a folder, a link to nothing."""
    path, out = folder / "take.wav", folder / "out.wav"
    path.write_bytes(WORKED["stereo"])
    wanted = 1, "", hinted("convert", "Exists at 0", HINTS["Exists at 0"])
    out.write_bytes(b"RF64")
    TALLY.same("a file", run("convert", "--rf64", str(path), str(out)), wanted)
    TALLY.same("a file, after it", out.read_bytes(), b"RF64")
    TALLY.same("FILE", run("convert", "--rf64", str(path), str(path)), wanted)
    TALLY.same("FILE, after it", path.read_bytes(), WORKED["stereo"])
    TALLY.same("a folder", run("convert", "--rf64", str(path), str(folder)), wanted)
    (folder / "link").symlink_to(folder / "nothing")
    TALLY.same("a link to nothing", run("convert", "--rf64", str(path), str(folder / "link")), wanted)
    TALLY.holds("a link to nothing, after it", not (folder / "nothing").exists(), "something was made")


def convert_traced(path, out, observer):
    """The status, output and standard error of `convert --rf64`, whose calls the observer is given."""
    pipes = {"stdout": subprocess.PIPE, "stderr": subprocess.PIPE, "stdin": subprocess.DEVNULL}
    with Traced([PROGRAM, "convert", "--rf64", str(path), str(out)], observer, **pipes) as process:
        observer.process = process.pid
        text, faults = process.stdout.read(), process.stderr.read()
        return process.wait(), text.decode(), faults.decode()


def check_left(about, out, file):
    """What is left has no id, and isn't read."""
    left = out.read_bytes()
    without = bytes(4) + file[4:]
    TALLY.holds(f"{about}, left", left == without[: len(left)], left[:16].hex())
    TALLY.same(f"{about}, inspected", run("inspect", str(out))[0], 1)
    out.unlink()


def case_stopped(folder):
    """Killed at each write, or with one refused, what is left has four zero bytes in the place of the id."""
    path, out, file = folder / "take.wav", folder / "out.wav", b"BW64" + WORKED["some pieces"][4:]
    path.write_bytes(file)
    pieces = -(-len(file) // PIECE)
    places = [PIECE * at for at in range(pieces)] + [0]
    for number, place in enumerate(places, 1):
        about = f"killed at write {number}"
        TALLY.same(about, convert_traced(path, out, AtWrite(number, AtWrite.kill))[0], -signal.SIGKILL)
        check_left(about, out, file)
        about, fault = f"refused write {number}", f"Unwritten at {place}"
        told = convert_traced(path, out, AtWrite(number, AtWrite.refuse))
        TALLY.same(about, told, (3, "", hinted("convert", fault, HINTS["Unwritten"])))
        check_left(about, out, file)
    told = finish(start_watched(path, out, Watcher(Fault("sync", errno.EIO))))
    TALLY.same("refused sync", told, (3, "", hinted("convert", "Unwritten at 0", HINTS["Unwritten"])))
    check_left("refused sync", out, file)


def start_watched(path, out, watcher):
    pipes = {"stdout": subprocess.PIPE, "stderr": subprocess.PIPE}
    return start("convert", "--rf64", str(path), str(out), observer=watcher, **pipes)


def case_order(folder):
    """Everything but the id is synced before the id is written, and that before it is reported."""
    path, out, file, watcher = folder / "take.wav", folder / "out.wav", WORKED["stereo"], Watcher()
    path.write_bytes(file)
    told = finish(start_watched(path, out, watcher))
    TALLY.same("watched", told, (0, made_line(b"RF64", file), ""))
    lines = [it for it in watcher.lines if it.startswith(("write", "sync"))]
    printed = f"write out {told[1].encode().hex()}"
    whole = (bytes(4) + file[4:]).hex()
    wanted = [f"write out.wav {whole}", "sync out.wav", f"write out.wav {b'RF64'.hex()}", "sync out.wav"]
    TALLY.same("the order", lines, [*wanted, printed])


def case_full(folder):
    """On a full disk OUT is left without an id."""
    path, out, file = folder / "take.wav", folder / "out.wav", WORKED["stereo"]
    path.write_bytes(file)
    limit = {"preexec_fn": write_little, "capture_output": True, "text": True, "check": False}
    tried = subprocess.run([PROGRAM, "convert", "--rf64", str(path), str(out)], **limit)
    wanted = 3, "", hinted("convert", "Unwritten at 0", HINTS["Unwritten"])
    TALLY.same("no room", (tried.returncode, tried.stdout, tried.stderr), wanted)
    check_left("no room", out, file)


def write_little():
    """Files may have 1,000 bytes, as where a disk becomes full."""
    signal.signal(signal.SIGXFSZ, signal.SIG_IGN)
    resource.setrlimit(resource.RLIMIT_FSIZE, (1_000, 1_000))


CASES = [
    case_worked,
    case_readers,
    case_refusals,
    case_standing,
    case_stopped,
    case_order,
    case_full,
]

if __name__ == "__main__":
    sys.exit(run_cases(CASES, LONGEST_RUN))
