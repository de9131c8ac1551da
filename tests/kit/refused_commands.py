"""The commands over files and folders, with calls refused in turn: pictures, repairs, conversions, chunks that are left
out, takes, senders.
"""
import re
import shutil
import signal
import subprocess

from cases.inspections import TABLED
from cases.recordings import SENT, STEREO
from kit.folders import folder_in, left_by, small_take
from kit.network import LOCAL, Server
from kit.recordings import data, fmt, Recording, riff
from kit.refused_runs import is_prefix, KINDS, what_a_pack_breaks, what_a_run_breaks, what_an_upload_breaks
from kit.repository import ROOT
from kit.takes import chunk

STEREO_FILE = next(case.file for case in SENT if case.recording is STEREO)


def try_pictures(runs, program):
    path = ROOT / "examples/a1.wav"
    for kind in KINDS:
        run = lambda kind, number: runs.one([program, "picture", path], b"", kind, number)
        runs.each("picture", kind, run, what_a_pack_breaks)


def repaired(runs, program, left, kind, number):
    """Repairs a file, with this call refused, and once more: how both ended, and the file after each."""
    path = runs.work / "killed.wav"
    path.write_bytes(left)
    words = [program, "repair", "--write", path]
    first = *runs.one(words, b"", kind, number), path.read_bytes()
    again = subprocess.run(words, capture_output=True, check=False).returncode
    return *first, again, path.read_bytes()


def try_repairs(runs, program):
    """A file is as it was, or has the size of its samples, or both sizes; the next repair gives what it lacks."""
    whole = STEREO_FILE
    place = whole.index(b"data") + 4
    left = whole[:4] + b"\xff" * 4 + whole[8:place] + b"\xff" * 4 + whole[place + 4 :]
    parts = left, whole[:4] + b"\xff" * 4 + whole[8:], whole

    def wrong(kind, found, wanted):
        status, out, _, file, again, then = found
        if (again, then) != (0, whole) or file not in parts:
            return "another file"
        if wanted[3] != whole or found[:2] != wanted[:2] and status != (4 if kind == "growth" else 3):
            return "another status"
        return None if is_prefix(out, wanted[1]) else "another text"

    for kind in (*KINDS, "sync"):
        run = lambda kind, number: repaired(runs, program, left, kind, number)
        runs.each("repair", kind, run, wrong)


def converted(runs, program, kind, number):
    """Makes an RF64 file, with this call refused: how it ended, and what was made."""
    path, out = runs.work / "wide.wav", runs.work / "made.wav"
    path.write_bytes(TABLED)
    out.unlink(missing_ok=True)
    found = runs.one([program, "convert", "--rf64", path, out], b"", kind, number)
    return *found, out.read_bytes() if out.exists() else b""


def try_conversions(runs, program):
    """What is made has no id until all else is written, and the last sync alone may fail after that."""
    whole, without = b"RF64" + TABLED[4:], bytes(4) + TABLED[4:]

    def wrong(kind, found, wanted):
        status, out, _, made = found
        if made != whole and made != without[: len(made)]:
            return "another file"
        if found[:2] == wanted[:2]:
            return None if made == whole else "no whole file"
        if status not in ((3, 4) if kind == "growth" else (3,)):
            return "another status"
        return None if is_prefix(out, wanted[1]) else "another text"

    for kind in (*KINDS, "sync"):
        run = lambda kind, number: converted(runs, program, kind, number)
        runs.each("convert", kind, run, wrong)


def try_left_outs(runs, program):
    """What is kept has no id until all else is written; what is packed or joined is a part of it, or all."""
    recording = Recording(samples=bytes(range(200)) * 30)
    samples, lost = data(recording.samples), chunk(b"iXML", b"<BWFXML/>") + chunk(b"long", bytes(range(250)) * 300)
    path, take, left = (runs.work / name for name in ("kept.wav", "taken.wav", "left.wav"))
    path.write_bytes(riff(fmt(recording), samples, lost))
    take.write_bytes(riff(fmt(recording), samples))
    whole = riff(fmt(recording), lost, data(b""))
    without = bytes(4) + whole[4:]

    def packed(kind, number):
        left.unlink(missing_ok=True)
        found = runs.one([program, "pack", path, "--keep-left-out", left], b"", kind, number)
        return *found, left.read_bytes() if left.exists() else b""

    def wrong_pack(kind, found, wanted):
        made = found[-1]
        if made != whole and made != without[: len(made)]:
            return "another file"
        if found[1] and made != whole:
            return "printed before it is kept"
        return what_a_pack_breaks(kind, found[:-1], wanted[:-1])

    def wrong_join(kind, found, wanted):
        if wanted[1] != riff(fmt(recording), samples, lost):
            return "another file"
        printed, told = len(found[1]), re.match(rb"join: Read at (\d+)\n", found[2])
        if printed and told and int(told[1]) not in (printed, printed - take.stat().st_size):
            return "a read failed elsewhere, in the take or after it"
        return what_a_pack_breaks(kind, found, wanted)

    for kind in (*KINDS, "sync"):
        runs.each("pack --keep-left-out", kind, packed, wrong_pack)
    for kind in KINDS:
        run = lambda kind, number: runs.one([program, "join", take, path], b"", kind, number)
        runs.each("join", kind, run, wrong_join)


def try_takes(runs, program):
    """What can't be read of a take is named, and the others are listed; a list that breaks off isn't taken for whole."""
    takes = [small_take(name) for name in ("a1", "b2")]
    folder = left_by(folder_in(runs.work, "listed"), [(take, len(take.messages())) for take in takes])
    files = [f"{folder}/{name}.{end} can't be read" for name in ("a1", "b2") for end in ("wav", "journal", "closed")]

    def wrong(kind, found, wanted):
        status, out, errors = found
        if kind in ("growth", "write"):
            return what_a_run_breaks(kind, found, wanted)
        if status == 3 and kind in ("list", "open") and errors.decode() == f"{folder} can't be read\n":
            return None if not out else "a text"
        if status != 3 or errors.decode().rstrip("\n") not in files:
            return "no file is named"
        lines = out.splitlines()
        return None if len(lines) == 1 and lines[0] in wanted[1].splitlines() else "the other take isn't listed"

    for depth, kinds in (((), (*KINDS, "list")), (("--check",), ("read", "open")), (("--digest",), ("read", "open"))):
        for kind in kinds:
            run = lambda kind, number: runs.one([program, "takes", "--folder", folder, *depth], b"", kind, number)
            runs.each(" ".join(["takes", *depth]), kind, run, wrong)


def try_file_senders(runs, program):
    """Senders of files, of samples without a header, of files that grow, of standard input, and with a state."""
    samples, end = runs.work / "samples", runs.work / "ended"
    samples.write_bytes(bytes(range(200)) * 30)
    end.write_bytes(b"")
    sound, spool, kept = runs.work / "sound.wav", runs.work / "spool", runs.work / "state"
    sound.write_bytes(STEREO_FILE)
    pcm = ["--pcm", "8000,1,16", "--block", "1000"]
    files = {
        "--file": (["--file", sound], (*KINDS, "receive", "send", "connect")),
        "--pcm": ([*pcm, "--file", samples], ("growth", "read", "open", "seek")),
        "--follow": ([*pcm, "--file", samples, "--follow", "--until", end], ("growth", "read", "open", "stat", "seek")),
        "--spool": ([*pcm, "--no-defaults", "--spool", spool], ("growth", "read", "write", "open", "seek")),
        "--state": (["--file", sound, "--state", kept], ("growth", "read", "write", "open", "sync", "rename")),
    }
    folder = folder_in(runs.work, "taken")
    server = Server(folder, "--until-stopped", "--recorders", "4")
    for name, (options, kinds) in files.items():
        given = samples.read_bytes() if name == "--spool" else b""
        words = [program, "send", "--connect", f"{LOCAL}:{server.port}", "--name", f"a{name}", *options]

        def run(kind, number):
            for path in (spool, kept):
                path.unlink(missing_ok=True)
            return runs.one([*words, "--timeout", "1"], given, kind, number)

        for kind in kinds:
            runs.each(f"send {name}", kind, run, what_an_upload_breaks)
    words = [program, "send", "--connect", f"{LOCAL}:{server.port}", "--timeout", "1"]
    try_receipts(runs, [*words, "--name", "a1", "--file", sound])
    try_several(runs, words, sound)
    server.stop(signal.SIGKILL)
    shutil.rmtree(folder, ignore_errors=True)


def try_receipts(runs, words):
    """A sender that ends with 0 has added its receipt; another has added a part of it, or all."""
    path = runs.work / "receipts"

    def run(kind, number):
        path.unlink(missing_ok=True)
        found = runs.one([*words, "--receipt", path], b"", kind, number)
        return *found, path.read_bytes() if path.exists() else b""

    def wrong(kind, found, wanted):
        if broken := what_an_upload_breaks(kind, found[:-1], wanted[:-1]):
            return broken
        if found[0] == 0:
            return None if found[-1] == wanted[-1] else "no receipt"
        return None if is_prefix(found[-1], wanted[-1]) else "another receipt"

    for kind in ("growth", "read", "write", "open", "seek", "stat", "sync"):
        runs.each("send --receipt", kind, run, wrong)


def try_several(runs, words, sound):
    """Several recordings, of which one has its receipt: the other one has one if it is stored; if not, a cause is said."""
    other, names, receipts = (runs.work / name for name in ("other.wav", "names", "kept-receipts"))
    other.write_bytes(sound.read_bytes())
    names.write_text(f"b1 {other}\n")
    command = [*words, "--names", names, "--receipt", receipts, sound, other]
    receipts.unlink(missing_ok=True)
    runs.one(command, b"", "open", 0)
    first, second = receipts.read_bytes().splitlines(True)

    def run(kind, number):
        receipts.write_bytes(first)
        return *runs.one(command, b"", kind, number), receipts.read_bytes()

    def wrong(kind, found, wanted):
        status, out, said, put = found
        added = put.removeprefix(first)
        if status == 0:  # a recording that can't be read for its receipt is sent again, and has another
            return None if put.startswith(first) and added in (second, first + second) else "other receipts"
        if status not in ((3, 4) if kind == "growth" else (3,)) or not said:
            return "another status, or no cause"
        if b"settled" not in out and added:
            return "a receipt of what isn't stored"
        return None if is_prefix(added, second) or is_prefix(added, first + second) else "another receipt"

    for kind in ("growth", "read", "write", "open", "seek", "stat", "sync"):
        runs.each("send FILE..", kind, run, wrong)
