#!/usr/bin/env python3
"""Runs `pack` and `send` with `--keep-left-out`, and `join`, on worked files and on those of other programs.

Each chunk that a take doesn't carry has to be in LEFT and in what `join` prints, byte for byte, with the take's own
chunks before it. The expected bytes are laid out here as RIFF, LIST, iXML, BS.2088 and Tech 3306 say. ffmpeg, sox and
sndfile-convert make files, and ffprobe, mediainfo, sndfile-info, soxi and exiftool read what was made, where they are
installed. The program is the first argument, or the one of this repository. Prints what differs, and last 'N passed, M
failed'.
"""
import json
import os
import shutil
import struct
import subprocess
import sys
from typing import NamedTuple

sys.dont_write_bytecode = True  # nothing is left beside this script
from kit.forms import put_together
from kit.hints import CONVERT, hinted, LOSSY, MEND, USAGE
from kit.network import LOCAL, PROGRAM, run, run_cases, TALLY
from kit.recordings import bext, cue, data, extensible, fmt, Recording, riff
from kit.takes import chunk, little
from kit.uploads import serving, unseen, words_of, written
from kit.waves import chunks_of

LONGEST_RUN = 240  # seconds, for all of it
PLAIN = Recording(samples=bytes(range(250)) * 40)
ODD = Recording(channels=1, bits=24, samples=bytes(range(255)) * 5)
F = fmt(PLAIN)
S = data(PLAIN.samples)
KEEP_EXISTS = "hint: something else is at LEFT: give a path where nothing is\n"
KEEP_UNWRITTEN = "hint: LEFT can't be written: remove what is there of it\n"
CARRIED = {b"fmt ", b"bext", b"data", b"cue ", b"ds64", b"JUNK"}

# Chunks that no message carries.
IXML = chunk(b"iXML", b'<?xml version="1.0" encoding="UTF-8"?><BWFXML><SCENE>12A</SCENE><TAKE>3</TAKE></BWFXML>')
INFO = chunk(b"LIST", b"INFO" + chunk(b"INAM", b"River\0") + chunk(b"ISFT", b"Recorder 7\0\0"))
ADTL = chunk(b"LIST", b"adtl" + chunk(b"labl", little(1, 4) + b"Start\0") + chunk(b"note", little(1, 4) + b"Wind\0\0"))
AXML = chunk(b"axml", b"<ebuCoreMain><coreMetadata/></ebuCoreMain>")
CHNA = chunk(b"chna", struct.pack("<HHH", 1, 1, 1) + b"ATU_00000001AT_00010001_01AP_00010001" + b"\0")
ODD_CHUNK = chunk(b"odd ", b"\x01\x02\x03")
EMPTY_CHUNK = chunk(b"none", b"")
UNKNOWN = chunk(b"\0\xff \n", bytes(range(256)))
LONG = chunk(b"long", bytes(range(251)) * 1_000)
UNCARRIED = (IXML, INFO, ADTL, AXML, CHNA, ODD_CHUNK, EMPTY_CHUNK, UNKNOWN, LONG)
JUNK = chunk(b"JUNK", b"a filler")


def size_of(it):
    """The size that a chunk's head gives."""
    return int.from_bytes(it[4:8], "little")


class Kept(NamedTuple):
    """A file, its `fmt `, the chunks that aren't carried before that and after it, and what else is said."""

    of: str
    file: bytes
    format: bytes
    before: tuple = ()
    after: tuple = ()
    said: str = ""


def wide(form, *chunks, samples=PLAIN.samples, table=()):
    """A file of this form, whose chunks are given as they are in a RIFF file."""
    parts = [(it[:4], it[8 : 8 + size_of(it)]) for it in chunks]
    return put_together(form, [*parts, (b"data", samples)], table)


SECOND = bext((b"River at dawn", b"Recorder 7"), 172_800_000, 2, bytes(range(64)), (0x7FFF,) * 5, b"A=PCM\r\n")
WORKED = [
    Kept("nothing", riff(F, S), F),
    Kept("what is carried", riff(JUNK, SECOND, F, S, cue([(1, 9, 9)])), F),
    Kept("iXML before all", riff(IXML, F, S), F, (IXML,)),
    Kept("texts before and after the samples", riff(F, INFO, S, ADTL, IXML), F, after=(INFO, ADTL, IXML)),
    Kept("each chunk", riff(F, S, *UNCARRIED), F, after=UNCARRIED),
    Kept("each chunk, turned", riff(*UNCARRIED[::-1], F, S), F, UNCARRIED[::-1]),
    Kept("two of one id", riff(F, INFO, INFO, S, INFO), F, after=(INFO, INFO, INFO)),
    Kept("an odd length at the end", riff(F, S, ODD_CHUNK), F, after=(ODD_CHUNK,)),
    Kept("an odd length without its pad byte", riff(F, S, ODD_CHUNK)[:-1], F, after=(ODD_CHUNK,)),
    Kept("an odd length of samples", riff(fmt(ODD), ODD_CHUNK, data(ODD.samples)), fmt(ODD), after=(ODD_CHUNK,)),
    Kept("an extensible format", riff(extensible(PLAIN), S, IXML), extensible(PLAIN), after=(IXML,), said="channel mask"),
    Kept("bytes after the form", riff(F, S, IXML) + b"trailing", F, after=(IXML,)),
    Kept("BW64 with axml and chna", wide(b"BW64", F, CHNA, AXML), F, after=(CHNA, AXML)),
    Kept("RF64", wide(b"RF64", F, IXML), F, after=(IXML,)),
    Kept("a size in the table", wide(b"BW64", F, LONG, table=[(b"long", len(LONG) - 8)]), F, after=(LONG,)),
]


def said_of(case):
    """A line for each thing that a take loses of the file: what isn't a chunk first."""
    lines = [f"left out: {case.said}\n"] if case.said else []
    for it in (*case.before, *case.after):
        name = "".join(chr(byte) if 33 <= byte <= 126 else "." for byte in it[:4])
        lines.append(f"left out: {name} {size_of(it)}\n")
    return "".join(lines)


def left_of(case):
    """LEFT: a RIFF WAVE of the recording's format, the chunks, and no samples."""
    return riff(*case.before, case.format, *case.after, data(b""))


def joined(take, chunks):
    """The take with chunks after its own."""
    added = b"".join(chunks)
    if take[:4] == b"RIFF":
        return take[:4] + little(int.from_bytes(take[4:8], "little") + len(added), 4) + take[8:] + added
    return take[:20] + little(int.from_bytes(take[20:28], "little") + len(added), 8) + take[28:] + added


def join(take, left):
    """The status, the bytes and the faults of `join`."""
    done = subprocess.run([PROGRAM, "join", take, left], capture_output=True, check=False)
    return done.returncode, done.stdout, done.stderr.decode()


def digest(path):
    """The digest of a file's samples, as `inspect` finds it."""
    return json.loads(run("inspect", "--json", "--digest", str(path))[1])["sha256"]


def check_joined(about, take, left, chunks, folder):
    """What `join` prints, how it is read, and what it leaves as it was."""
    before = take.read_bytes(), left.read_bytes()
    status, whole, faults = join(take, left)
    TALLY.same(f"{about}: joined", (status, faults), (0, ""))
    TALLY.same(f"{about}: what is joined", whole, joined(before[0], chunks))
    out = folder / "joined.wav"
    out.write_bytes(whole)
    TALLY.same(f"{about}: joined, inspected", run("inspect", str(out))[0], 0)
    TALLY.same(f"{about}: joined, samples", digest(out), digest(take))
    TALLY.holds(f"{about}: the files", (take.read_bytes(), left.read_bytes()) == before, "a file was changed")
    return out


def case_packed(folder):
    """`pack` prints the same with `--keep-left-out`, and LEFT has each chunk."""
    for case in WORKED:
        path, left = written(folder, case.file), folder / "left.wav"
        plain = run("pack", str(path))
        TALLY.same(f"{case.of}: said", plain[2], said_of(case))
        TALLY.same(f"{case.of}: packed", run("pack", str(path), "--keep-left-out", str(left)), plain)
        TALLY.same(f"{case.of}: LEFT", left.read_bytes(), left_of(case))
        TALLY.same(f"{case.of}: LEFT inspected", run("inspect", str(left))[0], 0)
        TALLY.same(f"{case.of}: the file", path.read_bytes(), case.file)
        left.unlink()


def case_sent(folder):
    """What is sent arrives as without it, and the take with LEFT joined to it has each chunk."""
    with serving(folder, "--recorders", "4") as server:
        for number, case in enumerate(WORKED):
            path, left = written(folder, case.file), folder / f"left{number}.wav"
            plain = run(*words_of(server.port, f"plain{number}", path))
            told = run(*words_of(server.port, f"kept{number}", path, "--keep-left-out", str(left)))
            TALLY.same(f"{case.of}: sent", told, plain)
            take, other = (folder / "takes" / f"{name}{number}.wav" for name in ("kept", "plain"))
            TALLY.same(f"{case.of}: arrived", take.read_bytes(), other.read_bytes())
            TALLY.same(f"{case.of}: LEFT", left.read_bytes(), left_of(case))
            check_joined(case.of, take, left, (*case.before, *case.after), folder)
            check_joined(f"{case.of}, the recording", take, path, (*case.before, *case.after), folder)


def case_wide_takes(folder):
    """BW64 takes, of a server with a small limit, and the same as RF64."""
    samples = bytes(range(256)) * 40
    path, left = written(folder, riff(F, IXML, data(samples), ODD_CHUNK)), folder / "left.wav"
    with serving(folder, "--limit", "8192") as server:
        TALLY.same("sent", run(*words_of(server.port, "a1", path, "--keep-left-out", str(left)))[0], 0)
    take, other = folder / "takes" / "a1.wav", folder / "rf64.wav"
    TALLY.same("a wide take", take.read_bytes()[:4], b"BW64")
    check_joined("BW64", take, left, (IXML, ODD_CHUNK), folder)
    TALLY.same("converted", run("convert", "--rf64", str(take), str(other))[0], 0)
    check_joined("RF64", other, left, (IXML, ODD_CHUNK), folder)


def case_joined_files(folder):
    """`join` of any files that are read: with and without pad bytes, of any form, and what is joined once more."""
    left = written(folder, riff(F, IXML, ODD_CHUNK, data(b"")), "left.wav")
    take = written(folder, riff(fmt(ODD), data(ODD.samples)), "odd.wav")
    check_joined("an odd length", take, left, (IXML, ODD_CHUNK), folder)
    whole = take.read_bytes()
    take.write_bytes(whole[:-1])
    TALLY.same("an odd length without its pad byte", join(take, left)[1], joined(whole, (IXML, ODD_CHUNK)))
    take.write_bytes(riff(F, S) + b"trailing")
    TALLY.same("bytes after the form", join(take, left)[1], joined(riff(F, S), (IXML, ODD_CHUNK)))
    take.write_bytes(riff(F, S, INFO))
    out = check_joined("a take with chunks of its own", take, left, (IXML, ODD_CHUNK), folder)
    again = written(folder, out.read_bytes(), "again.wav")
    check_joined("once more", again, left, (IXML, ODD_CHUNK), folder)
    left.write_bytes(wide(b"BW64", F, CHNA, AXML))
    check_joined("chunks of BW64", take, left, (CHNA, AXML), folder)
    left.write_bytes(riff(F, S))
    check_joined("no chunks", take, left, (), folder)
    check_joined("a file and itself", take, take, (INFO,), folder)


def case_standing(folder):
    """What is at LEFT stays, and nothing is sent or printed; only the bytes that would be written may be there."""
    path, left = written(folder, riff(F, S, IXML)), folder / "left.wav"
    (folder / "link").symlink_to(folder / "nothing")
    left.write_bytes(b"something else")
    told = 1, "", hinted("keep", "Exists at 0", KEEP_EXISTS)
    no_file = 3, "", hinted("keep", "Unwritten at 0", KEEP_UNWRITTEN)
    TALLY.same("a folder: packed", run("pack", str(path), "--keep-left-out", str(folder)), no_file)
    for about, at in (("a file", left), ("the recording", path), ("a link", folder / "link")):
        TALLY.same(f"{about}: packed", run("pack", str(path), "--keep-left-out", str(at)), told)
        with unseen(about) as port:
            TALLY.same(f"{about}: sent", run(*words_of(port, "a1", path, "--keep-left-out", str(at))), told)
    found = left.read_bytes(), path.read_bytes(), os.path.lexists(folder / "nothing")
    TALLY.same("after it", found, (b"something else", riff(F, S, IXML), False))
    left.write_bytes(riff(F, IXML, data(b""))[:-1] + b"\1")
    TALLY.same("another byte", run("pack", str(path), "--keep-left-out", str(left)), told)
    whole = riff(F, IXML, data(b""))
    left.write_bytes(whole)
    TALLY.same("the same bytes", run("pack", str(path), "--keep-left-out", str(left)), run("pack", str(path)))
    with serving(folder) as server:
        for about in ("first", "again"):
            told = run(*words_of(server.port, "a1", path, "--keep-left-out", str(left)))
            TALLY.same(f"the same bytes, {about}", (told[0], left.read_bytes()), (0, whole))


def case_unkept(folder):
    """Where LEFT can't be made, or the recording isn't read, that is reported, and nothing is sent or printed."""
    path, left = written(folder, riff(F, S, IXML)), folder / "left.wav"
    cut = written(folder, riff(F, S, IXML)[:-9], "cut.wav")
    text = written(folder, b"no file of a recording", "text")
    for about, source, to, told in (
        ("no folder", path, folder / "none" / "left.wav", (3, hinted("keep", "Unwritten at 0", KEEP_UNWRITTEN))),
        ("cut off", cut, left, (1, hinted("keep", f"Truncated at {len(riff(F, S))}", MEND))),
        ("no recording", text, left, (1, hinted("keep", "NotWave at 0", CONVERT))),
    ):
        wanted = told[0], "", told[1]
        TALLY.same(f"{about}: packed", run("pack", str(source), "--keep-left-out", str(to)), wanted)
        with unseen(about) as port:
            TALLY.same(f"{about}: sent", run(*words_of(port, "a1", source, "--keep-left-out", str(to))), wanted)
        TALLY.same(f"{about}: LEFT", left.exists(), False)
    none = folder / "lost.wav"
    status, out, faults = run("pack", str(none), "--keep-left-out", str(left))
    TALLY.same("no file", (status, out, faults.startswith(f"{none} can't be opened: ")), (3, "", True))
    os.mkfifo(folder / "pipe")
    with unseen("a pipe") as port:
        told = run(*words_of(port, "a1", folder / "pipe", "--keep-left-out", str(left)))
        TALLY.same("a pipe: sent", told, (3, "", f"{folder / 'pipe'} is a pipe: use --spool\n"))
    TALLY.same("LEFT", left.exists(), False)


def case_full_disk(folder):
    """A disk that is full is reported: a limit of the file's size for LEFT, /dev/full for what is printed."""
    path, left = written(folder, riff(F, S, LONG)), folder / "left.wav"
    for command in ("pack", "send"):
        with unseen(command) as port:
            words = words_of(port, "a1", path) if command == "send" else ("pack", str(path))
            words = [PROGRAM, *words, "--keep-left-out", str(left)]
            limited = ["sh", "-c", 'trap "" XFSZ; ulimit -f 1; exec "$@"', "sh", *words]
            full = subprocess.run(limited, capture_output=True, text=True, check=False)
        TALLY.same(f"{command}: full", (full.returncode, full.stdout), (3, ""))
        TALLY.holds(f"{command}: reported", full.stderr.startswith("keep: Unwritten at "), full.stderr)
        TALLY.same(f"{command}: LEFT isn't read", run("inspect", str(left))[0], 1)
        left.unlink()
    whole = written(folder, riff(F, IXML, data(b"")), "whole.wav")
    with open("/dev/full", "wb") as full:
        done = subprocess.run([PROGRAM, "join", path, whole], stdout=full, stderr=subprocess.PIPE, text=True, check=False)
    TALLY.same("join", done.returncode, 3)
    TALLY.holds("join, reported", done.stderr != "", "nothing is reported")


def case_strictness(folder):
    """`--strict-texts` goes with it, and is looked at after LEFT is made; `--strict`, `--pcm` and `--spool` don't."""
    path, left = written(folder, riff(F, S, IXML)), folder / "left.wav"
    TALLY.same("texts", run("pack", str(path), "--strict-texts", "--keep-left-out", str(left))[0], 0)
    TALLY.same("texts, LEFT", left.read_bytes(), riff(F, IXML, data(b"")))
    TALLY.same("strict alone", run("pack", str(path), "--strict")[::2], (1, f"left out: iXML {size_of(IXML)}\n{LOSSY}"))
    left.unlink()
    wanted = 2, "", "error: '--keep-left-out <LEFT>' can't be given beside '--strict', '--pcm', '--spool <SPOOL>' and '--follow'\n" + USAGE
    TALLY.same("pack --strict", run("pack", str(path), "--strict", "--keep-left-out", str(left)), wanted)
    with unseen("options") as port:
        for options in (["--strict"], ["--pcm=48000,1,16"]):
            told = run(*words_of(port, "a1", path, "--keep-left-out", str(left), *options))
            TALLY.same(f"send {options[0]}", told, wanted)
    words = ("send", "--connect", f"{LOCAL}:9", "--name", "a1", "--keep-left-out", str(left))
    TALLY.same("send --spool", run(*words, "--spool", str(folder / "spool"), "--pcm=48000,1,16"), wanted)
    status, out, faults = run(*words)
    TALLY.same("without a file", (status, out, "'--keep-left-out'" in faults), (2, "", True))
    TALLY.same("LEFT", left.exists(), False)


def case_unjoined(folder):
    """Files that aren't read are named, and nothing is printed."""
    take, left = written(folder, riff(F, S)), written(folder, riff(F, IXML, data(b"")), "left.wav")
    text = written(folder, b"no file of a recording", "text")
    wanted = 1, b"", hinted("join", "NotWave at 0", CONVERT)
    TALLY.same("no take", join(text, left), wanted)
    TALLY.same("no LEFT", join(take, text), wanted)
    cut = written(folder, riff(F, S)[:-1], "cut.wav")
    wanted = 1, b"", hinted("join", f"Truncated at {12 + len(F)}", MEND)
    TALLY.same("a take that is cut off", join(cut, left), wanted)
    none = folder / "none.wav"
    for words in ((none, left), (take, none)):
        status, out, faults = join(*words)
        TALLY.same("no file", (status, out, faults.startswith(f"{none} can't be opened: ")), (3, b"", True))
    status, out, faults = run("join", str(take))
    TALLY.same("one file", (status, out, "<LEFT>" in faults), (2, "", True))


def case_readers(folder):
    """Other programs read LEFT and what is joined: as many frames, and the texts that are joined."""
    path, left = written(folder, riff(F, S, INFO, ODD_CHUNK, IXML)), folder / "left.wav"
    with serving(folder) as server:
        run(*words_of(server.port, "a1", path, "--keep-left-out", str(left)))
    out = check_joined("readers", folder / "takes" / "a1.wav", left, (INFO, ODD_CHUNK, IXML), folder)
    frames = len(PLAIN.samples) // 2
    packets = ["-v", "error", "-show_entries", "stream=duration_ts", "-of", "csv=p=0"]
    titles = ["-v", "error", "-show_entries", "format_tags=title", "-of", "csv=p=0"]
    for words, wanted in (
        (["ffprobe", *packets, out], str(frames)),
        (["ffprobe", *titles, out], "River"),
        (["sndfile-info", out], f"Frames      : {frames}\n"),
        (["mediainfo", "--Inform=Audio;%SamplingCount%", out], str(frames)),
        (["mediainfo", "--Inform=General;%Title%", out], "River"),
        (["soxi", "-s", out], str(frames)),
        (["exiftool", "-s3", "-Title", out], "River"),
        (["exiftool", "-s3", "-Title", left], "River"),
        (["file", "-b", left], "WAVE"),
    ):
        if shutil.which(words[0]):
            told = subprocess.run(words, capture_output=True, text=True, check=False).stdout
            TALLY.holds(" ".join(map(str, words[:3])), wanted in told, told)


def made_by_others(folder):
    """The files that other programs make, where they are installed."""
    plain, makers = written(folder, riff(F, S), "plain.wav"), []
    tags = ["-metadata", "title=River", "-metadata", "comment=At dawn"]
    quiet = ["ffmpeg", "-v", "error", "-y", "-i", plain, *tags]
    makers.append([*quiet, folder / "ffmpeg.wav"])
    makers.append([*quiet, "-rf64", "always", folder / "ffmpeg-rf64.wav"])
    makers.append(["sox", plain, "--comment", "River", folder / "sox.wav"])
    makers.append(["sndfile-convert", "-override-sample-rate=48000", plain, folder / "sndfile.wav"])
    for words in makers:
        if shutil.which(words[0]) and not subprocess.run(words, check=False).returncode:
            yield words[-1]


def case_other_programs(folder):
    """The chunks of other programs' files are kept and joined: those that a reader of its own finds."""
    with serving(folder, "--recorders", "4") as server:
        for number, path in enumerate(made_by_others(folder)):
            file, left = path.read_bytes(), folder / f"left{number}.wav"
            chunks = [
                name + little(size, 4) + file[at + 8 : at + 8 + size + size % 2]
                for name, at, size in chunks_of(file)[0] if name not in CARRIED
            ]
            told = run(*words_of(server.port, f"t{number}", path, "--keep-left-out", str(left)))
            TALLY.same(f"{path.name}: sent", told[0], 0)
            found = left.read_bytes()
            kept = [found[at : at + 8 + size + size % 2] for name, at, size in chunks_of(found)[0] if name not in CARRIED]
            TALLY.same(f"{path.name}: kept", kept, chunks)
            check_joined(path.name, folder / "takes" / f"t{number}.wav", left, chunks, folder)


cases = [value for name, value in list(globals().items()) if name.startswith("case_")]
sys.exit(run_cases(cases, LONGEST_RUN))
