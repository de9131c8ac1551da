#!/usr/bin/env python3
"""Runs `pack` of the built program on files of recordings, and sends what it prints to the built server.

The files are in cases/recordings.py. The requests that are printed, what is said of what a file loses, and each
refusal with its status are compared with what docs/FORMATS.md says of the file. A small file is also cut at each of
its bytes. The program is the first argument, or the one of this repository. Prints what differs, and last 'N passed, M
failed'.
"""
import hashlib
import subprocess
import sys

sys.dont_write_bytecode = True  # nothing is left beside this script
from cases.recordings import FIELDS, HISTORY, REFUSED, SECOND, SENT, TONE_FILE
from kit.hints import bad_setting, hinted, LOSSY
from kit.network import finish, LOCAL, reason, run, run_cases, Server, start, TALLY
from kit.recordings import cue, data, fmt, Recording, riff
from kit.repository import ROOT

LONGEST_RUN = 120  # seconds, for all of it

# Texts after `--set` that are no settings: without a key or a value's sign, of another key, not of the key's form.
BAD_SETTINGS = [
    "",
    "description",
    "=x",
    "Description=x",
    "other=x",
    "description=" + "x" * 257,
    "description=Bäche",
    "date=2024-5-17",
    "date=2024_05_17",
    "clock=24:00",
    "time=-1",
    "time=18446744073709551616",
    "umid=00",
    "umid=" + "0g" * 64,
    "value=-23",
    "value=-23.0",
    "value=+23.00",
    "value=327.67",
    "value=-327.69",
    "history=" + "x" * 4_097,
]


def written(folder, file, name="take.wav"):
    """The path of a file with these bytes."""
    path = folder / name
    path.write_bytes(file)
    return path


def case_requests(folder):
    """The requests of each file, in order, and a line for each thing that it loses."""
    for case in SENT:
        path = written(folder, case.file)
        wanted = (0, case.recording.lines().decode(), case.lost)
        TALLY.same(f"pack, {case.of}", run("pack", str(path), *case.options), wanted)


def case_example(_folder):
    """The example is the tone that tools/make_tone writes."""
    TALLY.same("examples/tone.wav", (ROOT / "examples/tone.wav").read_bytes(), TONE_FILE)


def case_refusals(folder):
    """Each file that isn't taken is refused before anything is printed."""
    for case in REFUSED:
        path = written(folder, case.file)
        TALLY.same(f"pack, {case.of}", run("pack", str(path), *case.options), (1, "", hinted("pack", case.said, case.hint)))


def case_strict(folder):
    """With --strict a file that loses anything is refused after the list of it; any other is as without."""
    for case in SENT:
        wanted = (1, "", case.lost + LOSSY) if case.lost else (0, case.recording.lines().decode(), "")
        found = run("pack", str(written(folder, case.file)), "--strict", *case.options)
        TALLY.same(f"pack --strict, {case.of}", found, wanted)


def case_settings(folder):
    """A text that is no setting is a fault of usage, whatever the file."""
    path = written(folder, SENT[0].file)
    for text in BAD_SETTINGS:
        for file in (path, folder / "none.wav"):
            words = ("pack", str(file), "--set", "umid=", f"--set={text}")
            TALLY.same(f"pack --set={text[:30]!r}", run(*words), (2, "", bad_setting(text.split("=")[0])))
    for text, key in (("x" * 40 + "=1", "x" * 32), ("a\nb=1", "a?b"), ("é=1", "??"), ("x" * 31 + "é", "x" * 31 + "?")):
        found = run("pack", str(path), f"--set={text}", "--set=none")
        TALLY.same(f"pack --set={text!r}", found, (2, "", bad_setting(key)))


def case_no_file(folder):
    path = folder / "none.wav"
    TALLY.same("no file", run("pack", str(path)), (3, "", f"{path} can't be opened: {reason(2)}\n"))
    TALLY.same("a folder", run("pack", str(folder)), (3, "", hinted("pack", "Read at 0")))


def case_cut(folder):
    """A file that is cut anywhere is refused by name, or has lost only a pad byte."""
    recording = Recording(bits=24, samples=bytes(range(9)), fields=FIELDS, history=HISTORY, markers=[(1, 0)])
    file = riff(fmt(recording), SECOND, cue([(1, 0, 0)]), data(recording.samples))
    wanted = recording.lines().decode()
    for length in range(len(file) + 1):
        status, out, said = run("pack", str(written(folder, file[:length])))
        if length >= len(file) - 1:
            TALLY.same(f"cut at {length}", (status, out, said), (0, wanted, ""))
        else:
            is_named = status == 1 and out == "" and said.startswith("pack: ") and " at " in said
            TALLY.holds(f"cut at {length}", is_named, f"{status}, {out!r}, {said!r}")


def case_pipe(folder):
    """As in README.md: the example goes from `pack` to `send` through a pipe."""
    takes = folder / "takes"
    takes.mkdir()
    server = Server(takes, "--until-stopped")
    words = ("send", "--connect", f"{LOCAL}:{server.port}", "--name", "tone")
    packs = start("pack", str(ROOT / "examples/tone.wav"), stdout=subprocess.PIPE)
    sends = start(*words, stdin=packs.stdout, stdout=subprocess.PIPE, stderr=subprocess.PIPE)
    packs.stdout.close()
    TALLY.same("pack to send", finish(sends), (0, "settled 9\nstored 9\n", ""))
    TALLY.same("pack to send: pack", packs.wait(), 0)
    server.process.terminate()
    server.process.wait()


def digest_of_samples(path, align):
    """SHA-256 of the samples of a server's file, which begin where `inspect` says."""
    _status, out, _faults = run("inspect", str(path))
    line = next(line for line in out.splitlines() if line.startswith("data at="))
    at, count = (int(word.partition("=")[2]) for word in line.split()[1:3])
    return hashlib.sha256(path.read_bytes()[at : at + count]).hexdigest(), count // align


def case_arrives(folder):
    """What is printed brings the recording: sent to a server, it has the samples of the file."""
    takes = folder / "takes"
    takes.mkdir()
    server = Server(takes, "--until-stopped")
    for number, case in enumerate(SENT):
        status, lines, _said = run("pack", str(written(folder, case.file)), *case.options)
        where = ("send", "--connect", f"{LOCAL}:{server.port}", "--name", f"take-{number}")
        count = len(case.recording.requests())
        TALLY.same(f"pack, {case.of}: status", status, 0)
        TALLY.same(f"send, {case.of}", run(*where, given=lines.encode()), (0, f"settled {count}\nstored {count}\n", ""))
        samples = case.recording.samples
        wanted = hashlib.sha256(samples).hexdigest(), len(samples) // case.recording.align
        found = digest_of_samples(takes / f"take-{number}.wav", case.recording.align)
        TALLY.same(f"the samples, {case.of}", found, wanted)
    server.process.terminate()
    server.process.wait()


CASES = [case_requests, case_example, case_refusals, case_strict, case_settings, case_no_file, case_cut, case_pipe, case_arrives]


sys.exit(run_cases(CASES, LONGEST_RUN))
