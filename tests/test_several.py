#!/usr/bin/env python3
"""Runs `send FILE..`: which recordings, under which names, with which receipts, and again after kills.

Names were worked out by hand, and digests are hashlib's of the bytes that were sent. In the last case one command sends
forty files of up to 200 MB, and is killed five times: each take has to be there once, with its samples and one receipt.

The program is the first argument, or the one of this repository. Prints what differs, and last 'N passed, M failed'.
"""
import hashlib
import os
import random
import signal
import subprocess
import sys

sys.dont_write_bytecode = True  # nothing is left beside this script
from kit.network import LOCAL, run, run_cases, start, TALLY, wait_until
from kit.recordings import data, fmt, Recording, riff
from kit.uploads import samples_of, serving, unseen, written

LONGEST_RUN = 240  # seconds, for all of it
NEW = ("resumed 0 takes",)  # over a new folder
MEGABYTE = 1 << 20
FILES = 40
LONG = {7: 12, 19: 24, 33: 200}  # megabytes of some of these; the others have one

def file_of(samples):
    return riff(fmt(Recording(channels=2)), data(samples))


def some_samples(seed, count=4_000):
    return random.Random(seed).randbytes(4 * count)


def words_of(port, *words):
    return ("send", "--connect", f"{LOCAL}:{port}", *map(str, words))


def receipt(name, samples, port, path):
    digest = hashlib.sha256(samples).hexdigest()
    return f"receipt {name} {len(samples) // 4} sha256={digest} {LOCAL}:{port} {path}\n"


def lines_of_names(out):
    """The lines that name recordings."""
    return [line for line in out.splitlines() if line.split(" ")[0] in ("sending", "skipped")]


def refused(name, wanted, *words, status=1):
    """Nothing leaves, and this is told."""
    with unseen(name) as port:
        TALLY.same(name, run(*words_of(port, *words)), (status, "", wanted))


def case_names(place):
    """The name of a take, by the path of its recording."""
    files = {
        "Take 1.WAV": "take-1", "b.x.wav": "b-x", "zwei_3-x.bw64": "zwei_3-x", "\u00dcbung.wav": "-bung",
        "a\u0301\u4e2d.wav": "a--", "noend": "noend", ".wav": "-wav", f"{'z' * 32}.wav": "z" * 32,
    }
    with serving(place, "--recorders", "1", opening=()) as server:
        samples = some_samples(1)
        paths = [written(place, file_of(samples), name) for name in files]
        status, out, faults = run(*words_of(server.port, *paths))
        wanted = [f"sending {name} {path}" for name, path in zip(files.values(), paths)]
        TALLY.same("sent", (status, lines_of_names(out), faults), (0, wanted, ""))
        stored = {path.name: samples_of(path) == samples for path in (place / "takes").iterdir()}
        TALLY.same("stored", stored, {f"{name}.wav": True for name in files.values()})
    long = written(place, file_of(samples), f"{'z' * 33}.wav")
    refused("too long", f"{long}: no name: use --names\n", long)
    refused("empty", f"{place}/x/: no name: use --names\n", f"{place}/x/")


def case_two_alike(place):
    first, second = (written(folder_of(place, name), file_of(b""), "Take.wav") for name in ("a", "b"))
    third = written(place, file_of(b""), "take.bw64")
    for one, other in ((first, second), (first, third)):
        refused("alike", f"{one} and {other}: one name for both: use --names\n", one, other)
    refused("the same file", f"{first} and {first}: one name for both: use --names\n", first, first)


def folder_of(place, name):
    folder = place / name
    folder.mkdir()
    return folder


def case_folders(place):
    """A folder stands for its recordings, in the order of their bytes, and not for those of its folders."""
    card = folder_of(place, "card")
    for name in ("b.wav", "C.WAV", "a.rf64", "a.txt", ".c.wav", "wav"):
        written(card, file_of(some_samples(2)), name)
    written(folder_of(card, "sub.wav"), file_of(b""), "d.wav")
    os.mkfifo(card / "pipe.wav")
    alone = written(place, file_of(some_samples(3)), "z.wav")
    order = [("z", alone), ("c", card / "C.WAV"), ("a", card / "a.rf64"), ("b", card / "b.wav")]
    wanted = [f"sending {name} {path}" for name, path in order]
    with serving(place, opening=()) as server:
        status, out, faults = run(*words_of(server.port, alone, f"{card}/"))
        TALLY.same("sent", (status, lines_of_names(out), faults), (0, wanted, ""))
        TALLY.same("again", lines_of_names(run(*words_of(server.port, alone, card))[1]), wanted)
    none = folder_of(place, "none")
    refused("no recordings", f"{none}: no recordings\n", alone, none)


def case_file_of_names(place):
    """NAMES gives recordings their names, those of folders too; its other lines are left out."""
    card = folder_of(place, "card")
    one, two = (written(card, file_of(some_samples(seed)), f"x {seed}.wav") for seed in (4, 5))
    third = written(place, file_of(some_samples(6)), "x 4.wav")
    names = place / "names"
    names.write_text(f"\nfirst {one}\nelse {place}/nowhere\nsecond {third}\n")
    with serving(place, opening=()) as server:
        status, out, faults = run(*words_of(server.port, "--names", names, card, third))
        wanted = [f"sending first {one}", f"sending x-5 {two}", f"sending second {third}"]
        TALLY.same("sent", (status, lines_of_names(out), faults), (0, wanted, ""))
    for text, number in (
        (f"a {one}\nA {two}\n", 2), ("a\n", 1), ("a \n", 1), (f" {one}\n", 1), (f"{'a' * 33} {one}\n", 1), (f"a {one}\n\nb {one}", 3),
        (f"a\t{one}\n", 1),
    ):
        names.write_text(text)
        refused(f"{text!r}", f"{names} line {number}: not a new path with its name\n", "--names", names, one)
    names.write_text(f"same {one}\nsame {two}\n")
    refused("one name", f"{one} and {two}: one name for both: use --names\n", "--names", names, card)
    for path in (place / "none", place):
        refused(f"{path}", f"{path} can't be read\n", "--names", path, one, status=3)
    os.mkfifo(place / "fifo")
    refused("a pipe", f"{place / 'fifo'} is a pipe\n", "--names", place / "fifo", one, status=3)


def case_statuses(place):
    """All are tried, and the status is the worst of all."""
    good = [written(place, file_of(some_samples(seed)), f"good{seed}.wav") for seed in (7, 8)]
    bad = written(place, b"no recording", "bad.wav")
    os.mkfifo(place / "pipe")
    with serving(place, opening=()) as server:
        for paths, wanted in (
            ((good[0], bad, good[1]), 1), ((place / "lost.wav", good[0]), 3), ((bad, place / "pipe", good[0]), 3), (good, 0),
        ):
            status, out, _faults = run(*words_of(server.port, *paths))
            told = (status, len(lines_of_names(out)), out.count("settled "))
            TALLY.same(f"{paths}", told, (wanted, len(paths), sum(path in good for path in paths)))


def case_receipts(place):
    """What has its receipt is skipped; what has other samples isn't. Each take has one receipt."""
    samples = {name: some_samples(name) for name in ("a", "b", "c")}
    paths = {name: written(place, file_of(its), f"{name}.wav") for name, its in samples.items()}
    receipts = place / "receipts"
    with serving(place, "--journal", opening=NEW) as server:
        line = lambda name: receipt(name, samples[name], server.port, paths[name])
        told = run(*words_of(server.port, "--receipt", receipts, paths["a"]))
        TALLY.same("one", (told[0], receipts.read_text()), (0, line("a")))
        told = run(*words_of(server.port, "--receipt", receipts, *paths.values()))
        wanted = [f"skipped a {paths['a']}", f"sending b {paths['b']}", f"sending c {paths['c']}"]
        TALLY.same("the others", lines_of_names(told[1]), wanted)
        TALLY.same("receipts", (told[0], receipts.read_text()), (0, line("a") + line("b") + line("c")))
        told = run(*words_of(server.port, "--receipt", receipts, *paths.values()))
        TALLY.same("again", told, (0, "".join(f"skipped {name} {path}\n" for name, path in paths.items()), ""))
        receipts.write_text(line("a") + line("b").replace("sha256=", "sha256=0")[:-2])
        told = run(*words_of(server.port, "--receipt", receipts, paths["a"], paths["b"]))
        wanted = [f"skipped a {paths['a']}", f"sending b {paths['b']}"]
        TALLY.same("after a line that is cut", (told[0], lines_of_names(told[1])), (0, wanted))
        written(place, file_of(some_samples("other")), "a.wav")
        told = run(*words_of(server.port, "--receipt", place / "others", paths["a"]))
        TALLY.same("other samples", (told[0], lines_of_names(told[1])), (1, [f"sending a {paths['a']}"]))
        receipts.write_text(line("a"))
        told = run(*words_of(server.port, "--receipt", receipts, paths["a"]))
        TALLY.same("other samples than the receipt's", (told[0], lines_of_names(told[1])), (1, [f"sending a {paths['a']}"]))
    for text, number in (("x\n", 1), (line("a") + "\nx\n" + line("b"), 3)):
        receipts.write_text(text)
        refused(f"{text!r}", f"{receipts} line {number}: not a receipt\n", "--receipt", receipts, paths["b"])
    refused("a device", "/dev/zero is a device\n", "--receipt", "/dev/zero", paths["b"], status=3)


def case_states(place):
    """Each has its state in the folder of states."""
    states = folder_of(place, "states")
    paths = [written(place, file_of(some_samples(seed)), f"{seed}.wav") for seed in (1, 2)]
    with serving(place, "--journal", opening=NEW) as server:
        gone_on = [f"{states}/{name}.state: goes on at" for name in "12"]  # at how many that were noted in time
        for folder, wanted in ((states, []), (f"{states}/", gone_on)):
            status, out, faults = run(*words_of(server.port, "--state", folder, *paths))
            said = [line.rpartition(" ")[0] for line in faults.splitlines()]
            TALLY.same("sent", (status, out.count("settled "), said), (0, 2, wanted))
            TALLY.same("states", sorted(path.name for path in states.iterdir()), ["1.state", "2.state"])


def card_of(place):
    """A folder of recordings, and the SHA-256 of the samples of each by its name."""
    card, digests = folder_of(place, "card"), {}
    for number in range(FILES):
        samples = random.Random(number).randbytes(MEGABYTE) * LONG.get(number, 1)
        digests[f"t{number:02}"] = hashlib.sha256(samples).hexdigest()
        written(card, file_of(samples), f"T{number:02}.WAV")
    return card, digests


def put(receipts):
    """The names and digests of the receipts that are there, whole."""
    lines = receipts.read_text().splitlines(True) if receipts.exists() else []
    return [(line.split()[1], line.split()[3].removeprefix("sha256=")) for line in lines if line.endswith("\n")]


def case_kills(place):
    """One command for all files is killed in long and in short ones: at last each take is there once, with one receipt."""
    card, digests = card_of(place)
    states, receipts = folder_of(place, "states"), place / "receipts"

    def counts(name):
        """Whether a state counts requests that are settled."""
        state = states / f"{name}.state"
        return state.exists() and b"settled" in state.read_bytes()

    kills = {
        "the first": lambda: len(put(receipts)) >= 1,
        "a long one": lambda: counts("t07"),
        "some": lambda: len(put(receipts)) >= 15,
        "another long one": lambda: counts("t19"),
        "the longest": lambda: counts("t33"),
    }
    with serving(place, "--journal", "--recorders", "2", opening=NEW) as server:
        words = words_of(server.port, "--rate", "60000000", "--state", states, "--receipt", receipts, card)
        for name, is_time in kills.items():
            process = start(*words, stdout=subprocess.DEVNULL, stderr=subprocess.DEVNULL)
            wait_until(is_time, f"{name} is sent")
            process.kill()
            TALLY.same(f"{name}: killed", process.wait(), -signal.SIGKILL)
        before = len(put(receipts))
        status, out, _faults = run(*words)
        ways = [line.split(" ")[0] for line in lines_of_names(out)]
        wanted = ["skipped"] * before + ["sending"] * (FILES - before)
        TALLY.same("at last", (status, ways), (0, wanted))
        TALLY.same("receipts", sorted(put(receipts)), sorted(digests.items()))
    takes = place / "takes"
    stored = {path.stem: hashlib.sha256(samples_of(path)).hexdigest() for path in takes.glob("*.wav")}
    TALLY.same("takes", stored, digests)
    told = run("takes", "--folder", str(takes), "--verify", str(receipts))
    TALLY.same("verified", told, (0, f"matched {FILES} of {FILES}\n", ""))


cases = [value for name, value in list(globals().items()) if name.startswith("case_")]
sys.exit(run_cases(cases, LONGEST_RUN))
