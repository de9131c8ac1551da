#!/usr/bin/env python3
"""Runs `send --file --follow` of the built program on WAVE files while they are written.

The writers are this script's: they write a header whose sizes are 0, FFFFFFFFh or those of `ds64`, samples in pieces of
any length, perhaps a chunk after them, and the sizes at the end. What arrives is compared with the samples by their
SHA-256. A sender is killed and run again. Refusals are tried against a listener that must see no connection.
The program is the first argument, or the one of this repository. Prints what differs, and last 'N passed, M failed'.
"""
import hashlib
import random
import struct
import sys
import threading
import time

sys.dont_write_bytecode = True  # nothing is left beside this script
from kit.hints import FRUITLESS
from kit.network import finish, free_port, run, run_cases, start_with_pipes, TALLY, wait_until
from kit.recordings import bext, data, fmt, Recording, riff
from kit.uploads import requests_of, samples_of, serving, settled, unseen, words_of, written

LONGEST_RUN = 170  # seconds, for all of it
ALL_ONES = 0xFFFF_FFFF
LIST = b"LIST" + struct.pack("<I", 26) + b"INFOISFT" + struct.pack("<I", 14) + b"a recorder    "
FORMAT = Recording()  # one channel of 16 bits


class Writer(threading.Thread):
    """Another program that writes a WAVE file: a header, samples in pieces, perhaps more chunks, and its sizes."""

    def __init__(self, path, samples, unsaid, chunks=b"", wide=False, after=b"", seed=1, pause=0.02, end=None):
        super().__init__(daemon=True)
        self.path, self.samples, self.unsaid, self.chunks = path, samples, unsaid, chunks
        self.wide, self.after, self.pause, self.end = wide, after, pause, end
        self.chance = random.Random(seed)

    def header(self, is_done):
        """The header before the samples are written, or after."""
        rest = len(self.chunks) + len(fmt(FORMAT)) + 12 + len(self.samples) + len(self.after)
        size = len(self.samples) if is_done else self.unsaid
        if not self.wide:
            return struct.pack("<4sI4s", b"RIFF", rest if is_done else self.unsaid, b"WAVE") + fmt(FORMAT) + (
                self.chunks + struct.pack("<4sI", b"data", size)
            )
        sizes = (rest + 36, size, size // 2) if is_done else (0, 0, 0)
        ds64 = struct.pack("<4sIQQQI", b"ds64", 28, *sizes, 0)
        return struct.pack("<4sI4s", b"RF64", ALL_ONES, b"WAVE") + ds64 + fmt(FORMAT) + (
            self.chunks + struct.pack("<4sI", b"data", ALL_ONES)
        )

    def run(self):
        with open(self.path, "wb", buffering=0) as file:
            head = self.header(False)
            file.write(head[:30])
            time.sleep(0.3)
            file.write(head[30:])
            at = 0
            while at < len(self.samples):
                count = self.chance.randint(1, 20_000)
                file.write(self.samples[at : at + count])
                at += count
                time.sleep(self.pause)
            file.write(self.after)
            file.seek(0)
            file.write(self.header(True))
        if self.end:
            self.end.touch()


def follow(port, name, path, *options):
    return start_with_pipes(*words_of(port, name, path, "--follow", *options))


def holds_samples(folder, name, samples):
    there = samples_of(folder / "takes" / f"{name}.wav")
    same = hashlib.sha256(there).hexdigest() == hashlib.sha256(samples).hexdigest()
    TALLY.holds(f"{name}: the samples", same, f"{len(there)} bytes instead of {len(samples)}")


def case_followed(folder):
    """Sizes that are 0, FFFFFFFFh or those of `ds64` until the end, a chunk after the samples, and END."""
    chance = random.Random(31)
    end = folder / "take.done"
    writers = {
        "zero": {"unsaid": 0},
        "ones": {"unsaid": ALL_ONES},
        "list": {"unsaid": 0, "after": LIST},
        "wide": {"unsaid": 0, "wide": True, "after": LIST},
        "end": {"unsaid": 0, "end": end},
    }
    with serving(folder) as server:
        for name, choices in writers.items():
            samples = chance.randbytes(2 * 150_001)
            path = folder / f"{name}.wav"
            options = ("--until", str(end)) if "end" in choices else ()
            sender = follow(server.port, name, path, *options)
            writer = Writer(path, samples, chunks=bext((b"one", b"two")), seed=name, **choices)
            writer.start()
            status, out, said = finish(sender)
            whole = run(*words_of(server.port, f"{name}-whole", path))
            TALLY.same(name, (status, out, said), (0, whole[1], ""))
            holds_samples(folder, name, samples)


def case_unsaid_size(folder):
    """A writer that never says the size: with END all that was written are samples."""
    samples = random.Random(32).randbytes(2 * 60_000)
    end = written(folder, b"", "end")
    with serving(folder) as server:
        for unsaid in (0, ALL_ONES):
            head = Writer(None, samples, unsaid).header(False)
            path = written(folder, head + samples)
            found = finish(follow(server.port, f"end-{unsaid}", path, "--until", str(end)))
            TALLY.same(f"unsaid {unsaid}", found, (0, settled(requests_of(samples, 2)), ""))
            holds_samples(folder, f"end-{unsaid}", samples)
            path = written(folder, head + samples + b"x")
            status, _out, said = finish(follow(server.port, f"odd-{unsaid}", path, "--until", str(end)))
            place = len(head) + len(samples)
            TALLY.same(f"a part of a frame, {unsaid}", (status, said), (1, f"send: PartFrame at {place}\n"))


def case_complete(folder):
    """A file that is complete already: its samples are sent, and what of it isn't carried is named."""
    samples = random.Random(33).randbytes(2 * 40_000)
    note = b"note" + struct.pack("<I", 4) + b"text"
    with serving(folder) as server:
        path = written(folder, riff(fmt(FORMAT), note, data(samples), LIST))
        found = finish(follow(server.port, "complete", path))
        said = run(*words_of(server.port, "as-it-is", path))[2].splitlines()
        named = [line for line in said if "note" in line]
        TALLY.same("complete", found, (0, settled(requests_of(samples, 2)), "".join(f"{line}\n" for line in named)))
        holds_samples(folder, "complete", samples)


def case_rerun(folder):
    """A sender that is killed while it follows, and one in its place."""
    samples = random.Random(34).randbytes(2 * 200_000)
    path = folder / "take.wav"
    with serving(folder) as server:
        writer = Writer(path, samples, 0, after=LIST, seed=2, pause=0.1)
        writer.start()
        sender = follow(server.port, "again", path)
        arrived = folder / "takes" / "again.wav"
        wait_until(lambda: arrived.exists() and arrived.stat().st_size > 100_000, "too little arrives")
        sender.kill()
        sender.wait()
        found = finish(follow(server.port, "again", path))
        TALLY.same("run again", found, (0, settled(requests_of(samples, 2)), ""))
        holds_samples(folder, "again", samples)


def case_refusals(folder):
    """What is no WAVE file, or none that is taken; and options that need a complete file."""
    end = written(folder, b"", "end")
    refused = {
        "no wave": b"not a WAVE file",
        "8 bits": riff(fmt(FORMAT, bits=8), data(bytes(4))),
        "cut": riff(fmt(FORMAT), data(bytes(4)))[:20],
    }
    with unseen("refusals") as port:
        for name, file in refused.items():
            path = written(folder, file)
            as_it_is = run(*words_of(port, "x", path))
            TALLY.same(f"{name}, as it is", as_it_is[:2], (1, ""))
            TALLY.same(name, finish(follow(port, "x", path, "--until", str(end))), as_it_is)
        for option in (("--state", "s"), ("--strict",), ("--strict-texts",), ("--receipt", "r"), ("--keep-left-out", "k")):
            status, out, _said = finish(follow(port, "x", path, *option))
            TALLY.same(f"with {option[0]}", (status, out), (2, ""))


def case_no_server(folder):
    """It gives up only where --fruitless says so."""
    path = written(folder, riff(fmt(FORMAT), data(bytes(8))))
    found = finish(follow(free_port(), "none", path, "--fruitless", "2"))
    TALLY.same("no server, 2 links", found, (3, settled(0), FRUITLESS))


CASES = [case_followed, case_unsaid_size, case_complete, case_rerun, case_refusals, case_no_server]

if __name__ == "__main__":
    sys.exit(run_cases(CASES, LONGEST_RUN))
