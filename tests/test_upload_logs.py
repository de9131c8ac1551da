#!/usr/bin/env python3
"""Runs `send --log` of recordings whose upload lasts for minutes, by a clock that is faster than the real one.

Each minute has one line that says how far it is, as the line on a terminal does, between the lines of the links. The
program is the first argument, or the one of this repository. Prints what differs, and last 'N passed, M failed'.
"""
import random
import subprocess
import sys
import threading
import time

sys.dont_write_bytecode = True  # nothing is left beside this script
from kit.clocks import Hurried
from kit.hints import OUTAGES
from kit.network import Fault, free_port, LOCAL, LONGEST_WAIT, PROGRAM, run_cases, STARTED, TALLY
from kit.recordings import data, fmt, Recording, riff
from kit.uploads import folder_in, LINE, seconds_of, serve_again, serving, settled, words_of, written

LONGEST_RUN = 120  # seconds, for all of it
FACTOR = 60  # so many seconds pass in one: a minute is a second
MINUTE = 60 / FACTOR
PIPE = subprocess.PIPE
RATE = 100  # frames a second
LINKS = ("link made", "link missed", "link waits ", "link left with settled ")


class Sender:
    """A sender with a log, whose lines are read all the time, each with the seconds since its start."""

    def __init__(self, *words, given=subprocess.DEVNULL):
        self.begun = time.monotonic()
        self.process = Hurried([PROGRAM, *words, "--log"], FACTOR, stdin=given, stdout=PIPE, stderr=PIPE)
        STARTED.append(self.process)
        self.lines = []
        self.reader = threading.Thread(target=self.read, daemon=True)
        self.reader.start()

    def read(self):
        for line in self.process.stderr:
            self.lines.append((time.monotonic() - self.begun, line.decode(errors="replace")))

    def end(self):
        """Waits until it ends; its status, and what it printed."""
        out = self.process.stdout.read().decode(errors="replace")
        status = self.process.wait(LONGEST_WAIT)
        self.lasted = time.monotonic() - self.begun
        self.reader.join(LONGEST_WAIT)
        return status, out


def parts_of(name, sender):
    """The lines of its progress, as the words that they are made of, each with its time. Any other line is one that the
    log has anyway."""
    parts = []
    for at, line in sender.lines:
        if match := LINE.fullmatch(line.removesuffix("\n")):
            parts.append((at, match))
        else:
            TALLY.holds(f"{name}: a line", line in OUTAGES or line.startswith(LINKS), repr(line))
        TALLY.holds(f"{name}: a whole line", line.endswith("\n"), repr(line))
    if not parts:
        raise Fault(f"{name}: no line says how far it is")
    return parts


def one_a_minute(name, sender, parts):
    """The first a minute after the start, and no two in one; what a reader sees may come late, but not early."""
    for number, (at, _match) in enumerate(parts, 1):
        TALLY.holds(f"{name}: line {number}", at >= number * MINUTE, f"after {at / MINUTE} minutes")
    minutes = int(sender.lasted / MINUTE)
    TALLY.holds(f"{name}: lines", minutes - 2 <= len(parts) <= minutes, f"{len(parts)} in {minutes} minutes")


def never_falls(name, numbers):
    TALLY.holds(f"{name}: never falls", all(a <= b for a, b in zip(numbers, numbers[1:])), numbers)


def case_live(folder):
    """A recording that is still written: each minute the time that is stored, no longer than what was written."""
    samples = random.Random(31).randbytes(2 * 50_000)
    path, end = folder / "take.raw", folder / "take.done"
    with serving(folder) as server:
        words = words_of(server.port, "live", path, "--no-defaults", "--pcm", f"{RATE},1,16", "--block", "1000")
        sender = Sender(*words, "--follow", "--until", str(end))
        with open(path, "ab", buffering=0) as file:
            for at in range(0, len(samples), 2_000):
                file.write(samples[at : at + 2_000])
                time.sleep(0.08)
        end.touch()
        TALLY.same("live: the end", sender.end(), (0, settled(52)))
    parts = parts_of("live", sender)
    one_a_minute("live", sender, parts)
    TALLY.holds("live: several minutes", len(parts) >= 3, parts)
    times = [seconds_of(match["so_far"]) for _, match in parts]
    never_falls("live", times)
    TALLY.holds("live: it grows", 0 < times[0] < times[-1] <= len(samples) // 2 // RATE, times)
    for _, match in parts:
        TALLY.same("live: the name and the link", (match["name"], match["down"]), ("live", None))


def case_link_down(folder):
    """Nobody listens for minutes: each has a line that says since when. Once a server is there, all is sent."""
    recording = Recording(rate=RATE, samples=bytes(2 * 1_000))
    port, takes = free_port(), folder_in(folder)
    path = written(folder, riff(fmt(recording), data(recording.samples)))
    sender = Sender(*words_of(port, "down", path, "--fruitless", "1000"))
    time.sleep(3.5 * MINUTE)
    server = serve_again(port, takes)
    TALLY.same("no link: the end", sender.end(), (0, settled(3)))
    server.terminate()
    server.wait(LONGEST_WAIT)
    parts = parts_of("no link", sender)
    one_a_minute("no link", sender, parts)
    for _, match in parts[:3]:
        TALLY.same("no link: nothing is done", match.group()[:27], "down 0% 0:00:00/0:00:10 0.0")
    down = [int(match["down"]) for _, match in parts[:3]]
    TALLY.holds("no link: since when", all(60 * at <= it for at, it in enumerate(down, 1)), down)
    TALLY.same("no link: at the end", sender.lines[-1][1], "link left with settled 3: Done\n")


def case_standard_input(folder):
    """Standard input that goes into a spool: a wait for it shows the line too."""
    samples = bytes(range(200)) * 10
    with serving(folder) as server:
        words = ("send", "--connect", f"{LOCAL}:{server.port}", "--name", "spooled", "--no-defaults", "--pcm", f"{RATE},1,16")
        sender = Sender(*words, "--spool", str(folder / "spool.raw"), "--block", "100", given=PIPE)
        sender.process.stdin.write(samples)
        sender.process.stdin.flush()
        time.sleep(2.5 * MINUTE)
        sender.process.stdin.close()
        TALLY.same("standard input: the end", sender.end(), (0, settled(12)))
    parts = parts_of("standard input", sender)
    one_a_minute("standard input", sender, parts)
    TALLY.holds("standard input: while it waits", len(parts) >= 2, parts)


cases = [value for name, value in list(globals().items()) if name.startswith("case_")]
sys.exit(run_cases(cases, LONGEST_RUN))
