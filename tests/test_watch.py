#!/usr/bin/env python3
"""Runs `takes --watch` over folders of servers: into a pipe, and on terminals of several sizes.

What a terminal shows is what the one of terminals.py makes of the bytes: nothing scrolls, and no line takes two. Each
screen is compared with what docs/FORMATS.md says. The program is the first argument, or the one of this repository.
Prints what differs, and last 'N passed, M failed'.
"""
import os
import signal
import subprocess
import sys
import time

sys.dont_write_bytecode = True  # nothing is left beside this script
from kit.folders import folder_in, journaled, left_by, line_of, says, seconds, small_take, state
from kit.hints import USAGE
from kit.network import LONGEST_WAIT, run, run_cases, start, TALLY
from kit.takes import Take
from kit.terminals import Glass, open_terminal, pieces_of

LONGEST_RUN = 120  # seconds, for all of it
HEADING = "STATE         RECORDED    GROWTH     UNCHANGED  NAME"
PIPE = subprocess.PIPE


class SlowTake(Take):
    RATE = 1


class Screens:
    """A watch of a folder on a terminal of so many rows and columns."""

    def __init__(self, folder, rows=24, columns=80):
        self.terminal, end = open_terminal(rows, columns)
        self.process = start("takes", "--folder", str(folder), "--watch", stdin=end, stdout=end, stderr=end)
        os.close(end)
        self.glass = Glass(rows, columns)
        self.glass.lines[0] = "$ bwingest takes --folder takes --watch".ljust(columns)[:columns]
        self.glass.row = min(1, rows - 1)

    def read(self, limit):
        """Reads for so many seconds, or until the terminal is closed."""
        for text in pieces_of(self.terminal, limit):
            self.glass.feed(text)

    def until(self, screens):
        """Reads until so many screens are whole; the next one comes a second after the last."""
        end = time.monotonic() + LONGEST_WAIT
        while self.glass.screens < screens and time.monotonic() < end:
            self.read(0.05)
        self.read(0.2)

    def stop(self, number):
        self.process.send_signal(number)
        self.process.wait(LONGEST_WAIT)
        self.read(0.2)
        os.close(self.terminal)
        return self.process.returncode


def clock(frames, rate):
    whole = frames // rate
    return f"{whole // 3600}:{whole // 60 % 60:02}:{whole % 60:02}"


def row(take, count, growth, age):
    """The line of a take of which so many numbers are done; `growth` is in frames, or None on its first screen."""
    _, word, _, frames, *_ = line_of(take, count).split(" ")
    grown = "-" if growth is None else seconds(growth, take.RATE) + " s"
    return f"{word:12}  {clock(int(frames), take.RATE):10}  {grown:9}  {f'{age} s':9}  {take.name}"


def plain_row(word, age, name):
    return f"{word:12}  {'-':10}  {'-':9}  {f'{age} s':9}  {name}"


def frames_of(take, count):
    return int(line_of(take, count).split(" ")[3])


def screen(opened, rows):
    return [f"{opened} open, {len(rows)} in all", HEADING, *rows]


# Into a pipe


def case_pipe(place):
    """Each second the lines of a screen, and an empty line: how far each take is, and by how much it grew."""
    folder = folder_in(place)
    growing, still = small_take("b2"), small_take("a1")
    server = journaled(folder, 0)
    says("b2: the server", server, growing, range(5))
    says("a1: the server", server, still, range(len(still.messages())))
    process = start("takes", "--folder", str(folder), "--watch", stdout=PIPE, stderr=PIPE)
    shown = screen_lines(process)
    says("b2: the next block", server, growing, [5])
    shown += screen_lines(process) + screen_lines(process)
    process.kill()
    _, faults = process.communicate()
    grown = frames_of(growing, 6) - frames_of(growing, 5)
    whole = len(still.messages())
    wanted = [
        *screen(1, [row(growing, 5, None, 0), row(still, whole, None, 0)]),
        "",
        *screen(1, [row(growing, 6, grown, 0), row(still, whole, 0, 1)]),
        "",
        *screen(1, [row(growing, 6, 0, 1), row(still, whole, 0, 2)]),
        "",
    ]
    TALLY.same("three screens", (shown, faults), (wanted, b""))
    server.stop(signal.SIGKILL)


def screen_lines(process):
    """The lines of the next screen in a pipe, up to the empty one that ends it."""
    lines = [process.stdout.readline().decode()]
    while lines[-1] not in ("\n", ""):
        lines.append(process.stdout.readline().decode())
    return [line.removesuffix("\n") for line in lines]


def case_long(place):
    """Hours are recorded: 45,296 frames, one a second."""
    take = SlowTake("slow", 3 * 45_296, 7)
    folder = left_by(folder_in(place), [(take, len(take.messages()) - 1)])
    process = start("takes", "--folder", str(folder), "--watch", stdout=PIPE, stderr=PIPE)
    shown = [process.stdout.readline().decode().split() for _ in range(3)]
    process.kill()
    process.communicate()
    TALLY.same("half a day", shown[2], ["open", "12:34:56", "-", "0", "s", "slow"])


def case_closed_pipe(place):
    """A reader that goes away ends it, and so does a full disk."""
    folder = folder_in(place)
    process = start("takes", "--folder", str(folder), "--watch", stdout=PIPE, stderr=PIPE)
    TALLY.same("its first line", process.stdout.readline(), b"0 open, 0 in all\n")
    process.stdout.close()
    faults = process.stderr.read()
    TALLY.same("a closed pipe", (process.wait(LONGEST_WAIT), faults), (3, b"the output can't be written\n"))
    with open("/dev/full", "wb") as full:
        process = start("takes", "--folder", str(folder), "--watch", stdout=full, stderr=PIPE)
        _, faults = process.communicate(timeout=LONGEST_WAIT)
    TALLY.same("a full disk", (process.returncode, faults), (3, b"the output can't be written\n"))


# On terminals


def case_terminal(place):
    """A screen stands in the place of the one before, and of what stood there: takes that come, grow, and go."""
    folder = folder_in(place)
    take = small_take("b2")
    server = journaled(folder, 0)
    says("b2: the server", server, take, range(5))
    server.stop(signal.SIGKILL)
    (folder / "a1.wav").write_bytes(b"")
    before = state(folder)
    screens = Screens(folder)
    screens.until(2)
    first = screen(1, [row(take, 5, 0, 1), plain_row("stood", 1, "a1")])
    TALLY.same("two takes", screens.glass.shown(), first + [""] * (24 - len(first)))
    TALLY.same("the folder", state(folder), before)
    (folder / "b2.wav").unlink()
    (folder / "a1.wav").unlink()
    screens.until(screens.glass.screens + 2)
    shown = [line.split() for line in screens.glass.shown()]
    wanted = ["0 open, 1 in all".split(), ["LostFile"], ["b2"]]
    TALLY.same("one take", [shown[0], shown[2][:1], shown[2][-1:]], wanted)
    TALLY.same("nothing below", shown[3:], [[]] * 21)
    TALLY.same("Ctrl-C", (screens.stop(signal.SIGINT), screens.glass.wraps), (-signal.SIGINT, True))
    TALLY.same("lines that scrolled away", screens.glass.scrolled, 0)


def case_empty(place):
    screens = Screens(folder_in(place))
    screens.until(1)
    TALLY.same("an empty folder", screens.glass.shown()[:3], ["0 open, 0 in all", HEADING, ""])
    screens.stop(signal.SIGINT)


def case_small(place):
    """Of 200 takes on a small terminal the open ones are seen; no line takes two, and nothing scrolls."""
    take = small_take("z" * 32)
    folder = left_by(folder_in(place), [(take, 5)])
    for number in range(199):
        (folder / f"n{number:03}.wav").write_bytes(b"")
    for rows, columns in ((10, 40), (24, 80), (3, 10), (1, 1)):
        screens = Screens(folder, rows, columns)
        screens.until(3)
        rest = [plain_row("stood", 2, f"n{number:03}") for number in range(199)]
        wanted = screen(1, [row(take, 5, 0, 2), *rest])[: rows - 1]
        name = f"{rows} rows of {columns}"
        # The last column shows the last character of a line that is cut.
        seen = [line[: columns - 1].rstrip() for line in screens.glass.shown()]
        TALLY.same(name, seen, [*(line[: columns - 1].rstrip() for line in wanted), ""])
        TALLY.same(f"{name}: lines that scrolled away", screens.glass.scrolled, 0)
        screens.stop(signal.SIGINT)


# How it ends


def case_folder_goes(place):
    """A folder that isn't there, and one that goes away, end it, and a terminal shows why below the screen."""
    missing = place / "missing"
    TALLY.same("no folder", run("takes", "--folder", str(missing), "--watch"), (3, "", f"{missing} can't be read\n"))
    folder = folder_in(place)
    screens = Screens(folder, columns=200)
    screens.until(1)
    folder.rename(place / "elsewhere")
    screens.process.wait(LONGEST_WAIT)
    screens.read(0.2)
    wanted = ["0 open, 0 in all", HEADING, f"{folder} can't be read"]
    TALLY.same("a folder that goes", (screens.process.returncode, screens.glass.shown()[:3]), (3, wanted))


def case_words(place):
    """It goes with no option but the folder."""
    folder = folder_in(place)
    wanted = "error: '--watch' can't be given beside '--check', '--json', '--digest' and '--give-up <NAME>'\n" + USAGE
    for option in ("--check", "--json", "--digest", "--give-up=a1"):
        TALLY.same(option, run("takes", "--folder", str(folder), "--watch", option), (2, "", wanted))


cases = [value for name, value in list(globals().items()) if name.startswith("case_")]
sys.exit(run_cases(cases, LONGEST_RUN))
