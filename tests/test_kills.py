#!/usr/bin/env python3
"""Kills `serve --journal` again and again while recorders send, and checks that what was answered stands.

    tests/test_kills.py [--kills=N] [--seed=N] [PROGRAM]

Sixteen recorders send takes of all kinds of requests, some of which are refused, half of them through a relay that cuts
its connections. Meanwhile the server is killed N times (40 by default), by SIGKILL or SIGTERM, a quarter of them within
the first milliseconds of a start, and started again over the same folder. Each verdict that a recorder reads is logged.

No verdict may change, no number that has one may be asked for again, and each start must resume each take that has one.
At the end every message is sent again: its verdict must be the one in the log. Verdicts and files must be those of
`replay`, and the file of a take that was closed must have its first contents, time of change and inode.

The program is the first argument, or the one of this repository. Prints what differs, and last 'N passed, M failed'.
"""
import contextlib
import os
import random
import re
import signal
import sys
import threading
import time

sys.dont_write_bytecode = True  # nothing is left beside this script
from kit.network import connect, Fault, free_port, LOCAL, LONGEST_WAIT, Relay, run, run_cases, start, TALLY, WINDOW
from kit.takes import BEXT, BLOCK, BYE_FRAME, CONFLICT, MARK, STORED
from kit.takes import little, message, Take

RECORDERS = 16
TAKES = 15  # of one recorder, so that all have places in a server's table
MOST_BLOCKS = 300
LIMIT = 65_536  # bytes; longer files turn from RIFF to BW64
DATA_PLACE = 690  # of the samples in a file, in bytes
VERDICT, NOTICE = 0x81, 0x82
REFUSED = (bytes([BLOCK, 1]), bytes([BEXT, 4]) + b"today", bytes([MARK]) + bytes(4) + b"\xff" * 4)


def option(name, otherwise):
    """The number of an option `--name=N`."""
    found = [word.partition("=")[2] for word in sys.argv[1:] if word.startswith(f"--{name}=")]
    return int(found[-1]) if found else otherwise


KILLS = option("kills", 40)
SEED = option("seed", 1)
LONGEST_RUN = 180 + 2 * KILLS  # seconds


class Sent:
    """A take as a recorder sends it: its messages, the verdict that each got first, and its file once it is closed."""

    def __init__(self, name, chance):
        length = chance.choice((3, 30, 300, 3_000)) * chance.randint(1, MOST_BLOCKS) // 3 * 3
        block = chance.choice((33, 333, 3_333, 32_768))
        length = min(length, block * MOST_BLOCKS)
        markers = [(number, 0) for number in range(chance.randint(0, 5))]
        self.take = Take(name, length, chance.random(), block, markers)
        requests = self.take.requests()
        for refused in chance.choices(REFUSED, k=4):
            requests.insert(chance.randrange(1, len(requests)), refused)
        self.messages = [message(name, number, request) for number, request in enumerate(requests)]
        self.verdicts = {}
        self.done = 0  # how many numbers have their verdicts, as far as the recorder knows
        self.is_sent = False
        self.closed = None

    def is_done(self):
        return self.done == len(self.messages)

    def log(self, number, code):
        """Notes a verdict that was read; what is wrong with it, if anything."""
        first = self.verdicts.setdefault(number, code)
        while self.done in self.verdicts:
            self.done += 1
        return None if first == code else f"{self.take.name}: number {number} had verdict {first}, now {code}"

    def hear(self, replies):
        """Notes the verdicts of these bytes; what is wrong, if anything."""
        for body in bodies(replies):
            place = 2 + body[1] if body[0] in (VERDICT, NOTICE) else 0
            if not place or body[2:place] != self.take.name.encode():
                yield f"{self.take.name}: the reply {body.hex()}"
                continue
            number, code = int.from_bytes(body[place : place + 4], "little"), body[place + 4]
            following = int.from_bytes(body[place + 5 :], "little")
            if body[0] == VERDICT:
                yield self.log(number, code)
            elif code == CONFLICT or following < self.done:
                yield f"{self.take.name}: number {number} gets notice {code}, next {following}, after {self.done}"


def bodies(replies):
    """The bodies of the whole frames of these bytes."""
    while len(replies) >= 4 and len(replies) >= 4 + (length := int.from_bytes(replies[:4], "little")):
        yield replies[4 : 4 + length]
        replies = replies[4 + length :]


def exchange(port, said):
    """What a server replies to these messages, up to the end of the connection or to where it breaks."""
    heard = b""
    with contextlib.suppress(OSError), connect(port) as peer:
        with contextlib.suppress(OSError):
            peer.sendall(said)
        while piece := peer.recv(65_536):
            heard += piece
    return heard


class Recorder(threading.Thread):
    """Sends take after take, and once it is told to end finishes the one that it sends."""

    def __init__(self, at, port, folder):
        super().__init__(daemon=True)
        self.chance = random.Random(f"{SEED} {at}")
        self.port = port
        self.folder = folder
        self.sent = [Sent(f"field-{at}-{number}", self.chance) for number in range(TAKES)]
        self.faults = []
        self.is_told_to_end = False

    def run(self):
        for sent in self.sent:
            while not sent.is_done():
                sent.is_sent = True
                self.say(sent, self.some_numbers(sent))
            sent.closed = state(self.folder / f"{sent.take.name}.wav")
            if self.is_told_to_end:
                return
        while not self.is_told_to_end:
            sent = self.chance.choice(self.sent)
            self.say(sent, self.some_numbers(sent))

    def some_numbers(self, sent):
        """Some numbers without a verdict, in order, after some that have one."""
        following = range(sent.done, min(sent.done + self.chance.randint(1, WINDOW), len(sent.messages)))
        return [*(self.chance.randrange(sent.done) for _ in range(3) if sent.done), *following]

    def say(self, sent, numbers):
        said = b"".join(sent.messages[number] for number in numbers)
        self.faults += filter(None, sent.hear(exchange(self.port, said + BYE_FRAME)))
        time.sleep(self.chance.uniform(0, 0.02))

    def known(self):
        """The takes that have a verdict, and those of which something was sent."""
        return sum(bool(sent.verdicts) for sent in self.sent), sum(sent.is_sent for sent in self.sent)


def state(path):
    """What must stay of a closed take's file."""
    found = path.stat()
    return path.read_bytes(), found.st_mtime_ns, found.st_ino


class Journaled:
    """A server with a journal; its output is in a file."""

    def __init__(self, folder, place, port, recorders):
        self.recorders = recorders
        self.known = self.counts()[0]
        self.output = place / "output"
        self.faults = place / "faults"
        words = ("serve", "--listen", f"{LOCAL}:{port}", "--folder", str(folder), "--until-stopped", "--journal")
        options = ("--recorders", str(2 * RECORDERS), "--limit", str(LIMIT))
        with self.output.open("wb") as out, self.faults.open("wb") as faults:
            self.process = start(*words, *options, stdout=out, stderr=faults)
        self.first = [f"listening {LOCAL}:{port}"]

    def counts(self):
        """How many takes have a verdict, and of how many something was sent."""
        return tuple(map(sum, zip(*(recorder.known() for recorder in self.recorders))))

    def lines(self):
        return self.output.read_text().splitlines()

    def wait(self):
        """Waits until it listens."""
        until = time.monotonic() + LONGEST_WAIT
        while len(self.lines()) < 2:
            if self.process.poll() is not None or time.monotonic() > until:
                raise Fault(f"the server doesn't listen: {self.process.poll()}, {self.faults.read_text()!r}")
            time.sleep(0.001)

    def stop(self, number):
        """Ends it by a signal; what is wrong with what it printed, if anything."""
        self.process.send_signal(number)
        status = self.process.wait(LONGEST_WAIT)
        first, most = self.lines()[:2], self.counts()[1]
        if (status, self.faults.read_text()) != (-number, ""):
            yield f"a stop: {status}, {self.faults.read_text()!r}"
        if first and not ((count := resumed(first[0])) is not None and self.known <= count <= most):
            yield f"a start: {first[0]!r}, not {self.known} to {most} takes"
        if first[1:] not in ([], self.first):
            yield f"a start: {first[1]!r}"


def resumed(line):
    """How many takes a start has resumed, as its first line says."""
    found = re.fullmatch(r"resumed (\d+) takes", line)
    return found and int(found[1])


def kill_often(folder, place, port, recorders):
    """Kills a server again and again, and leaves one that listens; and what went wrong."""
    chance, faults, early = random.Random(SEED), [], 0
    for _ in range(KILLS):
        server = Journaled(folder, place, port, recorders)
        if chance.random() < 0.25:
            early += 1
            time.sleep(chance.uniform(0, 0.02))
        else:
            server.wait()
            time.sleep(chance.uniform(0, 0.2))
        faults += server.stop(chance.choice((signal.SIGKILL, signal.SIGTERM)))
    TALLY.same(f"{KILLS} kills, {early} of them early", faults, [])
    server = Journaled(folder, place, port, recorders)
    server.wait()
    return server


def finish_takes(recorders):
    """Waits until each take that was begun is closed."""
    until = time.monotonic() + 3 * LONGEST_WAIT
    for recorder in recorders:
        recorder.is_told_to_end = True
    for recorder in recorders:
        recorder.join(max(0, until - time.monotonic()))
        if recorder.is_alive():
            raise Fault("a recorder doesn't end")
        TALLY.same("a recorder", recorder.faults, [])


def repeat_all(port, takes):
    """Every message gets the verdict that is in the log."""
    for sent in takes:
        heard, before = [], dict(sent.verdicts)
        for first in range(0, len(sent.messages), WINDOW):
            said = b"".join(sent.messages[first : first + WINDOW])
            replies = exchange(port, said + BYE_FRAME)
            heard += [body for body in bodies(replies)]
        name = sent.take.name.encode()
        wanted = [verdict_body(name, number, before[number]) for number in range(len(sent.messages))]
        TALLY.same(f"{sent.take.name}: the verdicts again", heard, wanted)


def verdict_body(name, number, code):
    return bytes([VERDICT, len(name)]) + name + little(number, 4) + bytes([code])


def same_as_replayed(takes):
    """Verdicts and files are those of a replay, in which nothing fails."""
    lines = "\n".join(b"".join(sent.messages).hex() for sent in takes)
    status, out, faults = run("replay", "--limit", str(LIMIT), given=lines.encode())
    TALLY.same("the replay", (status, faults), (0, ""))
    replies = bytes.fromhex("".join(re.findall(r"^reply ([0-9a-f]+)$", out, re.MULTILINE)))
    wanted = [
        verdict_body(sent.take.name.encode(), number, sent.verdicts[number])
        for sent in takes
        for number in range(len(sent.messages))
    ]
    TALLY.same("the verdicts of a replay", list(bodies(replies)), wanted)
    files = dict(re.findall(r"^file (\S+) \d+\n([0-9a-f]*)$", out, re.MULTILINE))
    for sent in takes:
        content = bytes.fromhex(files.get(sent.take.name, ""))
        TALLY.same(f"{sent.take.name}: the replayed file", sent.closed[0], content)
        TALLY.same(f"{sent.take.name}: the file", sent.closed[0], sent.take.file(limit=LIMIT))


def same_files(folder, takes):
    """Files of closed takes were never touched again; beside them are journals, and what starts and openings left that
    a kill ended: the file that tries the folder, and files without samples.
    """
    for sent in takes:
        name = sent.take.name
        TALLY.same(f"{name}: the close", sent.verdicts[len(sent.messages) - 1], STORED)
        is_same = state(folder / f"{name}.wav") == sent.closed
        TALLY.holds(f"{name}: its file", is_same, "has changed after its close")
    wanted = {f"{sent.take.name}.{kind}" for sent in takes for kind in ("wav", "journal")}
    others = {name: (folder / name).stat().st_size for name in {*os.listdir(folder)} - wanted}
    names = re.compile(r"\.bwingest|\.bwingest-lock|[a-z0-9-]+\.torn[0-9]*")
    is_so = wanted <= {*os.listdir(folder)} and all(names.fullmatch(name) for name in others)
    TALLY.holds("what the folder has", is_so, f"{others}")
    TALLY.holds("files set aside", all(size <= DATA_PLACE for size in others.values()), f"{others}")


def case_kills(place):
    folder = place / "takes"
    folder.mkdir()
    port = free_port()
    relay = Relay(port, SEED, at_once=True)
    recorders = [Recorder(at, (port, relay.port)[at % 2], folder) for at in range(RECORDERS)]
    for recorder in recorders:
        recorder.start()
    server = kill_often(folder, place, port, recorders)
    finish_takes(recorders)
    relay.stop()
    TALLY.same("a stop at the end", list(server.stop(signal.SIGTERM)), [])
    takes = [sent for recorder in recorders for sent in recorder.sent if sent.is_sent]
    server = Journaled(folder, place, port, recorders)
    server.wait()
    TALLY.same("the last start", resumed(server.lines()[0]), len(takes))
    repeat_all(port, takes)
    TALLY.same("the last stop", list(server.stop(signal.SIGKILL)), [])
    same_files(folder, takes)
    for first in range(0, len(takes), RECORDERS):
        same_as_replayed(takes[first : first + RECORDERS])
    count = sum(len(sent.messages) for sent in takes)
    print(f"{KILLS} kills, {len(takes)} takes, {count} numbers", flush=True)


sys.exit(run_cases([case_kills], LONGEST_RUN))
