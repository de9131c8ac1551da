#!/usr/bin/env python3
"""Runs `send --pcm --spool` of the built program on headerless samples that it reads from its standard input.

What arrives is compared with the samples by their SHA-256, and the spool with what was written into the input. Whoever
writes it must never wait for the link: it is timed while there is no server, while one doesn't answer, and while a
connection can't be made. Where nothing more is sent, all that is written has to be in the spool. A disk is filled where
this script may mount one. The program is the first argument, or the one of this repository. Prints what differs, and
last 'N passed, M failed'.
"""
import contextlib
import dataclasses
import datetime
import hashlib
import os
import random
import re
import socket
import subprocess
import sys
import threading
import time

sys.dont_write_bytecode = True  # nothing is left beside this script
from kit.hints import FRUITLESS, OUTAGES, without_outages
from kit.network import finish, free_port, LOCAL, LONGEST_WAIT, run, run_cases, start, start_with_pipes, TALLY
from kit.network import wait_until
from kit.takes import LONGEST_BLOCK
from kit import uploads
from kit.uploads import Fields, fields_of, samples_of, serve_again, serving, settled

LONGEST_RUN = 170  # seconds, for all of it
PIPE = 65_536  # bytes that a pipe holds
SOON = 2.0  # seconds in which an input is taken that needn't wait
DOWN = 10.0  # seconds for which there is no server
KEEPS = "send: the input is kept in the spool until it ends"


def words_of(port, name, spool, pcm, *options):
    return ("send", "--connect", f"{LOCAL}:{port}", "--name", name, "--spool", str(spool), "--pcm", pcm, *options)


def requests_of(samples, align):
    """How many requests bring samples, with the five fields that are filled."""
    return uploads.requests_of(samples, align) + 5


def samples_in(folder, name):
    return samples_of(folder / "takes" / f"{name}.wav")


def digest(samples):
    return hashlib.sha256(samples).hexdigest()


def holds_line(spool, count):
    """What is said of a spool that isn't sent on."""
    return (
        f"send: {spool} holds {count} bytes; run this with '--file' in the place of '--spool' to send them,"
        " with another '--name' if this one was refused"
    )


class Writer(threading.Thread):
    """Writes a recording into a sender's input in pieces of any length. `longest` is the longest time of a write."""

    def __init__(self, sender, samples, seed, pause, closes=True):
        super().__init__(daemon=True)
        self.sender, self.samples, self.pause, self.closes = sender, samples, pause, closes
        self.chance = random.Random(seed)
        self.longest, self.written = 0.0, 0

    def run(self):
        with contextlib.suppress(BrokenPipeError):
            while self.written < len(self.samples):
                count = self.chance.randint(1, 40_000)
                begun = time.monotonic()
                self.sender.stdin.write(self.samples[self.written : self.written + count])
                self.sender.stdin.flush()
                self.longest = max(self.longest, time.monotonic() - begun)
                self.written = min(len(self.samples), self.written + count)
                time.sleep(self.pause)
        if self.closes:
            with contextlib.suppress(BrokenPipeError):
                self.sender.stdin.close()


def finish_written(sender):
    """Waits until a sender ends whose input somebody else writes; status, standard output and standard error."""
    out, faults = sender.stdout.read(), sender.stderr.read()
    return sender.wait(LONGEST_WAIT), out.decode(errors="replace"), without_outages(faults.decode(errors="replace"))


def is_whole(name, folder, spool, samples, align, found):
    """All of it was sent, and the spool holds it."""
    TALLY.same(name, found, (0, settled(requests_of(samples, align)), ""))
    TALLY.same(f"{name}: the samples", digest(samples_in(folder, name)), digest(samples))
    TALLY.same(f"{name}: the spool", digest(spool.read_bytes()), digest(samples))


def case_slow_writer(folder):
    """Input that comes slowly, in pieces that end inside frames; no input at all; some bytes before the samples."""
    samples = random.Random(31).randbytes(6 * 60_007)
    with serving(folder) as server:
        spool = folder / "slow.raw"
        sender = start_with_pipes(*words_of(server.port, "slow", spool, "48000,2,24"))
        Writer(sender, samples, 32, 0.05).start()
        is_whole("slow", folder, spool, samples, 6, finish_written(sender))
        found = run(*words_of(server.port, "none", folder / "none.raw", "48000,1,16"))
        TALLY.same("no input", found, (1, settled(0), "send: Empty at 0\n"))
        words = words_of(server.port, "skip", folder / "skip.raw", "48000,1,16", "--skip", "44")
        found = run(*words, given=bytes(44) + samples)
        TALLY.same("bytes before the samples", found, (0, settled(requests_of(samples, 2)), ""))
        TALLY.same("bytes before the samples", digest(samples_in(folder, "skip")), digest(samples))


def case_file_as_input(folder):
    """Input that is a file on a disk, which the system reports no waiting for; and none at all."""
    samples = random.Random(33).randbytes(4 * 500_000)
    source, spool = folder / "source.raw", folder / "spool.raw"
    source.write_bytes(samples)
    with serving(folder) as server:
        pipe = subprocess.PIPE
        with source.open("rb") as given:
            sender = start(*words_of(server.port, "file", spool, "48000,2,16"), stdin=given, stdout=pipe, stderr=pipe)
        is_whole("file", folder, spool, samples, 4, finish(sender))
        words = words_of(server.port, "null", folder / "null.raw", "48000,2,16")
        sender = start(*words, stdin=subprocess.DEVNULL, stdout=pipe, stderr=pipe)
        TALLY.same("input from /dev/null", finish(sender), (1, settled(0), "send: Empty at 0\n"))


def case_link_down(folder):
    """While there is no server, and while one is stopped and another comes, the writer doesn't wait."""
    samples = random.Random(34).randbytes(2 * 1_500_000)
    spool, takes = folder / "down.raw", folder / "takes"
    takes.mkdir()
    port = free_port()
    sender = start_with_pipes(*words_of(port, "down", spool, "48000,1,16", "--timeout", "5"))
    writer = Writer(sender, samples, 35, 0.1)
    writer.start()
    time.sleep(DOWN)
    TALLY.holds("link down", spool.stat().st_size + PIPE + 40_000 >= writer.written, "the input isn't in the spool")
    server = serve_again(port, takes)
    time.sleep(1.0)
    server.kill()
    server.wait(LONGEST_WAIT)
    time.sleep(1.0)
    server = serve_again(port, takes)
    found = finish_written(sender)
    server.terminate()
    server.wait(LONGEST_WAIT)
    is_whole("down", folder, spool, samples, 2, found)
    TALLY.holds("link down: the writer", writer.longest < SOON, f"it waited {writer.longest:.1f} seconds")


def takes_at_once(name, port, folder):
    """A sender that has no way to send takes an input of some megabytes at once."""
    samples = random.Random(36).randbytes(4_000_000)
    spool = folder / f"{name}.raw"
    sender = start_with_pipes(*words_of(port, name, spool, "48000,1,16"))
    wait_until(spool.exists, "no spool is made")
    writer = Writer(sender, samples, 37, 0.0)
    writer.start()
    writer.join(LONGEST_WAIT)
    TALLY.holds(f"{name}: the writer", writer.longest < SOON, f"it waited {writer.longest:.1f} seconds")
    wait_until(lambda: spool.stat().st_size >= len(samples), f"{name}: the spool doesn't grow")
    TALLY.same(f"{name}: the spool", digest(spool.read_bytes()), digest(samples))
    sender.kill()
    sender.wait()


def case_no_answer(folder):
    """Servers that can't be reached, or don't answer: the writer doesn't wait for them."""
    with socket.create_server((LOCAL, 0), backlog=0) as listener:
        port = listener.getsockname()[1]
        held = []
        for _peer in range(4):  # more than wait to be accepted, so that the next connection isn't made
            one = socket.socket()
            one.setblocking(False)
            with contextlib.suppress(BlockingIOError):
                one.connect((LOCAL, port))
            held.append(one)
        takes_at_once("unmade", port, folder)
        for one in held:
            one.close()
    with socket.create_server((LOCAL, 0)) as listener:
        takes_at_once("unread", listener.getsockname()[1], folder)


def case_rerun(folder):
    """A sender that is killed: its spool holds a prefix of what was written, and the same call goes on with it."""
    samples = random.Random(38).randbytes(4 * 120_000)
    spool = folder / "again.raw"
    with serving(folder) as server:
        words = words_of(server.port, "again", spool, "48000,2,16")
        sender = start_with_pipes(*words)
        Writer(sender, samples, 39, 0.06, closes=False).start()
        wait_until(lambda: spool.exists() and spool.stat().st_size > 100_000, "the spool doesn't grow")
        sender.kill()
        sender.wait()
        kept = spool.read_bytes()
        TALLY.holds("killed", 0 < len(kept) < len(samples) and samples.startswith(kept), f"{len(kept)} bytes")
        part = len(kept) % 4
        if part:
            found = run(*words, given=samples)
            TALLY.same("killed inside a frame", found, (1, "", f"send: PartFrame at {len(kept) - part}\n"))
            TALLY.same("killed inside a frame: the spool", spool.read_bytes(), kept)
            os.truncate(spool, len(kept) - part)
        whole = spool.read_bytes() + samples
        is_whole("again", folder, spool, whole, 4, run(*words, given=samples))
        found = run(*words)
        TALLY.same("sent again", found, (0, settled(requests_of(whole, 4)), ""))


def case_part_of_a_frame(folder):
    """Input that ends inside a frame; a spool that does isn't appended to."""
    samples = random.Random(40).randbytes(6 * 9_000)
    spool = folder / "odd.raw"
    with serving(folder) as server:
        words = words_of(server.port, "odd", spool, "48000,2,24")
        status, out, said = run(*words, given=samples + bytes(5))
        lines = [f"send: PartFrame at {len(samples)}", holds_line(spool, len(samples) + 5)]
        # all whole frames are sent before that is said: all but CLOSE
        TALLY.same("a part of a frame", (status, out), (1, settled(requests_of(samples, 6) - 1)))
        TALLY.same("a part of a frame: said", said.splitlines(), lines)
        TALLY.same("a part of a frame: the spool", spool.read_bytes(), samples + bytes(5))
        found = run(*words, given=samples)
        TALLY.same("after a part of a frame", found, (1, "", f"send: PartFrame at {len(samples)}\n"))
        TALLY.same("after a part of a frame: the spool", spool.read_bytes(), samples + bytes(5))


def case_no_samples(folder):
    """An input without a frame begins no take; the same command then sends samples under the same name."""
    spool = folder / "none.raw"
    samples = random.Random(43).randbytes(4 * 20_000)
    with serving(folder) as server:
        words = words_of(server.port, "none", spool, "48000,2,16")
        TALLY.same("no samples", run(*words), (1, settled(0), "send: Empty at 0\n"))
        TALLY.same("no samples: the spool", spool.read_bytes(), b"")
        left = [file.name for file in (folder / "takes").iterdir() if file.name.startswith("none")]
        TALLY.same("no samples: the takes", left, [])
        is_whole("none", folder, spool, samples, 4, run(*words, given=samples))
        spool = folder / "few.raw"
        found = run(*words_of(server.port, "few", spool, "48000,2,16"), given=bytes(3))
        said = f"send: PartFrame at 0\n{holds_line(spool, 3)}\n"
        TALLY.same("a part of a frame alone", found, (1, settled(0), said))
        left = [file.name for file in (folder / "takes").iterdir() if file.name.startswith("few")]
        TALLY.same("a part of a frame alone: the takes", left, [])


def case_refusals(folder):
    """A spool that can't be made, or is none."""
    pipe = folder / "pipe.raw"
    os.mkfifo(pipe)
    for odd, said in ((pipe, "a pipe"), ("/dev/null", "a device")):
        found = run(*words_of(free_port(), "x", odd, "48000,1,16"), given=bytes(8))
        TALLY.same(f"{odd} as a spool", found, (3, "", f"{odd} is {said}\n"))
    port = free_port()
    none = folder / "none" / "x.raw"
    status, out, said = run(*words_of(port, "x", none, "48000,1,16"), given=bytes(8))
    is_named = status == 3 and out == "" and said.startswith(f"{none} can't be opened")
    TALLY.holds("no folder", is_named, f"{status}, {said!r}")
    status, _out, said = run(*words_of(port, "x", folder, "48000,1,16"), given=bytes(8))
    TALLY.holds("a folder", status == 3 and said.startswith(f"{folder} can't be opened"), f"{status}, {said!r}")
    for options in (("--file=x",), ("--follow", "--until=x"), ("--state=x",)):
        status, _out, said = run(*words_of(port, "x", folder / "x", "48000,1,16", *options))
        TALLY.holds(f"{options}", status == 2 and said.startswith("error: '--pcm' is for"), f"{status}, {said!r}")
    TALLY.holds("usage", not (folder / "x").exists(), "a spool was made")


def next_line(sender):
    """The next line on a sender's standard error but for hints, and why nothing goes."""
    for line in sender.stderr:
        if line.decode() not in OUTAGES and not line.startswith(b"hint: "):
            return line.decode()
    return ""


def keeps_all(name, folder, port, take, first, status, *options):
    """A sender that can't send on says why while its input goes on, and keeps all of that; what it says to run is right."""
    samples = random.Random(43).randbytes(2 * 200_000)
    spool = folder / f"{name}.raw"
    sender = start_with_pipes(*words_of(port, take, spool, "48000,1,16", *options))
    writer = Writer(sender, samples, 44, 0.25)  # some five seconds
    writer.start()
    said = [next_line(sender), next_line(sender)]
    is_early = writer.written < len(samples) // 2
    TALLY.same(f"{name}: said at once", said, [first, f"{KEEPS}\n"])
    TALLY.holds(f"{name}: said at once", is_early, f"after {writer.written} bytes")
    writer.join(LONGEST_WAIT)
    found = finish_written(sender)
    TALLY.same(f"{name}: ends", (found[0], found[2]), (status, holds_line(spool, len(samples)) + "\n"))
    TALLY.same(f"{name}: the spool", digest(spool.read_bytes()), digest(samples))
    return spool, samples


def case_refused_name(folder):
    """While the server refuses, the whole input is kept, and can be sent under another name."""
    with serving(folder) as server:
        other = random.Random(45).randbytes(2 * 60_000)
        words = words_of(server.port, "taken", folder / "other.raw", "48000,1,16", "--no-defaults")
        TALLY.same("taken", run(*words, given=other)[0], 0)
        first = "Conflict: another request was sent under number 1\n"
        spool, samples = keeps_all("conflict", folder, server.port, "taken", first, 1, "--no-defaults")
        words = ["--file" if word == "--spool" else word for word in words_of(server.port, "free", spool, "48000,1,16")]
        # of a file that is bound to another name only the originator is filled
        TALLY.same("sent under another name", run(*words), (0, settled(uploads.requests_of(samples, 2) + 1), ""))
        TALLY.same("sent under another name", digest(samples_in(folder, "free")), digest(samples))


def case_given_up(folder):
    """A sender that gives up keeps the whole input too; so it is with a server that never answers."""
    keeps_all("fruitless", folder, free_port(), "x", FRUITLESS, 3, "--fruitless", "2")
    with socket.create_server((LOCAL, 0)) as listener:
        port = listener.getsockname()[1]
        keeps_all("silent", folder, port, "x", FRUITLESS, 3, "--fruitless", "1", "--timeout", "1")


def case_one_sender(folder):
    """A spool is used by one sender at a time."""
    samples = random.Random(46).randbytes(2 * 50_000)
    with serving(folder) as server:
        spool = folder / "one.raw"
        words = words_of(server.port, "one", spool, "48000,1,16")
        sender = start_with_pipes(*words)
        sender.stdin.write(samples)
        sender.stdin.flush()
        wait_until(lambda: spool.exists() and spool.stat().st_size == len(samples), "the spool doesn't grow")
        found = run(*words, given=bytes(1_000))
        TALLY.same("a second sender", found, (3, "", f"{spool} can't be opened: another sender uses it\n"))
        sender.stdin.close()
        is_whole("one", folder, spool, samples, 2, finish_written(sender))


def case_other_use(folder):
    """A spool goes on for the name and the format that it was begun for, and isn't used for others."""
    samples = random.Random(47).randbytes(4 * 30_000)
    with serving(folder) as server:
        spool, side = folder / "bound.raw", folder / "bound.raw.for"
        words = words_of(server.port, "bound", spool, "48000,2,16")
        is_whole("bound", folder, spool, samples, 4, run(*words, given=samples))
        line = side.read_text().rstrip("\n")
        is_line = re.fullmatch(r"name=bound began=\d{13} pcm=48000,2,16 skip=0", line)
        TALLY.holds("bound: the line", is_line, line)
        refused = (3, "", f"{spool} can't be opened: it was begun for {line}\n")
        for name, pcm, options in (
            ("other", "48000,2,16", ()),
            ("bound", "44100,2,16", ()),
            ("bound", "48000,1,16", ()),
            ("bound", "48000,2,24", ()),
            ("bound", "48000,2,16", ("--skip", "4")),
            ("bound", "48000,2,16", ("--no-defaults",)),
        ):
            found = run(*words_of(server.port, name, spool, pcm, *options), given=bytes(4_000))
            TALLY.same(f"bound, used for {name} {pcm} {options}", found, refused)
        TALLY.same("bound: as it was", digest(spool.read_bytes()), digest(samples))
        TALLY.same("bound: the line", side.read_text(), f"{line}\n")
        found = run(*words)
        TALLY.same("bound: goes on", found, (0, settled(requests_of(samples, 4)), ""))
        # one that holds nothing may be used for anything
        os.truncate(spool, 0)
        found = run(*words_of(server.port, "anew", spool, "44100,1,16"), given=samples)
        is_whole("anew", folder, spool, samples, 2, found)
        is_line = re.fullmatch(r"name=anew began=\d{13} pcm=44100,1,16 skip=0\n", side.read_text())
        TALLY.holds("anew", is_line, side.read_text())


def case_earlier_release(folder):
    """A spool of an earlier release, with a line that says no moment or without a line, goes on without fields."""
    samples = random.Random(49).randbytes(4 * 30_000)
    plain = (0, settled(uploads.requests_of(samples, 4)), "")
    with serving(folder) as server:
        spool, side = folder / "early.raw", folder / "early.raw.for"
        words = words_of(server.port, "early", spool, "48000,2,16")
        TALLY.same("no defaults", run(*words, "--no-defaults", given=samples), plain)
        line = "name=early pcm=48000,2,16 skip=0\n"
        TALLY.same("no defaults: the line", side.read_text(), line)
        TALLY.same("no defaults", fields_of(folder / "takes" / "early.wav"), Fields("", "", "", "", "", 0, ""))
        TALLY.same("an earlier release's line", run(*words), plain)
        side.unlink()
        TALLY.same("without a line", run(*words), plain)
        TALLY.same("without a line", side.read_text(), line)


def wanted_fields(side, name, rate, history):
    """The fields of a take whose spool keeps this moment, in UTC."""
    began = int(re.search(r" began=(\d+) ", side.read_text())[1])
    moment = datetime.datetime.fromtimestamp(began // 1_000, datetime.timezone.utc)
    reference = f"{moment:%Y%m%d%H%M%S}-{name[-17:]}"
    samples = began % 86_400_000 * rate // 1_000
    date, clock = f"{moment:%Y-%m-%d}", f"{moment:%H:%M:%S}"
    return began, Fields("", "bwingest", reference, date, clock, samples, history)


def case_fields(folder):
    """The fields say when the sender was started; a rerun after a kill has the same, as has `--file` after `--spool`."""
    samples = random.Random(50).randbytes(4 * 40_000)
    spool, side = folder / "fields.raw", folder / "fields.raw.for"
    name = "location-2026-recorder-a-0042"
    history = "A=PCM,F=44100,W=16,M=stereo,T=bwingest\r\n"
    with serving(folder) as server:
        words = words_of(server.port, name, spool, "44100,2,16")
        first = time.time()
        sender = start_with_pipes(*words)
        sender.stdin.write(samples[:100_000])
        sender.stdin.flush()
        wait_until(lambda: spool.exists() and spool.stat().st_size == 100_000, "the spool doesn't grow")
        sender.kill()
        sender.wait()
        last = time.time()
        began, wanted = wanted_fields(side, name, 44_100, history)
        is_within = first * 1_000 - 1 <= began <= last * 1_000
        TALLY.holds("fields: the moment", is_within, f"{began} not in {first} .. {last}")
        time.sleep(1.2)
        is_whole(name, folder, spool, samples, 4, run(*words, given=samples[100_000:]))
        TALLY.same("fields", fields_of(folder / "takes" / f"{name}.wav"), wanted)
        TALLY.same("fields: the moment, kept", wanted_fields(side, name, 44_100, history)[0], began)
        found = run(*["--file" if word == "--spool" else word for word in words])
        TALLY.same("fields: the file", found, (0, settled(requests_of(samples, 4)), ""))
        TALLY.same("fields: the file", fields_of(folder / "takes" / f"{name}.wav"), wanted)
        spool, side = folder / "set.raw", folder / "set.raw.for"
        options = ("--set", "date=", "--set", "reference=X1", "--set", "description=River")
        found = run(*words_of(server.port, "set", spool, "48000,2,24", *options), given=bytes(6))
        TALLY.same("fields, set", found[0], 0)
        history = "A=PCM,F=48000,W=24,M=stereo,T=bwingest\r\n"
        _began, wanted = wanted_fields(side, "set", 48_000, history)
        wanted = dataclasses.replace(wanted, date="", reference="X1", description="River")
        TALLY.same("fields, set", fields_of(folder / "takes" / "set.wav"), wanted)


def case_full_disk(folder):
    """A disk that is full: a line says so, what the spool holds is sent, and nothing after it."""
    disk = folder / "disk"
    disk.mkdir()
    mounted = subprocess.run(["mount", "-t", "tmpfs", "-o", "size=512k", "none", str(disk)], stderr=subprocess.DEVNULL)
    if mounted.returncode:
        print("no disk can be mounted: a full one isn't tried")
        return
    try:
        samples = random.Random(41).randbytes(4 * 300_000)
        spool = disk / "full.raw"
        with serving(folder) as server:
            sender = start_with_pipes(*words_of(server.port, "full", spool, "48000,2,16"))
            begun = time.monotonic()
            Writer(sender, samples, 42, 0.01).start()
            status, out, said = finish_written(sender)
            TALLY.holds("a full disk: soon", time.monotonic() - begun < LONGEST_WAIT / 3, "it took too long")
            lines = said.splitlines()
            is_said = len(lines) == 2 and lines[0].startswith("send: the spool can't be written: ")
            is_said = is_said and lines[1].startswith("send: Read at ")
            TALLY.holds("a full disk", status == 3 and is_said, f"{status}, {said!r}")
            kept = spool.read_bytes()
            is_kept = len(kept) > 400_000 and samples.startswith(kept)
            TALLY.holds("a full disk: the spool", is_kept, f"{len(kept)} bytes")
            # its whole blocks have their verdicts before that is said
            TALLY.same("a full disk: sent", out, settled(6 + len(kept) // LONGEST_BLOCK))
    finally:
        subprocess.run(["umount", str(disk)], check=False)


CASES = [
    case_slow_writer,
    case_file_as_input,
    case_rerun,
    case_part_of_a_frame,
    case_no_samples,
    case_refusals,
    case_refused_name,
    case_given_up,
    case_one_sender,
    case_other_use,
    case_earlier_release,
    case_fields,
    case_no_answer,
    case_full_disk,
    case_link_down,
]

if __name__ == "__main__":
    sys.exit(run_cases(CASES, LONGEST_RUN))
