#!/usr/bin/env python3
"""Runs `send --file --pcm` of the built program on headerless samples, of files as they are and while they are written.

The samples are raw ones of this script's, and of `arecord -D null`, sox and ffmpeg where they are installed. What
arrives is compared with the samples by their SHA-256, as they stand in the server's file by `inspect`. While a take is
followed, its server is stopped and started again. Refusals are tried against a listener that must see no connection.
The program is the first argument, or the one of this repository. Prints what differs, and last 'N passed, M failed'.
"""
import hashlib
import os
import random
import shutil
import signal
import subprocess
import sys
import threading
import time

sys.dont_write_bytecode = True  # nothing is left beside this script
from kit import hints, uploads
from kit.hints import CHANGED, FRUITLESS, hinted, SHORT
from kit.network import finish, free_port, LOCAL, LONGEST_WAIT, reason, run, run_cases, start_with_pipes, STARTED, TALLY
from kit.network import wait_until
from kit.processes import prepare_child
from kit.recordings import data, fmt, Recording, riff
from kit.takes import LONGEST_BLOCK
from kit.uploads import serve_again, serving, settled, unseen, written

LONGEST_RUN = 170  # seconds, for all of it
DOWN = 2.0  # seconds for which a server is away


def words_of(port, name, path, pcm, *options):
    return uploads.words_of(port, name, path, "--pcm", pcm, *options)


def requests_of(samples, align, frames=None):
    """How many requests bring samples, with the originator that is filled."""
    return uploads.requests_of(samples, align, frames) + 1


def upload(port, name, path, pcm, *options):
    return run(*words_of(port, name, path, pcm, *options))


def report_of(folder, name):
    """What `inspect` prints of a take's file."""
    _status, out, _faults = run("inspect", str(folder / "takes" / f"{name}.wav"))
    return out.splitlines()


def holds_samples(folder, name, samples, line):
    """The server's file has this format, and these samples by their SHA-256."""
    report = report_of(folder, name)
    TALLY.holds(f"{name}: the format", line in report, f"no line {line!r} in {report}")
    found = next((one for one in report if one.startswith("data at=")), "data at=0 bytes=0")
    at, count = (int(word.partition("=")[2]) for word in found.split()[1:3])
    file = (folder / "takes" / f"{name}.wav").read_bytes()
    there = hashlib.sha256(file[at : at + count]).hexdigest()
    TALLY.same(f"{name}: the samples", there, hashlib.sha256(samples).hexdigest())


FORMATS = [  # channels and bits, with the line that `inspect` prints
    (1, 16, "fmt tag=1 channels=1 rate=48000 bytes=96000 align=2 bits=16"),
    (2, 24, "fmt tag=1 channels=2 rate=48000 bytes=288000 align=6 bits=24"),
    (6, 32, "fmt tag=1 channels=6 rate=48000 bytes=1152000 align=24 bits=32"),
    (64, 24, "fmt tag=1 channels=64 rate=48000 bytes=9216000 align=192 bits=24"),
]


def case_finished(folder):
    """Files as they are: any format, some bytes before the samples, other blocks, sent again."""
    chance = random.Random(11)
    with serving(folder) as server:
        for channels, bits, line in FORMATS:
            align = channels * bits // 8
            samples = chance.randbytes(align * 3_001)
            path = written(folder, samples)
            for name, options, frames in (("whole", (), None), ("blocks", ("--block", "100"), 100)):
                name = f"{name}-{channels}-{bits}"
                count = requests_of(samples, align, frames)
                found = upload(server.port, name, path, f"48000,{channels},{bits}", *options)
                TALLY.same(name, found, (0, settled(count), ""))
                holds_samples(folder, name, samples, line)
                again = upload(server.port, name, path, f"48000,{channels},{bits}", *options)
                TALLY.same(f"{name}, sent again", again, (0, settled(count), ""))
        found = upload(server.port, "fields", written(folder, bytes(4)), "48000,1,16", "--set", "description=River")
        TALLY.same("a field", found, (0, settled(5), ""))
        TALLY.holds("a field", "description=River" in report_of(folder, "fields"), "it isn't there")


def case_defaults(folder):
    """A file's fields that are the same in each run are filled, unless they are set or none is to be."""
    path = written(folder, bytes(6 * 1_000))
    with serving(folder) as server:
        for pcm, history in (
            ("48000,1,16", "A=PCM,F=48000,W=16,M=mono,T=bwingest\r\n"),
            ("48000,2,24", "A=PCM,F=48000,W=24,M=stereo,T=bwingest\r\n"),
            ("96000,6,32", "A=PCM,F=96000,W=32,M=multichannel,T=bwingest\r\n"),
        ):
            name = pcm.replace(",", "-")
            for _run in range(2):
                TALLY.same(f"defaults, {name}", upload(server.port, name, path, pcm)[0], 0)
            wanted = uploads.Fields("", "bwingest", "", "", "", 0, history)
            TALLY.same(f"defaults, {name}", uploads.fields_of(folder / "takes" / f"{name}.wav"), wanted)
        options = ("--set", "originator=Recorder 7", "--set", "history=", "--set", "date=2026-11-29")
        TALLY.same("defaults, set", upload(server.port, "set", path, "48000,2,24", *options)[0], 0)
        wanted = uploads.Fields("", "Recorder 7", "", "2026-11-29", "", 0, "")
        TALLY.same("defaults, set", uploads.fields_of(folder / "takes" / "set.wav"), wanted)
        found = upload(server.port, "bare", path, "48000,2,24", "--no-defaults")
        TALLY.same("no defaults", found, (0, settled(3), ""))
        wanted = uploads.Fields("", "", "", "", "", 0, "")
        TALLY.same("no defaults", uploads.fields_of(folder / "takes" / "bare.wav"), wanted)


def case_crashed_header(folder):
    """A WAVE file whose writer crashed, so that its header has no sizes: --skip passes over it."""
    samples = random.Random(12).randbytes(2 * 70_001)
    whole = riff(fmt(Recording()), data(samples))
    crashed = whole[:4] + b"\xff" * 4 + whole[8:40] + b"\x00" * 4 + whole[44 : 44 + len(samples)]
    path = written(folder, crashed, "crashed.wav")
    with serving(folder) as server:
        found = upload(server.port, "crashed", path, "48000,1,16", "--skip", "44")
        TALLY.same("a crashed header", found, (0, settled(requests_of(samples, 2)), ""))
        holds_samples(folder, "crashed", samples, FORMATS[0][2])
        done = written(folder, b"", "done")
        found = upload(server.port, "followed", path, "48000,1,16", "--skip=44", "--follow", "--until", str(done))
        TALLY.same("a crashed header, followed", found, (0, settled(requests_of(samples, 2)), ""))
        holds_samples(folder, "followed", samples, FORMATS[0][2])


REFUSED = [  # the length of the file, the format, the options, and what is said
    (8, "48000,1,20", (), "Bits at 0"),
    (8, "48000,1,8", (), "Bits at 0"),
    (8, "48000,1,65552", (), "Bits at 0"),
    (8, "0,1,16", (), "Rate at 0"),
    (8, "768001,1,16", (), "Rate at 0"),
    (8, "48000,0,16", (), "Channels at 0"),
    (8, "48000,65,16", (), "Channels at 0"),
    (8, "48000,65537,16", (), "Channels at 0"),
    (7, "48000,1,16", (), "PartFrame at 6"),
    (8, "48000,1,24", (), "PartFrame at 6"),
    (50, "48000,2,16", ("--skip", "44"), "PartFrame at 48"),
    (43, "48000,1,16", ("--skip", "44"), "Truncated at 44"),
    (0, "48000,1,16", (), "Empty at 0"),
    (44, "48000,1,16", ("--skip", "44"), "Empty at 44"),
    (0, "48000,1,20", (), "Bits at 0"),
    (1, "48000,1,16", (), "PartFrame at 0"),
]

USAGE = [  # options, and the first words of what is said
    (("--pcm", "48000,1"), "error: '--pcm <RATE,CHANNELS,BITS>' takes"),
    (("--pcm", "48000,1,16,2"), "error: '--pcm <RATE,CHANNELS,BITS>' takes"),
    (("--pcm", "48000,,16"), "error: '--pcm <RATE,CHANNELS,BITS>' takes"),
    (("--pcm", "+1,1,16"), "error: '--pcm <RATE,CHANNELS,BITS>' takes"),
    (("--pcm", "4294967296,1,16"), "error: '--pcm <RATE,CHANNELS,BITS>' takes"),
    (("--pcm", "48000,1,16", "--skip", "x"), "error: '--skip <BYTES>' takes"),
    (("--pcm", "48000,1,16", "--block", "0"), "error: '--block <FRAMES>' takes"),
    (("--pcm", "48000,1,16", "--follow"), "error: '--pcm' is for '--file <FILE>'"),
    (("--pcm", "48000,1,16", "--until", "end"), "error: '--pcm' is for '--file <FILE>'"),
    (("--skip", "44"), "error: '--pcm' is for '--file <FILE>'"),
    (("--block", "44"), "error: '--pcm' is for '--file <FILE>'"),
    (("--until", "end"), "error: '--pcm' is for '--file <FILE>'"),
]


def case_refusals(folder):
    """What isn't taken is refused before any link is made."""
    with unseen("refusals") as port:
        for length, pcm, options, said in REFUSED:
            path = written(folder, bytes(length))
            found = upload(port, "x", path, pcm, *options)
            hint = SHORT if said.startswith("Truncated") else ""
            TALLY.same(f"{length} bytes as {pcm}", found, (1, "", hinted("send", said, hint)))
        for pcm, said in (("48000,1,20", "Bits at 0"), ("0,1,16", "Rate at 0"), ("48000,99,16", "Channels at 0")):
            found = upload(port, "x", path, pcm, "--follow", "--until", str(folder / "end"))
            TALLY.same(f"{pcm}, followed", found, (1, "", hinted("send", said)))
        none = folder / "none.raw"
        missing = (3, "", f"{none} can't be opened: {reason(2)}\n")
        TALLY.same("no file", upload(port, "x", none, "48000,1,16"), missing)
        done = written(folder, b"", "done")
        begun = time.monotonic()
        found = upload(port, "x", none, "48000,1,16", "--follow", "--until", str(done))
        TALLY.same("no file to follow", found, missing)
        TALLY.holds("no file to follow", time.monotonic() - begun < 3, "it was waited for")
        for options, said in USAGE:
            status, out, faults = run("send", "--connect", f"{LOCAL}:{port}", "--name=x", f"--file={path}", *options)
            named = status == 2 and out == "" and faults.startswith(said)
            TALLY.holds(f"{options}", named, f"{status}, {out!r}, {faults!r}")
        status, _out, faults = run("send", "--connect", f"{LOCAL}:{port}", "--name=x", "--pcm=48000,1,16")
        TALLY.holds("without a file", status == 2 and "'--pcm' is for" in faults, f"{status}, {faults!r}")


def case_no_file(folder):
    """Samples in something else than a file are refused before any link is made, and not waited for."""
    pipe = folder / "pipe.raw"
    os.mkfifo(pipe)
    follow = ("--follow", "--until", str(folder / "end"))
    with unseen("no file") as port:
        for odd, said in ((folder, "a directory"), (pipe, "a pipe: use --spool"), ("/dev/zero", "a device")):
            for options in ((), ("--log",), follow):
                found = upload(port, "x", odd, "48000,1,16", *options)
                TALLY.same(f"{odd} {options}", found, (3, "", f"{odd} is {said}\n"))
        found = run(*words_of(port, "x", "/dev/stdin", "48000,1,16"), given=bytes(100_000))
        TALLY.same("a pipe as input", found, (3, "", "/dev/stdin is a pipe: use --spool\n"))


def case_no_frame(folder):
    """A recording that ends without a frame begins no take, whose name is left for one with samples."""
    end = written(folder, b"", "end")
    with serving(folder) as server:
        for length, options, said in (
            (0, (), "Empty at 0"),
            (44, ("--skip", "44"), "Empty at 44"),
            (3, (), "PartFrame at 0"),
            (43, ("--skip", "40"), "PartFrame at 40"),
        ):
            path = written(folder, bytes(length))
            followed = ("--follow", "--until", str(end), *options)
            found = upload(server.port, "none", path, "48000,2,16", *followed)
            TALLY.same(f"{length} bytes followed", found, (1, settled(0), hinted("send", said)))
        left = [file.name for file in (folder / "takes").iterdir() if file.name.startswith("none")]
        TALLY.same("no frame: the takes", left, [])
        path = written(folder, bytes(range(8)))
        found = upload(server.port, "none", path, "48000,2,16", "--follow", "--until", str(end))
        TALLY.same("two frames under the name", found, (0, settled(4), ""))


class Writer(threading.Thread):
    """Another program that writes a recording in pieces of any length, and says at its end that it has ended."""

    def __init__(self, path, end, samples, seed, pause):
        super().__init__(daemon=True)
        self.path, self.end, self.samples, self.pause = path, end, samples, pause
        self.chance = random.Random(seed)

    def run(self):
        with open(self.path, "ab", buffering=0) as file:
            at = 0
            while at < len(self.samples):
                count = self.chance.randint(1, 40_000)
                file.write(self.samples[at : at + count])
                at += count
                time.sleep(self.pause)
        self.end.touch()


def case_followed(folder):
    """A file that grows, whose writer's pieces end inside frames; it is made after the sender has begun."""
    samples = random.Random(13).randbytes(6 * 100_003)
    path, end = folder / "take.raw", folder / "take.done"
    with serving(folder) as server:
        sender = start_with_pipes(
            *words_of(server.port, "live", path, "48000,2,24", "--follow", "--until", str(end), "--log")
        )
        time.sleep(0.5)
        writer = Writer(path, end, samples, 14, 0.02)
        writer.start()
        status, out, said = finish(sender)
        TALLY.same("followed", (status, out), (0, settled(requests_of(samples, 6))))
        TALLY.same("followed: links", said.count("link made\n"), 1)
        holds_samples(folder, "live", samples, FORMATS[1][2])


def case_ended_before(folder):
    """A recording that has ended already, and ones that end inside a frame."""
    end = written(folder, b"", "end")
    samples = random.Random(15).randbytes(6 * 9_000)
    with serving(folder) as server:
        path = written(folder, samples)
        found = upload(server.port, "ended", path, "48000,2,24", "--follow", "--until", str(end))
        TALLY.same("ended before", found, (0, settled(requests_of(samples, 6)), ""))
        holds_samples(folder, "ended", samples, FORMATS[1][2])
        for more in (1, 5):
            path = written(folder, samples + bytes(more))
            found = upload(server.port, f"odd-{more}", path, "48000,2,24", "--follow", "--until", str(end))
            place = len(samples)
            # all whole frames have their verdicts before that is said: all but CLOSE
            sent = (1, settled(requests_of(samples, 6) - 1), f"send: PartFrame at {place}\n")
            TALLY.same(f"{more} bytes of a frame", found, sent)
            holds_samples(folder, f"odd-{more}", samples, FORMATS[1][2])
        # more requests than are under way at once, so that some have no verdict yet as the end is found
        samples = random.Random(22).randbytes(6 * 83_333)
        path = written(folder, samples + bytes(1))
        found = upload(server.port, "many", path, "48000,2,24", "--block", "2000", "--follow", "--until", str(end))
        said = f"send: PartFrame at {len(samples)}\n"
        TALLY.same("a part of a frame after many", found, (1, settled(requests_of(samples, 6, 2_000) - 1), said))
        holds_samples(folder, "many", samples, FORMATS[1][2])
        samples = random.Random(15).randbytes(6 * 9_000)
        folder_end = folder / "takes"
        path, options = written(folder, samples), ("--follow", "--until", str(folder_end))
        found = upload(server.port, "by-folder", path, "48000,2,24", *options)
        TALLY.same("a folder says that it has ended", found, (0, settled(requests_of(samples, 6)), ""))


def case_end_unknown(folder):
    """An END that can't be looked for isn't one: the take isn't closed."""
    samples = random.Random(23).randbytes(2 * 40_000)
    with serving(folder) as server:
        path = written(folder, samples)
        for name, end in (("long", folder / ("x" * 300)), ("below", path / "end")):
            found = upload(server.port, name, path, "48000,1,16", "--follow", "--until", str(end))
            TALLY.same(f"an end that is {name}", (found[0], found[2]), (3, "send: Read at 0\n"))
            TALLY.holds(f"an end that is {name}", not (folder / "takes" / f"{name}.wav").exists(), "it was made")


class Changing:
    """Changes a file as soon as a program that is traced has opened it."""

    def __init__(self, path, change):
        self.path, self.change, self.opened = str(path), change, False

    def before(self, call):
        pass

    def after(self, call):
        if self.opened or call.number not in (2, 257):  # open, openat
            return
        place = call.words[0] if call.number == 2 else call.words[1]
        if call.result >= 0 and call.text_at(place) == self.path:
            self.opened = True
            self.change()


def case_changed_once_opened(folder):
    """A file that changes right after it was opened, before any of it is read, isn't closed: its stamp is older."""
    samples = random.Random(24).randbytes(2 * 40_000)
    with serving(folder) as server:
        whole = riff(fmt(Recording()), data(samples))
        for name, content, options in (("raw", samples, ("--pcm", "48000,1,16")), ("wav", whole, ())):
            path = written(folder, content, name)
            words = ("send", "--connect", f"{LOCAL}:{server.port}", "--name", name, "--file", str(path), *options)
            observer = Changing(path, lambda path=path: os.utime(path, ns=(1, 1)))
            status, _out, said = finish(start_with_pipes(*words, observer=observer), b"", name)
            TALLY.holds(f"{name}: changed", observer.opened, "it wasn't opened")
            TALLY.same(f"{name}, changed once it was opened", (status, said), (1, CHANGED))


def case_link_down(folder):
    """A take that is followed while its server is stopped three times, for seconds: equal samples arrive."""
    samples = random.Random(16).randbytes(4 * 400_000)
    path, end, takes = folder / "take.raw", folder / "take.done", folder / "takes"
    takes.mkdir()
    port = free_port()
    server = serve_again(port, takes)
    writer = Writer(path, end, samples, 17, 0.12)
    writer.start()
    words = words_of(port, "down", path, "48000,2,16", "--follow", "--until", str(end), "--log", "--timeout", "5")
    sender = start_with_pipes(*words)
    arrived, length = takes / "down.wav", 0
    for kill in (signal.SIGTERM, signal.SIGKILL, signal.SIGTERM):
        wait_until(lambda: arrived.exists() and arrived.stat().st_size > length, "nothing arrives")
        server.send_signal(kill)
        server.wait(LONGEST_WAIT)
        length = arrived.stat().st_size
        time.sleep(DOWN)
        server = serve_again(port, takes)
    status, out, said = finish(sender)
    writer.join(LONGEST_WAIT)
    TALLY.same("link down", (status, out), (0, settled(requests_of(samples, 4))))
    TALLY.holds("link down: links", said.count("link made\n") >= 3, said)
    server.send_signal(signal.SIGTERM)
    server.wait(LONGEST_WAIT)
    line = "fmt tag=1 channels=2 rate=48000 bytes=192000 align=4 bits=16"
    holds_samples(folder, "down", samples, line)


def case_rerun(folder):
    """A sender that is killed while it follows, and one in its place: repeats are repeats."""
    samples = random.Random(18).randbytes(2 * 200_000)
    path, end = folder / "take.raw", folder / "take.done"
    with serving(folder) as server:
        writer = Writer(path, end, samples, 19, 0.1)
        writer.start()
        words = words_of(server.port, "again", path, "44100,1,16", "--block", "1000", "--follow", "--until", str(end))
        sender = start_with_pipes(*words)
        arrived = folder / "takes" / "again.wav"
        wait_until(lambda: arrived.exists() and arrived.stat().st_size > 100_000, "too little arrives")
        sender.kill()
        sender.wait()
        TALLY.same("run again", run(*words), (0, settled(requests_of(samples, 2, 1_000)), ""))
        line = "fmt tag=1 channels=1 rate=44100 bytes=88200 align=2 bits=16"
        holds_samples(folder, "again", samples, line)


def case_no_server(folder):
    """With --follow a sender gives up only where --fruitless says so."""
    path, end = written(folder, bytes(8)), written(folder, b"", "end")
    words = words_of(free_port(), "none", path, "48000,1,16", "--follow", "--until", str(end))
    TALLY.same("no server, 2 links", run(*words, "--fruitless", "2"), (3, settled(0), FRUITLESS))
    found = upload(free_port(), "x", path, "48000,1,16", "--fruitless", "1")
    TALLY.same("no server, as it is", found, (3, settled(0), FRUITLESS))


def change_while_sent(folder, name, change):
    """Sends a file that changes while its sender has no link."""
    path = written(folder, random.Random(20).randbytes(LONGEST_BLOCK * 40), f"{name}.raw")
    port = free_port()
    sender = start_with_pipes(*words_of(port, name, path, "48000,1,16", "--fruitless", "20"))
    TALLY.same(f"a file that is {name}: no link", sender.stderr.readline().decode(), hints.REFUSED)
    change(path)
    takes = folder / name
    takes.mkdir()
    server = serve_again(port, takes)
    status, _out, said = finish(sender)
    TALLY.same(f"a file that is {name}", (status, said), (1, CHANGED))
    server.send_signal(signal.SIGTERM)
    server.wait(LONGEST_WAIT)


def case_changed(folder):
    """Without --follow a file that changes while it is sent isn't closed."""
    change_while_sent(folder, "touched", lambda path: os.utime(path, ns=(1, 1)))
    change_while_sent(folder, "shortened", lambda path: os.truncate(path, LONGEST_BLOCK * 30))
    change_while_sent(folder, "lengthened", lambda path: path.open("ab").write(bytes(2)))


RECORDERS = {  # programs that write raw samples, with the format that they are asked for
    "arecord": ("arecord -q -D null -t raw -f S16_LE -c 1 -r 48000 -d 2 {path}", "48000,1,16"),
    "arecord-24": ("arecord -q -D null -t raw -f S24_3LE -c 2 -r 48000 -d 2 {path}", "48000,2,24"),
    "sox": ("sox -q -n -t raw -r 48000 -e signed -b 24 -c 2 -L {path} synth 2 sine 440 vol 0.5", "48000,2,24"),
    "ffmpeg": (
        "ffmpeg -v error -y -re -f lavfi -i sine=d=2:r=44100 -f s32le -c:a pcm_s32le -ac 1 {path}",
        "44100,1,32",
    ),
}


def case_recorders(folder):
    """What recorders write while they are followed, where they are installed."""
    with serving(folder) as server:
        for name, (command, pcm) in RECORDERS.items():
            words = command.split()
            if not shutil.which(words[0]):
                print(f"{words[0]} isn't installed: not tried")
                continue
            path, end = folder / f"{name}.raw", folder / f"{name}.done"
            words = [word.format(path=path) for word in words]
            recorder = subprocess.Popen(words, preexec_fn=prepare_child, stdin=subprocess.DEVNULL)
            STARTED.append(recorder)
            sender = start_with_pipes(*words_of(server.port, name, path, pcm, "--follow", "--until", str(end)))
            TALLY.same(f"{name} ends", recorder.wait(LONGEST_WAIT), 0)
            end.touch()
            samples = path.read_bytes()
            rate, channels, bits = map(int, pcm.split(","))
            align = channels * bits // 8
            TALLY.same(name, finish(sender), (0, settled(requests_of(samples, align)), ""))
            TALLY.holds(name, len(samples) > rate * align, f"only {len(samples)} bytes were recorded")
            line = f"fmt tag=1 channels={channels} rate={rate} bytes={rate * align} align={align} bits={bits}"
            holds_samples(folder, name, samples, line)


CASES = [
    case_finished,
    case_defaults,
    case_crashed_header,
    case_refusals,
    case_no_file,
    case_no_frame,
    case_followed,
    case_ended_before,
    case_end_unknown,
    case_changed_once_opened,
    case_link_down,
    case_rerun,
    case_no_server,
    case_changed,
    case_recorders,
]

if __name__ == "__main__":
    sys.exit(run_cases(CASES, LONGEST_RUN))
