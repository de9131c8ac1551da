#!/usr/bin/env python3
"""Runs `send --receipt`, and `takes --verify` over takes whose samples came whole or with one bit turned by a relay.

The digests are hashlib's, of the bytes that were sent. The program is the first argument, or the one of this repository.
Prints what differs, and last 'N passed, M failed'.
"""
import hashlib
import json
import os
import random
import shutil
import subprocess
import sys

sys.dont_write_bytecode = True  # nothing is left beside this script
from kit.folders import folder_in, left_by, small_take, state
from kit.hints import USAGE
from kit.network import LOCAL, PROGRAM, Relay, run, run_cases, start, TALLY
from kit.recordings import data, fmt, Recording, riff
from kit.uploads import serving, unseen, words_of, written

LONGEST_RUN = 120  # seconds, for all of it
NEW = ("resumed 0 takes",)  # over a new folder
FRAMES = 40_000  # of two channels of 16 bits: several blocks
CHANCE = random.Random(7)


class TurningRelay(Relay):
    """Passes connections on, and turns one bit of the first byte after a mark among the requests."""

    def __init__(self, server_port, mark):
        self.mark, self.turned = mark, 0
        super().__init__(server_port, 0, at_once=True)

    def pass_on(self, sender, _most_requests, _most_replies, _is_abrupt):
        super().pass_on(TurningEnd(sender, self), 1 << 30, 1 << 30, False)


class TurningEnd:
    """The sender's end of a connection, whose bytes come with one bit turned."""

    def __init__(self, end, relay):
        self.end, self.relay = end, relay

    def __getattr__(self, name):
        return getattr(self.end, name)

    def recv(self, most):
        piece = bytearray(self.end.recv(most))
        at = piece.find(self.relay.mark)
        if at >= 0 and at + len(self.relay.mark) < len(piece) and not self.relay.turned:
            piece[at + len(self.relay.mark)] ^= 16
            self.relay.turned += 1
        return bytes(piece)


def samples_of(seed):
    return random.Random(seed).randbytes(4 * FRAMES)


def file_of(samples):
    return riff(fmt(Recording(channels=2)), data(samples))


def words_line(name, samples, frames=FRAMES, address="192.0.2.1:4100", source="take 1.wav"):
    return f"receipt {name} {frames} sha256={hashlib.sha256(samples).hexdigest()} {address} {source}\n"


def json_line(name, samples, frames=FRAMES, **others):
    return json.dumps({"name": name, "frames": frames, "sha256": hashlib.sha256(samples).hexdigest(), **others}) + "\n"


def verified(folder, receipts, text):
    path = receipts / "receipts"
    path.write_bytes(text if isinstance(text, bytes) else text.encode())
    return run("takes", "--folder", str(folder), f"--verify={path}")


def sent(place, port, name, samples, *options):
    """A recording is sent, and its sender is told that all is stored; the receipt, in words."""
    path = written(place, file_of(samples), f"{name}.wav")
    TALLY.same(f"{name}: sent", run(*words_of(port, name, path, *options))[0], 0)
    return words_line(name, samples, address=f"{LOCAL}:{port}", source=str(path))


def case_turned_bit(place):
    """A relay turns one bit of the samples: `send` ends with 0, and `takes --verify` names the take."""
    whole, turned = samples_of(1), samples_of(2)
    with serving(place, "--journal", "--recorders", "2", opening=NEW) as server:
        sent(place, server.port, "whole", whole)
        relay = TurningRelay(server.port, turned[50_000:50_016])
        sent(place, relay.port, "turned", turned)
        relay.stop()
        TALLY.same("bits turned", relay.turned, 1)
    takes = place / "takes"
    TALLY.same("compared with the journal", run("takes", "--check", "--folder", str(takes))[0], 0)
    before = state(takes)
    text = words_line("whole", whole) + words_line("turned", turned)
    TALLY.same("words", verified(takes, place, text), (1, "turned differs\nmatched 1 of 2\n", ""))
    text = json_line("turned", turned) + json_line("whole", whole, address="a", source="b")
    TALLY.same("JSON", verified(takes, place, text), (1, "turned differs\nmatched 1 of 2\n", ""))
    TALLY.same("the whole one", verified(takes, place, json_line("whole", whole)), (0, "matched 1 of 1\n", ""))
    TALLY.same("the folder", state(takes), before)


def case_receipts_of_senders(place):
    """Each sender adds a line; a relay turns a bit, and `takes --verify` names the take by its sender's receipt."""
    whole, turned = samples_of(4), samples_of(5)
    receipts, lines = place / "receipts.txt", place / "receipts.json"
    with serving(place, "--journal", "--recorders", "2", opening=NEW) as server:
        relay = TurningRelay(server.port, turned[50_000:50_016])
        text = sent(place, server.port, "whole", whole, "--receipt", str(receipts))
        text += sent(place, relay.port, "turned", turned, "--receipt", str(receipts))
        relay.stop()
        TALLY.same("words", receipts.read_text(), text)
        receipts.write_text(text.rstrip("\n"))
        again = sent(place, server.port, "whole", whole, "--receipt", str(receipts))
        TALLY.same("after a line that is open", receipts.read_text(), text + again)
        sent(place, server.port, "whole", whole, "--json", "--receipt", str(lines))
        said = json.loads(lines.read_text())
        path, address = str(place / "whole.wav"), f"{LOCAL}:{server.port}"
        wanted = json.loads(json_line("whole", whole, address=address, source=path))
        TALLY.same("JSON", (said, lines.read_text().count("\n")), (wanted, 1))
        words = words_of(server.port, "whole", path)
        plain = run(*words)
        TALLY.same("printed", run(*words, "--receipt=-"), (0, plain[1] + again, plain[2]))
    takes = place / "takes"
    told = (1, "turned differs\nmatched 2 of 3\n", "")
    TALLY.same("compared", run("takes", "--folder", str(takes), "--verify", str(receipts)), told)
    told = (0, "matched 1 of 1\n", "")
    TALLY.same("compared by JSON", run("takes", "--folder", str(takes), "--verify", str(lines)), told)


def case_receipts_at_once(place):
    """Senders that add to one file at once: each line is there, whole and once."""
    receipts, count = place / "receipts", 12
    with serving(place, "--journal", "--recorders", str(count), opening=NEW) as server:
        senders, wanted = [], []
        for number in range(count):
            samples = samples_of(100 + number)
            path = written(place, file_of(samples), f"at-once-{number}.wav")
            words = words_of(server.port, f"t{number}", path, "--receipt", str(receipts))
            senders.append(start(*words, stdout=subprocess.DEVNULL, stderr=subprocess.DEVNULL))
            wanted.append(words_line(f"t{number}", samples, address=f"{LOCAL}:{server.port}", source=str(path)))
        TALLY.same("all sent", [sender.wait(LONGEST_RUN) for sender in senders], [0] * count)
        TALLY.same("lines", sorted(receipts.read_text().splitlines(True)), sorted(wanted))


def case_no_receipt(place):
    """Where receipts can't be added nothing is sent; where a take isn't stored, there is none."""
    path = written(place, file_of(samples_of(6)))
    os.mkfifo(place / "fifo")
    for at, reason in (
        (place / "none" / "receipts", "No such file or directory (os error 2)"),
        (place, "Is a directory (os error 21)"), (place / "fifo", "it isn't a file"), ("/dev/null", "it isn't a file"),
    ):
        with unseen(str(at)) as port:
            told = run(*words_of(port, "a1", path, "--receipt", str(at)))
            TALLY.same(str(at), told, (3, "", f"{at} can't be opened: {reason}\n"))
    receipts = place / "receipts"
    with unseen("no recording") as port:
        status, out, _faults = run(*words_of(port, "a1", place / "lost.wav", "--receipt", str(receipts)))
        TALLY.same("no recording", (status, out, receipts.read_bytes()), (3, "", b""))
    with serving(place, opening=()) as server:
        status, _out, _faults = run(*words_of(server.port, "a1", path, "--receipt", str(receipts)))
        TALLY.same("stored", (status, receipts.read_bytes().count(b"\n")), (0, 1))
    receipts.unlink()
    take = written(place, file_of(samples_of(7)), "other.wav")
    with serving(folder_in(place, "third"), opening=()) as server:
        run(*words_of(server.port, "a1", path))
        status, _out, _faults = run(*words_of(server.port, "a1", take, "--receipt", str(receipts)))
        TALLY.same("not stored", (status, receipts.read_bytes()), (1, b""))


def case_full_disk(place):
    """A receipt that can't be written is reported: a disk that is full is a limit of the file's size here."""
    path, receipts = written(place, file_of(samples_of(8))), place / "receipts"
    with serving(place, "--journal", opening=NEW) as server:
        words = [PROGRAM, *words_of(server.port, "a1", path, "--receipt", str(receipts))]
        full = subprocess.run(["sh", "-c", 'trap "" XFSZ; ulimit -f 0; exec "$@"', "sh", *words], capture_output=True, check=False)
        told = (3, f"{receipts} can't be written: File too large (os error 27)\n".encode(), b"")
        TALLY.same("full", (full.returncode, full.stderr, receipts.read_bytes()), told)


def case_words_of_takes(place):
    """Each word for a take that isn't as its receipt says, in the order of the receipts."""
    samples = samples_of(3)
    with serving(place, "--journal", opening=NEW) as server:
        sent(place, server.port, "a1", samples)
    takes = place / "takes"
    (takes / "stood.wav").write_bytes(b"something else")
    (takes / "blank.journal").write_bytes(b"")
    shutil.copy(takes / "a1.journal", takes / "lost.journal")
    text = "".join([
        words_line("none", samples), words_line("stood", samples), words_line("a1", samples, FRAMES + 1),
        words_line("a1", samples[1:]), words_line("a1", samples), "\n", json_line("blank", samples), words_line("lost", samples),
    ])
    wanted = "none missing\nstood stood\na1 differs\na1 differs\nblank unopened\nlost OtherName\n"
    TALLY.same("words", verified(takes, place, text), (1, wanted + "matched 1 of 7\n", ""))
    os.symlink(takes / "loop.wav", takes / "loop.wav")
    text = words_line("loop", samples) + words_line("a1", samples)
    unread = f"{takes}/loop.wav can't be read\n"
    TALLY.same("unread", verified(takes, place, text), (3, "matched 1 of 2\n", unread))


def case_open(place):
    """A take that is open, and the same once it is closed."""
    take = small_take()
    count = len(take.messages())
    text = words_line("a1", take.samples, 33)
    for left, told in ((count - 1, "a1 open\nmatched 0 of 1\n"), (count, "matched 1 of 1\n")):
        folder = left_by(folder_in(place, f"left{left}"), [(take, left)])
        wanted = (0 if left == count else 1, told, "")
        TALLY.same(f"after {left} numbers", verified(folder, place, text), wanted)


def case_bad_receipts(place):
    """The first line that is no receipt is named; nothing is printed."""
    takes = place / "takes"
    takes.mkdir()
    good = words_line("a1", b"")
    digits = hashlib.sha256(b"").hexdigest()
    bad = [
        "x", "receipt", f"receipt a1 1 sha256={digits}", f"receipt a1 1 sha256={digits} address", good.upper().strip(),
        f"receipt A1 1 sha256={digits} a b", f"receipt a1 +1 sha256={digits} a b", f"receipt a1 -1 sha256={digits} a b",
        f"receipt a1 18446744073709551616 sha256={digits} a b", f"receipt a1  1 sha256={digits} a b",
        f"receipt a1 1 sha256={digits[1:]} a b", f"receipt a1 1 sha256={digits}0 a b", f"receipt a1 1 md5={digits} a b",
        " " + good.strip(), "{}", "[]", json_line("a1", b"").strip() + "x", json_line("A1", b"").strip(),
        json_line("a1", b"", 1.5).strip(), json_line("a1", b"", -1).strip(), json_line("a1", b"", "1").strip(),
        json_line("a1", b"", 1 << 64).strip(), json_line("a1", b"").replace("sha256", "sha1").strip(),
    ]
    path = place / "receipts"
    for line in bad:
        told = (1, "", f"{path} line 3: not a receipt\n")
        TALLY.same(f"{line!r}", verified(takes, place, good + "\n" + line + "\n" + "y\n"), told)
    TALLY.same("no UTF-8", verified(takes, place, b"\xff\n"), (1, "", f"{path} line 1: not a receipt\n"))
    largest = f"receipt a1 18446744073709551615 sha256={digits.upper()} a b c\n"
    TALLY.same("the largest", verified(takes, place, largest), (1, "a1 missing\nmatched 0 of 1\n", ""))
    TALLY.same("without an end", verified(takes, place, good.strip()), (1, "a1 missing\nmatched 0 of 1\n", ""))
    TALLY.same("none", verified(takes, place, ""), (0, "matched 0 of 0\n", ""))


def case_unread(place):
    """The file of receipts and the folder have to be there."""
    takes = place / "takes"
    takes.mkdir()
    words = ("takes", "--folder", str(takes), "--verify")
    for path in (place / "none", takes):
        TALLY.same(f"{path.name}", run(*words, str(path)), (3, "", f"{path} can't be read\n"))
    os.mkfifo(place / "pipe")
    TALLY.same("a pipe", run(*words, str(place / "pipe")), (3, "", f"{place / 'pipe'} is a pipe\n"))
    TALLY.same("a device", run(*words, "/dev/zero"), (3, "", "/dev/zero is a device\n"))
    (place / "receipts").write_text(words_line("a1", b""))
    none = place / "nowhere"
    told = (3, "", f"{none} can't be read\n")
    TALLY.same("no folder", run("takes", "--folder", str(none), "--verify", str(place / "receipts")), told)


def case_command_line(place):
    """`--verify` stands beside the folder alone; `--receipt` beside the file of a recording, and `--json` beside it."""
    wanted = "error: '--verify <RECEIPTS>' goes with '--folder <DIR>' alone\n" + USAGE
    for option in ("--check", "--json", "--digest", "--watch", "--give-up=a1"):
        TALLY.same(option, run("takes", "--folder", str(place), "--verify", "receipts", option), (2, "", wanted))


cases = [value for name, value in list(globals().items()) if name.startswith("case_")]
sys.exit(run_cases(cases, LONGEST_RUN))
