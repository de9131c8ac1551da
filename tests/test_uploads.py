#!/usr/bin/env python3
"""Runs `send --file` of the built program on files of recordings, against the built server and peers of its own.

The files are in cases/recordings.py. What arrives is compared with what hex lines of the same requests bring, which
are written by docs/FORMATS.md, and with the samples of the file. Refusals are tried against a listener that must see no
connection. Links that are cut, other files under a name, servers that go away, and files that change while they are
sent end as docs/OPERATING.md says. The program is the first argument, or the one of this repository. Prints what
differs, and last 'N passed, M failed'.
"""
import contextlib
import os
import random
import re
import signal
import socket
import sys
import time

sys.dont_write_bytecode = True  # nothing is left beside this script
from cases.recordings import CUT, FIELDS, HISTORY, PLAIN, REFUSED, SECOND, SENT, TONE, TONE_FILE
from kit.hints import bad_setting, CHANGED, FRUITLESS, hinted, LOSSY, LOST_TAKE, OTHER_NAME
from kit.network import connect, finish, free_port, hear, hear_batch, hear_until_it_breaks, LOCAL, LONGEST_WAIT
from kit.network import pass_both_ways, reason, run, run_cases, Server, start, start_with_pipes, TALLY
from kit.network import wait_until, WINDOW
from kit.recordings import cue, data, DESCRIPTION, fmt, Recording, riff
from kit.takes import BEXT, CONFLICT, DELAYED_STORE, message, notice, STORED, verdict
from kit.worked import HELD, TOO_FAR
from kit.uploads import CountingRelay, folder_in, long_recording, samples_of, serving, settled, unseen, words_of, written

LONGEST_RUN = 170  # seconds, for all of it


def upload(port, name, path, *options):
    return run(*words_of(port, name, path, *options))


def case_arrives(folder):
    """Each file arrives: with its samples, and as a file that hex lines of its requests bring too."""
    with serving(folder) as server:
        for number, case in enumerate(SENT):
            path = written(folder, case.file)
            count = len(case.recording.requests())
            found = upload(server.port, f"file-{number}", path, *case.options)
            TALLY.same(f"send --file, {case.of}", found, (0, settled(count), case.lost))
            arrived = folder / "takes" / f"file-{number}.wav"
            TALLY.holds(f"the samples, {case.of}", samples_of(arrived) == case.recording.samples, "they differ")
            words = ("send", "--connect", f"{LOCAL}:{server.port}", "--name", f"lines-{number}")
            found = run(*words, given=case.recording.lines())
            TALLY.same(f"send of lines, {case.of}", found, (0, settled(count), ""))
            by_lines = (folder / "takes" / f"lines-{number}.wav").read_bytes()
            TALLY.holds(f"the file, {case.of}", arrived.read_bytes() == by_lines, "it differs from that of hex lines")
            again = upload(server.port, f"file-{number}", path, *case.options)
            TALLY.same(f"sent again, {case.of}", again, (0, settled(count), case.lost))


def case_strict(folder):
    """With --strict nothing of a file that loses anything is sent; all of it is listed."""
    with serving(folder) as server:
        for number, case in enumerate(SENT):
            if case.lost:
                found = upload(server.port, f"strict-{number}", written(folder, case.file), "--strict", *case.options)
                TALLY.same(f"send --file --strict, {case.of}", found, (1, "", case.lost + LOSSY))
        TALLY.same("send --file --strict: no take", [*(folder / "takes").glob("*.wav")], [])


def case_fields(folder):
    """Fields and markers, as `inspect` prints them of the server's file."""
    file = riff(fmt(PLAIN), SECOND, data(PLAIN.samples), cue([(1, 0, 0), (7, 9, 4_800)]))
    with serving(folder) as server:
        upload(server.port, "fields", written(folder, file), "--set", "originator=Someone")
        status, out, faults = run("inspect", str(folder / "takes" / "fields.wav"))
    TALLY.same("inspect", (status, faults), (0, ""))
    lines = out.splitlines()
    wanted = [
        "fmt tag=1 channels=1 rate=48000 bytes=96000 align=2 bits=16",
        "data at=718 bytes=9600 frames=4800",
        f"bext version=2 time=172800000 history={len(HISTORY)}",
        "description=River at dawn",
        "originator=Someone",
        "reference=XX1",
        "date=2024-05-17",
        "clock=05:31:00",
        "umid=" + bytes(range(1, 65)).hex(),
        "cue id=1 position=0 offset=0",
        "cue id=7 position=4800 offset=4800",
    ]
    for line in wanted:
        TALLY.holds("inspect", line in lines, f"no line {line!r} in {out!r}")


def case_refusals(folder):
    """Each file that isn't taken is refused before any link is made."""
    with unseen("refusals") as port:
        for case in REFUSED:
            found = upload(port, "x", written(folder, case.file), *case.options)
            TALLY.same(f"send --file, {case.of}", found, (1, "", hinted("send", case.said, case.hint)))
        path = folder / "none.wav"
        TALLY.same("no file", upload(port, "x", path), (3, "", f"{path} can't be opened: {reason(2)}\n"))
        pipe = folder / "pipe.wav"
        os.mkfifo(pipe)
        for odd, said in ((folder, "a directory"), (pipe, "a pipe: use --spool"), ("/dev/zero", "a device")):
            for options in ((), ("--log",), ("--state", str(folder / "state"))):
                TALLY.same(f"{odd} {options}", upload(port, "x", odd, *options), (3, "", f"{odd} is {said}\n"))
        words = words_of(port, "x", "/dev/stdin")
        TALLY.same("a pipe as input", run(*words, given=TONE_FILE), (3, "", "/dev/stdin is a pipe: use --spool\n"))
        for file in (path, written(folder, TONE_FILE)):
            for text in ("description", "other=x", "date=2024_05_17"):
                found = upload(port, "x", file, f"--set={text}")
                TALLY.same(f"--set={text}", found, (2, "", bad_setting(text.split("=")[0])))


def case_garbage(folder):
    """Bytes that are no recording, and a file that is cut anywhere, are refused by name."""
    chance = random.Random(5)
    recording = Recording(bits=24, samples=bytes(range(9)), fields=FIELDS, history=HISTORY, markers=[(1, 0)])
    whole = riff(fmt(recording), SECOND, cue([(1, 0, 0)]), data(recording.samples))
    files = [whole[:length] for length in range(0, len(whole) - 1, 23)]
    files += [CUT, chance.randbytes(5_000), b"RIFF" + chance.randbytes(400), whole[:12] + chance.randbytes(700)]
    with unseen("garbage") as port:
        for at, file in enumerate(files):
            status, out, said = upload(port, "x", written(folder, file))
            is_named = status == 1 and out == "" and re.fullmatch(r"send: [A-Za-z]+ at \d+\n(hint: .*\n)?", said)
            TALLY.holds(f"garbage {at}", is_named, f"{status}, {out!r}, {said!r}")


def case_rate(folder):
    """With --rate no more bytes go a second, and hardly less; what arrives is the same."""
    raw = ("--pcm", "48000,1,16", "--no-defaults")
    with serving(folder) as server:
        for name, blocks, rate, options in (
            ("slow", 60, 1_000_000, ()),
            ("slow-raw", 60, 1_000_000, raw),
            ("in-pieces", 2, 20_000, ()),  # a block takes over a second, in pieces of a tenth
        ):
            recording, file = long_recording(blocks)
            path = written(folder, recording.samples if options else file)
            begun = time.monotonic()
            found = upload(server.port, name, path, "--rate", str(rate), *options)
            took = time.monotonic() - begun
            TALLY.same(f"{name}: --rate", found, (0, settled(len(recording.requests())), ""))
            least = (len(recording.samples) - min(32_768, rate // 10)) / rate  # the last piece needn't be waited for
            TALLY.holds(f"{name}: the rate", least <= took <= 1.3 * least + 1, f"{took:.2f} s in place of {least:.2f}")
            found = samples_of(folder / "takes" / f"{name}.wav")
            TALLY.holds(f"{name}: the samples", found == recording.samples, "they differ")


def case_cut_links(folder):
    """A recording of 24 MB through a relay that cuts: little is sent again."""
    recording, file = long_recording(750)
    path = written(folder, file)
    with serving(folder) as server:
        relay = CountingRelay(server.port, 3, 4_000_000, 9_000_000)
        count = len(recording.requests())
        TALLY.same("cut links", upload(relay.port, "cut", path, "--fruitless", "3"), (0, settled(count), ""))
        relay.stop()
        TALLY.holds("cut links", relay.connections >= 3, f"only {relay.connections} links")
        times = relay.passed / len(file)
        TALLY.holds("cut links", times <= 1.2, f"{times:.2f} times the bytes were sent")
        found = samples_of(folder / "takes" / "cut.wav")
        TALLY.holds("cut links: the samples", found == recording.samples, "they differ")


def case_other_file(folder):
    """Another file under a name that has one is Conflict, and leaves the first as it is."""
    with serving(folder) as server:
        path = written(folder, TONE_FILE)
        TALLY.same("the first file", upload(server.port, "one", path), (0, settled(9), ""))
        before = (folder / "takes" / "one.wav").read_bytes()
        said = "Conflict: another request was sent under number 1\n" + OTHER_NAME
        found = upload(server.port, "one", path, "--set", "description=Another")
        TALLY.same("another file", found, (1, settled(1), said))
        TALLY.same("the first file stays", (folder / "takes" / "one.wav").read_bytes(), before)


def case_taken_name(folder):
    """The first refused request ends it."""
    takes = folder_in(folder)
    (takes / "old.wav").write_bytes(b"what stood there")
    server = Server(takes, "--until-stopped")
    _recording, file = long_recording(40)
    status, out, said = upload(server.port, "old", written(folder, file))
    is_refused = status == 1 and said == "" and re.match(r"settled (\d+)\nstored 0\nrefused 0 NameTaken\n", out)
    TALLY.holds("a taken name", is_refused, f"{status}, {out!r}, {said!r}")
    count = int(out.split()[1]) if is_refused else 0
    TALLY.holds("a taken name", count <= WINDOW, f"{count} requests were sent")
    server.process.terminate()
    server.process.wait()
    TALLY.same("a taken name: the file", (takes / "old.wav").read_bytes(), b"what stood there")


def case_no_server(folder):
    """Links that settle nothing end it, after the pauses between them."""
    path = written(folder, TONE_FILE)
    for most, least in ((1, 0.0), (3, 1.5)):  # after the first link half a second, after the second a whole one
        begun = time.monotonic()
        found = upload(free_port(), "none", path, "--fruitless", str(most))
        took = time.monotonic() - begun
        TALLY.same(f"no server, {most} links", found, (3, settled(0), FRUITLESS))
        TALLY.holds(f"no server, {most} links", least <= took < least + 10, f"it took {took:.1f} seconds")


def case_server_goes_away(folder):
    """A server that is killed: what was settled is reported."""
    _recording, file = long_recording(1_500)
    server = Server(folder_in(folder), "--until-stopped")
    words = words_of(server.port, "gone", written(folder, file), "--fruitless", "2")
    sender = start_with_pipes(*words)
    arrived = folder / "takes" / "gone.wav"
    wait_until(lambda: arrived.exists() and arrived.stat().st_size > 1_000_000, "too little arrives")
    server.process.kill()
    server.process.wait()
    status, out, said = finish(sender)
    counts = re.fullmatch(r"settled (\d+)\nstored (\d+)\n", out)
    is_so = status == 3 and said == FRUITLESS and counts and 0 < int(counts[1]) == int(counts[2]) < 1_502
    TALLY.holds("a server goes away", is_so, f"{status}, {out!r}, {said!r}")


def changed_while_sent(folder, name, change):
    """Sends a file that changes once the sender has a link, and before its last requests are read."""
    _recording, file = long_recording(100)
    path = written(folder, file, f"{name}.wav")
    with serving(folder) as server, socket.create_server((LOCAL, 0)) as listener:
        sender = start_with_pipes(*words_of(listener.getsockname()[1], name, path))
        peer, _ = listener.accept()
        change(path)
        with connect(server.port) as there, contextlib.suppress(OSError):
            pass_both_ways({peer: there, there: peer}, {peer: 1 << 40, there: 1 << 40})
        peer.close()
        last, _ = listener.accept()  # what was read before is settled over another link
        with connect(server.port) as there, contextlib.suppress(OSError):
            pass_both_ways({last: there, there: last}, {last: 1 << 40, there: 1 << 40})
        last.close()
        status, out, said = finish(sender)
    counts = re.fullmatch(r"settled (\d+)\nstored (\d+)\n", out)
    is_so = status == 1 and said == CHANGED and counts and int(counts[1]) == int(counts[2]) < 102
    TALLY.holds(f"a file that is {name}", is_so, f"{status}, {out!r}, {said!r}")
    _status, out, _said = run("inspect", str(folder / "takes" / f"{name}.wav"))
    TALLY.holds(f"a file that is {name}", out, "the take can't be read")


def case_touched(folder):
    changed_while_sent(folder, "touched", lambda path: os.utime(path, ns=(1, 1)))


def case_lengthened(folder):
    def lengthen(path):
        with open(path, "ab") as file:
            file.write(b"LIST\0\0\0\0")

    changed_while_sent(folder, "lengthened", lengthen)


def case_shortened(folder):
    changed_while_sent(folder, "shortened", lambda path: os.truncate(path, 2_000_000))


def case_delayed(folder):
    """DelayedStore ends the link; the next one sends it again."""
    path = written(folder, TONE_FILE)
    with serving(folder) as server, socket.create_server((LOCAL, 0)) as listener:
        sender = start_with_pipes(*words_of(listener.getsockname()[1], "late", path))
        peer, _ = listener.accept()
        with peer:
            peer.recv(65_536)
            peer.sendall(notice("late", 0, DELAYED_STORE, 0))
            peer.settimeout(LONGEST_WAIT)
            hear_until_it_breaks(peer)  # a link that stays ends the case
        peer, _ = listener.accept()
        with connect(server.port) as there:
            pass_both_ways({peer: there, there: peer}, {peer: 1 << 40, there: 1 << 40})
        peer.close()
        TALLY.same("DelayedStore", finish(sender), (0, settled(9), ""))


def case_conflict_by_peer(folder):
    """A peer's Conflict ends it at once, though others have their verdicts."""
    path = written(folder, TONE_FILE)
    with socket.create_server((LOCAL, 0)) as listener:
        sender = start_with_pipes(*words_of(listener.getsockname()[1], "two", path))
        peer, _ = listener.accept()
        with peer:
            hear_batch(peer, 100)
            peer.sendall(verdict("two", 0, STORED) + notice("two", 1, CONFLICT, 2))
            said = "Conflict: another request was sent under number 1\n" + OTHER_NAME
            TALLY.same("Conflict by a peer", finish(sender), (1, settled(1), said))


def case_conflict_beside_stored(folder):
    """A peer's Conflict ends it with 1 too where each number has the verdict Stored."""
    path = written(folder, TONE_FILE)
    count = len(TONE.requests())
    with socket.create_server((LOCAL, 0)) as listener:
        sender = start_with_pipes(*words_of(listener.getsockname()[1], "two", path))
        peer, _ = listener.accept()
        with peer:
            hear_batch(peer, 100)
            stored = b"".join(verdict("two", number, STORED) for number in range(count))
            peer.sendall(stored + notice("two", 1, CONFLICT, count))
            said = "Conflict: another request was sent under number 1\n" + OTHER_NAME
            TALLY.same("Conflict beside Stored", finish(sender), (1, settled(count), said))


def case_too_far_by_peer(folder):
    """A peer that has lost the take finds the next request too far: that ends it, with what was settled before."""
    recording, file = long_recording(40)
    said = [message("lost", number, request) for number, request in enumerate(recording.requests())]
    first = WINDOW
    with socket.create_server((LOCAL, 0)) as listener:
        sender = start_with_pipes(*words_of(listener.getsockname()[1], "lost", written(folder, file)))
        peer, _ = listener.accept()
        with peer:
            TALLY.same("TooFar: the window", hear(peer, len(b"".join(said[:first]))), b"".join(said[:first]))
            peer.sendall(b"".join(verdict("lost", number, STORED) for number in range(first)))
            TALLY.same("TooFar: the next request", hear(peer, len(said[first])), said[first])
            peer.sendall(notice("lost", first, TOO_FAR, 0))
            wanted = f"TooFar: the server lacks requests before number {first}\n{LOST_TAKE}"
            TALLY.same("TooFar by a peer", finish(sender), (1, settled(first), wanted))


def case_body_of_another(folder):
    """Another sender's request that the server held has the verdict Stored in the place of the file's: Conflict."""
    other = message("held", 1, bytes([BEXT, DESCRIPTION]) + b"Another")
    with serving(folder) as server:
        with connect(server.port) as peer:
            peer.sendall(other)
            held = notice("held", 1, HELD, 0)
            TALLY.same("a request that is held", hear(peer, len(held)), held)
        status, _out, said = upload(server.port, "held", written(folder, TONE_FILE))
        wanted = (1, "Conflict: another request was sent under number 1\n" + OTHER_NAME)
        TALLY.same("a request of another sender", (status, said), wanted)


def case_killed(folder):
    """A sender that is killed, and a rerun: the same file arrives."""
    recording, file = long_recording(600, 4)
    path = written(folder, file)
    with serving(folder) as server:
        for wait in (0.05, 0.2, 0.4):
            sender = start(*words_of(server.port, "again", path))
            time.sleep(wait)
            sender.send_signal(signal.SIGKILL)
            sender.wait()
        count = len(recording.requests())
        TALLY.same("killed, and run again", upload(server.port, "again", path), (0, settled(count), ""))
        found = samples_of(folder / "takes" / "again.wav")
        TALLY.holds("killed, and run again: the samples", found == recording.samples, "they differ")


CASES = [
    case_arrives,
    case_strict,
    case_fields,
    case_refusals,
    case_garbage,
    case_rate,
    case_cut_links,
    case_other_file,
    case_taken_name,
    case_no_server,
    case_server_goes_away,
    case_touched,
    case_lengthened,
    case_shortened,
    case_delayed,
    case_conflict_by_peer,
    case_conflict_beside_stored,
    case_too_far_by_peer,
    case_body_of_another,
    case_killed,
]

sys.exit(run_cases(CASES, LONGEST_RUN))
