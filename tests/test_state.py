#!/usr/bin/env python3
"""Runs `send --file --state` of the built program against the built server: kills, torn states, other files, full disks.

A sender is killed with SIGKILL at random moments, some five seconds after it began, and run again with its state, until
it ends by itself: the file that arrives has the samples, and little is sent twice. States that are cut at each of their
bytes, that are of another file, name or server, that can't be read or written, files that are no states, and servers
that have lost the take, end as docs/OPERATING.md says. What a state has is compared with docs/FORMATS.md, whose digest
is computed here of the requests that `pack` prints. The program is the first argument, or the one of this repository;
`--kills=N` sets how many kills are made (8). Prints what differs, and last 'N passed, M failed'.
"""
import contextlib
import hashlib
import os
import random
import struct
import subprocess
import sys
import time

sys.dont_write_bytecode = True  # nothing is left beside this script
from cases.recordings import TONE_FILE
from kit.hints import FRUITLESS
from kit.network import free_port, LOCAL, run, run_cases, Server, start_with_pipes, TALLY
from kit.uploads import CountingRelay, long_recording, samples_of, serving, settled, words_of, written

KILLS = next((int(word.partition("=")[2]) for word in sys.argv if word.startswith("--kills=")), 8)
RATE = 1_000_000  # bytes a second, at which a sender that is killed sends
LONGEST_RUN = 300 + 8 * KILLS  # seconds, for all of it


def words_with(port, name, path, state, *options):
    return words_of(port, name, path, "--state", str(state), *options)


def upload(port, name, path, state, *options):
    return run(*words_with(port, name, path, state, *options))


def header_of(name, port, path):
    """The header of a state, by docs/FORMATS.md."""
    _status, out, _faults = run("pack", str(path))
    frames, block = b"", 0
    for number, line in enumerate(out.split()):
        request = bytes.fromhex(line)
        if request[0] == 2:
            block = len(request) - 1
            break
        body = request[:1] + bytes([len(name)]) + name.encode() + struct.pack("<I", number) + request[1:]
        frames += struct.pack("<I", len(body)) + body
    stand = os.stat(path)
    digest = hashlib.sha256(frames).hexdigest()
    return f"bwingest-state-1 {name} {LOCAL}:{port} {stand.st_size} {stand.st_mtime_ns} {block} {digest}"


def counts_in(state):
    """The counts of a state's whole lines."""
    lines = state.read_bytes().split(b"\n")[1:-1]
    return [int(line.split()[1]) for line in lines]


def case_whole(folder):
    """A take that is sent at once leaves a state by the format; run again, all but CLOSE is passed over."""
    state = folder / "a.state"
    recording, file = long_recording(40)
    path = written(folder, file)
    with serving(folder) as server:
        count = len(recording.requests())
        TALLY.same("the first run", upload(server.port, "whole", path, state), (0, settled(count), ""))
        lines = state.read_text().splitlines()
        TALLY.same("the header", lines[0], header_of("whole", server.port, path))
        TALLY.same("the last line", lines[-1], f"settled {count - 1}")
        TALLY.holds("counts rise", counts_in(state) == sorted(set(counts_in(state))), counts_in(state))
        said = f"{state}: goes on at {count - 1}\n"
        TALLY.same("the second run", upload(server.port, "whole", path, state), (0, settled(count), said))
        found = samples_of(folder / "takes" / "whole.wav")
        TALLY.holds("the samples", found == recording.samples, "they differ")


def case_kills(folder):
    """Kills at random moments, some seconds apart: the samples arrive, and little is sent twice. Each kill costs what
    was sent since the last count, which is noted ten times a second at most, and the messages under way."""
    chance = random.Random(11)
    recording, file = long_recording(KILLS * 5 * RATE // 32_768)
    path = written(folder, file)
    state = folder / "k.state"
    with serving(folder) as server:
        relay = CountingRelay(server.port, 4, 1 << 40, 1 << 40)
        kills = 0
        while kills < KILLS:
            sender = start_with_pipes(*words_with(relay.port, "killed", path, state, "--rate", str(RATE)))
            with contextlib.suppress(subprocess.TimeoutExpired):
                sender.wait(chance.uniform(3, 7))
            if sender.poll() is not None:
                break
            sender.kill()
            sender.communicate()
            kills += 1
        status, out, _said = upload(relay.port, "killed", path, state)
        TALLY.same(f"after {kills} kills", (status, out), (0, settled(len(recording.requests()))))
        relay.stop()
        TALLY.holds("kills", kills >= KILLS // 2, f"only {kills} kills")
        times = relay.passed / len(file)
        TALLY.holds(f"{kills} kills", times <= 1.3, f"{times:.2f} times the bytes were sent")
        found = samples_of(folder / "takes" / "killed.wav")
        TALLY.holds("kills: the samples", found == recording.samples, "they differ")


def case_torn(folder):
    """A state that is cut anywhere says its whole lines, or nothing."""
    recording, file = long_recording(20)
    path = written(folder, file)
    count = len(recording.requests())
    with serving(folder) as server:
        state = folder / "t.state"
        upload(server.port, "torn", path, state)
        header = header_of("torn", server.port, path) + "\n"
        whole = header + "settled 3\nsettled 17\n"
        for length in [0, 1, 17, len(header) - 1, *range(len(header), len(whole) + 1)]:
            state.write_text(whole[:length])
            lines = [int(line.split()[1]) for line in whole[:length].split("\n")[1:-1]]
            said = f"{state}: goes on at {max(lines)}\n" if lines else ""
            if 0 < length < len(header):
                said = f"{state}: another state, begins at 0\n"
            found = upload(server.port, "torn", path, state)
            TALLY.same(f"cut at {length}", found, (0, settled(count), said))
        for garbage in (bytes(300), header.encode() + b"settled 99999999\nsettled x\n", header.encode() + b"\xff" * 9):
            state.write_bytes(garbage)
            status, out, _said = upload(server.port, "torn", path, state)
            TALLY.same("garbage", (status, out), (0, settled(count)))


def case_no_state(folder):
    """A file that is no state is left as it is, the recording itself too."""
    path = written(folder, TONE_FILE)
    state = folder / "notes"
    with serving(folder) as server:
        for taken, was in ((state, b"garbage\n"), (state, b"\xff" * 9), (state, b"settled 3\n"), (path, TONE_FILE)):
            taken.write_bytes(was)
            said = f"{taken}: the state can't be kept: invalid data\n"
            status, out, faults = upload(server.port, "kept", path, taken)
            TALLY.same(f"no state: {was[:9]!r}", (status, out), (3, ""))
            TALLY.holds(f"no state: {was[:9]!r}", faults.endswith(said), faults)
            TALLY.holds(f"no state: {was[:9]!r}", taken.read_bytes() == was, "it was changed")


def case_other(folder):
    """The state of another take, file or server: all is sent."""
    recording, file = long_recording(20)
    count = len(recording.requests())
    path = written(folder, file)
    other = written(folder, TONE_FILE, "other.wav")
    state = folder / "o.state"
    said = f"{state}: another state, begins at 0\n"
    with serving(folder) as server:
        TALLY.same("one file", upload(server.port, "one", path, state), (0, settled(count), ""))
        TALLY.same("another file", upload(server.port, "two", other, state), (0, settled(9), said))
        TALLY.same("another name", upload(server.port, "three", path, state), (0, settled(count), said))
        os.utime(path, ns=(5, 5))
        TALLY.same("another time", upload(server.port, "three", path, state), (0, settled(count), said))
        found = upload(server.port, "three", path, state, "--set", "description=New")
        TALLY.same("other fields", found[0], 1)  # Conflict: the take has other fields
        TALLY.holds("other fields", said in found[2] and "Conflict" in found[2], found[2])


def case_longer_state(folder):
    """The state of another recording that is longer than the new one: nothing of it is left, and nothing passed over."""
    recording, file = long_recording(20)
    count = len(recording.requests())
    path = written(folder, file)
    state = folder / "longer.state"
    with serving(folder) as server:
        old = header_of("another", server.port, path) + "\n" + 5_000 * "settled 16777216\n"
        for name in ("after", "after"):
            state.write_text(old)
            found = upload(server.port, name, path, state)
            TALLY.same("a longer state", found, (0, settled(count), f"{state}: another state, begins at 0\n"))
            TALLY.same("a longer state: the header", state.read_text().splitlines()[0], header_of(name, server.port, path))
            TALLY.holds("a longer state: the counts", max(counts_in(state)) == count - 1, counts_in(state)[-3:])
        found = samples_of(folder / "takes" / "after.wav")
        TALLY.holds("a longer state: the samples", found == recording.samples, "they differ")


def case_long_name(folder):
    """A name of 32 bytes, the longest, goes on too: the server's answer to its ask is the longest."""
    name = "n" * 32
    recording, file = long_recording(3)
    count = len(recording.requests())
    path = written(folder, file)
    state = folder / "long.state"
    with serving(folder) as server:
        TALLY.same("a long name", upload(server.port, name, path, state), (0, settled(count), ""))
        found = upload(server.port, name, path, state, "--fruitless", "2")
        TALLY.same("a long name goes on", found, (0, settled(count), f"{state}: goes on at {count - 1}\n"))


def case_rate(folder):
    """--rate holds with a state too."""
    blocks, rate = 20, 300_000
    recording, file = long_recording(blocks)
    path = written(folder, file)
    with serving(folder) as server:
        begun = time.monotonic()
        found = upload(server.port, "slow", path, folder / "r.state", "--rate", str(rate))
        took, least = time.monotonic() - begun, (len(recording.samples) - 32_768) / rate
        TALLY.same("a rate with a state", found, (0, settled(len(recording.requests())), ""))
        TALLY.holds("a rate with a state", least <= took, f"{took:.2f} s in place of {least:.2f}")


def case_pipe(folder):
    """A pipe in the place of a state is refused, and not waited for."""
    path = written(folder, TONE_FILE)
    state = folder / "p.state"
    os.mkfifo(state)
    found = upload(free_port(), "piped", path, state)
    TALLY.same("a pipe as a state", found, (3, "", f"{state}: the state can't be kept: it is a pipe\n"))


def case_early_time(folder):
    """A file that was changed before 1970: its time is noted as 0."""
    path = written(folder, TONE_FILE)
    os.utime(path, ns=(-(10**18) - 5, -(10**18) - 5))
    state = folder / "e.state"
    with serving(folder) as server:
        TALLY.same("changed before 1970", upload(server.port, "early", path, state), (0, settled(9), ""))
        words = state.read_text().split()
        TALLY.same("changed before 1970: the state", words[1:5], ["early", f"{LOCAL}:{server.port}", str(len(TONE_FILE)), "0"])
        found = upload(server.port, "early", path, state)
        TALLY.same("changed before 1970, again", found, (0, settled(9), f"{state}: goes on at 8\n"))
        TALLY.same("changed before 1970, no state", run(*words_of(server.port, "early", path)), (0, settled(9), ""))


def case_lost_take(folder):
    """A server that has lost the take is sent all of it."""
    recording, file = long_recording(20)
    count = len(recording.requests())
    path = written(folder, file)
    state = folder / "l.state"
    inner = folder / "again"
    inner.mkdir()
    with serving(folder) as server:
        upload(server.port, "lost", path, state)
        port = server.port
    text = state.read_text()
    server = Server(inner, "--until-stopped")
    state.write_text(text.replace(f"{LOCAL}:{port} ", f"{LOCAL}:{server.port} "))
    said = f"{state}: the server expects less, begins at 0\n"
    TALLY.same("a lost take", upload(server.port, "lost", path, state), (0, settled(count), said))
    found = samples_of(inner / "lost.wav")
    TALLY.holds("a lost take: the samples", found == recording.samples, "they differ")
    server.stop()


def case_unkept(folder):
    """A state that can't be read or written is named, with the status of device faults."""
    path = written(folder, TONE_FILE)
    port = free_port()
    for state, reason in ((folder, "Is a directory"), ("/dev/full", "No space left"), (folder / "no" / "s", "No such")):
        status, out, said = upload(port, "x", path, state)
        is_so = status == 3 and out == "" and said.split("\n")[-2].startswith(f"{state}: the state can't be kept: ")
        TALLY.holds(f"state at {state}", is_so and reason in said, f"{status}, {out!r}, {said!r}")


def case_without(folder):
    """Without --file, or with no file: usage, and the file's fault."""
    state = folder / "w.state"
    status, _out, said = run("send", "--connect", f"{LOCAL}:1", "--name", "a", "--state", str(state))
    TALLY.holds("no file", status == 2 and "'--state'" in said, f"{status}, {said!r}")
    status, out, said = upload(1, "a", folder / "none.wav", state)
    TALLY.same("a file that isn't there", (status, out), (3, ""))
    TALLY.holds("no state is made", not state.exists(), "there is one")


def case_no_answer(folder):
    """A server that doesn't answer an ask."""
    path = written(folder, TONE_FILE)
    state = folder / "n.state"
    with serving(folder) as server:
        upload(server.port, "none", path, state)
        port = server.port
    found = upload(port, "none", path, state, "--fruitless", "2")
    TALLY.same("no answer", found, (3, "", FRUITLESS))


CASES = [
    case_whole,
    case_torn,
    case_no_state,
    case_other,
    case_longer_state,
    case_long_name,
    case_rate,
    case_pipe,
    case_early_time,
    case_lost_take,
    case_unkept,
    case_without,
    case_no_answer,
    case_kills,
]

sys.exit(run_cases(CASES, LONGEST_RUN))
