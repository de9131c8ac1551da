#!/usr/bin/env python3
"""Runs `takes` with `--check`, `--digest` and `--json` over folders that servers left, and that something else has changed.

A file that isn't that of its journal is made by turning bits, cutting, lengthening and exchanging blocks; which number is
the first whose samples are others, and which digest they have, follows from the requests alone. Nothing of a folder
changes. The program is the first argument, or the one of this repository. Prints what differs, and last 'N passed, M failed'.
"""
import hashlib
import json
import random
import signal
import subprocess
import sys

sys.dont_write_bytecode = True  # nothing is left beside this script
from kit.folders import FastTake, folder_in, journaled, left_by, line_of, restored, says, small_take, state
from kit.network import connect, hear_all, LOCAL, run, run_cases, send_words, start, TALLY
from kit.takes import BLOCK, BYE_FRAME, little, message, OPEN, STORED, Take, verdict

LONGEST_RUN = 180  # seconds, for all of it
DATA_PLACE = 690  # of a file without a history
NAME_TAKEN, NOT_OPEN, BAD_BLOCK = 1, 3, 6  # verdicts
CHANCE = random.Random(2)


def checked(folder, *options):
    return run("takes", "--folder", str(folder), "--check", *options)


def shows(name, folder, lines, status=0):
    TALLY.same(name, checked(folder), (status, "".join(line + "\n" for line in lines), ""))


def turned(content, bit):
    content = bytearray(content)
    content[bit // 8] ^= 1 << bit % 8
    return bytes(content)


def number_at(take, place):
    """The number of the block that has the sample byte at this place."""
    return take.FIRST_BLOCK + place // len(take.blocks[0])


# Samples


def case_sound(place):
    """Takes in each state, of which nothing is wrong: the lines are those without the samples."""
    folder = folder_in(place)
    (folder / "b-stood.wav").write_bytes(b"something else")
    (folder / "zz_alone.wav").write_bytes(b"")
    long, fast = Take("long", 300_001, 7), FastTake("fast", 100_000, 7)
    whole, part, opened = small_take("whole"), small_take("part"), small_take("opened")
    takes = ((long, len(long.messages())), (fast, 6), (whole, len(whole.messages())), (part, 5), (opened, 1))
    server = journaled(folder, 0)
    for take, count in takes:
        says(f"{take.name}: the server", server, take, range(count))
    with connect(server.port) as peer:
        peer.sendall(message("b-stood", 0, part.requests()[0]) + message("refused", 0, part.requests()[1]) + BYE_FRAME)
        TALLY.same("refused", hear_all(peer), verdict("b-stood", 0, NAME_TAKEN) + verdict("refused", 0, NOT_OPEN))
    before = state(folder)
    plain = run("takes", "--folder", str(folder))
    TALLY.same("its status", (plain[0], len(plain[1].splitlines())), (0, 8))
    TALLY.same("while the server runs", checked(folder), plain)
    server.stop(signal.SIGKILL)
    TALLY.same("after the server", checked(folder), plain)
    TALLY.same("the folder", state(folder), before)


def case_refused_blocks(place):
    """A block that was refused has no samples in the file: the next one follows the one before it."""
    folder = folder_in(place)
    take = small_take()
    requests = [*take.requests()[:4], bytes([BLOCK]) + b"x", *take.requests()[4:6]]
    codes = [STORED] * 4 + [BAD_BLOCK] + [STORED] * 2
    server = journaled(folder, 0)
    with connect(server.port) as peer:
        peer.sendall(b"".join(message("a1", number, request) for number, request in enumerate(requests)) + BYE_FRAME)
        wanted = b"".join(verdict("a1", number, code) for number, code in enumerate(codes))
        TALLY.same("the server", hear_all(peer), wanted)
    server.stop(signal.SIGKILL)
    status, out, faults = checked(folder)
    TALLY.same("a refused block", (status, out.split(" ")[:2], faults), (0, ["a1", "open"], ""))
    content = (folder / "a1.wav").read_bytes()
    for at, number in ((0, 3), (32, 3), (33, 5), (98, 6)):
        (folder / "a1.wav").write_bytes(turned(content, 8 * (DATA_PLACE + at)))
        shows(f"sample byte {at}", folder, [f"a1 ChangedBlock number {number}"], 1)


def case_bits(place):
    """A bit turned anywhere in the samples: the number of its block, and of two the first; open or closed, RIFF or BW64."""
    for at, (options, closed) in enumerate(((("--limit", "8192"), True), ((), True), ((), False))):
        take = Take("a1", 40_000, 11, block=3_000, markers=[(1, 4)])
        count = len(take.messages()) if closed else take.FIRST_BLOCK + len(take.blocks) - 1
        length = len(take.samples) if closed else len(take.blocks[0]) * (len(take.blocks) - 1)
        folder = left_by(folder_in(place, f"takes{at}"), [(take, count), (small_take("b2"), 5)], *options)
        second = line_of(small_take("b2"), 5)
        content = (folder / "a1.wav").read_bytes()
        TALLY.same("its samples", content[DATA_PLACE : DATA_PLACE + length], take.samples[:length])
        places = [0, length - 1, 2_999, 3_000, *(CHANCE.randrange(length) for _ in range(30))]
        for sample in places:
            (folder / "a1.wav").write_bytes(turned(content, 8 * (DATA_PLACE + sample) + CHANCE.randrange(8)))
            shows(f"byte {sample}", folder, [f"a1 ChangedBlock number {number_at(take, sample)}", second], 1)
            status, out, faults = run("takes", "--folder", str(folder))
            TALLY.same(f"byte {sample} without --check", (status, out, faults), (0, f"{line_of(take, count)}\n{second}\n", ""))
        for _ in range(5):
            first, other = sorted(CHANCE.sample(range(length), 2))
            both = turned(turned(content, 8 * (DATA_PLACE + first)), 8 * (DATA_PLACE + other))
            (folder / "a1.wav").write_bytes(both)
            shows(f"bytes {first} and {other}", folder, [f"a1 ChangedBlock number {number_at(take, first)}", second], 1)


def case_exchanged(place):
    """Blocks of one length that were exchanged, and samples of another take: the first of them."""
    take, other = Take("a1", 30_000, 5, block=3_000), Take("b2", 30_000, 6, block=3_000)
    folder = left_by(folder_in(place), [(take, 9), (other, 9)])
    mine, theirs = ((folder / f"{name}.wav").read_bytes() for name in ("a1", "b2"))
    one, two = DATA_PLACE + 3_000, DATA_PLACE + 9_000
    swapped = mine[:one] + mine[two : two + 3_000] + mine[one + 3_000 : two] + mine[one : one + 3_000] + mine[two + 3_000 :]
    (folder / "a1.wav").write_bytes(swapped)
    shows("exchanged blocks", folder, ["a1 ChangedBlock number 4", line_of(other, 9)], 1)
    (folder / "a1.wav").write_bytes(theirs)
    shows("another take's file", folder, ["a1 ChangedBlock number 3", line_of(other, 9)], 1)


def case_files(place):
    """What is wrong without the samples is reported first: a file that is gone or cut, and that of a closed take that has
    another header or is longer; nothing is wrong with a longer one of an open take."""
    takes = [small_take(name) for name in ("a1", "b2", "c3", "d4", "e5", "f6", "g7")]
    counts = [5, 5, 5, len(takes[3].messages()), len(takes[4].messages()), 5, 5]
    folder = left_by(folder_in(place), zip(takes, counts))
    (folder / "a1.wav").unlink()
    (folder / "b2.wav").write_bytes((folder / "b2.wav").read_bytes()[:-34])
    (folder / "c3.wav").write_bytes((folder / "c3.wav").read_bytes() + bytes(40_000))
    (folder / "d4.wav").write_bytes(turned((folder / "d4.wav").read_bytes(), 800))
    (folder / "e5.wav").write_bytes((folder / "e5.wav").read_bytes() + bytes(1))
    (folder / "h8.journal").write_bytes((folder / "f6.journal").read_bytes())
    (folder / "g7.wav").write_bytes(turned((folder / "g7.wav").read_bytes(), 32) + bytes(9))
    lines = ["a1 LostFile", "b2 LostFile", line_of(takes[2], 5), "d4 ChangedFile", "e5 ChangedFile"]
    lines += [line_of(takes[5], 5), line_of(takes[6], 5), "h8 OtherName"]
    before = state(folder)
    shows("damages", folder, lines, 1)
    TALLY.same("the folder", state(folder), before)


def case_cut_journals(place):
    """Of a journal that was cut only the samples of its whole entries are compared."""
    take = small_take()
    folder = left_by(folder_in(place), [(take, 6)])
    saved = {path.name: path.read_bytes() for path in folder.iterdir()}
    changed = turned(saved["a1.wav"], 8 * (DATA_PLACE + 66))  # the third block, of number 5
    journal = saved["a1.journal"]
    ends = [journal.rindex(2, 0, -1) + 1, len(journal) - 1, len(journal)]
    for length, line in zip(ends, (line_of(take, 5), line_of(take, 5), "a1 ChangedBlock number 5")):
        restored(folder, {**saved, "a1.journal": saved["a1.journal"][:length], "a1.wav": changed})
        shows(f"a journal of {length} bytes", folder, [line], int("Changed" in line))


def case_while_sending(place):
    """While recorders send as fast as they can nothing is wrong with any take."""
    folder = folder_in(place)
    server = journaled(folder, 0, "--recorders", "4", "--idle", "60")
    takes = [Take(f"take{number}", 3_000_000, number) for number in range(3)]
    running = []
    for take in takes:
        (place / take.name).write_bytes(take.lines())
        with open(place / take.name, "rb") as lines:
            words = send_words(server.port, take, "--rounds", "1000")
            running.append(start(*words, stdin=lines, stdout=subprocess.DEVNULL, stderr=subprocess.DEVNULL))
    reports = 0
    while any(sender.poll() is None for sender in running):
        status, out, faults = checked(folder)
        states = [line.split(" ")[1] for line in out.splitlines()]
        is_sound = status == 0 and not faults and set(states) <= {"open", "closed", "unopened"}
        TALLY.holds("while they send", is_sound, f"{status}, {out!r}, {faults!r}")
        reports += 1
    TALLY.holds("reports while they send", reports > 0, reports)
    server.stop(signal.SIGKILL)
    shows("all sent", folder, [line_of(take, len(take.messages())) for take in takes])


# Limits

MANY = 1_100_000  # frames, one a block: more than 2^20 and than a million numbers, in a journal of 58 MB


def sends_many(name, server, path):
    """The take is sent, or is there already: each of its numbers is stored."""
    words = ("--pcm", "48000,1,16", "--no-defaults", "--file", str(path), "--block", "1")
    sent = run("send", "--connect", f"{LOCAL}:{server.port}", "--name", "many", *words)
    TALLY.same(name, sent, (0, f"settled {MANY + 2}\nstored {MANY + 2}\n", ""))


def case_many_numbers(place):
    """A take of very many numbers is sent, resumed by a start, compared, and recovered once other names took its place."""
    folder, path = folder_in(place), place / "many.pcm"
    path.write_bytes(CHANCE.randbytes(2 * MANY))
    line = f"many closed frames {MANY} seconds {MANY // 48_000}.{MANY % 48_000 // 48} next {MANY + 2}"
    server = journaled(folder, 0)
    sends_many("many numbers", server, path)
    server.stop(signal.SIGKILL)
    shows("many numbers after a kill", folder, [line])
    server = journaled(folder, 1)
    sends_many("many numbers after a start", server, path)
    others = [small_take(f"n{number}") for number in range(256)]
    for take in others:
        says(take.name, server, take, range(len(take.messages())))
    status, out, _ = checked(folder)
    TALLY.holds("many numbers out of the table", status == 0 and f"{line}\n" in out, (status, out[:400]))
    opening = bytes([OPEN]) + little(48_000, 4) + little(1, 2) + little(16, 2) + little(0, 2)
    with connect(server.port) as peer:
        peer.sendall(message("many", 0, opening) + BYE_FRAME)
        TALLY.same("many numbers recovered", hear_all(peer), verdict("many", 0, STORED))
    server.stop(signal.SIGKILL)


# Digests


def hashed(folder, *options):
    return run("takes", "--folder", str(folder), "--digest", *options)


def digest_of(take):
    return hashlib.sha256(take.samples).hexdigest()


def hashed_line(take):
    """The line of a closed take with the digest of the samples that were sent."""
    return f"{line_of(take, len(take.messages()))} sha256={digest_of(take)}"


def with_digest(line, digest):
    """The object of a line of words that has this digest, or none."""
    found = object_of(line.removesuffix(f" sha256={digest}")) | {"sha256": digest}
    return json.dumps(dict(sorted(found.items())), separators=(",", ":"))


def case_digests(place):
    """A closed take's line has the digest of the samples that were sent, RIFF or BW64, of any length; no other line has one."""
    sizes = (0, 1, 3 * 10_922, 32_768, 32_770, 3 * 33_333)
    for at, options in enumerate(((), ("--limit", "8192"))):
        folder = folder_in(place, f"takes{at}")
        (folder / "z1.wav").write_bytes(b"something else")
        whole = [Take(f"a{number}", size, number, block=3_000) for number, size in enumerate(sizes)]
        others = [(small_take("part"), 5), (small_take("opened"), 1)]
        left_by(folder, [*((take, len(take.messages())) for take in whole), *others], *options)
        (folder / "x1.journal").write_bytes(b"no journal at all")
        without = [*(line_of(take, count) for take, count in reversed(others)), "x1 NotAJournal", "z1 stood next 0"]
        lines = [*map(hashed_line, whole), *without]
        before = state(folder)
        TALLY.same("its lines", hashed(folder), (1, "".join(line + "\n" for line in lines), ""))
        TALLY.same("compared too", hashed(folder, "--check"), (1, "".join(line + "\n" for line in lines), ""))
        digests = [*map(digest_of, whole), *(None for _ in without)]
        objects = "".join(with_digest(*pair) + "\n" for pair in zip(lines, digests))
        TALLY.same("its objects", hashed(folder, "--json"), (1, objects, ""))
        TALLY.same("the folder", state(folder), before)


def case_other_samples(place):
    """The digest is that of the samples in the file; with `--check` none is printed of samples that are others."""
    take = Take("a1", 30_000, 5, block=3_000)
    count = len(take.messages())
    folder = left_by(folder_in(place), [(take, count)])
    content = turned((folder / "a1.wav").read_bytes(), 8 * (DATA_PLACE + 3_000))
    (folder / "a1.wav").write_bytes(content)
    found = hashlib.sha256(content[DATA_PLACE : DATA_PLACE + len(take.samples)]).hexdigest()
    TALLY.same("other samples", hashed(folder), (0, f"{line_of(take, count)} sha256={found}\n", ""))
    wanted = f"a1 ChangedBlock number {take.FIRST_BLOCK + 1}\n"
    TALLY.same("other samples, compared", hashed(folder, "--check"), (1, wanted, ""))
    (folder / "a1.wav").write_bytes(content[:-1])
    TALLY.same("a shorter file", hashed(folder)[:2], (1, "a1 LostFile\n"))
    (folder / "a1.wav").unlink()
    TALLY.same("no file", hashed(folder)[:2], (1, "a1 LostFile\n"))


# JSON


def object_of(line):
    """The object of a line of words, by docs/FORMATS.md."""
    name, state_word, *rest = line.split(" ")
    keys = ("block", "fault", "frames", "ms", "name", "next", "ok", "rate", "state")
    found = dict.fromkeys(keys) | {"name": name, "ok": True}
    if state_word == "ChangedBlock":
        return found | {"ok": False, "fault": state_word, "block": int(rest[1])}
    if not rest:
        return found | {"ok": False, "fault": state_word}
    values = dict(zip(rest[::2], rest[1::2]))
    found |= {"state": state_word, "next": int(values["next"])}
    if "frames" in values:
        found |= {"frames": int(values["frames"]), "ms": int(values["seconds"].replace(".", ""))}
        found["rate"] = FastTake.RATE if name == "fast" else Take.RATE
    return found


def case_json(place):
    """An object a line in the order of its keys, with the values of the line of words, for takes in each state and with
    each kind of fault."""
    folder = folder_in(place)
    (folder / "b-stood.wav").write_bytes(b"something else")
    fast, part, opened, changed, lost = FastTake("fast", 3 * 132_299, 7), *map(small_take, ("part", "opened", "x1", "x2"))
    takes = ((fast, len(fast.messages())), (part, 5), (opened, 1), (changed, 5), (lost, 5))
    left_by(folder, takes)
    (folder / "x2.wav").unlink()
    (folder / "x1.wav").write_bytes(turned((folder / "x1.wav").read_bytes(), 8 * DATA_PLACE))
    (folder / "x3.journal").write_bytes(b"no journal at all")
    for options in ((), ("--check",)):
        status, out, faults = run("takes", "--folder", str(folder), *options)
        TALLY.same("its lines", (status, faults, len(out.splitlines())), (1, "", 7))
        wanted = [json.dumps(object_of(line), separators=(",", ":")) for line in out.splitlines()]
        found = run("takes", "--folder", str(folder), "--json", *options)
        TALLY.same("its objects", found, (1, "".join(line + "\n" for line in wanted), ""))
    sound = left_by(folder_in(place, "sound"), [(part, 5)])
    wanted = '{"block":null,"fault":null,"frames":22,"ms":0,"name":"part","next":5,"ok":true,"rate":48000,"state":"open"}\n'
    TALLY.same("a take", run("takes", "--json", "--folder", str(sound)), (0, wanted, ""))
    TALLY.same("no takes", run("takes", "--json", "--folder", str(folder_in(place, "none"))), (0, "", ""))


cases = [value for name, value in list(globals().items()) if name.startswith("case_")]
sys.exit(run_cases(cases, LONGEST_RUN))
