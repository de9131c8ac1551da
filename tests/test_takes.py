#!/usr/bin/env python3
"""Runs `takes` over folders that servers left, that are being written, and that something else has changed.

Each line is compared with what docs/FORMATS.md says of the journal: of whole journals, of journals cut at each byte and
with single bits turned, of files that are gone, shorter, longer or changed. Nothing of a folder changes. The program is
the first argument, or the one of this repository. Prints what differs, and last 'N passed, M failed'.
"""
import random
import signal
import subprocess
import sys

sys.dont_write_bytecode = True  # nothing is left beside this script
from kit.folders import ends_of, exchange, FastTake, folder_in, HEADER_LEN, journaled, left_by, line_of, restored, says
from kit.folders import small_take, state
from kit.hints import USAGE
from kit.network import run, run_cases, send_words, Server, start, TALLY
from kit.takes import message, Take, verdict

LONGEST_RUN = 180  # seconds, for all of it
NAME_TAKEN, NOT_OPEN = 1, 3  # verdicts
CHANCE = random.Random(1)


def is_told(server, name, request, code):
    """The first request of a name gets this verdict."""
    TALLY.same(f"{name}: the server", exchange(server, message(name, 0, request)), verdict(name, 0, code))


def listed(folder):
    return run("takes", "--folder", str(folder))


def shows(name, folder, lines, status=0):
    TALLY.same(name, listed(folder), (status, "".join(line + "\n" for line in lines), ""))


# What servers leave


def case_states(place):
    """A line for each take in the order of the names, for takes in each state."""
    folder = folder_in(place)
    (folder / "b-stood.wav").write_bytes(b"something else")
    (folder / "zz_alone.wav").write_bytes(b"")
    for name in ("a.1.journal", "A1.wav", ".hidden.wav", "a1.wav.bak", "notes.txt", "x" * 33 + ".wav", "journal"):
        (folder / name).write_bytes(b"no take")
    long, fast = Take("long", 3 * 95_999, 7), FastTake("fast", 3 * 132_299, 7)
    whole, part, opened = small_take("whole"), small_take("part"), small_take("opened")
    server = journaled(folder, 0)
    for take, count in ((long, len(long.messages())), (fast, 6), (whole, len(whole.messages())), (part, 5), (opened, 1)):
        says(f"{take.name}: the server", server, take, range(count))
    is_told(server, "refused", part.requests()[1], NOT_OPEN)
    is_told(server, "b-stood", part.requests()[0], NAME_TAKEN)
    lines = [
        "b-stood stood next 1",
        line_of(fast, 6),
        line_of(long, len(long.messages())),
        line_of(opened, 1),
        line_of(part, 5),
        "refused unopened next 1",
        line_of(whole, len(whole.messages())),
        "zz_alone stood next 0",
    ]
    TALLY.holds("a whole number less a thousandth", "seconds 1.999" in lines[2], lines[2])
    before = state(folder)
    shows("while the server runs", folder, lines)
    server.stop(signal.SIGKILL)
    shows("after the server", folder, lines)
    TALLY.same("the folder", state(folder), before)


def case_bw64(place):
    """Takes of a server with the least limit, which turn BW64, are judged by the limit in their journals."""
    take = small_take("large", 30_000)
    count = len(take.messages())
    folder = left_by(folder_in(place), [(take, count), (small_take(), 5)], "--limit", "8192")
    TALLY.same("its form", (folder / "large.wav").read_bytes()[:4], b"BW64")
    shows("another limit", folder, [line_of(small_take(), 5), line_of(take, count)])


def case_no_journals(place):
    """A folder without journals has only files that stood; an empty folder prints nothing."""
    folder = folder_in(place)
    shows("an empty folder", folder, [])
    server = Server(folder, "--until-stopped")
    says("no journal", server, small_take(), range(4))
    server.stop(signal.SIGKILL)
    shows("no journal", folder, ["a1 stood next 0"])


def case_order(place):
    """The order is that of the names' bytes, whatever that of the folder."""
    folder = folder_in(place)
    names = ["-", "--", "-a", "0", "10", "2", "_", "a", "a-", "a0", "a_", "aa", "z" * 32, "z", "za"]
    for name in CHANCE.sample(names, len(names)):
        (folder / f"{name}.wav").write_bytes(b"")
    shows("the order", folder, [f"{name} stood next 0" for name in sorted(names, key=str.encode)])


def case_many(place):
    """A thousand names, in one listing."""
    folder = folder_in(place)
    for number in range(1_000):
        (folder / f"n{number}.wav").write_bytes(b"")
    shows("many names", folder, sorted(f"n{number} stood next 0" for number in range(1_000)))


def case_while_sending(place):
    """While recorders send as fast as they can nothing is wrong with any take."""
    folder = folder_in(place)
    server = journaled(folder, 0, "--recorders", "4", "--idle", "60")
    takes = [Take(f"take{number}", 7_500_000, number) for number in range(3)]
    running = []
    for take in takes:
        (place / take.name).write_bytes(take.lines())
        with open(place / take.name, "rb") as lines:
            words = send_words(server.port, take, "--rounds", "1000")
            running.append(start(*words, stdin=lines, stdout=subprocess.DEVNULL, stderr=subprocess.DEVNULL))
    reports = 0
    while any(sender.poll() is None for sender in running):
        status, out, faults = listed(folder)
        states = [line.split(" ")[1] for line in out.splitlines()]
        is_sound = status == 0 and not faults and set(states) <= {"open", "closed", "unopened"}
        TALLY.holds("while they send", is_sound, f"{status}, {out!r}, {faults!r}")
        reports += 1
    TALLY.holds("reports while they send", reports > 3, reports)
    server.stop(signal.SIGKILL)
    shows("all sent", folder, [line_of(take, len(take.messages())) for take in takes])


# What something else has changed


def case_cuts(place):
    """A journal that is cut anywhere has the numbers of its whole entries; one cut within its header is Damaged beside
    its file, and unopened without it, whatever the limit."""
    take = small_take()
    for at, options in enumerate(((), ("--limit", "65536"))):
        folder = left_by(folder_in(place, f"takes{at}"), [(take, 6)], *options)
        saved = {path.name: path.read_bytes() for path in folder.iterdir()}
        journal = saved["a1.journal"]
        ends = ends_of(journal)
        TALLY.same("the end of a journal", (ends[-1], len(ends)), (len(journal), 7))
        for length in range(HEADER_LEN):
            restored(folder, {**saved, "a1.journal": journal[:length]})
            shows(f"a header of {length} bytes beside a file", folder, ["a1 Damaged"], 1)
            restored(folder, {"a1.journal": journal[:length]})
            shows(f"a header of {length} bytes", folder, ["a1 unopened next 0"])
        for length in range(HEADER_LEN, len(journal) + 1, 1 if not at else 37):
            restored(folder, {**saved, "a1.journal": journal[:length]})
            done = sum(end <= length for end in ends) - 1
            shows(f"a journal of {length} bytes", folder, [line_of(take, done)])


def case_zeros(place):
    """A journal ends at its first zero byte, whatever follows it; one that ends within its header is as one cut there."""
    take = small_take()
    folder = left_by(folder_in(place), [(take, 6)])
    saved = {path.name: path.read_bytes() for path in folder.iterdir()}
    journal = saved["a1.journal"]
    ends = ends_of(journal)
    for at in range(len(journal)):
        for torn in (journal[:at] + bytes(len(journal) - at), journal[:at] + bytes(1) + journal[at + 1 :]):
            if at < HEADER_LEN:
                restored(folder, {"a1.journal": torn})
                shows(f"a header with a zero at {at}", folder, ["a1 unopened next 0"])
            else:
                restored(folder, {**saved, "a1.journal": torn})
                shows(f"a zero at {at}", folder, [line_of(take, sum(end <= at for end in ends) - 1)])


def case_old_format(place):
    """A journal of the format before is no journal."""
    folder = folder_in(place)
    (folder / "a1.journal").write_bytes(bytes((17, 0, 238, 255)) + b"BWJ1" + bytes(21))
    shows("an old journal", folder, ["a1 NotAJournal"], 1)


def case_turned_bits(place):
    """With one bit turned a journal has a named fault, whatever the bit, unless it ends there: at a zero, or without its
    last byte; and so has its take alone."""
    folder = left_by(folder_in(place), [(small_take(), 6), (small_take("b2"), 4)])
    saved = {path.name: path.read_bytes() for path in folder.iterdir()}
    journal = saved["a1.journal"]
    words = {"NotAJournal", "OtherName", "OtherLimit", "OtherVerdict", "NotAnEntry", "Damaged"}
    for bit in CHANCE.sample(range(8 * len(journal)), 200):
        turned = bytearray(journal)
        turned[bit // 8] ^= 1 << bit % 8
        if 0 in turned or turned[-1] != journal[-1]:
            continue
        restored(folder, {**saved, "a1.journal": bytes(turned)})
        status, out, faults = listed(folder)
        first, _, rest = out.partition("\n")
        is_named = first.startswith("a1 ") and first[3:] in words
        is_so = (status, rest, faults) == (1, line_of(small_take("b2"), 4) + "\n", "") and is_named
        TALLY.holds(f"bit {bit}", is_so, f"{status}, {out!r}, {faults!r}")


def case_files(place):
    """Files that are gone or shorter, those of closed takes that are longer or changed, journals of other names, and takes
    that are as they were, or open with a longer file."""
    takes = [small_take(name) for name in ("a1", "b2", "c3", "d4", "e5", "f6")]
    counts = [5, 5, 5, len(takes[3].messages()), len(takes[4].messages()), 5]
    folder = left_by(folder_in(place), zip(takes, counts))
    (folder / "a1.wav").unlink()
    (folder / "b2.wav").write_bytes((folder / "b2.wav").read_bytes()[:-34])
    (folder / "c3.wav").write_bytes((folder / "c3.wav").read_bytes() + bytes(40_000))
    header = bytearray((folder / "d4.wav").read_bytes())
    header[100] ^= 1
    (folder / "d4.wav").write_bytes(header)
    (folder / "e5.wav").write_bytes((folder / "e5.wav").read_bytes() + bytes(1))
    (folder / "g7.journal").write_bytes((folder / "f6.journal").read_bytes())
    lines = ["a1 LostFile", "b2 LostFile", line_of(takes[2], 5), "d4 ChangedFile", "e5 ChangedFile"]
    lines += [line_of(takes[5], 5), "g7 OtherName"]
    before = state(folder)
    shows("damages", folder, lines, 1)
    TALLY.same("the folder", state(folder), before)


def case_mended(place):
    """What a server mends isn't wrong: a file that is longer, by whatever, and whose header is of a shorter take."""
    take = small_take()
    folder = left_by(folder_in(place), [(take, 5)])
    content = bytearray((folder / "a1.wav").read_bytes())
    content[4:8] = bytes(4)
    (folder / "a1.wav").write_bytes(content + bytes(200_000))
    shows("what a server mends", folder, [line_of(take, 5)])
    server = journaled(folder, 1)
    says("a repeat", server, take, range(1))
    server.stop(signal.SIGKILL)
    shows("what is mended", folder, [line_of(take, 5)])


# What can't be read or written


def case_unread(place):
    """A folder that isn't there, or is none."""
    missing = place / "missing"
    TALLY.same("no folder", listed(missing), (3, "", f"{missing} can't be read\n"))
    file = place / "file"
    file.write_bytes(b"")
    TALLY.same("a file", listed(file), (3, "", f"{file} can't be read\n"))


def case_odd_entries(place):
    """An entry that can't be read is named, and the other takes are listed: folders, and links that lead to themselves."""
    take = small_take("sound")
    folder = left_by(folder_in(place), [(take, 5)])
    (folder / "b-stood.wav").write_bytes(b"something else")
    odd = ("a1.journal", "c3.wav", "z5.wav", "z6.journal")
    for name in odd[:2]:
        (folder / name).mkdir()
    for name in odd[2:]:
        (folder / name).symlink_to(name)
    lines = f"b-stood stood next 0\n{line_of(take, 5)}\n"
    unread = "".join(f"{folder}/{name} can't be read\n" for name in odd)
    TALLY.same("odd entries", listed(folder), (3, lines, unread))
    TALLY.same("odd entries, compared", run("takes", "--check", "--folder", str(folder)), (3, lines, unread))
    status, out, faults = run("takes", "--json", "--folder", str(folder))
    TALLY.same("odd entries, JSON", (status, out.count("\n"), faults), (3, 2, unread))
    (folder / "sound.wav").write_bytes(b"")
    TALLY.same("odd entries beside a damaged take", listed(folder)[::2], (3, unread))


def case_unwritten(place):
    """A full disk under standard output."""
    folder = folder_in(place)
    (folder / "a1.wav").write_bytes(b"")
    with open("/dev/full", "wb") as full:
        process = start("takes", "--folder", str(folder), stdout=full, stderr=subprocess.PIPE)
        _, faults = process.communicate(timeout=30)
    TALLY.same("a full disk", (process.returncode, faults), (3, b"the output can't be written\n"))


def case_words(_place):
    """The folder has to be given, and isn't empty; it may begin with a hyphen."""
    status, out, faults = run("takes")
    TALLY.same("no folder", (status, out, "--folder <DIR>" in faults), (2, "", True))
    wanted = "error: '--folder <DIR>' takes the path of a folder, which isn't empty\n" + USAGE
    TALLY.same("an empty folder's name", run("takes", "--folder", ""), (2, "", wanted))
    TALLY.same("a hyphen", run("takes", "--folder", "-none"), (3, "", "-none can't be read\n"))


cases = [value for name, value in list(globals().items()) if name.startswith("case_")]
sys.exit(run_cases(cases, LONGEST_RUN))
