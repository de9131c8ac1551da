#!/usr/bin/env python3
"""Starts `serve --journal` over folders that earlier servers left, and that something else has changed.

What was answered holds after each stop; a name that can't go on is left out alone, and nothing of it changes.
Journals are cut at many of their bytes, and single bits of them are turned. Calls of the system are refused while a
verdict is noted, while a server starts, and while it recovers names. With `--sync` samples, note and reply come in this
order. Needs what tracer.py needs. The program is the first argument, or the one of this repository. Prints what differs,
and last 'N passed, M failed'.
"""
import errno
import os
import random
import shutil
import signal
import subprocess
import sys

sys.dont_write_bytecode = True  # nothing is left beside this script
from kit.folders import ends_of, exchange, folder_in, has_next, HEADER_LEN, restored, says, small_take
from kit.network import CANT_GO_ON, connect, free_port, hear, hear_all, LOCAL, LONGEST_WAIT, PROGRAM, reason
from kit.network import run, run_cases, Server, stopped, TALLY
from kit.refuser import Refused
from kit.takes import ASK, BYE_FRAME, CONFLICT, DELAYED_STORE, message, NEXT, notice, STORED, verdict
from kit.watcher import Fault, Watcher

LONGEST_RUN = 240  # seconds, for all of it
LIMIT = 65_536  # bytes
JOURNAL = ("--until-stopped", "--journal", "--limit", str(LIMIT))
MANY = (*JOURNAL, "--recorders", "4")
BROKEN = f"{reason(errno.EIO)}\n".encode()
CHANCE = random.Random(1)


def resumed(count):
    return (f"resumed {count} takes",)


def journaled(folder, count, *options, watch=None):
    """A server over the folder that resumes this many takes."""
    return Server(folder, *(options or JOURNAL), opening=resumed(count), watch=watch)


def left_by(place, *takes, count=None):
    """A folder that a server left which was killed after so many numbers of each of these takes, or after all."""
    folder = folder_in(place)
    server = journaled(folder, 0)
    for take in takes:
        says(f"{take.name}: the first server", server, take, range(count or len(take.messages())))
    server.stop(signal.SIGKILL)
    return folder


def state(folder):
    """What a start that is refused leaves as it is."""
    files = {path.name: path for path in folder.iterdir() if path.name != ".bwingest-lock"}
    return {name: (path.read_bytes(), path.stat().st_mtime_ns, path.stat().st_ino) for name, path in files.items()}


def refused(name, folder, lines, *options, status=1):
    """A server is refused over the folder by these lines, in any order, and changes nothing."""
    before = state(folder)
    words = ("serve", "--listen", f"{LOCAL}:{free_port()}", "--folder", str(folder), *(options or JOURNAL))
    ended, out, faults = run(*words)
    TALLY.same(name, (ended, out, sorted(faults.splitlines())), (status, "", sorted(lines)))
    TALLY.same(f"{name}: the folder", state(folder), before)


# What goes on


def goes_on(place, *options):
    """Takes of which some numbers are done go on, a closed one and one whose name stood are as they were."""
    folder = folder_in(place)
    (folder / "stood.wav").write_bytes(b"something else")
    open_take, closed, stood = small_take("open"), small_take("closed"), small_take("stood")
    count = len(open_take.messages())
    server = journaled(folder, 0, *options)
    says("an open take", server, open_take, range(4))
    says("a closed take", server, closed, range(count))
    first = exchange(server, b"".join(stood.messages()[:2]))
    server.stop(signal.SIGKILL)
    for number in (signal.SIGTERM, signal.SIGKILL):
        before = state(folder)
        server = journaled(folder, 3, *options)
        TALLY.same("a start changes no file", state(folder), before)
        says("the open take again", server, open_take, range(4))
        says("the closed take again", server, closed, range(count))
        TALLY.same("the name that stood", exchange(server, b"".join(stood.messages()[:2])), first)
        has_next("the next number", server, open_take, 4)
        server.stop(number)
    server = journaled(folder, 3, *options)
    says("the rest", server, open_take, range(4, count))
    said = message("open", 0, open_take.requests()[1])
    TALLY.same("another request", exchange(server, said), notice("open", 0, CONFLICT, count))
    server.stop(signal.SIGTERM)
    TALLY.same("the open take's file", (folder / "open.wav").read_bytes(), open_take.file(limit=LIMIT))
    TALLY.same("the closed take's file", (folder / "closed.wav").read_bytes(), closed.file(limit=LIMIT))
    TALLY.same("what stood", (folder / "stood.wav").read_bytes(), b"something else")


def case_in_turn(place):
    goes_on(place, *JOURNAL)


def case_many(place):
    goes_on(place, *MANY)


def case_synced(place):
    goes_on(place, *JOURNAL, "--sync")


# What is refused


def case_two_servers(place):
    """A second server over the folder isn't started; a kill of the first frees the folder."""
    folder = folder_in(place)
    server = journaled(folder, 0)
    refused("a second server", folder, ["another server runs here"], status=3)
    refused("a second server of many", folder, ["another server runs here"], *MANY, status=3)
    says("the first server", server, small_take(), range(2))
    server.stop(signal.SIGKILL)
    stopped("the next server", journaled(folder, 1))


def case_pipe_as_lock(place):
    """A pipe in the place of the lock is refused, and not waited for."""
    folder = folder_in(place)
    os.mkfifo(folder / ".bwingest-lock")
    refused("a pipe as lock", folder, [f"{folder} can't be opened: .bwingest-lock is a pipe"], status=3)


def case_without_journal(place):
    """Without `--journal` a folder with journals is refused by name, and one whose files only end alike isn't."""
    folder = left_by(place, small_take(), count=2)
    lines = [f"{folder}/a1.journal: this take needs serve --journal"]
    for options in (("--exchanges", "1"), ("--exchanges", "1", "--recorders", "2")):
        refused("no journal", folder, lines, *options)
    (folder / "a1.journal").rename(folder / "a.1.journal")
    stopped("no journal of a take", Server(folder, "--until-stopped"))


# Names that are left out


def left_out(name, folder, causes, *options):
    """A server over the folder puts these names off, prints the cause of each once, and changes nothing of the folder."""
    before = state(folder)
    server = journaled(folder, len([*folder.glob("*.journal")]), *(options or JOURNAL))
    for taken in causes:
        for number, request in enumerate(small_take(taken).requests()[:2]):
            delayed = notice(taken, number, DELAYED_STORE, 0)
            TALLY.same(f"{name}: {taken}", exchange(server, message(taken, number, request)), delayed)
    said = "".join(f"{folder}/{taken}.journal: {cause}, left out\n" for taken, cause in causes.items())
    TALLY.same(f"{name}: what is printed", server.stop(signal.SIGTERM)[2], said)
    TALLY.same(f"{name}: the folder", state(folder), before)


def case_other_name(place):
    folder = left_by(place, small_take(), count=5)
    (folder / "a1.journal").rename(folder / "b2.journal")
    (folder / "a1.wav").rename(folder / "b2.wav")
    left_out("a renamed journal", folder, {"b2": "OtherName"})


def case_other_limit(place):
    folder = left_by(place, small_take(), count=5)
    causes = {"a1": f"OtherLimit, needs --limit {LIMIT}"}
    left_out("another limit", folder, causes, "--until-stopped", "--journal", "--limit", str(LIMIT + 2))
    left_out("the usual limit", folder, causes, "--until-stopped", "--journal")
    server = journaled(folder, 1)
    says("the same limit", server, small_take(), range(6))
    server.stop(signal.SIGKILL)


def case_files(place):
    """Files that are gone or shorter, and that of a closed take that has changed, are left out; those of open takes go on
    that are as they were, or longer."""
    takes = [small_take(name) for name in ("a1", "b2", "c3", "d4")]
    folder = left_by(place, *takes, count=5)
    whole = {take.name: (folder / f"{take.name}.wav").read_bytes() for take in takes}
    (folder / "a1.wav").unlink()
    (folder / "b2.wav").write_bytes(whole["b2"][:-34])
    (folder / "c3.wav").write_bytes(whole["c3"] + bytes(40_000))
    left_out("two files", folder, {"a1": "LostFile", "b2": "LostFile"})
    for name in ("a1", "b2"):
        (folder / f"{name}.wav").write_bytes(whole[name])
    server = journaled(folder, 4)
    for take in takes:
        says(f"{take.name}: the rest", server, take, range(5, len(take.messages())))
        TALLY.same(f"{take.name}: its file", (folder / f"{take.name}.wav").read_bytes(), take.file(limit=LIMIT))
    server.stop(signal.SIGKILL)
    for length in (-1, 1):
        content = takes[0].file(limit=LIMIT)
        (folder / "a1.wav").write_bytes(content[:length] if length < 0 else content + bytes(length))
        left_out("a closed file", folder, {"a1": "ChangedFile"})


def case_no_folder(place):
    """A folder that isn't there, and one that goes while a server runs over it."""
    missing = place / "missing"
    words = ("serve", "--listen", f"{LOCAL}:{free_port()}", "--folder", str(missing), *JOURNAL)
    TALLY.same("no folder", run(*words), (3, "", f"{missing} can't be opened: {reason(errno.ENOENT)}\n"))
    folder = folder_in(place)
    server = journaled(folder, 0)
    says("before it goes", server, small_take(), range(2))
    server.line()
    shutil.rmtree(folder)
    with connect(server.port) as peer:
        TALLY.same("no folder any longer", hear_all(peer), b"")
    TALLY.same("the server then", server.end(), (3, [], CANT_GO_ON))


def case_odd_entry(place):
    """What can't be opened puts off its name alone, and is named with what is wrong with it."""
    for kind, why in (("wav", errno.EISDIR), ("journal", errno.EISDIR), ("wav", errno.ELOOP)):
        home = place / f"{kind}-{why}"
        home.mkdir()
        sound, odd_take = small_take("a1"), small_take("b2")
        folder = left_by(home, sound, odd_take, count=4)
        odd = folder / f"b2.{kind}"
        odd.unlink()
        if why == errno.EISDIR:
            odd.mkdir()
        else:
            odd.symlink_to(odd.name)
        server = journaled(folder, 2)
        name = f"an odd {kind}: {reason(why)}"
        TALLY.same(name, exchange(server, odd_take.messages()[4]), notice("b2", 4, DELAYED_STORE, 0))
        says(f"{name}: a sound take", server, sound, range(len(sound.messages())))
        TALLY.same(f"{name}: what is printed", server.stop(signal.SIGTERM)[2], f"the store fails: {odd}: {reason(why)}\n")
    folder = folder_in(place)
    (folder / ".bwingest-lock").mkdir()
    words = ("serve", "--listen", f"{LOCAL}:{free_port()}", "--folder", str(folder), *JOURNAL)
    said = f"{folder} can't be opened: .bwingest-lock: {reason(errno.EISDIR)}\n"
    TALLY.same("an odd lock", run(*words), (3, "", said))


# Journals that were cut, or changed


def case_cuts(place):
    """A journal that is cut has the numbers of its whole entries; what comes again is stored again, at its place."""
    take = small_take()
    folder = left_by(place, take, count=6)
    saved = {path.name: path.read_bytes() for path in folder.iterdir()}
    journal = saved["a1.journal"]
    ends = ends_of(journal)
    TALLY.same("the end of a journal", (ends[-1], len(ends)), (len(journal), 7))
    near = {end + by for end in ends for by in (-1, 0, 1)}
    for length in sorted({*near, *CHANCE.sample(range(HEADER_LEN, len(journal)), 12)}):
        if not HEADER_LEN <= length <= len(journal):
            continue
        restored(folder, {**saved, "a1.journal": journal[:length]})
        done = sum(end <= length for end in ends) - 1
        name = f"a journal of {length} bytes"
        server = journaled(folder, 1)
        has_next(name, server, take, done)
        says(f"{name}: all", server, take, range(len(take.messages())))
        server.stop(signal.SIGKILL)
        TALLY.same(f"{name}: the file", (folder / "a1.wav").read_bytes(), take.file(limit=LIMIT))
        torn = {path.name: path.read_bytes() for path in folder.glob("*.torn*")}
        TALLY.same(f"{name}: what is set aside", torn, {} if done else {"a1.torn": saved["a1.wav"]})
    for length in (0, 1, 12, HEADER_LEN - 1):
        restored(folder, {**saved, "a1.journal": journal[:length]})
        left_out(f"a header of {length} bytes beside a file", folder, {"a1": "Damaged"})


def case_turned_bits(place):
    """With one bit turned in its journal a name is left out, whatever the bit, unless the journal ends there: at a zero,
    or without its last byte."""
    take = small_take()
    folder = left_by(place, take, count=6)
    saved = {path.name: path.read_bytes() for path in folder.iterdir()}
    journal = saved["a1.journal"]
    server = journaled(folder, 1, *MANY)
    for bit in CHANCE.sample(range(8 * len(journal)), 60):
        turned = bytearray(journal)
        turned[bit // 8] ^= 1 << bit % 8
        if 0 in turned or turned[-1] != journal[-1]:
            continue
        (folder / "a1.journal").write_bytes(turned)
        before = state(folder)
        delayed = notice("a1", 5, DELAYED_STORE, 0)
        TALLY.same(f"bit {bit}", exchange(server, take.messages()[5]), delayed)
        TALLY.same(f"bit {bit}: the folder", state(folder), before)
    (folder / "a1.journal").write_bytes(journal)
    says("no bit", server, take, range(len(take.messages())))
    faults = server.stop(signal.SIGTERM)[2].splitlines()
    is_named = all(line.startswith(f"{folder}/a1.journal: ") and line.endswith(", left out") for line in faults)
    TALLY.holds("what is printed", faults and is_named, faults)


# Calls that fail


def case_full_while_noting(place):
    """A note for which the disk is full isn't answered, and is made when the message comes again."""
    take = small_take()
    folder = folder_in(place)
    faults = [Fault("write a1.journal", errno.ENOSPC, 1)]
    server = journaled(folder, 0, watch=lambda: Watcher(*faults))
    said, rest = take.messages()[0], range(len(take.messages()))
    TALLY.same("a full disk", exchange(server, said), notice("a1", 0, DELAYED_STORE, 0))
    for count in (1, 2, 3):
        server.observer.faults.append(Fault("write a1.journal", errno.ENOSPC, 1))
        said = take.messages()[count - 1]
        heard = exchange(server, said)
        TALLY.same("a full disk later", heard, notice("a1", count - 1, DELAYED_STORE, count - 1))
        says("the same again", server, take, [count - 1])
    says("all", server, take, rest)
    server.stop(signal.SIGKILL)
    TALLY.same("the file", (folder / "a1.wav").read_bytes(), take.file(limit=LIMIT))
    server = journaled(folder, 1)
    says("all again", server, take, rest)
    server.stop(signal.SIGKILL)


def ended(words, kind, number, takes):
    """A server with this call refused, which is killed once it has answered asks for these takes: its status, standard
    error, the calls of the kind, and the answers, None without a server."""
    pipes = {"stdout": subprocess.PIPE, "stderr": subprocess.PIPE}
    with Refused([PROGRAM, *words], kind, number, **pipes) as server:
        out = server.stdout.readline() + server.stdout.readline()
        answers = None
        if b"listening" in out:
            answers = [asked(int(words[2].rpartition(":")[2]), take) for take in takes for _ in range(2)]
            server.kill()
        _, faults = server.communicate(timeout=LONGEST_WAIT)
        return server.returncode, faults, server.seen, answers


def asked(port, take):
    """What a server answers to an ask over a connection of its own; nothing, if the connection fails."""
    try:
        with connect(port) as peer:
            peer.sendall(message(take.name, 0, bytes([ASK])) + BYE_FRAME)
            return hear_all(peer)
    except OSError:
        return b""


def torn(place):
    """Two takes that a server left within a note and within a write, and the files of their folder."""
    takes = small_take("a1"), small_take("b2")
    folder = left_by(place, *takes, count=6)
    saved = {path.name: path.read_bytes() for path in folder.iterdir()}
    saved["a1.journal"] = saved["a1.journal"][:-3]
    saved["b2.wav"] = saved["b2.wav"][:4] + bytes(4) + saved["b2.wav"][8:] + bytes(50)
    return takes, folder, saved


def refuse_each(place, kind):
    """Each call of a kind fails in turn while a server starts and recovers two names: it serves, and puts off at most
    one message, or says why not; and the next has all that was done."""
    takes, folder, saved = torn(place)
    words = ("serve", "--listen", f"{LOCAL}:{free_port()}", "--folder", str(folder), *JOURNAL)
    restored(folder, saved)
    seen, number = ended(words, kind, 0, takes)[2], 0
    TALLY.holds(f"{kind} at a start", seen, "none is seen")
    right = [notice(take.name, 0, NEXT, done) for take, done in zip(takes, (5, 6)) for _ in range(2)]
    while number < seen:
        number += 1
        name = f"{kind} {number} is refused"
        restored(folder, saved)
        status, faults, _, answers = ended(words, kind, number, takes)
        # a message that is put off, or whose connection fails
        others = [given for given, wanted in zip(answers or (), right) if given != wanted]
        delayed = [notice(take.name, 0, DELAYED_STORE, 0) for take in takes]
        are_none = all(it in (b"", *delayed) for it in others)
        is_served = status == -signal.SIGKILL and answers is not None and len(others) <= 1
        # Where memory is refused, or the folder can't be looked at, the server says so and ends, perhaps before the kill.
        is_over = status in (3, 4) and bool(faults) or faults in (CANT_GO_ON.encode(), b"out of memory\n")
        TALLY.holds(name, are_none and (is_served or is_over), f"{status}, {answers}, {faults!r}")
        server = journaled(folder, 2)
        has_next(f"{name}: a1", server, takes[0], 5)
        has_next(f"{name}: b2", server, takes[1], 6)
        for take in takes if kind != "growth" else ():
            says(f"{name}: {take.name}", server, take, range(len(take.messages())))
        server.stop(signal.SIGKILL)
        for take in takes if kind != "growth" else ():
            content = (folder / f"{take.name}.wav").read_bytes()
            TALLY.same(f"{name}: the file of {take.name}", content, take.file(limit=LIMIT))


def case_refused_at_a_start(place):
    for kind in ("open", "read", "write", "seek", "stat", "list", "cut", "lock", "growth"):
        (place / kind).mkdir()
        refuse_each(place / kind, kind)


def case_unsynced_at_a_recovery(place):
    """Where a closed take that was left can't be synced its verdict isn't given again, and the server ends."""
    take, told = small_take(), "a sync of it or its journal failed; mount its file system anew, or restart the machine"
    folder = left_by(place, take)
    before = state(folder)
    for call, path in (("sync-data a1.wav", "a1.wav"), ("sync-data a1.journal", "a1.journal"), (f"sync {folder.name}", "")):
        fault = Fault(call)
        server = journaled(folder, 1, *JOURNAL, "--sync", watch=lambda fault=fault: Watcher(fault))
        TALLY.same(f"{call} at a start", server.observer.faults[0].left, 1)
        with connect(server.port) as peer:
            peer.sendall(take.messages()[-1])
            TALLY.same(f"{call} at a recovery: the peer", hear_all(peer), b"")
        why = f"the store fails: {folder / path}: {reason(errno.EIO)}\n{folder}/a1.wav: {told}\n"
        ended = 3, ["exchange 0 NotKept"], why + CANT_GO_ON
        TALLY.same(f"{call} at a recovery: the server", server.end(), ended)
        TALLY.same(f"{call} at a recovery: the folder", state(folder), before)
    server = journaled(folder, 1, *JOURNAL, "--sync")
    says("the verdicts of a take that is synced", server, take, range(len(take.messages())))
    server.stop(signal.SIGKILL)


def case_full_at_a_recovery(place):
    """Where the disk is full while a name is recovered its message is put off, and the next one finds it mended."""
    takes, folder, saved = torn(place)
    restored(folder, saved)
    server = journaled(folder, 2, *JOURNAL, watch=lambda: Watcher(Fault("write b2.wav", errno.ENOSPC)))
    said = message("b2", 0, bytes([ASK]))
    TALLY.same("a full disk at a recovery", exchange(server, said), notice("b2", 0, DELAYED_STORE, 0))
    for take in takes:
        says(f"after a full disk: {take.name}", server, take, range(len(take.messages())))
    why = f"the store fails: {folder}/b2.wav: {reason(errno.ENOSPC)}\n"
    TALLY.same("a full disk at a recovery: what is printed", server.stop(signal.SIGTERM)[2], why)
    for take in takes:
        content = (folder / f"{take.name}.wav").read_bytes()
        TALLY.same(f"after a full disk: the file of {take.name}", content, take.file(limit=LIMIT))


def case_failed_sync(place):
    """A sync that fails ends the server before a reply leaves, and names the take, which the next server stores."""
    take, told = small_take(), "a sync of it or its journal failed; mount its file system anew, or restart the machine"
    for options, printed in ((JOURNAL, ["exchange 0 NotKept"]), (MANY, [])):
        for name in ("a1.journal", "a1.wav"):
            home = place / f"{len(options)}-{name}"
            home.mkdir()
            folder = folder_in(home)
            fault = Fault(f"sync-data {name}")
            server = journaled(folder, 0, *options, "--sync", watch=lambda fault=fault: Watcher(fault))
            with connect(server.port) as peer:
                peer.sendall(take.messages()[0])
                TALLY.same(f"no sync of {name}: the peer", hear_all(peer), b"")
            why = f"the store fails: {folder}/{name}: {reason(errno.EIO)}\n{folder}/a1.wav: {told}\n"
            TALLY.same(f"no sync of {name}: the server", server.end(), (3, printed, why + CANT_GO_ON))
            server = journaled(folder, 1, *options, "--sync")
            says(f"no sync of {name}: the next server", server, take, range(len(take.messages())))
            server.stop(signal.SIGKILL)


def case_failed_sync_at_close(place):
    """So does one of a take's file at its CLOSE, with and without `--sync`, and without it one of its journal."""
    take, told = small_take(), "a sync of it or its journal failed; mount its file system anew, or restart the machine"
    *others, close = take.messages()
    kinds = [((), "sync", "a1.wav", 0), (("--sync",), "sync", "a1.wav", 0), ((), "sync-data", "a1.journal", 1)]
    for options, printed in ((JOURNAL, ["exchange 0 NotKept"]), (MANY, [])):
        for at, (synced, call, file, noted) in enumerate(kinds):
            home = place / f"{len(options)}-{at}"
            home.mkdir()
            folder = folder_in(home)
            fault = Fault(f"{call} {file}")
            server = journaled(folder, 0, *options, *synced, watch=lambda fault=fault: Watcher(fault))
            with connect(server.port) as peer:
                for number, said in enumerate(others):
                    peer.sendall(said)
                    wanted = verdict("a1", number, STORED)
                    TALLY.same("no sync at a CLOSE: a reply before it", hear(peer, len(wanted)), wanted)
                peer.sendall(close)
                TALLY.same("no sync at a CLOSE: the peer", hear_all(peer), b"")
            why = f"the store fails: {folder}/{file}: {reason(errno.EIO)}\n{folder}/a1.wav: {told}\n"
            TALLY.same("no sync at a CLOSE: the server", server.end(), (3, printed, why + CANT_GO_ON))
            server = journaled(folder, 1, *options, *synced)
            has_next("no sync at a CLOSE: the next server", server, take, len(others) + noted)
            says("no sync at a CLOSE: all again", server, take, range(len(take.messages())))
            server.stop(signal.SIGKILL)
            TALLY.same("no sync at a CLOSE: the file", (folder / "a1.wav").read_bytes(), take.file(limit=LIMIT))


# The order of writes


def calls_of(server, said, reply):
    """The calls that the server makes for a message that gets this reply."""
    before = len(server.observer.lines)
    TALLY.same("a reply", exchange(server, said), reply)
    return server.observer.lines[before:]


def places(lines, start):
    return [at for at, line in enumerate(lines) if line.startswith(start)]


def has_order(name, lines, samples, synced):
    """The take's file is written and then synced, then the journal is, and then the reply is sent; a file that isn't
    written isn't synced.

    For an OPEN the journal's header is written first, and it and the folder are synced before anything is written to
    the take's file; the folder is synced once more before the note. Without syncs a CLOSE still has its file synced
    before the note, and journal and folder after it.
    """
    wave, wave_synced = places(lines, "write a1.wav"), places(lines, "sync-data a1.wav")
    finished = places(lines, "sync a1.wav")
    notes, notes_synced = places(lines, "write a1.journal"), places(lines, "sync-data a1.journal")
    folder_synced, reply = places(lines, "sync takes"), places(lines, "send ")[:1]
    is_open, is_close = name == "OPEN", name == "CLOSE"
    alone = is_close and not synced
    found = (finished, wave_synced, notes, notes_synced, folder_synced, reply)
    counts = (bool(wave), *map(len, found))
    syncs = synced * (1 + is_open) + alone, 2 * (synced and is_open) + alone
    wanted = (samples, is_close, synced and samples, 1 + is_open, *syncs, 1)
    TALLY.same(f"{name}: how often", counts, wanted)
    begun = [*notes[:-1], *notes_synced[:-1], *folder_synced[:-1], *wave[:1]]
    noted = [*notes[-1:], *notes_synced[-1:]]
    noted = [*noted, *folder_synced] if alone else [*folder_synced[-1:], *noted]
    in_order = [*begun, *wave[-1:], *finished, *wave_synced, *noted, *reply]
    TALLY.same(f"{name}: the order", in_order, sorted(in_order))


def order_of(place, synced, *options):
    take = small_take()
    folder = folder_in(place)
    server = journaled(folder, 0, *JOURNAL, *options, watch=Watcher)
    names = ["OPEN", "BEXT", "BEXT", *["BLOCK"] * len(take.blocks), "MARK", "MARK", "CLOSE"]
    for number, name in enumerate(names):
        said, reply = take.messages()[number], verdict("a1", number, STORED)
        has_order(name, calls_of(server, said, reply), name != "MARK", synced)
    server.stop(signal.SIGKILL)


def case_order_with_syncs(place):
    order_of(place, 1, "--sync")


def case_order_without_syncs(place):
    order_of(place, 0)


cases = [value for name, value in list(globals().items()) if name.startswith("case_")]
sys.exit(run_cases(cases, LONGEST_RUN))
