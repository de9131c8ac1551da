#!/usr/bin/env python3
"""Refuses each growth of memory, read, write and other system call in turn, in small runs of each command.

Each run has one call refused: the first of its kind, the second, and so on to the last (but one of seven growths of a
server with a status port). The program must end by itself with one of its statuses, print what it prints without the
fault or the beginning of it, and keep what it reported as stored. Needs what tracer.py needs. The program is the first
argument, or the one of this repository; with `--tests` the crates' tests of refused growths are run like this too.
Prints what differs, and last 'N runs, M failed'.
"""
import contextlib
import os
import pathlib
import re
import select
import shutil
import socket
import subprocess
import sys
import tempfile
import threading

sys.dont_write_bytecode = True  # nothing is left beside this script
from kit.hints import hinted
from kit.network import connect, free_port, hear_batch, hear_until_it_breaks, LOCAL, PROGRAM
from kit.refused_commands import STEREO_FILE, try_conversions, try_file_senders, try_left_outs, try_pictures, try_repairs
from kit.refused_commands import try_takes
from kit.refused_runs import is_prefix, KINDS, LONGEST_RUN, PIPES, Runs, what_a_pack_breaks, what_a_run_breaks
from kit.refuser import Refused
from kit.repository import ROOT
from kit.takes import BYE_FRAME, STORED, Take, verdict
from kit.worked import BLOCK, CLOSE, EXCHANGE, EXCHANGE_1, held, no_room, OPEN, Case, SMALL_FILE, stored


def last_exchange(out):
    """The last of three exchanges, and the files."""
    return out[out.find(b"exchange 2 ") :]


def what_a_replay_breaks(kind, found, wanted):
    """Of three equal exchanges the last is as without the fault: what was refused is stored then."""
    wrong = what_a_run_breaks(kind, found, wanted)
    is_whole = found[0] == wanted[0] and b"exchange 2 " in found[1]
    if wrong and kind == "growth" and is_whole and last_exchange(found[1]) == last_exchange(wanted[1]):
        return None
    return wrong


def what_a_rehearsal_breaks(kind, found, wanted):
    """Everything was offered and sent, and no more is settled than the server has done."""
    wrong = what_a_run_breaks(kind, found, wanted)
    if not wrong or kind != "growth" or found[0] != 0:
        return wrong
    words = found[1].split()
    numbers = dict(zip(words[0:12:2], words[1:12:2]))
    is_so = numbers[b"offered"] == numbers[b"sent"] == b"3" and int(numbers[b"settled"]) <= int(numbers[b"done"])
    return None if is_so else "more is settled than done"


def what_a_sender_breaks(kind, found, wanted):
    """No more is reported as settled than was, and nothing is printed after a fault of its own output."""
    if found[:2] == wanted[:2]:
        return None
    status, out, _ = found
    if status == 4:
        return None if not out else "a text with status 4"
    if status != 3:
        return "another status"
    if kind == "write" and is_prefix(out, wanted[1]) or not out:
        return None
    settled, stored = (int(line.split()[1]) for line in out.splitlines()[:2])
    return None if stored == settled <= int(wanted[1].split()[1]) else "other counts"


def try_replays(runs, program, take):
    messages = take.messages()
    inputs = {
        "a take": [*messages, BYE_FRAME],
        "a take backwards": messages[::-1],
        "a bad frame": [*messages[:2], bytes(4)],
    }
    for name, frames in inputs.items():
        given = b"\n".join([b"".join(frames).hex().encode()] * 3) + b"\n"
        for kind in KINDS:
            run = lambda kind, number: runs.one([program, "replay"], given, kind, number)
            runs.each(f"replay, {name}", kind, run, what_a_replay_breaks)


# Three times CLOSE, BLOCK, OPEN and CLOSE: the replies in the first two exchanges, by the request for which a growth is
# refused. One that is refused to the store in memory ends the replay.
AGAIN = stored(2, 1, 0, 2)
SMALL_TAKE = "\n".join([CLOSE + BLOCK + OPEN + CLOSE] * 3).encode()
SMALL_REPLIES = {
    "CLOSE": ([no_room(2, 0), held(1, 0), *stored(0, 1, 2)], AGAIN),
    "BLOCK": ([held(2, 0), no_room(1, 0), *stored(0), held(2, 1)], [held(2, 1), *stored(1, 2, 0, 2)]),
    "OPEN": ([held(2, 0), held(1, 0), no_room(0, 0), held(2, 0)], [held(2, 0), held(1, 0), *stored(0, 1, 2, 2)]),
}
SMALL_TEXTS = {
    Case(of, "", [EXCHANGE, *first, EXCHANGE_1, *second, "exchange 2 EndOfInput", *AGAIN], [SMALL_FILE]).text(): of
    for of, (first, second) in SMALL_REPLIES.items()
}


def try_small_replay(runs, program):
    """A refused growth is reported in its turn, which changes nothing: each worked text is printed, and no other."""
    printed = set()

    def wrong(_kind, found, _wanted):
        printed.add(SMALL_TEXTS.get(found[1]))
        is_so = found[:2] == (4, b"") or found[0] == 0 and found[1] in SMALL_TEXTS
        return None if is_so else "neither out of memory nor a worked text"

    run = lambda kind, number: runs.one([program, "replay"], SMALL_TAKE, kind, number)
    runs.each("replay, small", "growth", run, wrong)
    for of in set(SMALL_TEXTS.values()) - printed:
        runs.failed += 1
        print(f"replay, small: no growth is refused at {of}", flush=True)


def try_rehearsal(runs, program):
    given = (ROOT / "examples/rehearsal.txt").read_bytes()
    for kind in KINDS:
        run = lambda kind, number: runs.one([program, "rehearse", "--name", "a1"], given, kind, number)
        runs.each("rehearse", kind, run, what_a_rehearsal_breaks)


# An RF64 file of 98 bytes, whose `ds64` has the sizes of the form and the data.
RF64 = bytes.fromhex(
    "52463634ffffffff57415645"
    "647336341c0000005a000000000000000400000000000000020000000000000000000000"
    "666d7420120000000100010080bb000000770100020010000000"
    "4c4953540400000000000000"
    "64617461ffffffff01000200"
)


def try_inspections(runs, program, take):
    whole, long, cut, rf64 = (runs.work / name for name in ("whole.wav", "long.wav", "cut.wav", "rf64.wav"))
    whole.write_bytes(take.file())
    long.write_bytes(take.file(limit=8_192))
    cut.write_bytes(take.file()[:-1])
    rf64.write_bytes(RF64)
    for path, given in ((whole, b""), (long, b""), (cut, b""), (rf64, b""), ("/dev/stdin", take.file())):
        for kind in KINDS:
            run = lambda kind, number: runs.one([program, "inspect", path], given, kind, number)
            runs.each(f"inspect {pathlib.Path(path).name}", kind, run, what_a_run_breaks)
    run = lambda kind, number: inspect_a_prefix(runs, program, kind, number)
    runs.each("inspect a prefix", "read", run, what_a_prefix_breaks)


def try_packs(runs, program):
    path = str(runs.work / "two blocks.wav")
    pathlib.Path(path).write_bytes(STEREO_FILE)
    for kind in KINDS:
        run = lambda kind, number: runs.one([program, "pack", path], b"", kind, number)
        runs.each("pack", kind, run, what_a_pack_breaks)


def inspect_a_prefix(runs, program, kind, number):
    """Inspects a pipe that gives the 690 bytes of a file before its data; how it ended, and how many bytes it read."""
    out, into = os.pipe()
    os.write(into, (ROOT / "examples/a1.wav").read_bytes()[:690])
    os.close(into)
    with open(out, "rb", buffering=0) as pipe:
        with Refused([program, "inspect", "/dev/stdin"], kind, number, stdin=pipe, **PIPES) as running:
            return *runs.end(running), 690 - len(pipe.read())


def what_a_prefix_breaks(kind, found, wanted):
    """A refused read is reported with the place of the next byte, which is 690 at the pipe's end."""
    if wanted != (1, b"", hinted("inspect", "Truncated at 682").encode(), 690):
        return "the end of the pipe isn't found"
    wanted = hinted("inspect", f"Read at {found[3]}").encode()
    return None if found == (3, b"", wanted, found[3]) else "another fault"


class Recorded:
    """A server that gives each sender the same replies, once it has all that was sent."""

    def __init__(self, replies):
        self.replies = replies
        self.listener = socket.create_server((LOCAL, 0), backlog=64)
        self.address = f"{LOCAL}:{self.listener.getsockname()[1]}"
        threading.Thread(target=self.serve, daemon=True).start()

    def serve(self):
        with contextlib.suppress(OSError):
            while True:
                peer, _ = self.listener.accept()
                with peer, contextlib.suppress(OSError):
                    self.answer(peer)

    def answer(self, peer):
        """A sender ends its batch with BYE; one whose batch broke off gets no replies."""
        peer.settimeout(LONGEST_RUN)
        if hear_batch(peer).endswith(BYE_FRAME):
            peer.sendall(self.replies)
            peer.shutdown(socket.SHUT_WR)


def try_senders(runs, program, take):
    """A sender whose server replies to each link with the verdicts on all requests."""
    count = len(take.requests())
    recorded = Recorded(b"".join(verdict(take.name, number, STORED) for number in range(count)))
    words = [program, "send", "--connect", recorded.address, "--name", take.name, "--rounds", "2", "--timeout", "1"]
    for kind in (*KINDS, "receive", "send", "connect"):
        run = lambda kind, number: runs.one(words, take.lines(), kind, number)
        runs.each("send", kind, run, what_a_sender_breaks)


def heard_by(port, said):
    """What a recorder that sends this receives until its link ends or breaks: nothing if it isn't accepted."""
    with contextlib.suppress(ConnectionError), connect(port) as peer:
        peer.sendall(said)
        return hear_until_it_breaks(peer)
    return b""


def ask_status(port):
    """Asks a status port for all that it shows of takes; it may not be there."""
    with contextlib.suppress(OSError), connect(port) as peer:
        peer.sendall(b"GET /takes.json HTTP/1.1\r\nHost: here\r\n\r\n")
        hear_until_it_breaks(peer)


def opening_of(server):
    """What a server says up to that it listens."""
    said = server.stdout.readline() if select.select([server.stdout], [], [], LONGEST_RUN)[0] else b""
    return said + server.stdout.readline() if said.startswith(b"resumed") else said


def heard_by_the_next(program, folder, take):
    """What a recorder that sends all of a take hears of the next server with journals over a folder."""
    port = free_port()
    words = [program, "serve", "--listen", f"{LOCAL}:{port}", "--folder", folder, "--exchanges", "1", "--journal"]
    with subprocess.Popen(words, stdout=subprocess.PIPE, stderr=subprocess.DEVNULL) as server:
        heard = heard_by(port, b"".join(take.messages()) + BYE_FRAME) if opening_of(server) else b""
        server.kill()
    return heard


def serve_thrice(runs, program, take, options, kind, number):
    """Runs a server over an empty folder, with this call refused, to which recorders send all of a take until it ends.

    It serves three exchanges, without those of recorders that a server of many drops for lack of memory. The result has
    its status, its streams, the take's file, and whether the first or the last accepted recorder got the verdicts that
    all is stored: one exchange may have the fault, and the next one the replies that it delayed. With journals a name
    may be put off until the next start: the next server is asked.
    """
    folder = runs.work / "served"
    shutil.rmtree(folder, ignore_errors=True)
    folder.mkdir()
    port = free_port()
    status_port = free_port() if "--status" in options else None
    shown = [f"{LOCAL}:{status_port}"] if status_port else []
    words = [program, "serve", "--listen", f"{LOCAL}:{port}", "--folder", folder, "--exchanges", "3", "--log"]
    words += [*options, *shown]
    heard = []
    with Refused(words, kind, number, **PIPES) as server:
        begun = opening_of(server)
        for _ in range(5 if begun else 0):
            if server.poll() is not None:
                break
            if status_port:
                ask_status(status_port)
            heard.append(heard_by(port, b"".join(take.messages()) + BYE_FRAME))
        status, out, errors = runs.end(server)
    path, accepted = folder / f"{take.name}.wav", [it for it in heard if it]
    verdicts = b"".join(verdict(take.name, at, STORED) for at in range(len(take.requests())))
    if "--journal" in options:
        accepted = [heard_by_the_next(program, folder, take)]
    is_stored = verdicts in accepted[:1] + accepted[-1:]
    return status, begun + out, errors, path.read_bytes() if path.exists() else b"", is_stored


# A disk's fault doesn't distinguish lack of memory: what a server says that can't look for journals in its folder.
UNREADABLE = b"the server can't start: its folder can't be read or written\n"


def what_a_server_breaks(kind, found, wanted):
    """One that serves to its end has stored and reported the whole take: what was refused is stored when sent again."""
    status, out, errors, file, is_stored = found
    if (status, out) == (3, b"") and UNREADABLE in errors:
        return "a file" if file else None
    if status == 0 and not is_stored:
        return "other replies"
    if status == 0:
        return None if file == wanted[3] else "another file"
    if status not in (3, 4) or (status == 4) != (kind == "growth"):
        return "another status"
    ends = rb"Bye|EndOfInput|BadFrame|ReadFault|WriteFault|Memory"
    is_text = re.fullmatch(rb"((resumed 0 takes\n)?(listening \S+\n(exchange \d (" + ends + rb")\n)*)?)?", out)
    return None if errors and is_text else "no fault is reported, or another text"


SERVERS = {
    (): ("growth", "write", "seek", "open", "sync", "receive", "send"),
    ("--recorders", "2"): ("growth", "write", "seek", "open", "sync", "receive", "send"),
    ("--journal", "--sync"): ("growth", "write", "open", "sync", "list", "lock"),
    ("--journal",): ("sync",),  # those at a CLOSE
    ("--recorders", "2", "--status"): ("growth", "receive", "send"),
}


def what_a_kept_server_breaks(_kind, found, wanted):
    """Whatever was refused, the next server over the folder has what was answered, and stores the rest."""
    status, _, errors, file, is_stored = found
    if not is_stored or file != wanted[3]:
        return "the next server hasn't stored the take"
    return None if status == 0 or status in (3, 4) and errors else "another status, or no fault is reported"


def try_servers(runs, program, take):
    """Servers of each kind: each call on files of a take, and each on a link."""
    for options, kinds in SERVERS.items():
        breaks = what_a_kept_server_breaks if "--journal" in options else what_a_server_breaks
        for kind in kinds:
            run = lambda kind, number: serve_thrice(runs, program, take, options, kind, number)
            # Nearly all growths of a server with a status port are those of one without it.
            step = 7 if kind == "growth" and "--status" in options else 1
            runs.each(" ".join(["serve", *options]), kind, run, breaks, step)


TESTS = (
    ("bw_tests_format", "tests::layouts::a_header_that_has_no_room_leaves_what_was_there"),
    ("bw_tests_format", "tests::takes::a_refused_growth_leaves_the_take"),
    ("bw_tests_format", "tests::messages::a_refused_piece_may_be_fed_again"),
    ("bw_tests_format", "tests::messages::a_frame_that_memory_is_refused_for_may_be_made_again"),
    ("bw_tests_net", "tests::growths::what_was_reported_stands_where_a_growth_is_refused"),
)


def try_tests(runs):
    """The tests of refused growths pass with each growth refused."""
    for crate, test in TESTS:
        module, _, name = test.rpartition("::")
        path = module.replace("::", "/")
        if f"fn {name}(" not in (ROOT / f"crates/{crate}/src/{path}.rt").read_text():
            raise SystemExit(f"{crate} has no test {test}")
        program = ROOT / f"crates/{crate}/out/{crate}_tests"
        if not program.exists():
            subprocess.run(["rt", "test"], cwd=ROOT / f"crates/{crate}", stdout=subprocess.DEVNULL, check=True)
        run = lambda kind, number: runs.one([program, test], b"", kind, number)
        runs.each(test, "growth", run, lambda kind, found, wanted: None if found[0] == 0 else "it fails")


def main():
    take = Take("a1", 9_000, 1, block=3_000, markers=[(1, 0)])
    with tempfile.TemporaryDirectory() as work:
        runs = Runs(pathlib.Path(work))
        try_replays(runs, PROGRAM, take)
        try_small_replay(runs, PROGRAM)
        try_rehearsal(runs, PROGRAM)
        try_inspections(runs, PROGRAM, take)
        try_packs(runs, PROGRAM)
        try_pictures(runs, PROGRAM)
        try_repairs(runs, PROGRAM)
        try_conversions(runs, PROGRAM)
        try_left_outs(runs, PROGRAM)
        try_takes(runs, PROGRAM)
        try_senders(runs, PROGRAM, take)
        try_file_senders(runs, PROGRAM)
        try_servers(runs, PROGRAM, take)
        if "--tests" in sys.argv:
            try_tests(runs)
        print(f"{runs.count} runs, {runs.failed} failed")
    return 0 if runs.count and not runs.failed else 1


sys.exit(main())
