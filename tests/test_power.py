#!/usr/bin/env python3
"""Cuts the power of a server with `--journal --sync` at its calls, and starts a server over what may be left.

The calls of a server are recorded while takes are opened, stored and closed in turns. At some of them, chosen by a
seed, folders are made as a power cut may leave them on file systems of each kind in turn (kit/power.py). Each start must
serve: no folder is refused, each verdict that was sent is there, and each take goes on to its CLOSE and its whole file.
Of a server without `--sync` the same holds of each take whose CLOSE was answered, in a quarter as many folders.
Needs what tracer.py needs. The program is the first argument, or the one of this repository; `--states=N` makes so many
folders. Prints what differs, and last 'N passed, M failed'.
"""
import random
import shutil
import signal
import sys
from concurrent.futures import ThreadPoolExecutor

sys.dont_write_bytecode = True  # nothing is left beside this script
from kit.folders import restored, small_take
from kit.network import connect, free_port, hear, hear_all, LOCAL, run_cases, Server, start, TALLY
from kit.power import Folder, KINDS
from kit.takes import ASK, BYE_FRAME, message, STORED, verdict
from kit.watcher import Watcher

LONGEST_RUN = 3_600  # seconds, for all of it
KEPT = ("--until-stopped", "--journal")
SYNCED = (*KEPT, "--sync")
STATES = next((int(word.partition("=")[2]) for word in sys.argv if word.startswith("--states=")), 2_000)
AT_ONCE = 4


def recorded(place, takes, options):
    """The folder of a server to which these takes are sent in turns, and the lines of its calls, each with how many
    numbers of each take had been answered before it.
    """
    folder = place / "takes"
    folder.mkdir()
    server = Server(folder, *options, opening=("resumed 0 takes",), watch=Watcher)
    sent, lines = {take.name: 0 for take in takes}, []

    def note():
        new = server.observer.lines[len(lines) :]
        lines.extend((line, dict(sent)) for line in new)

    note()
    with connect(server.port) as peer:
        for number in range(max(len(take.messages()) for take in takes)):
            for take in takes:
                if number < len(take.messages()):
                    peer.sendall(take.messages()[number])
                    said = verdict(take.name, number, STORED)
                    TALLY.same("a verdict", hear(peer, len(said)), said)
                    note()
                    sent[take.name] = number + 1
    server.stop(signal.SIGKILL)
    return folder, lines


def opened(folder, options):
    """A server over a folder, however many takes it resumes; or what it prints where it is refused."""
    faults = "in use"
    while "in use" in faults:  # another test may have taken the port
        port = free_port()
        words = ("serve", "--listen", f"{LOCAL}:{port}", "--folder", str(folder), *options)
        server = Server.__new__(Server)
        server.observer, server.port, server.held = None, port, b""
        server.faults = open(folder.parent / "faults", "w+b")
        server.process = start(*words, stdout=-1, stderr=server.faults)
        if server.line() is not None and server.line() is not None:
            return server, ""
        faults = server.end()[2]
        closed(server)
    return None, faults


def closed(server):
    server.faults.close()
    server.process.stdout.close()


def serves_on(folder, takes, sent, options):
    """What is wrong with a start over a folder of which these numbers of these takes were answered; None if nothing
    is."""
    server, faults = opened(folder, options)
    if server is None:
        return f"refused: {faults}"
    for take in takes:
        with connect(server.port) as peer:
            peer.sendall(message(take.name, 0, bytes([ASK])) + BYE_FRAME)
            following = int.from_bytes(hear_all(peer)[-4:], "little")
        if following < sent[take.name]:
            return f"{take.name}: {sent[take.name]} numbers were answered, and the next is {following}"
        with connect(server.port) as peer:
            peer.sendall(b"".join(take.messages()) + BYE_FRAME)
            wanted = b"".join(verdict(take.name, number, STORED) for number in range(len(take.messages())))
            if hear_all(peer) != wanted:
                return f"{take.name}: other verdicts"
    server.stop(signal.SIGKILL)
    closed(server)
    return next((f"{take.name}: another file" for take in takes if not holds(folder, take)), None)


def holds(folder, take):
    return (folder / f"{take.name}.wav").read_bytes() == take.file()


def try_state(place, number, lines, takes, path, options):
    chance, kind = random.Random(number), KINDS[number % len(KINDS)]
    at = chance.randrange(len(lines) + 1)
    disk = Folder(path)
    for line, _ in lines[:at]:
        disk.apply(line)
    sent = lines[at][1] if at < len(lines) else {take.name: len(take.messages()) for take in takes}
    folder = place / f"state {number}" / "takes"
    folder.mkdir(parents=True)
    restored(folder, disk.left(chance, kind))
    kept = [it for it in takes if options == SYNCED or sent.get(it.name) == len(it.messages())]
    wrong = serves_on(folder, kept, sent, options)
    if not wrong:
        shutil.rmtree(folder.parent)
    return f"{kind}, a cut after {at} calls of {len(lines)}", wrong


def try_states(place, takes, options, count):
    path, lines = recorded(place, takes, options)
    with ThreadPoolExecutor(AT_ONCE) as pool:
        found = pool.map(lambda number: try_state(place, number, lines, takes, path, options), range(count))
        for number, (what, wrong) in enumerate(found):
            TALLY.holds(f"state {number}, {what}", wrong is None, wrong)


def case_cuts(place):
    try_states(place, [small_take("a1", 99), small_take("b2", 1_500)], SYNCED, STATES)


def case_closed_takes(place):
    try_states(place, [small_take("a1", 99), small_take("b2", 1_500)], KEPT, STATES // 4)


cases = [value for name, value in list(globals().items()) if name.startswith("case_")]
sys.exit(run_cases(cases, LONGEST_RUN))
