#!/usr/bin/env python3
"""Runs `serve --recorders` of the built program as a user would, with many recorders at once over 127.0.0.1.

Files, lines, replies and statuses are compared with what docs/FORMATS.md says of what was sent. Each wait has a limit,
and what was started is ended. The program is the first argument, or the one of this repository. Prints what differs,
and last 'N passed, M failed'.
"""
import contextlib
import errno
import os
import re
import resource
import select
import shutil
import signal
import socket
import subprocess
import sys
import threading
import time

sys.dont_write_bytecode = True  # nothing is left beside this script
from kit import logs
from kit.network import CANT_GO_ON, close_at_once, connect, connect_deaf, ends_by_signal, free_port, hear, hear_all
from kit.network import hear_until_it_breaks, LOCAL, LONGEST_WAIT, MANY_ASKS, narrow, reason, Relay, run, run_cases
from kit.network import same_exchanges, same_file, same_port_in_use, same_settled, send, send_all, Server, start
from kit.network import stopped, TALLY
from kit.processes import seconds_of
from kit.takes import ASK, BYE_FRAME, CONFLICT, NEXT, OPEN, STORED
from kit.takes import bad_frame, little, message, notice, Take, verdict

LONGEST_RUN = 170  # seconds, for all of it
RECORDERS = 64
ENDED = 600  # connections, of whose lines a narrow pipe has no room for all
ASKED = message("zz", 0, bytes([ASK]))
ANSWER = notice("zz", 0, NEXT, 0)


def ends_of(lines):
    """The end of each exchange of these lines, which should be numbered from 0 in their order."""
    found = [re.fullmatch(r"exchange (\d+) (\w+)", line or "") for line in lines]
    TALLY.same("the exchanges are numbered", [line and int(line[1]) for line in found], list(range(len(lines))))
    return [line and line[2] for line in found]


def all_replayed(takes):
    """The files that a replay of all messages makes, an exchange for each take, by name."""
    lines = "\n".join(b"".join(take.messages()).hex() for take in takes)
    status, out, faults = run("replay", given=lines.encode())
    TALLY.same("the replay", (status, faults), (0, ""))
    found = re.findall(r"^file (\S+) \d+\n([0-9a-f]*)$", out, re.MULTILINE)
    return {name: bytes.fromhex(text) for name, text in found}


def serves_meanwhile(name, server, folder, take):
    """A sender gets the whole of a take stored."""
    count = len(take.requests())
    same_settled(f"{name}: a sender meanwhile", send(server.port, take, "--timeout", "20"), count, count, 0)
    same_file(f"{name}: its take", folder, take)


def case_many_senders(folder):
    """As many senders as there are places send through a relay that cuts, while one more peer says nothing."""
    takes = [Take(f"field-{at}", 30_000 + 2_000 * at, at, markers=[(1, at)]) for at in range(RECORDERS)]
    server = Server(folder, "--until-stopped", "--recorders", str(RECORDERS), "--idle", "5")
    relay = Relay(server.port, 1, at_once=True)
    with connect(server.port):
        outputs = send_all(relay.port, takes, "--rounds", "1000", "--timeout", "20")
        relay.stop()
        for take, output in zip(takes, outputs):
            count = len(take.requests())
            same_settled(f"many senders: {take.name}", output, count, count, 0)
        ends = ends_of(server.lines(relay.connections + 1))
    TALLY.same("many senders: the peer that says nothing", ends.count("Idle"), 1)
    others = sorted({*ends} - {"Bye", "EndOfInput", "BadFrame", "ReadFault", "WriteFault", "Idle"}, key=str)
    TALLY.same("many senders: other ends", others, [])
    TALLY.holds("many senders", relay.connections >= 2 * RECORDERS, f"only {relay.connections} connections")
    stopped("many senders", server)
    replayed = all_replayed(takes)
    for take in takes:
        same_file(f"many senders: {take.name}", folder, take)
        TALLY.same(f"many senders: the replay of {take.name}", replayed.get(take.name), take.file())


def case_silent_peer(folder):
    """Peers that send nothing, or a byte now and then, are dropped; another is served meanwhile."""
    server = Server(folder, "--exchanges", "9", "--recorders", "3", "--idle", "2")
    take = Take("beside", 40_000, 3)
    begun = time.monotonic()
    with connect(server.port), connect(server.port) as slow:
        threading.Thread(target=say_slowly, args=(slow, ASKED), daemon=True).start()
        serves_meanwhile("a silent peer", server, folder, take)
        ends = ends_of(server.lines(3))
        waited = time.monotonic() - begun
    TALLY.same("a silent peer", ends, ["Bye", "Idle", "Idle"])
    TALLY.holds("a silent peer", 1.5 < waited < 10, f"it is dropped after {waited:.2f} s, not after two")
    ends_by_signal("a silent peer", server)


def say_slowly(peer, said):
    """Sends a byte every quarter of a second, so that no message is whole within two seconds."""
    with contextlib.suppress(OSError):
        for byte in said[:-1]:
            time.sleep(0.25)
            peer.send(bytes([byte]))


def case_no_place(folder):
    """A peer that connects while every place is taken waits, and is served when one is free."""
    server = Server(folder, "--until-stopped", "--recorders", "2", "--idle", "60")
    first, second = connect(server.port), connect(server.port)
    with first, second:
        for peer in (first, second):
            peer.sendall(ASKED)
            TALLY.same("a place", hear(peer, len(ANSWER)), ANSWER)
        with connect(server.port) as third:
            third.sendall(ASKED)
            third.settimeout(0.7)
            TALLY.same("no place", heard_in_time(third), b"")
            first.sendall(BYE_FRAME)
            third.settimeout(LONGEST_WAIT)
            TALLY.same("a free place", hear(third, len(ANSWER)), ANSWER)
            third.sendall(BYE_FRAME)
            same_exchanges("a free place", server.lines(2), ["Bye", "Bye"])
    same_exchanges("the last place", server.lines(1), ["EndOfInput"], 2)
    stopped("no place", server)


def heard_in_time(peer):
    """What the peer receives before its time is over."""
    try:
        return peer.recv(65_536)
    except TimeoutError:
        return b""


def case_garbage(folder):
    """A bad frame is answered, and the connection ends, whatever follows the frame."""
    server = Server(folder, "--until-stopped", "--recorders", "4")
    for at, rest in enumerate([b"", b"\xff" * 400_000]):
        with connect(server.port) as peer:
            peer.sendall(ASKED + little(32_807, 4) + rest)
            TALLY.same(f"{len(rest)} bytes after a bad frame", hear_all(peer), ANSWER + bad_frame(1, len(ASKED)))
        same_exchanges(f"{len(rest)} bytes after a bad frame", server.lines(1), ["BadFrame"], at)
    serves_meanwhile("garbage", server, folder, Take("clean", 30_000, 5))
    ends_by_signal("garbage", server)


def case_deaf_peer(folder):
    """A peer that reads no reply is no longer read from, and finally dropped; another is served meanwhile."""
    server = Server(folder, "--until-stopped", "--recorders", "2", "--idle", "2")
    with connect_deaf(server.port, 1) as peer:
        sent = 0
        with contextlib.suppress(OSError):
            while sent < 100_000_000:
                sent += peer.send(MANY_ASKS)
        TALLY.holds("a deaf peer", sent < 100_000_000, "all that it sends is read")
        serves_meanwhile("a deaf peer", server, folder, Take("heard", 40_000, 6))
        ends = ends_of(server.lines(2))
    TALLY.same("a deaf peer", sorted(ends), ["Bye", "Idle"])
    ends_by_signal("a deaf peer", server)


def case_vanishing_peer(folder):
    """A peer resets its connection inside a frame: what was reported as stored stays, and another is served."""
    server = Server(folder, "--until-stopped", "--recorders", "2")
    take, other = Take("gone", 200_000, 7), Take("stays", 40_000, 8)
    first = take.FIRST_BLOCK + 2
    messages = take.messages()
    stored = b"".join(verdict(take.name, number, STORED) for number in range(first))
    with connect(server.port) as peer:
        peer.sendall(b"".join(messages[:first]) + messages[first][:10_000])
        TALLY.same("who goes away", hear(peer, len(stored)), stored)
        close_at_once(peer)
    same_exchanges("who goes away", server.lines(1), ["ReadFault"])
    same_file("who goes away", folder, take, blocks=2)
    serves_meanwhile("who goes away", server, folder, other)
    ends_by_signal("who goes away", server)


def case_one_name(folder):
    """Of two recorders of one name, the second's other body under a number that is done is a conflict."""
    server = Server(folder, "--until-stopped", "--recorders", "2")
    opening, other = opening_of(1), opening_of(2)
    with connect(server.port) as first, connect(server.port) as second:
        first.sendall(message("shared", 0, opening))
        wanted = verdict("shared", 0, STORED)
        TALLY.same("the first of one name", hear(first, len(wanted)), wanted)
        second.sendall(message("shared", 0, other) + message("shared", 0, opening))
        wanted = notice("shared", 0, CONFLICT, 1) + verdict("shared", 0, STORED)
        TALLY.same("the second of one name", hear(second, len(wanted)), wanted)
    ends_by_signal("one name", server)


def opening_of(channels):
    """The request that opens a take of this many channels, without a history."""
    return bytes([OPEN]) + little(48_000, 4) + little(channels, 2) + little(16, 2) + bytes(2)


def case_all_places(folder):
    """256 peers are served at once; all are connected before one sends anything."""
    count = 256
    server = Server(folder, "--exchanges", str(count), "--recorders", str(count))
    takes = [Take(f"short-{at}", 1_500, at) for at in range(count)]
    peers = [connect(server.port) for _ in takes]
    for peer, take in zip(peers, takes):
        peer.sendall(b"".join(take.messages()) + BYE_FRAME)
    for peer, take in zip(peers, takes):
        wanted = b"".join(verdict(take.name, number, STORED) for number in range(len(take.requests())))
        TALLY.same(f"256 at once: {take.name}", hear_all(peer), wanted)
        peer.close()
    status, lines, faults = server.end()
    TALLY.same("256 at once: the server", (status, ends_of(lines), faults), (0, ["Bye"] * count, ""))
    found = {path.name: path.read_bytes() for path in folder.iterdir()}
    TALLY.same("256 at once: the files", found, {f"{take.name}.wav": take.file() for take in takes})


def case_few_files(folder):
    """When no more files can be opened, accepted peers are served, and the others are accepted later; it is said once.
    """
    server = Server(folder, "--until-stopped", "--recorders", "64", "--idle", "60")
    most = len(os.listdir(f"/proc/{server.process.pid}/fd")) + 8
    resource.prlimit(server.process.pid, resource.RLIMIT_NOFILE, (most, most))
    peers = [connect(server.port) for _ in range(20)]
    for peer in peers:
        peer.sendall(ASKED)
    spent = seconds_of(server.process.pid)
    time.sleep(2)
    spent = seconds_of(server.process.pid) - spent
    TALLY.holds("few files", spent < 0.5, f"{spent:.2f} s of the processor in two seconds of waiting")
    for peer in peers:
        TALLY.same("few files", hear(peer, len(ANSWER)), ANSWER)
        peer.sendall(BYE_FRAME)
        hear_all(peer)
        peer.close()
    TALLY.same("few files", ends_of(server.lines(20)), ["Bye"] * 20)
    said = f"nobody more can connect: {reason(errno.EMFILE)}\n"
    TALLY.same("few files: it is said once", server.stop(), (-signal.SIGTERM, [], said))


def case_log(folder):
    """With `--log` the start, and each connection as it begins and ends, has a line; the last counts its own messages."""
    server = Server(folder, "--exchanges", "3", "--recorders", "3", "--idle", "1", "--log")
    takes = [Take("left", 3_000, 9), Take("right", 6_000, 10)]
    with connect(server.port) as left, connect(server.port) as right, connect(server.port) as silent:
        ports = [peer.getsockname()[1] for peer in (left, right, silent)]
        for one, other in zip(takes[0].messages(), takes[1].messages()):
            for peer, said in ((left, one), (right, other)):
                peer.sendall(said)
                hear(peer, len(verdict("left", 0, STORED)) + (peer is right))
        right.sendall(BYE_FRAME)
        hear_all(right)
        left.sendall(BYE_FRAME)
        hear_all(left)
        status, lines, faults = server.end()
    counts = [(len(take.messages()), sum(len(said) - 4 for said in take.messages())) for take in takes]
    wanted = [
        f"peer {LOCAL}:{ports[1]} names right end Bye messages {counts[1][0]} bytes {counts[1][1]}",
        f"peer {LOCAL}:{ports[0]} names left end Bye messages {counts[0][0]} bytes {counts[0][1]}",
        f"peer {LOCAL}:{ports[2]} names end Idle messages 0 bytes 0",
    ]
    TALLY.same("a log: the server", (status, ends_of(lines)), (0, ["Bye", "Bye", "Idle"]))
    begun = [f"peer {LOCAL}:{port} begun" for port in ports]
    opening = [f"started {LOCAL}:{server.port} folder {folder}", *begun]
    TALLY.same("a log", logs.untimed("a log", faults), opening + wanted)


def case_goes_on(folder):
    """A stopped server that is continued serves on, and answers all bytes that arrived meanwhile, up to their end."""
    server = Server(folder, "--until-stopped", "--recorders", "2", "--idle", "60")
    for _ in range(3):
        with still(server):
            pass
    with connect(server.port) as peer:
        peer.sendall(ASKED)
        TALLY.same("a server that goes on", hear(peer, len(ANSWER)), ANSWER)
        with still(server):
            peer.sendall(ASKED)
            peer.shutdown(socket.SHUT_WR)
        TALLY.same("an end after bytes", hear_all(peer), ANSWER)
    same_exchanges("an end after bytes", server.lines(1), ["EndOfInput"])
    serves_meanwhile("a server that goes on", server, folder, Take("goes-on", 30_000, 12))
    ends_by_signal("a server that goes on", server)


@contextlib.contextmanager
def still(server):
    """Stops the server's process meanwhile."""
    server.process.send_signal(signal.SIGSTOP)
    time.sleep(0.1)
    yield
    server.process.send_signal(signal.SIGCONT)
    time.sleep(0.1)


def case_unread_lines(folder):
    """No recorder waits for those who read lines: of lines that nobody reads some are left out, and how many is said
    once lines are read again.
    """
    for at, options in enumerate((("--recorders", "4"), (), ("--recorders", "4", "--log"))):
        place = folder / str(at)
        place.mkdir()
        unread_lines(f"unread lines, {' '.join(options) or 'in turn'}", place, options)


def unread_lines(name, folder, options):
    address = f"{LOCAL}:{free_port()}"
    port, pipe = int(address.partition(":")[2]), subprocess.PIPE
    words = ("serve", "--listen", address, "--folder", str(folder), "--until-stopped", *options)
    server = start(*words, stdout=pipe, stderr=pipe)
    streams = [server.stdout, *[server.stderr] * ("--log" in options)]
    TALLY.same(name, server.stdout.readline(), f"listening {address}\n".encode())
    for stream in streams:
        narrow(stream)
    for _ in range(ENDED):
        end_at(port)
    take = Take("unread", 30_000, 20)
    same_settled(f"{name}: a sender", send(port, take, "--timeout", "20"), *2 * [len(take.requests())], 0)
    printed = [lines_there(stream) for stream in streams]
    wanted = [f"exchange {index} EndOfInput" for index in range(len(printed[0]))]
    TALLY.same(f"{name}: those that were printed", printed[0], wanted)
    end_at(port)
    for stream, lines in zip(streams, printed):
        TALLY.holds(f"{name}: some are left out", 100 < len(lines) < ENDED or stream is server.stderr, f"{len(lines)}")
        found, made = next_lines(stream, 2), ENDED + 1
        if stream is server.stderr:  # the start, and two lines a connection
            found, made = logs.untimed(name, "\n".join(found)), 1 + 2 * made
        TALLY.same(f"{name}: how many", found[0], f"left out {made - len(lines)} lines")
        last = f"exchange {ENDED + 1} EndOfInput" if stream is server.stdout else " begun"
        TALLY.same(f"{name}: the next", found[1][-len(last) :], last)
    server.terminate()
    TALLY.same(f"{name}: the end", server.wait(LONGEST_WAIT), -signal.SIGTERM)


def end_at(port):
    """A peer that says nothing: its exchange ends at once."""
    with connect(port) as peer:
        peer.shutdown(socket.SHUT_WR)
        hear_all(peer)


def lines_there(stream):
    """The lines that a pipe holds now."""
    return os.read(stream.fileno(), 1 << 20).decode().splitlines()


def next_lines(stream, count):
    """The next lines of a pipe."""
    found = b""
    while found.count(b"\n") < count:
        if not select.select([stream], [], [], LONGEST_WAIT)[0]:
            break
        found += os.read(stream.fileno(), 1 << 20)
    return [*found.decode().splitlines(), *[""] * count][:count]


def case_folder_goes_away(folder):
    """The server ends where its folder is replaced by a file."""
    place = folder / "place"
    place.mkdir()
    server = Server(place, "--until-stopped", "--recorders", "2")
    serves_meanwhile("before the folder goes away", server, place, Take("early", 3_000, 11))
    same_exchanges("before the folder goes away", server.lines(1), ["Bye"])
    shutil.rmtree(place)
    place.write_bytes(b"")
    with connect(server.port) as peer:
        TALLY.same("the folder is gone: the peer", hear_until_it_breaks(peer), b"")
    TALLY.same("the folder is gone", server.end(), (3, [], CANT_GO_ON))


def case_unusable(folder):
    """A port in use and a missing folder are reported before anything is printed."""
    same_port_in_use(folder, "--recorders", "2")
    missing = folder / "missing"
    output = run("serve", "--listen", f"{LOCAL}:{free_port()}", "--folder", str(missing), "--recorders", "2")
    TALLY.same("a missing folder", output, (3, "", f"{missing} can't be opened: {reason(2)}\n"))


CASES = [
    case_many_senders,
    case_silent_peer,
    case_no_place,
    case_garbage,
    case_deaf_peer,
    case_vanishing_peer,
    case_one_name,
    case_all_places,
    case_few_files,
    case_log,
    case_goes_on,
    case_unread_lines,
    case_folder_goes_away,
    case_unusable,
]

sys.exit(run_cases(CASES, LONGEST_RUN))
