#!/usr/bin/env python3
"""Runs `serve` of the built program against peers that send worked bytes over 127.0.0.1, alone and many at once.

The frames, the replies and the file of two frames are given here as bytes, worked out by hand from docs/FORMATS.md.
Each wait has a limit, and what was started is ended. The program is the first argument, or the one of this repository.
Prints what differs, and last 'N passed, M failed'.
"""
import contextlib
import select
import socket
import sys
import time

sys.dont_write_bytecode = True  # nothing is left beside this script
from kit import logs
from kit.network import CANT_GO_ON, connect, Fault, hear, hear_all, hear_until_it_breaks, LOCAL, LONGEST_WAIT, reason, run
from kit.network import run_cases, same_exchanges, Server, stopped, TALLY
from kit.takes import BYE_FRAME, little

LONGEST_RUN = 120  # seconds, for all of it
STUCK = 0.3  # seconds in which no byte is taken
MOST_SENT = 100_000_000  # bytes that a peer that reads no reply may send before it is stuck
QUIET = 0.6  # seconds; a server of many waits 0.25 at a time, so it waits at least twice

# The take `a1`: OPEN 0 (48,000 Hz, one channel, 16 bits), BLOCK 1 with two frames, CLOSE 2 with the total 2.
OPEN = b"\x12\0\0\0\x01\x02a1\0\0\0\0\x80\xbb\0\0\x01\0\x10\0\0\0"
BLOCK_FRONT = b"\x0c\0\0\0\x02\x02a1"
BLOCK_REST = b"\x01\0\0\0\x01\0\x02\0"
CLOSE = b"\x10\0\0\0\x05\x02a1\x02\0\0\0\x02\0\0\0\0\0\0\0"
WHOLE = OPEN + BLOCK_FRONT + BLOCK_REST + CLOSE
LINES = b"0180bb0000010010000000\n0201000200\n050200000000000000\n"

# The verdicts that they are stored.
OPENED = b"\x09\0\0\0\x81\x02a1\0\0\0\0\0"
KEPT = b"\x09\0\0\0\x81\x02a1\x01\0\0\0\0"
CLOSED = b"\x09\0\0\0\x81\x02a1\x02\0\0\0\0"

# The same take under the name `b2`, as a whole exchange.
OTHER = WHOLE.replace(b"a1", b"b2") + BYE_FRAME
OTHERS = (OPENED + KEPT + CLOSED).replace(b"a1", b"b2")

# ASK 5 under `c3`, and the answer that number 0 comes next.
ASK = b"\x08\0\0\0\x06\x02c3\x05\0\0\0"
NEXT = b"\x0d\0\0\0\x82\x02c3\x05\0\0\0\x27\0\0\0\0"

# ASK 0 under a name of 32 bytes, and the answer.
LONG_ASK = b"\x26\0\0\0\x06\x20a-name-of-32-bytes--------------\0\0\0\0"
LONG_NEXT = b"\x2b\0\0\0\x82\x20a-name-of-32-bytes--------------\0\0\0\0\x27\0\0\0\0"

# The take's file of 694 bytes: RIFF, and of `bext` only the version is set, to 1.
TWO_FRAMES = b"".join(
    (
        b"RIFF\xae\x02\0\0WAVEJUNK\x1c\0\0\0" + bytes(28),
        b"fmt \x10\0\0\0\x01\0\x01\0\x80\xbb\0\0\0\x77\x01\0\x02\0\x10\0",
        b"bext\x5a\x02\0\0" + bytes(346) + b"\x01" + bytes(255),
        b"data\x04\0\0\0\x01\0\x02\0",
    )
)


def hears(name, peer, said, replies):
    """The peer sends this, and receives these replies next."""
    peer.sendall(said)
    TALLY.same(name, hear(peer, len(replies)), replies)


def hears_to_the_end(name, peer, said, replies):
    """The peer sends this, and receives just these replies before the server ends the connection."""
    peer.sendall(said)
    TALLY.same(name, hear_all(peer), replies)


def each_says(peers, said):
    """Each of these peers sends its part."""
    for peer, part in zip(peers, said):
        peer.sendall(part)


def each_hears(name, peers, replies, to_the_end=False):
    """Each of these peers receives its replies next, or just these before the server ends its connection."""
    for at, (peer, wanted) in enumerate(zip(peers, replies)):
        heard = hear_all(peer) if to_the_end else hear(peer, len(wanted))
        TALLY.same(f"{name}: {at}", heard, wanted)


def serves_another(name, server):
    """Another peer has a whole take stored, in the first exchange that ends."""
    with connect(server.port) as peer:
        hears_to_the_end(f"{name}: another", peer, OTHER, OTHERS)
    same_exchanges(f"{name}: the other's exchange", server.lines(1), ["Bye"])


def ends_with(name, server, *ends, first=0, log=""):
    """The server ends by itself after these exchanges, with status 0 and these ends in its log."""
    wanted = [f"exchange {first + at} {end}" for at, end in enumerate(ends)]
    status, lines, faults = server.end()
    found = logs.ends(name, faults) if log else faults
    TALLY.same(f"{name}: the server", (status, lines, found), (0, wanted, log))


def has_files(name, folder, files):
    """The folder has these files, and no others."""
    found = {path.name: path.read_bytes() for path in folder.iterdir()}
    TALLY.same(f"{name}: the files", found, files)


def log_line(peer, end):
    """The line of the log for a peer that sent no request."""
    return f"peer {LOCAL}:{peer.getsockname()[1]} names end {end} messages 0 bytes 0"


# One after another


def case_two_servers(folder):
    """A server's start leaves nothing in its folder; of a take stored there a second server finds the name taken."""
    first = Server(folder, "--exchanges", "1")
    has_files("a folder that was tried", folder, {})
    found = run("send", "--connect", f"{LOCAL}:{first.port}", "--name", "a1", given=LINES)
    TALLY.same("a take", found, (0, "settled 3\nstored 3\n", ""))
    ends_with("a take", first, "Bye")
    (folder / ".bwingest").write_bytes(b"mine")
    second = Server(folder, "--exchanges", "1")
    found = run("send", "--connect", f"{LOCAL}:{second.port}", "--name", "a1", given=LINES)
    refused = "settled 3\nstored 0\nrefused 0 NameTaken\nrefused 1 NotOpen\nrefused 2 NotOpen\n"
    TALLY.same("a name that is taken", found, (1, refused, ""))
    ends_with("a name that is taken", second, "Bye")
    has_files("a name that is taken", folder, {"a1.wav": TWO_FRAMES, ".bwingest": b"mine"})


def case_silent(folder):
    """A silent peer ends only its own exchange, which is logged, and the server ends as asked."""
    server = Server(folder, "--exchanges", "1", "--timeout", "1", "--log")
    with connect(server.port) as silent:
        ends_with("a silent peer", server, "ReadFault", log=[log_line(silent, "ReadFault")])


# Both kinds of servers


def case_address_in_use(folder):
    """A second server can't listen where another does."""
    for options in ((), ("--recorders", "2")):
        name = " ".join(("a second server", *options))
        server = Server(folder, "--until-stopped", *options)
        address = f"{LOCAL}:{server.port}"
        found = run("serve", "--listen", address, "--folder", str(folder), *options)
        TALLY.same(name, found, (3, "", f"{address} can't be opened: {reason(98)}\n"))
        stopped(f"{name}: the first", server)


def case_folder_gone(folder):
    """A peer that connects after the folder is gone sees the end, and is neither an exchange nor in the log."""
    for options in ((), ("--recorders", "1")):
        name = " ".join(("a folder that is gone", *options))
        place = folder / "place"
        place.mkdir()
        server = Server(place, "--exchanges", "1", "--log", *options)
        place.rmdir()
        with connect(server.port) as late:
            TALLY.same(name, hear_until_it_breaks(late), b"")
        status, lines, faults = server.end()
        wanted = [f"started {LOCAL}:{server.port} folder {place}", CANT_GO_ON.rstrip()]
        TALLY.same(f"{name}: the server", (status, lines, logs.untimed(name, faults)), (3, [], wanted))


def case_second_name(folder):
    """With --one-name a message or an ask under a second name is bad, at its place; without it each is answered."""
    other_ask = ASK.replace(b"c3", b"d3")
    other_next = NEXT.replace(b"c3", b"d3")
    longer, shorter = b"\x09\0\0\0\x06\x03c33\0\0\0\0", b"\x07\0\0\0\x06\x01c\0\0\0\0"
    rows = (
        ("an ask after a message", OPEN + ASK + CLOSE, OPENED + bad_name(22), "BadFrame"),
        ("another of the same length", ASK + other_ask, NEXT + bad_name(12), "BadFrame"),
        ("one that is longer", ASK + longer, NEXT + bad_name(12), "BadFrame"),
        ("one that is shorter", ASK + ASK + shorter, NEXT + NEXT + bad_name(24), "BadFrame"),
        ("a message after a take", OTHER[: -len(BYE_FRAME)] + OPEN, OTHERS + bad_name(58), "BadFrame"),
        ("one name", OTHER, OTHERS, "Bye"),
    )
    for options in ((), ("--recorders", "1")):  # one place, so that connections end in their order
        place = folder / f"place{len(options)}"
        place.mkdir()
        kind = " ".join(("a second name", *options))
        server = Server(place, "--exchanges", str(len(rows)), "--one-name", *options)
        for name, said, replies, _ in rows:
            with connect(server.port) as peer:
                hears_to_the_end(f"{kind}: {name}", peer, said, replies)
        ends_with(kind, server, *[end for *_, end in rows])
        TALLY.same(f"{kind}: the files", sorted(path.name for path in place.iterdir()), ["a1.wav", "b2.wav"])
        TALLY.same(f"{kind}: the take", (place / "b2.wav").read_bytes(), TWO_FRAMES)
        plain = Server(place, *options)
        with connect(plain.port) as peer:
            hears_to_the_end(f"{kind}: without the option", peer, ASK + other_ask + BYE_FRAME, NEXT + other_next)
        ends_with(f"{kind}: without the option", plain, "Bye")


def bad_name(place):
    """The reply that the frame at this place is bad for its name."""
    return b"\x0a\0\0\0\x83\x03" + little(place, 8)


# Many at once


def case_nobody_comes(folder):
    """Until someone connects the server waits, even while its folder is gone."""
    place, away = folder / "place", folder / "away"
    place.mkdir()
    server = Server(place, "--exchanges", "1", "--recorders", "1", "--log")
    place.rename(away)
    time.sleep(QUIET)
    TALLY.same("nobody connects: the status", server.process.poll(), None)
    away.rename(place)
    with connect(server.port) as peer:
        hears_to_the_end("the first peer", peer, ASK + BYE_FRAME, NEXT)
        ends_with("the first peer", server, "Bye", log=[log_line(peer, "Bye")])


def case_stuck_in_a_frame(folder):
    """A peer stops inside a frame until another is served, and then ends without BYE."""
    server = Server(folder, "--exchanges", "2", "--recorders", "2")
    with connect(server.port) as stuck:
        hears("stuck in a frame", stuck, OPEN + BLOCK_FRONT, OPENED)
        serves_another("stuck in a frame", server)
        stuck.sendall(BLOCK_REST + CLOSE)
        stuck.shutdown(socket.SHUT_WR)
        TALLY.same("no longer stuck", hear_all(stuck), KEPT + CLOSED)
    ends_with("stuck in a frame", server, "EndOfInput", first=1)
    has_files("stuck in a frame", folder, {"a1.wav": TWO_FRAMES, "b2.wav": TWO_FRAMES})


def case_bad_frame(folder):
    """A peer that sent a bad frame gets its reply, and stays until another is served: only then its exchange ends."""
    server = Server(folder, "--exchanges", "2", "--recorders", "2")
    bad_length = b"\x0a\0\0\0\x83\x01\0\0\0\0\0\0\0\0"
    with connect(server.port) as bad:
        hears_to_the_end("a bad frame", bad, b"\xff\xff\xff\xff and so on", bad_length)
        serves_another("a bad frame", server)
    ends_with("a bad frame", server, "BadFrame", first=1)


def case_one_name(folder):
    """Two peers send one take at once: each gets the replies to its own requests, and what both sent is stored once."""
    other_rate = b"\x12\0\0\0\x01\x02a1\0\0\0\0\x44\xac\0\0\x01\0\x10\0\0\0"  # OPEN 0 at 44,100 Hz
    conflict = b"\x0d\0\0\0\x82\x02a1\0\0\0\0\x22\x01\0\0\0"  # number 1 comes next
    held = b"\x0d\0\0\0\x82\x02a1\x02\0\0\0\x20\x01\0\0\0"
    block = BLOCK_FRONT + BLOCK_REST
    server = Server(folder, "--exchanges", "2", "--recorders", "2")
    with connect(server.port) as first, connect(server.port) as second:
        hears("one name, the first's OPEN", first, OPEN, OPENED)
        hears("one name, another OPEN", second, other_rate, conflict)
        hears("one name, the same OPEN", second, OPEN, OPENED)
        hears("one name, CLOSE before BLOCK", second, CLOSE, held)
        hears("one name, BLOCK before CLOSE", first, block, KEPT + CLOSED)
        hears_to_the_end("one name, the first's end", first, BYE_FRAME, b"")
        hears_to_the_end("one name, BLOCK again", second, block + BYE_FRAME, KEPT)
    ends_with("one name", server, "Bye", "Bye")
    has_files("one name", folder, {"a1.wav": TWO_FRAMES})


def case_places(folder):
    """Five peers connect where there are two places. One keeps its place to the end, and the others share the other.

    Those without a place have sent all before the first one sends anything. With a third place one of them would end
    first.
    """
    server = Server(folder, "--exchanges", "5", "--recorders", "2", "--log")
    with contextlib.ExitStack() as stay:
        first, lasting, *others = (stay.enter_context(connect(server.port)) for _ in range(5))
        each_says(others, [ASK + BYE_FRAME] * 3)
        hears("the first of five", first, ASK, NEXT)
        hears_to_the_end("the first of five: its end", first, BYE_FRAME, b"")
        each_hears("a peer that waits for a place", others, [NEXT] * 3, to_the_end=True)
        hears_to_the_end("a peer that keeps its place", lasting, OTHER, OTHERS)
        log = [log_line(peer, "Bye") for peer in (first, *others)]
        log.append(f"peer {LOCAL}:{lasting.getsockname()[1]} names b2 end Bye messages 3 bytes 46")
        ends_with("places", server, *["Bye"] * 5, log=log)


def case_vanishing(folder):
    """Three peers connect where there is one place. Two vanish: one inside a frame, one with a reply unread."""
    server = Server(folder, "--exchanges", "3", "--recorders", "1")
    cut, broken, last = (connect(server.port) for _ in range(3))
    with cut, broken, last:
        broken.sendall(OPEN)
        last.sendall(OTHER)
        hears("inside a frame", cut, OPEN + BLOCK_FRONT, OPENED)
        cut.close()
        TALLY.same("a reply unread", broken.recv(len(OPENED), socket.MSG_PEEK), OPENED)
        broken.close()
        TALLY.same("a peer that stays", hear_all(last), OTHERS)
    ends_with("peers that vanish", server, "BadFrame", "ReadFault", "Bye")


def case_byte_by_byte(folder):
    """A peer sends a byte now and then, but no whole frame after its first: it is dropped."""
    server = Server(folder, "--exchanges", "1", "--recorders", "1", "--idle", "1")
    prefix = b"\x08\x80\0\0\x02\x02a1\x01\0\0\0"  # of a BLOCK whose body has 32,776 bytes
    with connect(server.port) as slow:
        begun = time.monotonic()
        hears("byte by byte", slow, OPEN, OPENED)
        slow.sendall(prefix)
        TALLY.same("byte by byte: more replies", heard_meanwhile(slow), b"")
        waited = time.monotonic() - begun
    TALLY.holds("byte by byte", 1 < waited < 10, f"it is dropped after {waited:.2f} s, not after one")
    ends_with("byte by byte", server, "Idle")


def heard_meanwhile(peer):
    """What a peer receives up to the end while it sends a byte each tenth of a second."""
    with contextlib.suppress(ConnectionError):
        for _ in range(10 * LONGEST_WAIT):
            if select.select([peer], [], [], 0.1)[0]:
                break
            peer.send(b"\0")
        else:
            raise Fault("a peer that sends a byte now and then isn't dropped")
    return hear_until_it_breaks(peer)


def case_late(folder):
    """A peer reads nothing until no more is read from it, and then all replies; another is served meanwhile."""
    server = Server(folder, "--exchanges", "2", "--recorders", "2")
    with connect(server.port) as late:
        late.setblocking(False)
        sent = sent_until_stuck(late, LONG_ASK * 1_024)
        serves_another("a peer that reads late", server)
        rest = LONG_ASK[sent % len(LONG_ASK) :] if sent % len(LONG_ASK) else b""
        heard = heard_while_sending(late, rest + BYE_FRAME)
        asked = (sent + len(rest)) // len(LONG_ASK)
        TALLY.holds("a peer that reads late", asked >= 1_024, f"only {asked} asks are read")
        TALLY.same("a peer that reads late: the answers", heard, LONG_NEXT * asked)
    ends_with("a peer that reads late", server, "Bye", first=1)


def sent_until_stuck(peer, said):
    """Sends this again and again until no byte is taken for a while; how many bytes were."""
    sent = 0
    while select.select([], [peer], [], STUCK)[1]:
        sent += peer.send(said[sent % len(said) :])
        if sent > MOST_SENT:
            raise Fault("all that is sent is taken, though no reply is read")
    return sent


def heard_while_sending(peer, said):
    """What is received up to the end while this is sent."""
    heard = []
    while True:
        readable, writable, _ = select.select([peer], [peer] if said else [], [], LONGEST_WAIT)
        if writable:
            said = said[peer.send(said) :]
        piece = peer.recv(65_536) if readable else None
        if piece:
            heard.append(piece)
        elif readable or not writable:
            return b"".join(heard)


def case_all_at_once(folder):
    """256 peers connect, and each gets the answer to its own ask before any of them leaves."""
    count = 256
    server = Server(folder, "--exchanges", str(count), "--recorders", str(count))
    numbers = [little(number, 4) for number in range(count)]
    with contextlib.ExitStack() as stay:
        peers = [stay.enter_context(connect(server.port)) for _ in numbers]
        each_says(peers, [b"\x08\0\0\0\x06\x02a1" + number for number in numbers])
        answers = [b"\x0d\0\0\0\x82\x02a1" + number + b"\x27\0\0\0\0" for number in numbers]
        each_hears("256 at once", peers, answers)
        each_says(peers, [BYE_FRAME] * count)
        each_hears("256 at once: the end", peers, [b""] * count, to_the_end=True)
    ends_with("256 at once", server, *["Bye"] * count)


CASES = [
    case_two_servers,
    case_silent,
    case_address_in_use,
    case_folder_gone,
    case_second_name,
    case_nobody_comes,
    case_stuck_in_a_frame,
    case_bad_frame,
    case_one_name,
    case_places,
    case_vanishing,
    case_byte_by_byte,
    case_late,
    case_all_at_once,
]

if __name__ == "__main__":
    sys.exit(run_cases(CASES, LONGEST_RUN))
