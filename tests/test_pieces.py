#!/usr/bin/env python3
"""Runs `serve` and `send` of the built program so that they receive frames in pieces, and `send` on given replies.

They run under tracer.py, with an observer that limits each receive to a few bytes. Frames and replies are worked out by
hand from docs/FORMATS.md. Needs what tracer.py needs. The program is the first argument, or the one of this repository.
Prints what differs, and last 'N passed, M failed'.
"""
import socket
import sys

sys.dont_write_bytecode = True  # nothing is left beside this script
from kit.network import connect, finish, hear_all, LOCAL, LONGEST_WAIT, run_cases, Server, start_with_pipes
from kit.network import TALLY, UNSETTLED
from kit.takes import BYE_FRAME
from kit.worked import BLOCK, CLOSE, OPEN, SMALL

LONGEST_RUN = 120  # seconds, for all of it

ACCEPT, RECEIVE = 288, 45  # accept4 and recvfrom, by their numbers on x86-64
LENGTH = 2  # the place of a receive's length among its words
UNLIMITED = 1 << 31

TAKE = bytes.fromhex(OPEN + BLOCK + CLOSE)
SAID = TAKE + BYE_FRAME
LINES = b"0180bb0000010010000000\n0201000200\n050200000000000000\n"

# The verdicts that the three requests of `a1` are stored; number 2 of `b2` is held; from byte 22 on there is no frame.
STORED = [bytes.fromhex(f"0900000081026131{number:02x}00000000") for number in range(3)]
HELD = bytes.fromhex("0d0000008202623202000000" + "2000000000")
BAD_LENGTH = bytes.fromhex("0a00000083011600000000000000")


class Limiter:
    """Limits each receive to this many bytes, and notes in `pieces` how many each took."""

    def __init__(self, most):
        self.most = most
        self.pieces = []

    def before(self, call):
        if call.number == RECEIVE:
            call.change(LENGTH, min(call.words[LENGTH], self.most))

    def after(self, call):
        if call.number == RECEIVE and call.result > 0:
            self.pieces.append(call.result)


class FirstLimiter(Limiter):
    """Limits the first receive of the K-th connection to K bytes, and no later one."""

    def __init__(self):
        super().__init__(UNLIMITED)
        self.connections = 0

    def after(self, call):
        super().after(call)
        if call.number == RECEIVE:
            self.most = UNLIMITED
        elif call.number == ACCEPT and call.result >= 0:
            self.connections += 1
            self.most = self.connections


def pieces_of(length, most):
    """The lengths of the pieces in which this many bytes, sent at once, are received."""
    return [min(most, length - at) for at in range(0, length, most)]


# Messages


def same_take(name, server, folder, count):
    """The same take is sent whole in each of this many exchanges, and stored once."""
    for at in range(count):
        with connect(server.port) as peer:
            peer.sendall(SAID)
            TALLY.same(f"{name}: {at + 1}", hear_all(peer), b"".join(STORED))
    TALLY.same(f"{name}: the server", server.end(), (0, [f"exchange {at} Bye" for at in range(count)], ""))
    TALLY.same(f"{name}: the file", (folder / "a1.wav").read_bytes(), bytes.fromhex(SMALL))


def case_pieces(folder):
    """The messages of a take, 58 bytes, are received in pieces of a size."""
    for size in (1, 2, 3, 58):
        place = folder / str(size)
        place.mkdir()
        limiter = Limiter(size)
        server = Server(place, "--exchanges", "1", watch=lambda: limiter)
        same_take(f"a take in pieces of {size}", server, place, 1)
        TALLY.same(f"a take in pieces of {size}: the pieces", limiter.pieces, pieces_of(len(SAID), size))


def case_two_pieces(folder):
    """They are received in two pieces, split after each of their bytes."""
    limiter = FirstLimiter()
    server = Server(folder, "--exchanges", "58", watch=lambda: limiter)
    same_take("a take in two pieces", server, folder, 58)
    pieces = [piece for first in range(1, 59) for piece in (first, len(SAID) - first)]
    TALLY.same("a take in two pieces: the pieces", limiter.pieces, pieces)


def case_second_name(folder):
    """After a take an ask comes under another name, to a server with --one-name, split after each of the bytes."""
    ask = bytes.fromhex("08000000" + "0602" + "6132" + "00000000")
    bad_name = bytes.fromhex("0a0000008303" + "3a00000000000000")
    said = TAKE + ask
    limiter = FirstLimiter()
    server = Server(folder, "--exchanges", str(len(said)), "--one-name", watch=lambda: limiter)
    for at in range(len(said)):
        with connect(server.port) as peer:
            peer.sendall(said)
            TALLY.same(f"a second name: {at + 1}", hear_all(peer), b"".join(STORED) + bad_name)
    ends = [f"exchange {at} BadFrame" for at in range(len(said))]
    TALLY.same("a second name: the server", server.end(), (0, ends, ""))
    TALLY.same("a second name: the file", (folder / "a1.wav").read_bytes(), bytes.fromhex(SMALL))


# Frames and replies of `send`


def sent(lines, replies, limiter=None):
    """Runs `send` on a server that replies once it has all messages; what it says, and how it ends."""
    with socket.create_server((LOCAL, 0)) as listener:
        listener.settimeout(LONGEST_WAIT)
        address = f"{LOCAL}:{listener.getsockname()[1]}"
        words = ("send", "--connect", address, "--name", "a1", "--rounds", "1")
        process = start_with_pipes(*words, observer=limiter)
        process.stdin.write(lines)
        process.stdin.close()
        process.stdin = None
        peer, _ = listener.accept()
        with peer:
            peer.settimeout(LONGEST_WAIT)
            said = b""
            while not said.endswith(BYE_FRAME) and (piece := peer.recv(65_536)):
                said += piece
            peer.sendall(replies)
            peer.shutdown(socket.SHUT_WR)
            return said, finish(process, name="send")


def settled(count):
    faults, status = ("", 0) if count == 3 else (UNSETTLED, 3)
    return status, f"settled {count}\nstored {count}\n", faults


# Lines of requests, each kind among them, with their frames.
MARK = "0307000000" + "02000000"
FIELD = "0401" + "5261696e"
FRAMES = [
    (LINES, TAKE),
    (
        b"\n".join((LINES.split()[0], LINES.split()[1], MARK.encode())) + b"\n",
        bytes.fromhex(OPEN + BLOCK + "1000000003026131020000000700000002000000"),
    ),
    (
        b"\n".join((LINES.split()[0], FIELD.encode(), LINES.split()[2])) + b"\n",
        bytes.fromhex(OPEN + "0d0000000402613101000000015261696e" + CLOSE),
    ),
]


def case_frames(_folder):
    """Each request is sent in its frame, and all are settled by a verdict on each."""
    for lines, frames in FRAMES:
        said, end = sent(lines, b"".join(STORED))
        TALLY.same(f"the frames of {lines}", said, frames + BYE_FRAME)
        TALLY.same(f"the verdicts of {lines}", end, settled(3))


def case_replies_in_pieces(_folder):
    """Verdicts, a notice among them and a bad frame after them are received in pieces of a size."""
    replies = STORED[0] + HELD + STORED[1] + STORED[2] + BAD_LENGTH
    for size in (1, 2, 3, 44):
        limiter = Limiter(size)
        TALLY.same(f"replies in pieces of {size}", sent(LINES, replies, limiter)[1], settled(3))
        TALLY.same(f"replies in pieces of {size}: the pieces", limiter.pieces, pieces_of(len(replies), size))


# Bodies that are no reply, and bytes that are no reply's frame.
NO_REPLIES = [
    *("80", "84", "81", "8102413100000000" + "00", "81026131000000", "81026131" + "0000000100", "8102613100000000"),
    *("81026131000000000c", "8102613100000000" + "0000"),
    *(f"8202613100000000{code:02x}00000000" for code in (31, 38, 40)),
    *("820261310000000020" + "01000001", "820261310000000020" + "000000", "83" + "00" + 8 * "00"),
    *("83" + "07" + 8 * "00", "83" + "01" + 7 * "00"),
]
NO_FRAMES = ["2c000000", "00000000", "0100000009"]


def case_no_replies(_folder):
    """After bytes that are no reply nothing more is read: the verdicts that follow don't count."""
    framed = [len(bytes.fromhex(body)).to_bytes(4, "little") + bytes.fromhex(body) for body in NO_REPLIES]
    for bad in (*framed, *map(bytes.fromhex, NO_FRAMES)):
        end = sent(LINES, STORED[0] + bad + STORED[1] + STORED[2])[1]
        TALLY.same(f"no reply: {bad.hex()}", end, settled(1))
    TALLY.same("a reply that is cut", sent(LINES, STORED[0] + STORED[1] + HELD[:16])[1], settled(2))
    farthest = bytes.fromhex("0d00000082026131" + "00000000" + "20" + "01001000")
    TALLY.same("the farthest number", sent(LINES, farthest + b"".join(STORED))[1], settled(3))


CASES = [case_pieces, case_two_pieces, case_second_name, case_frames, case_replies_in_pieces, case_no_replies]

if __name__ == "__main__":
    sys.exit(run_cases(CASES, LONGEST_RUN))
