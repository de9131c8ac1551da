#!/usr/bin/env python3
"""Runs worked exchanges of `send` and `serve` of the built program over 127.0.0.1, and compares them byte by byte.

cases/sends.py has what `send` should say over each link and print, and the replies that it gets; `serve` receives
the messages of worked.py. Then links break after a few bytes: one of the program's calls is refused. Each wait has a
limit, and what was started is ended. Needs what tracer.py needs. The program is the first argument, or the one of this
repository. Prints what differs, and last 'N passed, M failed'.
"""
import os
import select
import socket
import subprocess
import sys

sys.dont_write_bytecode = True  # nothing is left beside this script
from cases import sends as cases_of_sends
from kit.network import connect, finish, hear_all, hear_batch, hear_until_it_breaks, LOCAL, LONGEST_WAIT, run_cases, Server
from kit.network import start, TALLY
from kit.refuser import CALLS
from kit.takes import bad_frame, BYE_FRAME, STORED, verdict
from kit.worked import BLOCK, CLOSE, OPEN

LONGEST_RUN = 120  # seconds, for all of it
NAME_TAKEN, NOT_OPEN = 1, 3
TAKE = bytes.fromhex(OPEN + BLOCK + CLOSE)
VERDICTS = b"".join(verdict("a1", number, STORED) for number in range(3))


# What `send` says


def next_link(listener, ended):
    """The next link that is made, or None if the sender ends instead, which makes `ended` readable."""
    is_made = listener in select.select([listener, ended], [], [], LONGEST_WAIT)[0]
    return listener.accept()[0] if is_made else None


def said_over(link, most, replies):
    """What is said over a link that gets these replies after this many bytes; None if no link is made."""
    if link is None:
        return None
    with link:
        link.settimeout(LONGEST_WAIT)
        batch = hear_batch(link, most)
        link.sendall(replies)
        link.shutdown(socket.SHUT_WR)
        return (batch + hear_all(link)).hex()


def links_left(listener, ended):
    """Closes each further link at once; how many are made until the sender ends."""
    count = 0
    while link := next_link(listener, ended):
        link.close()
        count += 1
    return count


def same_sending(name, case, folder, observer=None):
    """A run says over each link what it should, makes no other link, and prints what it should."""
    (folder / "lines").write_text(case.given)
    with socket.create_server((LOCAL, 0)) as listener, open(folder / "lines", "rb") as lines:
        words = ("send", "--connect", f"{LOCAL}:{listener.getsockname()[1]}", "--name", "a1", *case.options)
        sender = start(*words, observer=observer, stdin=lines, stdout=subprocess.PIPE, stderr=subprocess.PIPE)
        with open(os.pidfd_open(sender.pid), "rb", buffering=0) as ended:
            said = [said_over(next_link(listener, ended), len(batch) // 2, replies) for batch, replies in case.links]
            TALLY.same(f"{name}: what is said", said, [batch for batch, _ in case.links])
            TALLY.same(f"{name}: more links", links_left(listener, ended), 0)
        TALLY.same(name, finish(sender, name="send"), (case.status, case.out, case.faults))


def case_sends(folder):
    for fact, cases in cases_of_sends.CASES.items():
        for case in cases:
            same_sending(f"{fact}: {case.of}", case, folder)


# What `serve` answers


def says(name, server, said, replies):
    """A peer that sends just this receives these replies."""
    with connect(server.port) as peer:
        peer.sendall(said)
        peer.shutdown(socket.SHUT_WR)
        TALLY.same(name, hear_all(peer), replies)


def case_ends(folder):
    """Each end of an exchange is reported: without BYE, with it, and by a frame without a body."""
    server = Server(folder, "--exchanges", "3")
    says("a whole take", server, TAKE, VERDICTS)
    says("BYE alone", server, BYE_FRAME, b"")
    says("a frame without a body", server, bytes(4), bad_frame(1, 0))
    wanted = ["exchange 0 EndOfInput", "exchange 1 Bye", "exchange 2 BadFrame"]
    TALLY.same("three ends: the server", server.end(), (0, wanted, ""))


def case_existing_name(folder):
    """A file that existed before is left as it is: the OPEN of its name is refused, and so is what follows."""
    path = folder / "a1.wav"
    path.write_bytes(b"was here")
    server = Server(folder, "--exchanges", "1")
    says("an existing name", server, TAKE[:38], verdict("a1", 0, NAME_TAKEN) + verdict("a1", 1, NOT_OPEN))
    TALLY.same("an existing name: the server", server.end(), (0, ["exchange 0 EndOfInput"], ""))
    TALLY.same("an existing name: its file", path.read_bytes(), b"was here")


# Links that break


class Breaks:
    """Limits each call of a kind to a few bytes, and refuses the one after this many."""

    def __init__(self, kind, most, count):
        self.numbers, self.most, self.left = CALLS[kind], most, count

    def before(self, call):
        if call.number in self.numbers:
            if self.left == 0:
                call.refuse()
            call.change(2, min(self.most, call.words[2]))
            self.left -= 1

    def after(self, call):
        pass


def same_broken(name, folder, breaks, end, replies):
    """A server writes these replies before its link breaks, and then serves the same take again."""
    folder.mkdir()
    server = Server(folder, "--exchanges", "2", watch=lambda: breaks)
    with connect(server.port) as peer:
        peer.sendall(TAKE)
        TALLY.same(name, hear_until_it_breaks(peer), replies)
    says(f"{name}: again", server, TAKE, VERDICTS)
    TALLY.same(f"{name}: the server", server.end(), (0, [f"exchange 0 {end}", "exchange 1 EndOfInput"], ""))


def case_reads(folder):
    """A read fails after this many reads of seven bytes, which hold this many whole messages."""
    for calls, count in enumerate((0, 0, 0, 0, 1, 1, 2, 2, 2, 3)):
        breaks = Breaks("receive", 7, calls)
        same_broken(f"{calls} reads", folder / str(calls), breaks, "ReadFault", VERDICTS[: 13 * count])


def case_writes(folder):
    """A write fails after this many writes of at most five bytes; the verdicts on a piece are written together."""
    for calls in range(len(VERDICTS) // 5 + 1):
        breaks = Breaks("send", 5, calls)
        same_broken(f"{calls} writes", folder / str(calls), breaks, "WriteFault", VERDICTS[: 5 * calls])


def case_broken_send(folder):
    """A sender's write fails after four of at most eight bytes, and it still reads the replies."""
    case = cases_of_sends.BROKEN
    same_sending(case.of, case, folder, Breaks("send", 8, 4))


CASES = [case_sends, case_ends, case_existing_name, case_reads, case_writes, case_broken_send]

if __name__ == "__main__":
    sys.exit(run_cases(CASES, LONGEST_RUN))
