#!/usr/bin/env python3
"""Runs `send` of the built program against no server, against peers of its own, and against one that is stopped.

Why nothing goes is a line on standard error, off a terminal too, once for each change; a peer's requests fill the
window, and what it had replied before a write failed counts. The program is the first argument, or the one of this
repository. Prints what differs, and last 'N passed, M failed'.
"""
import contextlib
import select
import socket
import sys
import time

sys.dont_write_bytecode = True  # nothing is left beside this script
from cases.recordings import TONE, TONE_FILE
from kit.hints import CLOSED, FRUITLESS, outages_in, REFUSED, STORE_FAILS, TABLE_FULL, TIMED_OUT
from kit.network import close_at_once, connect, finish_whole, free_port, hear_batch, LOCAL, LONGEST_WAIT, pass_both_ways
from kit.network import run_cases, start_with_pipes, TALLY, UNSETTLED, WINDOW
from kit.takes import DELAYED_STORE, notice, STORED, verdict
from kit import worked
from kit.uploads import long_recording, serving, settled, words_of, written

LONGEST_RUN = 120  # seconds, for all of it


def port_of(listener):
    return listener.getsockname()[1]


def upload(port, name, path, *options):
    """The status, the output and all of standard error."""
    return finish_whole(start_with_pipes(*words_of(port, name, path, *options)))


def numbers_in(heard):
    """The numbers of the whole requests in these bytes, and what is left of the bytes."""
    numbers = []
    while len(heard) >= 4 and len(heard) - 4 >= (length := int.from_bytes(heard[:4], "little")):
        body, heard = heard[4 : 4 + length], heard[4 + length :]
        if length > 1:  # BYE has a kind alone
            numbers.append(int.from_bytes(body[2 + body[1] :][:4], "little"))
    return numbers, heard


def hear_numbers(peer, count, wait=LONGEST_WAIT):
    """The numbers of the requests that come, up to so many, or as long as some come within a while."""
    peer.settimeout(wait)
    numbers, heard = [], b""
    with contextlib.suppress(TimeoutError):
        while len(numbers) < count and (piece := peer.recv(65_536)):
            new, heard = numbers_in(heard + piece)
            numbers += new
    return numbers


def case_refused(folder):
    """Nobody listens: that is said once, however many links are tried; and by lines of hex too."""
    path = written(folder, TONE_FILE)
    for most in (1, 3):
        found = upload(free_port(), "none", path, "--fruitless", str(most))
        TALLY.same(f"no server, {most} links", found, (3, settled(0), REFUSED + FRUITLESS))
    words = ("send", "--connect", f"{LOCAL}:{free_port()}", "--name", "none", "--rounds", "3")
    found = finish_whole(start_with_pipes(*words), TONE.lines())
    TALLY.same("no server, by lines", found, (3, settled(0), REFUSED + UNSETTLED))


def case_silent(folder):
    """A server that accepts, and says nothing."""
    path = written(folder, TONE_FILE)
    with socket.create_server((LOCAL, 0)) as listener:
        found = upload(port_of(listener), "silent", path, "--timeout", "1", "--fruitless", "1")
        TALLY.same("a silent server", found, (3, settled(0), TIMED_OUT + FRUITLESS))


def answered(folder, name, most, answer):
    """How an upload ends each of whose links is answered so, once its requests have come, and then closed."""
    path = written(folder, TONE_FILE)
    with socket.create_server((LOCAL, 0)) as listener:
        sender = start_with_pipes(*words_of(port_of(listener), name, path, "--fruitless", str(most)))
        for _link in range(most):
            peer, _ = listener.accept()
            with peer:
                hear_numbers(peer, len(TONE.requests()))
                peer.sendall(answer)
                if answer:
                    hear_batch(peer)
        return finish_whole(sender)


def case_answers(folder):
    """A server that closes, one whose store fails and one that is full: each is said once for several links."""
    for of, said, answer in (
        ("closed", CLOSED, b""),
        ("store", STORE_FAILS, notice("store", 0, DELAYED_STORE, 0)),
        ("full", TABLE_FULL, notice("full", 0, worked.TABLE_FULL, 0)),
    ):
        found = answered(folder, of, 3, answer)
        TALLY.same(f"three links: {of}", found, (3, settled(0), said + FRUITLESS))


def case_changes(folder):
    """Each change is said, also one to what was said before."""
    _recording, file = long_recording(40)
    port = free_port()
    sender = start_with_pipes(*words_of(port, "changes", written(folder, file), "--fruitless", "4"))
    said = sender.stderr.readline().decode()
    TALLY.same("at first", said, REFUSED)
    with socket.create_server((LOCAL, port)) as listener:
        listener.settimeout(10)
        peer, _ = listener.accept()
    with peer:
        hear_numbers(peer, WINDOW)
        peer.sendall(verdict("changes", 0, STORED))
        TALLY.same("once the verdict is heard", hear_numbers(peer, 1), [WINDOW])
    status, out, said = finish_whole(sender)
    TALLY.same("then", (status, out, said), (3, settled(1), CLOSED + REFUSED + FRUITLESS))


def case_none(folder):
    """Where all goes, nothing is said; where a link breaks once, that alone."""
    path = written(folder, TONE_FILE)
    count = len(TONE.requests())
    with serving(folder) as server:
        TALLY.same("all goes", upload(server.port, "all", path), (0, settled(count), ""))
        with socket.create_server((LOCAL, 0)) as listener:
            sender = start_with_pipes(*words_of(port_of(listener), "twice", path))
            listener.accept()[0].close()
            peer, _ = listener.accept()
            with connect(server.port) as there, contextlib.suppress(OSError):
                pass_both_ways({peer: there, there: peer}, {peer: 1 << 40, there: 1 << 40})
            peer.close()
            status, out, said = finish_whole(sender)
    TALLY.same("a link that breaks", (status, out, outages_in(said)), (0, settled(count), [CLOSED]))


def case_window(folder):
    """As many requests come before any reply as the window holds, and no more."""
    _recording, file = long_recording(40)
    path = written(folder, file)
    with socket.create_server((LOCAL, 0)) as listener:
        sender = start_with_pipes(*words_of(port_of(listener), "window", path))
        peer, _ = listener.accept()
        with peer:
            TALLY.same("the window", hear_numbers(peer, WINDOW, 5), [*range(WINDOW)])
            TALLY.same("no more", select.select([peer], [], [], 0.5)[0], [])
            peer.sendall(b"".join(verdict("window", number, STORED) for number in range(8)))
            TALLY.same("the window again", hear_numbers(peer, 8, 5), [*range(WINDOW, WINDOW + 8)])
        sender.kill()
        sender.wait()


def case_replies_before_a_failed_write(folder):
    """Verdicts that had come before a write failed count: over the next link only what has none is sent."""
    _recording, file = long_recording(40)
    path = written(folder, file)
    with socket.create_server((LOCAL, 0)) as listener:
        listener.settimeout(LONGEST_WAIT)
        sender = start_with_pipes(*words_of(port_of(listener), "heard", path, "--rate", "20000"))
        peer, _ = listener.accept()
        peer.recv(1)  # a block takes over a second at this rate: its sender is amid its writes
        peer.sendall(verdict("heard", 0, STORED) + verdict("heard", 1, STORED))
        time.sleep(0.05)
        close_at_once(peer)
        again, _ = listener.accept()
        with again:
            TALLY.same("the next link's first request", hear_numbers(again, 1)[:1], [2])
        sender.kill()
        _status, _out, said = finish_whole(sender)
        TALLY.same("the next link: why", said, CLOSED)


CASES = [
    case_refused,
    case_silent,
    case_answers,
    case_changes,
    case_none,
    case_window,
    case_replies_before_a_failed_write,
]

sys.exit(run_cases(CASES, LONGEST_RUN))
