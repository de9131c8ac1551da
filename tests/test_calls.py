#!/usr/bin/env python3
"""Runs the commands of the built program, records each of their system calls, and refuses some of them.

Whole lists of calls (watcher.py) are compared, with their bytes, places, addresses, options and tokens: they show what
the few functions between the proved code and std ask of the system, which no clause says. Bytes are worked out by hand
from docs/FORMATS.md. Needs what tracer.py needs. The program is the first argument, or the one of this repository.
Prints what differs, and last 'N passed, M failed'. With `--wrong` each wrong body of wrong_calls.py must make its case
fail, and the last line is 'N refused, M not'.
"""
import contextlib
import errno
import socket
import subprocess
import sys
import threading

sys.dont_write_bytecode = True  # nothing is left beside this script
from kit import network
from kit import wrong_calls
from cases.faults import RETRIES
from cases.journals import CASES as CASES_OF_JOURNALS
from cases.spools import CASES as CASES_OF_SPOOLS
from cases.states import CASES as CASES_OF_STATES
from kit.hints import hinted
from kit.network import CANT_GO_ON, connect, finish, free_port, hear, hear_all, hear_batch, LOCAL, reason, run_cases
from kit.network import TALLY
from kit.takes import bad_frame, BYE_FRAME, DELAYED_STORE, message, notice, verdict
from kit.watched import accepted_at, accepted_in_turn, BLOCK, CLOSE, CLOSE_EMPTY, CLOSE_MARKED, DESCRIBE, ENDED
from kit.watched import FIRST_LOOK, IN_TURN, is_waiting, MANY, MARK, OPEN, OTHER_BLOCK, said_to_a_file, same_calls
from kit.watched import store_fails, Watched, written
from kit.watcher import Fault, Watcher
from kit.worked import EMPTY, SMALL

LONGEST_RUN = 240  # seconds, for all of it
MOST_TRIES = 16  # of a call that signals interrupt
UNREAD = b"the command line can't be read\n"


# Servers


def case_in_turn(folder):
    """Two takes at once from one peer, and another peer: each write is whole, in its file and at its place, and a file
    is synced after its last write and before the verdict on its CLOSE. No other call is made.
    """
    it = Watched(folder, "--exchanges", "2", *IN_TURN)
    peer = it.comes(accepted_in_turn(7))
    asked = [("a1", OPEN), ("b2", OPEN), ("b2", OTHER_BLOCK), ("a1", BLOCK), ("a1", DESCRIBE), ("a1", MARK)]
    for name, request in (*asked, ("a1", CLOSE_MARKED), ("b2", CLOSE)):
        it.asks(peer, name, request)
    it.goes(peer, 0)
    it.small_exchange(it.comes(accepted_in_turn(7)), 1)
    it.ends("one after another", [0, 1])


def case_no_timeout(folder):
    """Without `--timeout` no call ends early."""
    it = Watched(folder, "--exchanges", "1")
    it.small_exchange(it.comes(accepted_in_turn(0)), 0)
    it.ends("no timeout", [0])


def case_many(folder):
    """Three peers have two places: each gets the token of its place and its own replies. No wait is without end."""
    it = Watched(folder, "--exchanges", "3", *MANY)
    first = it.comes(accepted_at(0))
    it.asks(first, "a1", OPEN)
    second = it.comes(accepted_at(1))
    for peer, name, request in (
        *((second, "b2", OPEN), (second, "b2", OTHER_BLOCK), (first, "a1", BLOCK)),
        *((second, "b2", CLOSE), (first, "a1", DESCRIBE), (first, "a1", MARK), (first, "a1", CLOSE_MARKED)),
    ):
        it.asks(peer, name, request)
    it.goes(first, 0)
    it.small_exchange(it.comes(accepted_at(0)), 1)
    it.goes(second, 2)
    waits = set(it.ends("many", [0, 1, 2]))
    TALLY.same("many: the waits", waits | {"wait 3 0"}, {"wait 2 0", "wait 3 0", "wait 3 250"})


def case_written_back(folder):
    """Whenever 2 MiB more of a take are written, the system is asked to begin writing them to the disk (advice 4: they
    aren't needed again). So the sync at the end finds little to do. What is near the start isn't asked for again.
    """
    it = Watched(folder, "--exchanges", "1", *IN_TURN)
    peer = it.comes(accepted_in_turn(7))
    it.asks(peer, "a1", OPEN)
    for number in range(1, 130):
        it.peers[peer].sendall(message("a1", number, b"\x02" + bytes(32_768)))
        wanted = verdict("a1", number, 0)
        TALLY.same(f"block {number}", hear(it.peers[peer], len(wanted)), wanted)
    it.goes(peer, 0)
    it.ended("written back: the server", (0, ["exchange 0 Bye"], ""))
    wanted = ["advise a1.wav 0 2097842 4", "advise a1.wav 2097842 2097152 4"]
    TALLY.same("what is written back", [line for line in it.lines() if line.startswith("advise")], wanted)


def case_shut(folder):
    """A peer that sent a bad frame gets the reply and the end, and is read from until it ends too."""
    it = Watched(folder, "--exchanges", "1", *MANY)
    peer = it.comes(accepted_at(0))
    it.says(peer, b"\xff" * 12, [], bad_frame(1, 0))
    TALLY.same("a bad frame: the end", hear_all(it.peers[peer]), b"")
    it.peers[peer].close()
    it.ended("a bad frame: the server", (0, ["exchange 0 BadFrame"], ""))
    line = b"exchange 0 BadFrame\n".hex()
    it.wanted += ["shut peer-0 1", "receive peer-0 ", *FIRST_LOOK, f"write out {line}", *ENDED]
    same_calls("a bad frame", [line for line in it.lines() if not is_waiting(line)], it.wanted)


# Refused calls of servers


def case_refused_disk(folder):
    """A take whose file can't be opened, or whose sync fails, gets its verdict when the same is asked again. Why is said
    once within a minute.
    """
    opening = Fault(f"open {folder}/takes/a1.wav")
    it = Watched(folder, "--exchanges", "1", *IN_TURN, faults=[opening, Fault("sync a1.wav")])
    peer = it.comes(accepted_in_turn(7))
    why = store_fails(it.folder / "a1.wav")
    wrong = (0, OPEN, [], said_to_a_file(why)), (1, CLOSE_EMPTY, written("a1", 0, EMPTY), [])
    for number, request, before, printed in wrong:
        said, calls = message("a1", number, bytes.fromhex(request[0])), request[1]("a1")
        failed = [f"{calls[0]} fails {errno.EIO}", *printed]
        it.says(peer, said, failed, notice("a1", number, DELAYED_STORE, number))
        it.says(peer, said, [*before, *calls], verdict("a1", number, 0))
    it.goes(peer, 0)
    it.ends("a refused disk", [0], why)


def is_dropped(folder, options, fault, exchange):
    """A peer gets only the end if a call for it is refused, and another is served."""
    it = Watched(folder, "--exchanges", str(exchange + 1), *options, faults=[fault])
    TALLY.same(f"{fault.line} fails: the peer", hear_all(connect(it.server.port)), b"")
    it.small_exchange(it.comes(lambda peer: []), exchange)
    it.ended(f"{fault.line} fails", (0, [f"exchange {exchange} Bye"], ""))


def is_served(folder, options, fault, exchange):
    """The peer is served though a call is refused; the server's calls."""
    it = Watched(folder, "--exchanges", str(exchange + 1), *options, faults=[fault])
    it.small_exchange(it.comes(lambda peer: []), exchange)
    it.ended(f"{fault.line} fails by {fault.number}, {fault.left} times", (0, [f"exchange {exchange} Bye"], ""))
    return it.lines()


def is_ended(folder, options, fault, wanted):
    """The server ends like this if a call is refused, during the exchange of a peer that asks."""
    it = Watched(folder, "--exchanges", "1", *options, faults=[fault])
    peer = connect(it.server.port)
    peer.sendall(message("c3", 5, b"\x06"))
    it.ended(f"{fault.line} fails by {fault.number}, {fault.left} times", wanted)


def each_in(folder, check, *cases):
    for at, case in enumerate(cases):
        place = folder / str(at)
        place.mkdir()
        check(place, *case)


def case_refused_in_turn(folder):
    """A peer whose socket can't be set up uses up the number of an exchange, and nothing else."""
    lines = ["set peer-0 nodelay", "set peer-0 receive-timeout", "set peer-0 send-timeout", "copy peer-0"]
    each_in(folder, is_dropped, *((IN_TURN, Fault(line), 1) for line in lines))


def case_gone_in_turn(folder):
    """A peer that is gone before it is accepted uses up the number of an exchange too."""
    each_in(folder, is_served, (IN_TURN, Fault("accept peer-0", errno.ECONNABORTED), 1))


def case_refused_of_many(folder):
    """When many are served, a peer whose socket can't be set up uses up no number."""
    each_in(folder, is_dropped, *((MANY, Fault(line), 0) for line in ("set peer-0 nodelay", "register peer-0")))


def asks_again(folder, number, *following):
    """These calls follow an accept that fails with this number, and the peer is served."""
    kinds = [line.split()[0] for line in is_served(folder, MANY, Fault("accept peer-0", number), 0)]
    at = kinds.index("accept") + 1
    TALLY.same(f"accept fails by {number}", tuple(kinds[at : at + len(following)]), following)


def case_gone_of_many(folder):
    """After a peer that is gone the server accepts again; without a peer it waits. Interrupted calls are repeated."""
    each_in(folder, asks_again, (errno.ECONNABORTED, "stat", "accept"), (errno.EAGAIN, "wait"), (errno.EINTR, "accept"))
    is_served(folder, MANY, Fault("wait", errno.EINTR), 0)


def case_interrupted(folder):
    """A call on a socket that signals interrupt is made up to 16 times."""
    kinds = "receive peer-0", "send peer-0"
    faults = [Fault(kind, errno.EINTR, MOST_TRIES - 1) for kind in kinds]
    each_in(folder, is_served, *((MANY, fault, 0) for fault in faults))


def case_at_an_end(folder):
    """A call on a socket that keeps failing ends the exchange; a missing folder ends the server."""
    ends = [(kind, f"exchange 0 {end}") for kind, end in (("receive", "ReadFault"), ("send", "WriteFault"))]
    cases = [
        (MANY, Fault(f"{kind} peer-0", number, left), (0, [line], ""))
        for kind, line in ends
        for number, left in ((errno.EINTR, MOST_TRIES), (errno.ECONNRESET, 1))
    ]
    cases.append((MANY, Fault("send peer-0", 0), (0, ["exchange 0 WriteFault"], "")))  # no byte is taken
    cases += [(options, Fault("stat"), (3, [], CANT_GO_ON)) for options in (IN_TURN, MANY)]
    each_in(folder, is_ended, *cases)


def case_no_wait(folder):
    """A server that can't wait ends before anyone connects."""
    it = Watched(folder, "--exchanges", "1", *MANY, faults=[Fault("wait", errno.EBADF)])
    it.ended("a wait fails", (3, [], CANT_GO_ON))


def ran(words, given, observer):
    """Runs a command whose calls are observed; its status, standard output and standard error."""
    pipe = subprocess.PIPE
    return finish(network.start(*words, observer=observer, stdin=pipe, stdout=pipe, stderr=pipe), given, words[0])


def case_refused_start(folder):
    """A server that can't listen, or can't write to its folder, reports which and why, with status 3."""
    port = free_port()
    listening = [("bind", ()), ("listen", ()), ("poll", ()), ("poll", MANY), ("register socket-0", MANY)]
    cases = [(line, options, f"{LOCAL}:{port}") for line, options in listening]
    cases += [(line, (), str(folder)) for line in ("open", "remove")]
    for line, options, what in cases:
        words = ("serve", "--listen", f"{LOCAL}:{port}", "--folder", str(folder), *options)
        found = ran(words, None, Watcher(Fault(line, errno.EACCES)))
        TALLY.same(f"{line} fails", found, (3, "", f"{what} can't be opened: {reason(errno.EACCES)}\n"))
        (folder / ".bwingest").unlink(missing_ok=True)


# A sender

REQUESTS = [bytes.fromhex(request[0]) for request in (OPEN, BLOCK, CLOSE)]
INPUT = b"".join(request.hex().encode() + b"\n" for request in REQUESTS)
BATCH = [*(message("a1", number, request) for number, request in enumerate(REQUESTS)), BYE_FRAME]
VERDICTS = b"".join(verdict("a1", number, 0) for number in range(len(REQUESTS)))
SETTLED = b"settled 3\nstored 3\n"


def answer(listener, replies):
    """Answers each link that says BYE with the next of these replies."""
    with contextlib.suppress(OSError):
        for reply in replies:
            peer, _ = listener.accept()
            with peer:
                peer.settimeout(network.LONGEST_WAIT)
                if hear_batch(peer).endswith(BYE_FRAME):
                    peer.sendall(reply)


def sent(watcher, replies, *options):
    """Runs a sender whose server gives one of these replies in each round; how it ended, and the server's address."""
    with socket.create_server((LOCAL, 0)) as listener:
        listener.settimeout(network.LONGEST_WAIT)
        address = f"{LOCAL}:{listener.getsockname()[1]}"
        threading.Thread(target=answer, args=(listener, replies), daemon=True).start()
        return ran(("send", "--connect", address, "--name", "a1", *options), INPUT, watcher), address


def linked(number, address, seconds, reply):
    """The calls of a round: they connect, send the batch and receive the reply."""
    link = f"socket-{number}"
    waits = [f" fails {errno.EINPROGRESS}", "wait in time"] if seconds else [""]
    return [
        f"connect {link} {address}{waits[0]}",
        *waits[1:],
        f"set {link} nodelay 1",
        f"set {link} receive-timeout {seconds}.000000",
        f"set {link} send-timeout {seconds}.000000",
        f"copy {link}",
        *(f"send {link} {frame.hex()}" for frame in BATCH),
        *[f"receive {link} {reply.hex()}"] * bool(reply),
        f"receive {link} ",
    ]


def in_time(line, seconds):
    """A line of a call; a wait for a link that is no longer than what is left of the seconds is `wait in time`."""
    kind, _, most = line.rpartition(" ")
    is_so = kind == "wait 1" and 1_000 * (seconds - 60) < int(most) <= 1_000 * seconds
    return "wait in time" if is_so else line


def case_sender(folder):
    """Two rounds with and without a timeout, of which the first gets no reply."""
    for seconds, options in ((3_600, ("--timeout", "3600")), (0, ())):
        watcher = Watcher()
        found, address = sent(watcher, [b"", VERDICTS], "--rounds", "2", *options)
        TALLY.same(f"a sender, {seconds}", found, (0, SETTLED.decode(), ""))
        same_calls(
            f"a sender, {seconds}",
            [in_time(line, seconds) for line in watcher.lines],
            [
                *(f"read in {INPUT.hex()}", "read in "),
                *linked(0, address, seconds, b""),
                *linked(1, address, seconds, VERDICTS),
                *(f"write out {SETTLED.hex()}", *ENDED),
            ],
        )


def case_refused_link(folder):
    """Nothing is sent over a link that can't be set up, and the next round makes a new one."""
    options = "nodelay", "receive-timeout", "send-timeout"
    for line in ("connect", "copy", *(f"set socket-0 {option}" for option in options)):
        replies = [VERDICTS] if line == "connect" else [b"", VERDICTS]
        watcher = Watcher(Fault(line))
        found, _ = sent(watcher, replies, "--rounds", "2")
        TALLY.same(f"{line} fails at a sender", found, (0, SETTLED.decode(), ""))
        wanted = [f"send socket-1 {frame.hex()}" for frame in BATCH]
        same_calls(f"{line} fails at a sender", [it for it in watcher.lines if it.startswith("send")], wanted)


# The process


class Poor(Watcher):
    """A watcher that refuses all memory; a refused brk(2) gives another address than the one asked for."""

    def before(self, call):
        super().before(call)
        if call.number == 9:
            call.refuse(errno.ENOMEM)
        elif call.number == 12:
            call.answer(0)


def case_streams_and_statuses(folder):
    """Each status reaches the parent, and each text only its own stream. The last word of each command counts."""
    cut, case = folder / "cut.wav", RETRIES[-1]
    cut.write_bytes(bytes.fromhex(EMPTY)[:682])
    missing = folder / ("x" * 200)
    opened = [f"open {cut} to-read", f"stat {cut.name}"]
    not_opened = [f"{path} can't be opened: {reason(why)}\n".encode() for path, why in ((missing, 2), (cut, 5))]
    for words, given, observer, status, text, calls in (
        (("replay", *case.options), case.given.encode(), Watcher(), 0, case.text(), []),
        (("inspect", str(cut)), b"", Watcher(), 1, hinted("inspect", "Truncated at 682").encode(), opened),
        (("inspect", b"\xff"), b"", Watcher(), 2, UNREAD, []),
        (("inspect", b"a", b"\xff"), b"", Watcher(), 2, UNREAD, []),
        (("inspect", str(missing)), b"", Watcher(), 3, not_opened[0], [f"open {missing} to-read fails 2"]),
        (("inspect", str(cut)), b"", Watcher(Fault("stat")), 3, not_opened[1], [opened[0], f"{opened[1]} fails 5"]),
        (("replay",), b"", Poor(), 4, UNREAD, []),
    ):
        out, faults = (text, b"") if status == 0 else (b"", text)
        found = ran(words, given, observer)
        TALLY.same(f"status {status}", found, (status, out.decode(), faults.decode()))
        stream = "faults" if status else "out"
        lines = [line for line in observer.lines if not line.startswith(("read", "seek"))]
        same_calls(f"status {status}", lines, [*calls, f"write {stream} {text.hex()}", f"exit {status}"])


def case_inspected(folder):
    """A file is opened for reading, and its samples and gaps are skipped; a pipe is read in order."""
    path, content = folder / "small.wav", bytes.fromhex(SMALL)
    path.write_bytes(content)
    watcher = Watcher()
    status, out, faults = ran(("inspect", str(path)), b"", watcher)
    TALLY.same("a file", (status, faults, out.split("\n")[0]), (0, "", "form RIFF 686"))
    read = [f"read small.wav {content[at:end].hex()}" for at, end in zip(READ_AT[:-1], READ_AT[1:]) if at != 20]
    read.insert(2, "seek small.wav 48")
    same_calls(
        "a file",
        watcher.lines,
        [
            *(f"open {path} to-read", "stat small.wav", *read),
            *("seek small.wav 694", f"write out {out.encode().hex()}", *ENDED),
        ],
    )
    piped = Watcher()
    TALLY.same("a pipe", ran(("inspect", "/dev/stdin"), content, piped), (0, out, ""))
    TALLY.same("a pipe: its seeks", [line for line in piped.lines if line.startswith("seek")], [])


# Where reads of the small file begin: its head, the heads of JUNK and fmt with the gap between them, fmt, the head of
# bext, bext, and the head of data, up to its end.
READ_AT = [0, 12, 20, 48, 56, 72, 80, 682, 690]

CASES = [
    case_in_turn,
    case_no_timeout,
    case_many,
    case_shut,
    case_refused_disk,
    case_refused_in_turn,
    case_gone_in_turn,
    case_refused_of_many,
    case_gone_of_many,
    case_interrupted,
    case_at_an_end,
    case_no_wait,
    case_refused_start,
    case_sender,
    case_refused_link,
    case_streams_and_statuses,
    case_inspected,
    *CASES_OF_JOURNALS,
    *CASES_OF_SPOOLS,
    *CASES_OF_STATES,
]


if __name__ == "__main__":
    sys.exit(wrong_calls.try_all(CASES) if "--wrong" in sys.argv else run_cases(CASES, LONGEST_RUN))
