"""What the scripts that run `serve` and `send` share: processes, peers, a relay that cuts connections, comparisons.

The program is the first argument of the script, or the one of this repository.
"""
import contextlib
import fcntl
import math
import os
import random
import select
import signal
import socket
import struct
import subprocess
import sys
import tempfile
import threading
import time

from kit.hints import without_outages
from kit.processes import end_after, prepare_child
from kit.repository import program
from kit.takes import ASK, BYE_FRAME, LARGEST_LIMIT, message, Take
from kit.tally import Tally
from kit.tracer import Traced

LOCAL = "127.0.0.1"
LONGEST_WAIT = 30  # seconds, for any single event
STARTED = []

WINDOW = 16
LEAST_LIMIT = 8_192
CANT_GO_ON = "the server can't go on: a sync failed, its folder is gone, or nothing can be waited for\n"
UNSETTLED = "not every request has its verdict yet\n"


class Fault(Exception):
    """Something that was waited for didn't happen."""


def wait_until(is_so, what):
    """Waits until something is so; after how many seconds it was."""
    began = time.monotonic()
    while not is_so():
        if time.monotonic() - began > LONGEST_WAIT:
            raise Fault(what)
        time.sleep(0.01)
    return time.monotonic() - began


TALLY = Tally()


# Processes


def start(*words, observer=None, **streams):
    """Starts the program; an observer, if there is one, is given each of its system calls."""
    if observer:
        process = Traced([PROGRAM, *words], observer, **streams)
    else:
        process = subprocess.Popen([PROGRAM, *words], preexec_fn=prepare_child, **streams)
    STARTED.append(process)
    return process


def finish(process, given=None, name="a command"):
    """Waits until a process ends by itself; its status, standard output, and standard error without outages."""
    status, out, faults = finish_whole(process, given, name)
    return status, out, without_outages(faults)


def finish_whole(process, given=None, name="a command"):
    """The same with all that is on standard error."""
    try:
        out, faults = process.communicate(given, timeout=2 * LONGEST_WAIT)
    except subprocess.TimeoutExpired:
        process.kill()
        raise Fault(f"{name} doesn't end") from None
    return process.returncode, out.decode(errors="replace"), (faults or b"").decode(errors="replace")


def start_with_pipes(*words, observer=None):
    pipe = subprocess.PIPE
    return start(*words, observer=observer, stdin=pipe, stdout=pipe, stderr=pipe)


def run(*words, given=b""):
    return finish(start_with_pipes(*words), given, words[0])


def send(port, take, *options):
    return run(*send_words(port, take, *options), given=take.lines())


def send_words(port, take, *options):
    return ("send", "--connect", f"{LOCAL}:{port}", "--name", take.name, *options)


def send_all(port, takes, *options):
    """Runs a sender for each take, all at once; the status, output and standard error of each."""
    senders = [start_with_pipes(*send_words(port, take, *options)) for take in takes]
    outputs = {}

    def feed(at):
        outputs[at] = finish(senders[at], takes[at].lines(), "send")

    threads = [threading.Thread(target=feed, args=(at,)) for at in range(len(takes))]
    for thread in threads:
        thread.start()
    for thread in threads:
        thread.join(3 * LONGEST_WAIT)
    return [outputs.get(at) for at in range(len(takes))]


def free_port():
    """A port on which nothing listens, below those that the system gives to the connections of tests beside this one."""
    while True:
        port = random.SystemRandom().randint(10_000, 32_000)
        with contextlib.suppress(OSError), socket.create_server((LOCAL, port)):
            return port


class Server:
    """A server in the background, on a port that was free; `opening` are its lines before it listens. `watch` may make
    an observer of its system calls.
    """

    def __init__(self, folder, *options, watch=None, opening=()):
        for _ in range(5):
            self.observer = watch() if watch else None
            self.port = free_port()
            self.faults = tempfile.TemporaryFile()
            words = ("serve", "--listen", f"{LOCAL}:{self.port}", "--folder", str(folder), *options)
            self.process = start(*words, observer=self.observer, stdout=subprocess.PIPE, stderr=self.faults)
            self.held = b""
            if self.lines(len(opening) + 1) == [*opening, f"listening {LOCAL}:{self.port}"]:
                return
        raise Fault("no server starts")

    def line(self):
        """The next line of its output, or None at the end."""
        until = time.monotonic() + LONGEST_WAIT
        while b"\n" not in self.held:
            if not select.select([self.process.stdout], [], [], max(0, until - time.monotonic()))[0]:
                raise Fault("the server prints no line")
            piece = os.read(self.process.stdout.fileno(), 65_536)
            if not piece:
                return None
            self.held += piece
        line, _, self.held = self.held.partition(b"\n")
        return line.decode(errors="replace")

    def lines(self, count):
        return [self.line() for _ in range(count)]

    def end(self):
        """Waits until it ends by itself; its status, the lines that it still printed, and its standard error."""
        lines = []
        while (line := self.line()) is not None:
            lines.append(line)
        try:
            status = self.process.wait(LONGEST_WAIT)
        except subprocess.TimeoutExpired:
            raise Fault("the server doesn't end") from None
        self.faults.seek(0)
        return status, lines, self.faults.read().decode(errors="replace")

    def stop(self, number=signal.SIGTERM):
        self.process.send_signal(number)
        return self.end()


def narrow(pipe):
    """Leaves a pipe two pages: some 170 lines of exchanges."""
    fcntl.fcntl(pipe, fcntl.F_SETPIPE_SZ, 8_192)


def end_all():
    for process in STARTED:
        if process.poll() is None:
            process.kill()
            process.wait()


# Peers that the script plays itself


def connect(port):
    return socket.create_connection((LOCAL, port), LONGEST_WAIT)


MANY_ASKS = message("a" * 32, 0, bytes([ASK])) * 2_000


def connect_deaf(port, wait):
    """A connection with room for few replies, for a peer that sends asks and reads no reply; its waits are so long."""
    peer = socket.socket()
    peer.setsockopt(socket.SOL_SOCKET, socket.SO_RCVBUF, 4_096)
    peer.settimeout(wait)
    peer.connect((LOCAL, port))
    return peer


def hear(peer, length):
    """Receives exactly this many bytes of replies."""
    heard = b""
    while len(heard) < length:
        piece = peer.recv(length - len(heard))
        if not piece:
            raise Fault(f"the server ends after {len(heard)} bytes of replies, not {length}")
        heard += piece
    return heard


def hear_all(peer):
    """Receives all replies, up to the end of the connection."""
    heard = b""
    while piece := peer.recv(65_536):
        heard += piece
    return heard


def hear_until_it_breaks(peer):
    """Receives all replies, up to the end of the connection or to where it breaks."""
    heard = b""
    with contextlib.suppress(ConnectionError):
        while piece := peer.recv(65_536):
            heard += piece
    return heard


def hear_batch(peer, most=math.inf):
    """Receives what a sender says: this many bytes, or all up to BYE or to the end of the connection."""
    heard = b""
    while len(heard) < most and not heard.endswith(BYE_FRAME) and (piece := peer.recv(65_536)):
        heard += piece
    return heard


def close_at_once(peer):
    """Closes with a reset, so that the other side sees a broken connection."""
    peer.setsockopt(socket.SOL_SOCKET, socket.SO_LINGER, struct.pack("ii", 1, 0))
    peer.close()


class Relay:
    """Passes connections on to a server, one after another or all at once, and cuts each of them at a random byte.

    A third pass less than 10 kB and a third more than 100 kB; a window of the longest blocks is half a megabyte. On a
    quarter of the connections the replies are cut.
    """

    def __init__(self, server_port, seed, at_once=False):
        self.server_port = server_port
        self.chance = random.Random(seed)
        self.at_once = at_once
        self.listener = socket.create_server((LOCAL, 0), backlog=256)
        self.port = self.listener.getsockname()[1]
        self.connections = 0
        threading.Thread(target=self.pass_all, daemon=True).start()

    def pass_all(self):
        while True:
            try:
                sender, _ = self.listener.accept()
            except OSError:
                return
            self.connections += 1
            most_replies = self.chance.randint(1, 200) if self.chance.random() < 0.25 else 1 << 30
            most_requests = int(10 ** self.chance.uniform(3, 6))
            words = sender, most_requests, most_replies, self.chance.random() < 0.5
            if self.at_once:
                threading.Thread(target=self.pass_on, args=words, daemon=True).start()
            else:
                self.pass_on(*words)

    def pass_on(self, sender, most_requests, most_replies, is_abrupt):
        ends = [sender]
        try:
            with contextlib.suppress(OSError):
                ends.append(connect(self.server_port))
                sender, server = ends
                pass_both_ways({sender: server, server: sender}, {sender: most_requests, server: most_replies})
        finally:
            for end in ends:
                if is_abrupt:
                    close_at_once(end)
                else:
                    end.close()

    def stop(self):
        self.listener.close()


def pass_both_ways(others, room):
    """Passes bytes on until both ends have closed, or one has passed as many as it may."""
    open_ends = list(others)
    while open_ends:
        ready = select.select(open_ends, [], [], LONGEST_WAIT)[0]
        if not ready:
            return
        for end in ready:
            piece = end.recv(min(65_536, room[end]))
            if piece:
                others[end].sendall(piece)
                room[end] -= len(piece)
                if room[end] == 0:
                    return
            else:
                others[end].shutdown(socket.SHUT_WR)
                open_ends.remove(end)


# Comparisons that several scripts make


def same_settled(name, output, count, stored, status):
    faults = UNSETTLED if status == 3 else ""
    TALLY.same(name, output, (status, f"settled {count}\nstored {stored}\n", faults))


def same_exchanges(name, lines, ends, first=0):
    TALLY.same(name, lines, [f"exchange {first + index} {end}" for index, end in enumerate(ends)])


def stopped(name, server, number=signal.SIGTERM):
    """Stops the server by a signal; it prints nothing more."""
    TALLY.same(name, server.stop(number), (-number, [], ""))


def ends_by_signal(name, server, said=""):
    """Stops the server, which may have printed more lines; the signal alone ends it, and it reports these faults."""
    status, _lines, faults = server.stop()
    TALLY.same(f"{name}: the server", (status, faults), (-signal.SIGTERM, said))


def same_file(name, folder, take, blocks=None, limit=LARGEST_LIMIT):
    """Compares the take's file byte for byte, and the sizes that `inspect` reports."""
    path = folder / f"{take.name}.wav"
    wanted = take.file(blocks, limit)
    TALLY.same(f"{name}: the file", path.read_bytes(), wanted)
    data = sum(map(len, take.blocks[:blocks]))
    form = "RIFF" if wanted.startswith(b"RIFF") else "BW64"
    status, out, faults = run("inspect", str(path))
    lines = out.splitlines()
    TALLY.same(f"{name}: inspect", (status, faults, lines[:1]), (0, "", [f"form {form} {len(wanted) - 8}"]))
    sizes = f"data at=690 bytes={data} frames={data // take.ALIGN}"
    TALLY.same(f"{name}: the sizes by inspect", [line for line in lines if line.startswith("data ")], [sizes])


def serves_on(name, server, folder, first):
    """The server receives a small take from a sender, in the exchange with this number."""
    take = Take(f"next-{server.port}", 3_000, 5)
    count = len(take.requests())
    same_settled(f"{name}: a later sender", send(server.port, take), count, count, 0)
    same_exchanges(f"{name}: a later exchange", server.lines(1), ["Bye"], first)
    same_file(f"{name}: a later take", folder, take)


def same_replay(name, take, limit):
    """A replay of the same messages in one exchange makes the same file."""
    line = b"".join(take.messages()).hex().encode()
    status, out, faults = run("replay", "--limit", str(limit), given=line)
    wanted = take.file(limit=limit)
    TALLY.same(f"{name}: replay", (status, faults), (0, ""))
    head, _, text = out.rpartition(f"file {take.name} {len(wanted)}\n")
    TALLY.holds(f"{name}: replay", head, "no file of that name and length")
    TALLY.same(f"{name}: the replayed file", bytes.fromhex(text), wanted)


def same_port_in_use(folder, *options):
    """A server whose port is in use says so, and nothing else."""
    with socket.create_server((LOCAL, 0)) as listener:
        address = f"{LOCAL}:{listener.getsockname()[1]}"
        output = run("serve", "--listen", address, "--folder", str(folder), *options)
    TALLY.same("a port in use", output, (3, "", f"{address} can't be opened: {reason(98)}\n"))


def reason(number):
    """The reason as the program prints it."""
    return f"{os.strerror(number)} (os error {number})"


# Cases, each run in a folder of its own


def run_case(case):
    TALLY.try_case(case, (Fault, OSError, AttributeError, ValueError), end_all)


def run_cases(cases, longest_run):
    """Runs a script's cases within this many seconds; its status. Prints what differs, last 'N passed, M failed'."""
    end_after(longest_run)
    for case in cases:
        run_case(case)
    return TALLY.end()


PROGRAM = program(sys.argv[1:])
