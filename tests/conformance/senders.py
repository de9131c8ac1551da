"""The sender that is tried: how it is run, and what is watched of the messages that it sends to a played server.

What the server says on each link is in cases_of_senders.py.
"""
import math
import pathlib
import random
import select
import shlex
import socket
import struct
import subprocess
import tempfile
import threading
import time
from dataclasses import dataclass

from book import Book, WINDOW
from frames import ASK, BadFrame, BYE, CLOSE, CODES, CONFLICT, little, OPEN, REASONS, reply_of, STORED, Stream
from links import Failed
from servers import fresh_name
from takes import chunk, Take

LOCAL = "127.0.0.1"
QUIET = 0.2  # seconds without a byte after which a sender is taken to wait for replies
RATE, CHANNELS, BITS = 48_000, 1, 24
SAMPLES = random.Random(4).randbytes(1_500_000)


class Broken(Exception):
    """A link breaks off here."""


def recording():
    """A RIFF WAVE file: `fmt `, `bext` with a description, `data` and a marker."""
    align = CHANNELS * BITS // 8
    chunks = (
        chunk(b"fmt ", struct.pack("<HHIIHH", 1, CHANNELS, RATE, RATE * align, align, BITS)),
        chunk(b"bext", b"a recording".ljust(346, b"\0") + little(1, 2) + bytes(254)),
        chunk(b"data", SAMPLES),
        chunk(b"cue ", little(1, 4) + struct.pack("<II4sIII", 7, 48_000, b"data", 0, 0, 48_000)),
    )
    content = b"WAVE" + b"".join(chunks)
    return b"RIFF" + little(len(content), 4) + content


class Link:
    """A link that the sender made; it breaks off after so many bytes of the sender's."""

    def __init__(self, play, peer, number, wait):
        self.play, self.socket, self.number = play, peer, number
        self.stream, self.room, self.has_ended = Stream(), math.inf, False
        peer.settimeout(wait)
        peer.setsockopt(socket.IPPROTO_TCP, socket.TCP_NODELAY, 1)

    def received(self):
        """The messages that are whole with the next bytes; None at the end of the link, and after BYE."""
        piece = b"" if self.has_ended else self.socket.recv(min(65_536, self.room))
        self.room -= len(piece)
        found = []
        try:
            for message in self.stream.messages(piece):
                self.has_ended = message.kind == BYE
                if self.has_ended:
                    break
                self.play.watch(message)
                found.append(message)
        except BadFrame as fault:
            raise Failed(f"it sends a bad frame ({REASONS[fault.args[0]]})") from None
        if self.room == 0:
            raise Broken
        return found if piece else None

    def messages(self):
        while (found := self.received()) is not None:
            yield from found

    def batches(self):
        """What comes until the sender waits, again and again."""
        batch = []
        while True:
            if not batch or select.select([self.socket], [], [], QUIET)[0]:
                found = self.received()
                batch += found or []
                if found is not None:
                    continue
            if not batch:
                return
            yield batch
            batch = []

    def send(self, replies, step=65_536):
        self.play.notes(replies)
        said = b"".join(replies)
        for begin in range(0, len(said), step):
            self.socket.sendall(said[begin : begin + step])

    def close(self, is_abrupt=False):
        if is_abrupt:
            self.socket.setsockopt(socket.SOL_SOCKET, socket.SO_LINGER, struct.pack("ii", 1, 0))
        self.socket.close()


class Play:
    """A server that a sender meets, and all that it has seen of the sender."""

    def __init__(self, serve, existed=False):
        self.serve = serve
        self.name = fresh_name()
        self.book = Book(lambda name: existed)
        self.chance = random.Random(7)
        self.requests, self.verdicts = {}, {}
        self.lock, self.fault = threading.Lock(), None
        self.has_refused = self.is_to_be_killed = self.was_killed = False

    @property
    def settled(self):
        """The least number of which no verdict was sent."""
        return next(number for number in range(len(self.verdicts) + 1) if number not in self.verdicts)

    def replies(self, message):
        """What a server replies that does as docs/FORMATS.md says."""
        with self.lock:
            return self.book.replies(message)

    def notes(self, replies):
        """Keeps the verdicts that are sent, and whether one of them, or a Conflict, refuses something."""
        with self.lock:
            for reply in map(reply_of, replies):
                if reply and reply.following is None and reply.name == self.name:
                    self.verdicts[reply.number] = reply.code
                    self.has_refused |= reply.code != STORED
                self.has_refused |= bool(reply) and reply.code == CONFLICT

    def watch(self, message):
        """Looks at a message: its name, its number, and that it is the same as before."""
        with self.lock:
            number = message.number
            if message.name != self.name:
                raise Failed(f"it sends the name {message.name.decode()}, not {self.name.decode()}")
            if message.kind == ASK:
                return
            if self.requests.setdefault(number, message.request) != message.request:
                raise Failed(f"it sends number {number} again with another body")
            if number >= self.settled + WINDOW:
                raise Failed(f"it sends number {number}, though {self.settled} has no verdict: more than {WINDOW} wait")
            if number == 0 and message.kind != OPEN:
                raise Failed("its first message isn't OPEN")
            if any(it < number and request[0] == CLOSE for it, request in self.requests.items()):
                raise Failed(f"it sends number {number} after CLOSE")

    def meet(self, peer, number, wait):
        """Serves a link."""
        link, is_abrupt = Link(self, peer, number, wait), False
        try:
            self.serve(self, link)
        except Broken:
            is_abrupt = number % 2 == 0
        except Failed as fault:
            self.fault = self.fault or fault
        except OSError:
            pass  # the sender has broken off, or says nothing for long
        finally:
            link.close(is_abrupt)

    def is_whole(self):
        """Everything is stored, and it is the recording."""
        last = max(self.requests, default=-1)
        for number in range(max(last, 0) + 1):
            code = self.verdicts.get(number)
            if code != STORED:
                verdict = "no verdict" if code is None else f"the verdict {CODES[code]}"
                raise Failed(f"it ends with 0, though number {number} has {verdict}")
        take = Take()
        for number in range(last + 1):
            take.apply(self.requests[number])
        if not take.is_closed:
            raise Failed("it ends with 0 without CLOSE")
        if take.format != (RATE, CHANNELS, BITS) or take.samples != SAMPLES:
            raise Failed("the take isn't the recording: the format or the samples differ")


@dataclass
class Sender:
    """How a sender is run: its command, and for how many seconds at most."""

    command: str
    wait: float

    def run(self, play, longest=None):
        """Lets it meet a server; its status, or None where it doesn't end, or not so soon after its first link."""
        with tempfile.TemporaryDirectory() as folder, socket.create_server((LOCAL, 0)) as listener:
            meeting = Meeting(self, play, pathlib.Path(folder), listener)
            try:
                status = meeting.run(self.wait, longest or self.wait)
            finally:
                meeting.end()
        if play.fault:
            raise play.fault
        if not meeting.links:
            raise Failed(f"it makes no link{'' if status is None else f', and ends with {status}'}")
        return status


class Meeting:
    """A sender that runs, and the links that it makes to a server."""

    def __init__(self, sender, play, folder, listener):
        self.sender, self.play, self.folder, self.listener = sender, play, folder, listener
        (folder / "take.wav").write_bytes(recording())
        (folder / "take.raw").write_bytes(SAMPLES)
        self.process, self.links = self.start(), []

    def start(self):
        port = self.listener.getsockname()[1]
        given = {"addr": f"{LOCAL}:{port}", "host": LOCAL, "port": str(port), "name": self.play.name.decode()}
        given |= {"file": str(self.folder / "take.wav"), "raw": str(self.folder / "take.raw")}
        words = shlex.split(self.sender.command)
        for key, value in given.items():
            words = [word.replace(f"{{{key}}}", value) for word in words]
        silent = subprocess.DEVNULL
        return subprocess.Popen(words, stdin=silent, stdout=silent, stderr=silent)

    def run(self, wait, longest):
        """Serves its links until it ends, does something wrong, or the time is over; its status, or None."""
        until = time.monotonic() + wait
        while self.process.poll() is None and not self.play.fault and time.monotonic() < until:
            if select.select([self.listener], [], [], 0.01)[0]:
                if not self.links:
                    until = time.monotonic() + longest
                self.serve(self.listener.accept()[0])
            if self.play.is_to_be_killed:
                self.play.is_to_be_killed = False
                self.kill()
                self.process = self.start()
        return self.process.poll()

    def serve(self, peer):
        words = (peer, len(self.links), self.sender.wait)
        self.links.append(threading.Thread(target=self.play.meet, args=words, daemon=True))
        self.links[-1].start()

    def kill(self):
        self.process.kill()
        self.process.wait()

    def end(self):
        self.kill()
        for link in self.links:
            link.join(1)
