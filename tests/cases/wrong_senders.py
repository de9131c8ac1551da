"""A sender in Python that speaks docs/FORMATS.md, and its kinds that do one thing wrong, each with the case of
tests/conformance that catches it.

Run with the name of a class, an address, a take's name and a WAV file, it sends the file.
"""
import contextlib
import pathlib
import socket
import sys

sys.path.insert(0, str(pathlib.Path(__file__).resolve().parent.parent / "conformance"))  # before this folder
from frames import BLOCK, BYE_FRAME, CLOSE, CONFLICT, frame, little, OPEN, reply_of, STORED


class PythonSender:
    """Sends a recording, a window over each link; it ends with 0 if all is stored."""

    step = 30_000

    def __init__(self, address, name, path):
        host, _, port = address.rpartition(":")
        self.address, self.name = (host, int(port)), name.encode()
        self.file = pathlib.Path(path).read_bytes()
        self.links, self.codes = 0, {}
        self.requests = self.plan()

    def plan(self):
        at = self.file.index(b"data") + 8
        samples = self.file[at : at + int.from_bytes(self.file[at - 4 : at], "little")]
        channels, rate = (int.from_bytes(self.file[22:24], "little"), int.from_bytes(self.file[24:28], "little"))
        bits = int.from_bytes(self.file[34:36], "little")
        blocks = (samples[place : place + self.step] for place in range(0, len(samples), self.step))
        return [
            bytes([OPEN]) + little(rate, 4) + little(channels, 2) + little(bits, 2) + little(0, 2),
            *(bytes([BLOCK]) + block for block in blocks),
            bytes([CLOSE]) + little(len(samples) // (channels * bits // 8), 8),
        ]

    def settled(self):
        return next(number for number in range(len(self.codes) + 1) if number not in self.codes)

    def is_done(self):
        return self.settled() >= len(self.requests)

    def window(self):
        first = self.settled()
        return range(first, min(first + 16, len(self.requests)))

    def hear(self, reply):
        if reply and reply.name == self.name and reply.following is None:
            self.codes.setdefault(reply.number, reply.code)
        return reply and reply.following is not None and reply.code == CONFLICT

    def run(self):
        while not self.is_done() and self.links < 40:
            self.links += 1
            with socket.create_connection(self.address, 10) as link, contextlib.suppress(ConnectionError, TimeoutError):
                link.sendall(b"".join(frame(self.name, it, self.requests[it]) for it in self.window()) + BYE_FRAME)
                if any([self.hear(reply_of(reply)) for reply in replies_over(link)]):
                    return 1
        return self.status()

    def status(self):
        is_stored = self.is_done() and all(code == STORED for code in self.codes.values())
        return 0 if is_stored else 1


def replies_over(link):
    """The whole replies that come until the link ends, also where it breaks."""
    with link.makefile("rb") as stream, contextlib.suppress(ConnectionError):
        while len(head := stream.read(4)) == 4:
            body = stream.read(int.from_bytes(head, "little"))
            if len(body) == int.from_bytes(head, "little"):
                yield head + body


class CutsAnew(PythonSender):
    """Cuts the samples into other blocks for each link."""

    def window(self):
        self.step = 30_000 - 300 * self.links
        self.requests = self.plan()
        return super().window()


class ForgetsRefusals(PythonSender):
    """Ends with 0 though a message was refused."""

    def status(self):
        return 0 if self.is_done() else 1


class TakesNoticesForVerdicts(PythonSender):
    def hear(self, reply):
        if reply and reply.following is not None:
            self.codes.setdefault(reply.number, STORED)
        return super().hear(reply)


class TakesOthersVerdicts(PythonSender):
    def hear(self, reply):
        return super().hear(reply and reply._replace(name=self.name))


class IgnoresConflicts(PythonSender):
    """Goes on after a Conflict, and takes the verdict of the other message for that of its own."""

    def hear(self, reply):
        super().hear(reply)
        return False


class EndsWithClose(PythonSender):
    """Ends with 0 once CLOSE is sent, whether or not it has a verdict."""

    def is_done(self):
        return super().is_done() or len(self.requests) - 1 in self.window() and self.links > 0

    def status(self):
        return 0


class SendsTooMuch(PythonSender):
    """Has a window of seventeen numbers."""

    def window(self):
        first = self.settled()
        return range(first, min(first + 17, len(self.requests)))


WRONG_SENDERS = (
    (CutsAnew, "links that break before any reply"),
    (ForgetsRefusals, "one block is refused"),
    (TakesNoticesForVerdicts, "notices"),
    (TakesOthersVerdicts, "verdicts under another name"),
    (IgnoresConflicts, "another block under a number"),
    (EndsWithClose, "the verdict of CLOSE is lost"),
    (SendsTooMuch, "verdicts in another order"),
)


if __name__ == "__main__":
    sys.exit(globals()[sys.argv[1]](*sys.argv[2:]).run())
