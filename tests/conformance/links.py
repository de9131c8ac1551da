"""Connections to the server that is tried."""
import contextlib
import socket
import struct
import time

from frames import BAD_FRAME, CUT, words_of

PIECES = 3  # into which what is sent is cut
PAUSE = 0.001  # seconds between two of them, so that they arrive apart


class Failed(Exception):
    """Something isn't as docs/FORMATS.md says."""


class Skipped(Exception):
    """A case that can't be tried, with what is missing."""


def address_of(text):
    """The host and the port of HOST:PORT; an IPv6 address stands in brackets."""
    host, _, port = text.rpartition(":")
    return host.strip("[]"), int(port)


def matches(wanted, found):
    """Whether these bytes were wanted; None stands for any byte."""
    return len(wanted) == len(found) and all(a is None or a == b for a, b in zip(wanted, found))


def frames_of(replies):
    """The frames in these bytes."""
    while replies:
        end = 4 + int.from_bytes(bytes(replies[:4]), "little")
        yield replies[:end]
        replies = replies[end:]


class Link:
    """A connection; `chance`, if there is one, cuts what is sent into pieces, and `note` is given each reply."""

    def __init__(self, address, wait, chance=None, note=lambda reply: None):
        self.socket = socket.create_connection(address, wait)
        self.socket.setsockopt(socket.IPPROTO_TCP, socket.TCP_NODELAY, 1)
        self.chance, self.note = chance, note

    def send(self, said):
        """Sends this; a server that has ended the exchange needn't read it."""
        cuts = sorted(self.chance.choices(range(len(said)), k=PIECES - 1)) if self.chance and said else []
        with contextlib.suppress(ConnectionError):
            for begin, end in zip([0, *cuts], [*cuts, len(said)]):
                self.socket.sendall(said[begin:end])
                time.sleep(PAUSE if cuts else 0)

    def receive(self, count):
        """The next bytes, fewer where the server ends the exchange."""
        heard = b""
        try:
            while len(heard) < count and (piece := self.socket.recv(min(65_536, count - len(heard)))):
                heard += piece
        except ConnectionError:
            pass
        except TimeoutError:
            raise Failed(f"after {heard.hex() or 'no byte'} nothing more comes") from None
        return heard

    def reply(self):
        """The next reply, or what there is of it."""
        head = self.receive(4)
        whole = head + self.receive(int.from_bytes(head, "little"))
        self.note(whole)
        return whole

    def hears(self, wanted):
        """Receives these replies next."""
        for whole in frames_of(wanted):
            if [*whole[4:6]] == [BAD_FRAME, CUT]:
                self.say_no_more()  # only then is it known that no more comes
            try:
                found = self.reply()
            except Failed as fault:
                raise Failed(f"{words_of(whole)} is missing: {fault}") from None
            if not matches(whole, found):
                said = words_of(found) if found else "nothing, and closes"
                raise Failed(f"it replies {said}, not {words_of(whole)}")

    def say_no_more(self):
        with contextlib.suppress(OSError):
            self.socket.shutdown(socket.SHUT_WR)

    def rest(self):
        """All replies until the server closes."""
        while reply := self.reply():
            yield reply
        self.socket.close()

    def finish(self):
        """The server replies no more, and closes."""
        for more in self.rest():
            raise Failed(f"it replies {words_of(more)} too")

    def lose(self):
        """Breaks the connection: what is under way in either direction may be lost."""
        self.socket.setsockopt(socket.SOL_SOCKET, socket.SO_LINGER, struct.pack("ii", 1, 0))
        self.socket.close()
