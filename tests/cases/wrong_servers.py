"""A server in Python that speaks docs/FORMATS.md, and its kinds that do one thing wrong, each with the case of
tests/conformance that catches it."""
import contextlib
import socket
import threading

from book import Book
from frames import bad_frame, BadFrame, BYE, CUT, Stream
from takes import LARGEST_LIMIT, Take

LOCAL = "127.0.0.1"


class RightBook(Book):
    """The book of a server that does as docs/FORMATS.md says; how it reads frames is a method too."""

    limit = LARGEST_LIMIT

    def messages(self, stream, piece):
        return stream.messages(piece)


class PythonServer:
    """A server over a folder, by the book; what its kinds do wrong is one method of the book or of this class."""

    def __init__(self, folder, kind=RightBook):
        self.folder = folder
        self.book = kind(lambda name: self.path(name).exists())
        self.lock = threading.Lock()
        self.listener = socket.create_server((LOCAL, 0), backlog=64)
        self.port = self.listener.getsockname()[1]
        threading.Thread(target=self.serve_all, daemon=True).start()

    def path(self, name):
        return self.folder / f"{name.decode()}.wav"

    def serve_all(self):
        with contextlib.suppress(OSError):
            while True:
                peer, _ = self.listener.accept()
                peer.setsockopt(socket.IPPROTO_TCP, socket.TCP_NODELAY, 1)
                threading.Thread(target=self.serve, args=(peer,), daemon=True).start()

    def serve(self, peer):
        stream = Stream()
        with peer, contextlib.suppress(ConnectionError):
            try:
                while piece := peer.recv(65_536):
                    for message in self.book.messages(stream, piece):
                        if message.kind == BYE:
                            return
                        peer.sendall(b"".join(self.turn(message)))
                peer.sendall(bad_frame(CUT, stream.offset) if stream.held else b"")
            except BadFrame as fault:
                peer.sendall(bad_frame(fault.args[0], stream.offset))

    def turn(self, message):
        with self.lock:
            replies = self.book.replies(message)
            session = self.book.sessions.get(message.name)
            file = session.take.file(self.book.limit) if session else None
            if file is not None:
                self.path(message.name).write_bytes(file)
            return replies


class JudgesAgain(RightBook):
    """Answers a repeat with the verdict that the request would get now."""

    def verdict_again(self, session, message):
        return session.take.judge(message.request)


class TakesTwice(RightBook):
    """Applies a repeat once more, though it answers with the first verdict."""

    def verdict_again(self, session, message):
        session.take.apply(message.request)
        return session.verdicts[message.number]


class TakesTheLast(RightBook):
    """Takes a later body in place of the one that waits under its number."""

    def admit(self, session, message):
        if message.number >= session.following:
            session.admitted[message.number] = message.request
        super().admit(session, message)


class HasRoomForMore(RightBook):
    """Has a window of seventeen numbers."""

    def is_too_far(self, session, number):
        return super().is_too_far(session, number - 1)


class AsksForTheGreatest(RightBook):
    """Says that the number after the greatest one that waits comes next."""

    def next_of(self, session):
        return max(session.admitted) + 1


class ReadsWholeFrames(RightBook):
    """Takes each read for whole frames."""

    def messages(self, stream, piece):
        yield from stream.messages(piece)
        if stream.held:
            raise BadFrame(CUT)


class UnpaddedTake(Take):
    def file(self, limit=LARGEST_LIMIT):
        file = super().file(limit)
        return file[:-1] if file and len(self.samples) % 2 else file


class LeavesOutPads(RightBook):
    """Writes no pad byte after odd data."""

    def turn(self, message):
        replies = super().turn(message)
        for session in self.sessions.values():
            session.take.__class__ = UnpaddedTake
        return replies


WRONG_SERVERS = (
    (JudgesAgain, "a take again over a new link, backwards"),
    (TakesTwice, "the file after repeats"),
    (TakesTheLast, "another body for a number that waits"),
    (HasRoomForMore, "sixteen numbers are in the window"),
    (AsksForTheGreatest, "a gap"),
    (ReadsWholeFrames, "a frame that comes in parts"),
    (LeavesOutPads, "data with a pad byte"),
)
