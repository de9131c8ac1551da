"""Takes that are sent to a server over links that are cut in frames, repeat, reorder and are lost."""
import random

from book import Book, WINDOW
from frames import ask, bad_frame, BadFrame, BEXT, BLOCK, CLOSE, CODES, CUT, frame, HELD, little, MARK, NEXT, OPEN
from frames import reply_of, Stream, TOO_FAR, words_of
from links import Failed
from servers import fresh_name
from takes import Take

LINKS = 15  # bad ones for each take
MOST_LINKS = 1_000  # over which the rest of a take is sent


def requests_of(chance, blocks=30):
    """The requests of a take of two channels and 24 bits, some of which are refused."""
    opening = bytes([OPEN]) + little(96_000, 4) + little(2, 2) + little(24, 2) + little(0, 2)
    found = [opening, bytes([BEXT, 1]) + b"a take over bad links", bytes([BEXT, 8]) + little(0xF704, 2)]
    for at in range(blocks):
        found.append(bytes([BLOCK]) + chance.randbytes(chance.choice((6, 600, 5_001, 32_766, 32_768))))
        if at % 4 == 0:
            found.append(bytes([MARK]) + little(at, 4) + little(chance.choice((0, 100, 1 << 30)), 4))
        if at % 7 == 0:
            found.append(bytes([BEXT, chance.choice((2, 4, 13))]) + b"2024-05-17")
    frames = take_of(found).frames
    return [*found, bytes([CLOSE]) + little(frames + 1, 8), bytes([CLOSE]) + little(frames, 8)]


def take_of(requests):
    take = Take()
    for request in requests:
        take.apply(request)
    return take


class Sending:
    """A take that is sent to a server over bad links."""

    def __init__(self, server, seed):
        self.server, self.chance = server, random.Random(seed)
        self.name = fresh_name()
        self.requests = requests_of(self.chance)

    def frames(self, numbers):
        return b"".join(frame(self.name, number, self.requests[number]) for number in numbers)

    def batch(self, following):
        """Frames near the number that comes next, in any order, some of them again, and perhaps one too far."""
        numbers = [*range(max(0, following - 3), min(following + WINDOW + 1, len(self.requests)))]
        again = [self.chance.choice(numbers) for _ in range(self.chance.randint(1, 12))]
        return self.frames(again + self.chance.sample(numbers, self.chance.randint(0, len(numbers))))

    def file(self):
        return take_of(self.requests).file(self.server.limit)


class Heard(Sending):
    """All replies are heard, so that each of them is known beforehand."""

    def __init__(self, server, seed):
        super().__init__(server, seed)
        self.book = Book()

    def send(self, links=LINKS):
        """Sends batches, some of which end inside a frame, and then all that is missing."""
        for _ in range(links):
            said = self.batch(self.following())
            self.exchange(said[: self.chance.randrange(len(said))] if self.chance.random() < 0.5 else said)
        while (first := self.following()) < len(self.requests):
            self.exchange(self.frames(range(first, min(first + WINDOW, len(self.requests)))))
        self.exchange(self.frames(range(len(self.requests))) + ask(self.name))
        return self

    def following(self):
        session = self.book.sessions.get(self.name)
        return session.following if session else 0

    def exchange(self, said):
        """Sends these bytes over a link; the replies are those of the book."""
        link = self.server.link(self.chance)
        link.send(said)
        link.say_no_more()
        link.hears(self.replies(said))
        link.finish()

    def replies(self, said):
        stream, found = Stream(), b""
        try:
            for message in stream.messages(said):
                found += b"".join(self.book.replies(message))
        except BadFrame as fault:
            return found + bad_frame(fault.args[0], stream.offset)
        return found + (bad_frame(CUT, stream.offset) if stream.held else b"")


class Lost(Sending):
    """Links are lost with what is under way, so that what the server has is unknown until it says so."""

    def __init__(self, server, seed):
        super().__init__(server, seed)
        self.wanted = verdicts_of(self.requests)
        self.verdicts = {}
        self.following = 0

    def send(self, links=LINKS):
        """Sends batches over links that are lost, and then what has no verdict yet until all is done."""
        for _ in range(links):
            link = self.server.link()
            link.send(self.batch(self.following))
            if self.chance.random() < 0.5:
                self.hear(link.reply())
            link.lose()
        for _ in range(MOST_LINKS):
            self.exchange(range(self.following, min(self.following + WINDOW, len(self.requests))))
            if self.following == len(self.requests):
                break
        for first in range(0, len(self.requests), WINDOW):
            self.exchange(range(first, min(first + WINDOW, len(self.requests))))
        if len(self.verdicts) < len(self.requests):
            raise Failed(f"only {len(self.verdicts)} of {len(self.requests)} numbers have a verdict")
        return self

    def exchange(self, numbers):
        link = self.server.link()
        link.send(self.frames(numbers) + ask(self.name))
        link.say_no_more()
        for reply in link.rest():
            self.hear(reply)

    def hear(self, reply):
        """A verdict is the number's own, and the number that comes next never falls."""
        found = reply_of(reply)
        if found is None or found.name != self.name or found.number >= len(self.requests):
            raise Failed(f"it replies {words_of(reply) if reply else 'nothing'} to {self.name.decode()}")
        if found.following is None:
            self.verdicts[found.number] = found.code
            if found.code != self.wanted[found.number]:
                raise Failed(f"it replies {words_of(reply)}, not {CODES[self.wanted[found.number]]}")
        elif found.code not in (HELD, TOO_FAR, NEXT) or found.following < self.following:
            raise Failed(f"it replies {words_of(reply)}, though {self.following} came next")
        else:
            self.following = found.following


def verdicts_of(requests):
    take = Take()
    return [take.apply(request) for request in requests]
