"""The server that is tried, and the cases of vectors.txt as they are run on it."""
import pathlib
import secrets
import time
from dataclasses import dataclass

from frames import BYE_FRAME, CONFLICT, HELD, reply_of
from links import Failed, Link, Skipped
from takes import LARGEST_LIMIT

FIRST_NAME, SECOND_NAME = b"vector-a", b"vector-b"
PAUSE = 0.05  # seconds, in which a server should have read what was sent
LETTERS = "abcdefghijklmnopqrstuvwxyz0123456789"


@dataclass
class Server:
    """The server that is tried, and what is known of it."""

    address: tuple
    folder: pathlib.Path | None = None
    limit: int = LARGEST_LIMIT
    is_fresh: bool = False
    wait: float = 10
    seed: int = 1

    def __post_init__(self):
        self.known = set()  # names under which it has admitted something

    def link(self, chance=None):
        return Link(self.address, self.wait, chance, self.note)

    def note(self, reply):
        """Keeps the name of a reply that says that something was admitted under it."""
        found = reply_of(reply)
        if found and (found.following is None or found.code in (HELD, CONFLICT)):
            self.known.add(found.name)

    def needs_folder(self):
        if self.folder is None:
            raise Skipped("without --folder")

    def file(self, name):
        """The take's file, or None."""
        path = self.folder / f"{name.decode()}.wav"
        return path.read_bytes() if path.exists() else None

    def has_file(self, name, wanted):
        found = self.file(name)
        if found != wanted:
            raise Failed(difference(found, wanted))


def fresh_name():
    return "".join(secrets.choice(LETTERS) for _ in range(8)).encode()


def difference(found, wanted):
    """How a file differs from the one that was wanted."""
    if found is None or wanted is None:
        return "there is no file" if found is None else "there is a file"
    pairs = enumerate(zip(found, wanted))
    place = next((at for at, (a, b) in pairs if a != b), min(len(found), len(wanted)))
    part = slice(place, place + 8)
    lengths = f"the file has {len(found)} bytes, not {len(wanted)}; "
    return f"{lengths}from {place} on {found[part].hex() or 'none'}, not {wanted[part].hex() or 'none'}"


# The cases of vectors.txt


class Run:
    """A vector as it is tried, under fresh names."""

    def __init__(self, server, vector, chance=None):
        self.server, self.vector, self.chance = server, vector, chance
        self.names = {FIRST_NAME: fresh_name(), SECOND_NAME: fresh_name()}
        self.link, self.said = None, b""

    def named(self, wanted):
        """The bytes with the fresh names in them."""
        text = "".join(chr(256 if it is None else it) for it in wanted)
        for name, fresh in self.names.items():
            text = text.replace(name.decode(), fresh.decode())
        return [None if ord(it) == 256 else ord(it) for it in text]

    def send(self, bytes_):
        self.link = self.link or self.server.link(self.chance)
        self.said = bytes(bytes_)
        self.link.send(self.said)

    def end(self, how=Link.finish):
        """Sends no more over the link, if there is one; this is how it ends."""
        link, self.link = self.link, None
        if link:
            if not self.said.endswith(BYE_FRAME):
                link.say_no_more()
            how(link)

    def lose(self, _bytes=()):
        if self.link:
            self.link.lose()
        self.link = None

    def plant(self, bytes_):
        (self.server.folder / f"{self.names[FIRST_NAME].decode()}.wav").write_bytes(bytes(bytes_))

    def steps(self):
        first, second = self.names.values()
        return {
            ">": self.send,
            "<": lambda wanted: self.link.hears(wanted),
            "pause": lambda _: time.sleep(PAUSE),
            "link": lambda _: self.end(),
            "unheard": lambda _: self.end(lambda link: [*link.rest()]),
            "lost": self.lose,
            "file": lambda wanted: self.server.has_file(first, bytes(wanted)),
            "file-b": lambda wanted: self.server.has_file(second, bytes(wanted)),
            "no-file": lambda _: self.server.has_file(first, None),
            "plant": self.plant,
        }

    def run(self):
        if self.vector.needs_folder:
            self.server.needs_folder()
        if self.vector.limit not in (None, self.server.limit):
            raise Skipped(f"without --limit {self.vector.limit}")
        steps = self.steps()
        try:
            for word, bytes_ in self.vector.steps:
                steps[word](self.named(bytes_))
            self.end()
        finally:
            self.lose()
