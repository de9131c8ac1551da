"""The cases of servers, each with its rule of docs/FORMATS.md."""
import random
from dataclasses import dataclass
from typing import Callable

from bad_links import Heard, Lost, take_of
from book import MOST_NAMES
from frames import ask, BAD_MARKER, BLOCK, CLOSE, CONFLICT, DUPLICATE_MARKER, frame, HELD, little, MARK, NEXT, notice
from frames import OPEN, reply_of, STORED, TABLE_FULL, TOO_FAR, TOO_MANY_MARKERS, verdict
from links import Failed, Skipped
from servers import fresh_name, Run
from takes import MOST_MARKERS
from vectors import vectors

OPENING = bytes([OPEN]) + little(48_000, 4) + little(1, 2) + little(16, 2) + little(0, 2)
AT_ONCE = 100  # frames that are sent before their replies are heard
REPEATS = "Replies: a repeat gets its first verdict"
TWO_FRAMES = bytes([BLOCK]) + bytes.fromhex("01000200")


@dataclass
class Case:
    """A case: what is tried, the rule that it tries, and how."""

    name: str
    rule: str
    run: Callable


def cases_of_servers(server):
    """All cases. Each vector is sent in whole pieces, and then cut within frames."""
    chance = random.Random(server.seed)
    found = [Case(it.name, it.rule, Run(server, it).run) for it in vectors()]
    found += [Case(f"in pieces: {it.name}", it.rule, Run(server, it, chance).run) for it in vectors()]
    for seed in range(server.seed, server.seed + 2):
        found += with_its_file(server, f"links that are cut, repeat and reorder, {seed}", REPEATS, Heard, seed)
        found += with_its_file(server, f"links that are lost, {seed}", REPEATS, Lost, seed)
    found += with_its_file(server, "1,024 markers", "Limits: 1,024 markers", Markers, server.seed)
    return [*found, Case("256 names", "Limits: 256 names", lambda: too_many_names(server))]


def with_its_file(server, name, rule, kind, seed):
    """A take that is sent, and its file in a case of its own."""
    sent = []

    def send():
        sent.append(kind(server, seed).send())

    def compare():
        server.needs_folder()
        if not sent:
            raise Failed("its take wasn't stored")
        server.has_file(sent[0].name, sent[0].file())

    return [Case(name, rule, send), Case(f"the file after {name}", "A take's file", compare)]


class Markers:
    """A take with as many markers as it may have, after which three are refused."""

    def __init__(self, server, _seed):
        self.server, self.name = server, fresh_name()
        markers = [*((number, number % 3) for number in range(MOST_MARKERS)), (MOST_MARKERS, 0), (7, 0), (7, 3)]
        marks = [bytes([MARK]) + little(number, 4) + little(place, 4) for number, place in markers]
        self.requests = [OPENING, TWO_FRAMES, *marks, bytes([CLOSE]) + little(2, 8)]

    def send(self):
        codes = [STORED] * (2 + MOST_MARKERS) + [TOO_MANY_MARKERS, DUPLICATE_MARKER, BAD_MARKER, STORED]
        said = [frame(self.name, number, request) for number, request in enumerate(self.requests)]
        says_at_once(self.server, said, [verdict(self.name, number, code) for number, code in enumerate(codes)])
        return self

    def file(self):
        return take_of(self.requests).file(self.server.limit)


def too_many_names(server):
    """A server of which as many names wait for a number as docs/FORMATS.md says turns a further one away."""
    if not server.is_fresh:
        raise Skipped("without --fresh")
    for name in sorted(server.known):
        have_wait(server, name)
    names = [fresh_name() for _ in range(MOST_NAMES - len(server.known))]
    other = fresh_name()
    rows = [(frame(name, 1, TWO_FRAMES), notice(name, 1, HELD, 0)) for name in names]
    rows += [
        (frame(other, 0, OPENING), notice(other, 0, TABLE_FULL, 0)),
        (frame(other, 1, TWO_FRAMES), notice(other, 1, TABLE_FULL, 0)),
        (frame(other, 16, TWO_FRAMES), notice(other, 16, TOO_FAR, 0)),
        (ask(other), notice(other, 0, NEXT, 0)),
        (frame(names[0], 0, OPENING), verdict(names[0], 0, STORED) + verdict(names[0], 1, STORED)),
    ]
    says_at_once(server, *zip(*rows))


def have_wait(server, name):
    """Has a number of a name wait, the last one that may, unless one waits there already."""
    link = server.link()
    link.send(ask(name))
    following = reply_of(link.reply()).following
    link.send(frame(name, following + 15, TWO_FRAMES))
    code = reply_of(link.reply()).code
    if code not in (HELD, CONFLICT):
        raise Failed(f"number {following + 15} of {name} gets {code}, not Held")
    link.say_no_more()


def says_at_once(server, said, replies):
    """Sends these frames over a link, some at once, and hears these replies."""
    link = server.link()
    for at in range(0, len(said), AT_ONCE):
        link.send(b"".join(said[at : at + AT_ONCE]))
        link.hears([*b"".join(replies[at : at + AT_ONCE])])
    link.say_no_more()
    link.finish()
