"""What the scripts that send recordings share: files, servers over them, a relay that counts."""
import contextlib
import dataclasses
import itertools
import random
import re
import select
import socket
import subprocess

from kit.network import close_at_once, connect, LOCAL, pass_both_ways, Relay, run, Server, start, TALLY
from kit.recordings import data, fmt, Recording, riff
from kit.takes import LONGEST_BLOCK

CLOCK = r"\d+:[0-5]\d:[0-5]\d"
LINE = re.compile(
    rf"(?P<name>[a-z0-9_-]+) (?:(?P<percent>\d+)% (?P<done>{CLOCK})/(?P<all>{CLOCK})|(?P<so_far>{CLOCK}))"
    r" (?P<speed>\d+\.\d) MB/s pending (?P<pending>\d+) link (?:up|down, (?P<down>\d+) s)"
)


def seconds_of(text):
    """How many seconds hours, minutes and seconds are."""
    hours, minutes, seconds = map(int, text.split(":"))
    return 3600 * hours + 60 * minutes + seconds


def written(folder, file, name="take.wav"):
    """The path of a file with these bytes."""
    path = folder / name
    path.write_bytes(file)
    return path


def words_of(port, name, path, *options):
    return ("send", "--connect", f"{LOCAL}:{port}", "--name", name, "--file", str(path), *options)


def settled(count, stored=None):
    return f"settled {count}\nstored {count if stored is None else stored}\n"


def folder_in(folder, name="takes"):
    inner = folder / name
    inner.mkdir()
    return inner


@contextlib.contextmanager
def serving(folder, *options, opening=()):
    """A server over a new folder, which prints these lines before it listens, and is stopped at the end."""
    server = Server(folder_in(folder), "--until-stopped", *options, opening=opening)
    try:
        yield server
    finally:
        server.process.terminate()
        server.process.wait()


def serve_again(port, takes):
    """A server at this port that goes on with what an earlier one left."""
    words = ("serve", "--listen", f"{LOCAL}:{port}", "--folder", str(takes), "--until-stopped", "--journal")
    process = start(*words, stdout=subprocess.PIPE, stderr=subprocess.DEVNULL)
    process.stdout.readline()
    return process


@contextlib.contextmanager
def unseen(name):
    """The port of a listener that must see no connection."""
    with socket.create_server((LOCAL, 0)) as listener:
        yield listener.getsockname()[1]
        TALLY.holds(f"{name}: before any link", not select.select([listener], [], [], 0)[0], "a link was made")


def requests_of(samples, align, frames=None):
    """How many requests bring samples: OPEN, a block for each so many frames, CLOSE."""
    size = align * (frames or LONGEST_BLOCK // align)
    return 2 + -(-len(samples) // size)


@dataclasses.dataclass(frozen=True)
class Fields:
    """Texts of a take's `bext`, and its number of samples since midnight."""

    description: str
    originator: str
    reference: str
    date: str
    clock: str
    time: int
    history: str


def fields_of(path):
    """The fields of the `bext` in a take's file (EBU Tech 3285)."""
    file = path.read_bytes()
    at = file.index(b"bext") + 8
    size = int.from_bytes(file[at - 4 : at], "little")
    ends = (0, 256, 288, 320, 330, 338)
    texts = [file[at + first : at + last].rstrip(b"\0").decode() for first, last in itertools.pairwise(ends)]
    history = file[at + 602 : at + size].rstrip(b"\0").decode()
    return Fields(*texts, int.from_bytes(file[at + 338 : at + 346], "little"), history)


def long_recording(blocks, seed=9):
    """A recording of so many blocks of 32,768 bytes, with its file."""
    chance = random.Random(seed)
    recording = Recording(samples=b"".join(chance.randbytes(32_768) for _ in range(blocks)))
    return recording, riff(fmt(recording), data(recording.samples))


def samples_of(path):
    """The samples of a server's file, which begin where `inspect` says."""
    _status, out, _faults = run("inspect", str(path))
    line = next(line for line in out.splitlines() if line.startswith("data at="))
    at, count = (int(word.partition("=")[2]) for word in line.split()[1:3])
    return path.read_bytes()[at : at + count]


class CountingRelay(Relay):
    """Cuts each connection after a few megabytes, and counts what came of the sender."""

    def __init__(self, server_port, seed, least, most):
        self.least, self.most = least, most
        self.passed = 0
        super().__init__(server_port, seed)

    def pass_on(self, sender, _most_requests, _most_replies, is_abrupt):
        most = self.chance.randint(self.least, self.most)
        server = connect(self.server_port)
        room = {sender: most, server: 1 << 40}
        with contextlib.suppress(OSError):
            pass_both_ways({sender: server, server: sender}, room)
        self.passed += most - room[sender]
        for end in (sender, server):
            if is_abrupt:
                close_at_once(end)
            else:
                end.close()
