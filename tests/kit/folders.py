"""Folders of takes that servers left, and the lines of their takes."""
import signal

from kit.network import connect, hear_all, Server, TALLY
from kit.takes import ASK, BYE_FRAME, message, NEXT, notice, STORED, Take, verdict

JOURNAL = ("--until-stopped", "--journal")
HEADER_LEN = 47  # of a journal, in bytes


class FastTake(Take):
    RATE = 44_100


def small_take(name="a1", length=99):
    """A take of requests whose blocks have an odd length."""
    return Take(name, length, 7, block=33, markers=[(1, 4), (2, 9)])


def journaled(folder, count, *options):
    return Server(folder, *JOURNAL, *options, opening=(f"resumed {count} takes",))


def exchange(server, said):
    """What the server replies to these messages."""
    with connect(server.port) as peer:
        peer.sendall(said + BYE_FRAME)
        return hear_all(peer)


def says(name, server, take, numbers, code=STORED):
    """These numbers of a take get this verdict."""
    messages = take.messages()
    said = b"".join(messages[number] for number in numbers)
    TALLY.same(name, exchange(server, said), b"".join(verdict(take.name, number, code) for number in numbers))


def has_next(name, server, take, number):
    """The server asks for this number of a take next."""
    said = message(take.name, 0, bytes([ASK]))
    TALLY.same(name, exchange(server, said), notice(take.name, 0, NEXT, number))


def folder_in(place, name="takes"):
    folder = place / name
    folder.mkdir()
    return folder


def left_by(folder, takes, *options):
    """A folder that a server left which was killed after so many numbers of each of these takes."""
    server = journaled(folder, 0, *options)
    for take, count in takes:
        says(f"{take.name}: the server", server, take, range(count))
    server.stop(signal.SIGKILL)
    return folder


def state(folder):
    """What a report leaves as it is: also when something was last changed, and which file it is."""
    stats = {path.name: path.stat() for path in folder.iterdir()}
    found = {name: (at.st_size, at.st_mtime_ns, at.st_ino, at.st_mode) for name, at in stats.items()}
    return found, folder.stat().st_mtime_ns, {path.name: path.read_bytes() for path in folder.iterdir()}


def seconds(frames, rate):
    """Seconds with three digits, rounded down."""
    return f"{frames // rate}.{frames % rate * 1_000 // rate:03d}"


def line_of(take, count):
    """The line of a take of which so many numbers are done, all of them stored."""
    if not count:
        return f"{take.name} unopened next 0"
    blocks = take.blocks[: max(0, min(count - take.FIRST_BLOCK, len(take.blocks)))]
    frames = sum(map(len, blocks)) // take.ALIGN
    word = "closed" if count == len(take.messages()) else "open"
    return f"{take.name} {word} frames {frames} seconds {seconds(frames, take.RATE)} next {count}"


def ends_of(journal):
    """Where the header and each entry of a journal end."""
    return [place + 1 for place, byte in enumerate(journal) if byte == 2]


def restored(folder, saved):
    """The folder has these files, and no others."""
    for path in folder.iterdir():
        path.unlink()
    for name, content in saved.items():
        (folder / name).write_bytes(content)
