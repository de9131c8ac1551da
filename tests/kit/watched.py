"""Servers whose system calls are recorded, and the calls that they should make.

Bytes are worked out by hand from docs/FORMATS.md.
"""
import collections
import errno

from kit.network import connect, hear, hear_all, LOCAL, reason, Server, TALLY
from kit.takes import BYE_FRAME, message, NEXT, notice, verdict
from kit.watcher import Watcher
from kit.worked import EMPTY, MARKER

LISTENER = (1 << 64) - 1  # its token
ENDED = ["exit 0"]
# The calls that look whether a line can be written at once: before the first one, and before each other.
FIRST_LOOK = ["register again out fails 2", "register out 1 writing"]
LOOK = ["register again out"]

IN_TURN = ("--timeout", "7")
MANY = ("--recorders", "2", "--idle", "9")


def store_fails(path, number=errno.EIO):
    """The line of a call for a path that fails in a server's store."""
    return f"the store fails: {path}: {reason(number)}\n"


def said_to_a_file(line):
    """The calls that print a line on standard error, if that is a file: such a descriptor can't be asked for room."""
    return [f"register again faults fails {errno.EPERM}", f"write faults {line.encode().hex()}"]


def written(name, place, content):
    return [f"seek {name}.wav {place}", f"write {name}.wav {content}"]


# Requests of takes with one channel of 16 bits, and the calls that the server should make on the take's file.
OPEN = "0180bb0000010010000000", lambda name: [
    f"open FOLDER/{name}.wav to-read-and-write create new",
    *written(name, 0, EMPTY),
]
SIZES = [(4, "ae020000"), (686, "04000000")]
BLOCK = "0201000200", lambda name: sum((written(name, *it) for it in [(690, "01000200"), *SIZES]), [])
OTHER_BLOCK = "0203000400", lambda name: sum((written(name, *it) for it in [(690, "03000400"), *SIZES]), [])
DESCRIBE = "04015261696e", lambda name: written(name, 80, "5261696e" + 252 * "00")
MARK = "030700000002000000", lambda name: []
CLOSE = "050200000000000000", lambda name: [f"sync {name}.wav"]
CLOSE_EMPTY = "050000000000000000", CLOSE[1]
CLOSE_MARKED = CLOSE[0], lambda name: [*written(name, 694, MARKER), *written(name, 4, "d2020000"), f"sync {name}.wav"]


def accepted_in_turn(seconds):
    """The calls that accept a peer where exchanges are served one after another."""
    return lambda peer: [
        f"accept {peer}",
        "stat FOLDER",
        f"set {peer} nodelay 1",
        f"set {peer} receive-timeout {seconds}.000000",
        f"set {peer} send-timeout {seconds}.000000",
        f"copy {peer}",
    ]


def accepted_at(place):
    """The calls that accept a peer into this place where many are served at once."""
    return lambda peer: [
        f"accept {peer}",
        "stat FOLDER",
        f"set {peer} nodelay 1",
        f"register {peer} {place} reading writing",
    ]


# The names in the folder.
LISTED = ["open FOLDER/ to-read", "list takes", "list takes"]


class Watched:
    """A server over a folder of its own whose calls are recorded, and the calls that it should make.

    `opening` are its lines before it listens, `starting` the calls after it has tried its folder.
    """

    def __init__(self, folder, *options, faults=(), opening=(), starting=LISTED):
        self.folder = folder / "takes"
        self.folder.mkdir(exist_ok=True)
        self.server = Server(self.folder, *options, watch=lambda: Watcher(*faults), opening=opening)
        self.address = f"{LOCAL}:{self.server.port}"
        self.peers = []
        self.numbers = collections.Counter()  # of the next request, by name
        printed = "".join(line + "\n" for line in (*opening, f"listening {self.address}")).encode().hex()
        is_many = "--recorders" in options
        self.wanted = [
            *("open FOLDER/.bwingest to-read-and-write create new", "remove FOLDER/.bwingest"),
            *starting,
            *["poll poll"] * (1 + is_many),
            *(f"bind socket-0 {self.address}", "listen socket-0"),
            *[f"register socket-0 {LISTENER} reading"] * is_many,
            f"write out {printed}",
        ]

    def comes(self, accepted):
        """Connects a peer that the server should accept by these calls; its number."""
        peer = len(self.peers)
        self.peers.append(connect(self.server.port))
        self.wanted += accepted(f"peer-{peer}")
        return peer

    def says(self, peer, said, calls, reply):
        """The peer sends this and receives this reply, and between them the server should make these calls."""
        self.peers[peer].sendall(said)
        TALLY.same("a reply", hear(self.peers[peer], len(reply)), reply)
        self.wanted += [f"receive peer-{peer} {said.hex()}", *calls, f"send peer-{peer} {reply.hex()}"]

    def asks(self, peer, name, request):
        number = self.numbers[name]
        self.numbers[name] += 1
        said = message(name, number, bytes.fromhex(request[0]))
        self.says(peer, said, request[1](name), verdict(name, number, 0))

    def goes(self, peer, index):
        """The peer sends BYE and sees the end of the connection; its exchange has this number."""
        self.peers[peer].sendall(BYE_FRAME)
        TALLY.same("a reply after BYE", hear_all(self.peers[peer]), b"")
        line = f"exchange {index} Bye\n".encode().hex()
        look = LOOK if LOOK[0] in self.wanted or FIRST_LOOK[0] in self.wanted else FIRST_LOOK
        self.wanted += [f"receive peer-{peer} {BYE_FRAME.hex()}", *look, f"write out {line}"]

    def small_exchange(self, peer, index):
        """A peer asks which number of a name comes next, and leaves."""
        self.says(peer, message("c3", 5, b"\x06"), [], notice("c3", 5, NEXT, 0))
        self.goes(peer, index)

    def lines(self):
        return [line.replace(str(self.folder), "FOLDER") for line in self.server.observer.lines]

    def ends(self, name, exchanges, said=""):
        """The server has ended by itself, said this on standard error, and made just the calls that it should; the waits
        among them.
        """
        wanted = 0, [f"exchange {index} Bye" for index in exchanges], said
        TALLY.same(f"{name}: the server", self.server.end(), wanted)
        lines = self.lines()
        same_calls(name, [line for line in lines if not is_waiting(line)], self.wanted + ENDED)
        return [line for line in lines if line.startswith("wait ")]

    def ended(self, name, wanted):
        """The server has ended like this; its calls aren't compared."""
        TALLY.same(name, self.server.end(), wanted)


def is_waiting(line):
    """Whether a call only waits: a wait of a server of many, or a call that finds nothing yet."""
    finds_nothing = line.endswith(f" fails {errno.EAGAIN}")
    return line.startswith("wait ") or finds_nothing and line.startswith(("receive ", "accept "))


def same_calls(name, found, wanted):
    both = zip([*found, "no call"], [*wanted, "no call"])
    at, pair = next(((at, pair) for at, pair in enumerate(both) if pair[0] != pair[1]), (0, ("", "")))
    TALLY.holds(f"{name}: the calls", found == wanted, f"call {at}: {pair[0][:160]}, not {pair[1][:160]}")
