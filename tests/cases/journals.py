"""Servers that keep journals, and the calls that they should make on them.

Headers and entries are worked out from docs/FORMATS.md, with Python's SHA-256.
"""
import errno
import hashlib

from kit.network import CANT_GO_ON, hear, hear_all, TALLY
from kit.takes import BLOCK as BLOCK_KIND, BYE_FRAME, CLOSE as CLOSE_KIND, DELAYED_STORE, LARGEST_LIMIT, little
from kit.takes import MARK as MARK_KIND, message, notice, STORED, verdict
from kit.watched import accepted_in_turn, BLOCK, CLOSE, CLOSE_EMPTY, CLOSE_MARKED, IN_TURN, LISTED, MARK, OPEN
from kit.watched import said_to_a_file, store_fails, Watched, written
from kit.watcher import Fault
from kit.worked import EMPTY, SMALL

ALREADY_OPEN, NOT_OPEN = 2, 3
MISSING = f"fails {errno.ENOENT}"
FOLDER_SYNCED = ["open FOLDER to-read", "sync takes"]


def digest(content):
    return hashlib.sha256(content).digest()


def sealed(content):
    """The line of a content and its check, with the byte that ends it."""
    plain = content + digest(content)[:8]
    return b"".join(bytes([1, byte + 3]) if byte < 3 else bytes([byte]) for byte in plain) + bytes([2])


def header(name):
    """The header of the journal of a name that is new."""
    content = little(LARGEST_LIMIT, 4) + bytes(1) + digest(name.encode())[:8]
    return b"BWJ2" + (content + digest(content)[:8]).hex().encode() + bytes([2])


def entry(name, number, request, code=STORED):
    """The entry of a number with this verdict."""
    noted = request[:1] + little(len(request) - 1, 4) if request[0] == BLOCK_KIND else request
    return sealed(bytes([code]) + digest(message(name, number, request)[4:]) + noted)


def opened(path, *how):
    return " ".join([f"open FOLDER/{path} to-read-and-write", *how])


def looked_up(name):
    """The calls before a name's journal is made: it has none, and whether it has a file is looked at as both disks show
    it, and as its journal will say."""
    lacks_file = opened(f"{name}.wav", MISSING)
    lacks_journal = opened(f"{name}.journal", MISSING)
    return [lacks_journal, *[lacks_file] * 3, lacks_journal, opened(f"{name}.journal", "create new")]


def begun(name):
    """The calls that write the header of an empty journal."""
    read = [f"seek {name}.journal 0", f"read {name}.journal "]
    return [*read, f"seek {name}.journal 0", f"write {name}.journal {header(name).hex()}"]


def left_synced(name):
    """The calls that sync what an earlier server left of a name that has a file."""
    return [opened(f"{name}.wav"), f"sync-data {name}.wav", f"sync-data {name}.journal", *FOLDER_SYNCED]


class Journaled(Watched):
    """A server with journals, and with syncs if `--sync` is among the options; these names have journals."""

    def __init__(self, folder, *options, faults=(), found=(), exchanges=1):
        locked = ["open FOLDER/.bwingest-lock to-read-and-write create", "stat .bwingest-lock", "lock .bwingest-lock"]
        super().__init__(
            folder,
            *("--exchanges", str(exchanges), *IN_TURN, "--journal", *options),
            faults=faults,
            opening=[f"resumed {len(found)} takes"],
            starting=[*locked, *LISTED],
        )
        self.is_synced = "--sync" in options
        self.noted = {}  # bytes in the journal of a name
        self.made = set()  # names whose files are made
        self.listed = {}  # names with a synced entry in the folder, and whether their files have one too

    def note_calls(self, name, content, closes=False, writes=True):
        """The calls that note this. The note of a stored CLOSE is synced without `--sync` too. With it the note waits for a
        commit: the length of the journal is its place, and a number that wrote nothing to the take's file needs no sync of
        it.
        """
        place = self.noted.setdefault(name, len(header(name)))
        calls = [f"seek {name}.journal {place}", f"write {name}.journal {content.hex()}"]
        if not self.is_synced:
            return [*calls, f"sync-data {name}.journal", *self.folder_calls(name)] if closes else calls
        place = f"stat {name}.journal"
        if not writes:
            return [place, *calls, f"sync-data {name}.journal"]
        take = opened(f"{name}.wav", *[MISSING] * (name not in self.made))
        samples = [f"sync-data {name}.wav"] * (name in self.made)
        return [place, take, *samples, *self.folder_calls(name), *calls, f"sync-data {name}.journal"]

    def begin_calls(self, name):
        """The calls that begin the journal of a new name: with `--sync` it is on the disk before its take's file is made."""
        calls = [*looked_up(name), *begun(name)]
        if not self.is_synced:
            return calls
        self.listed[name] = False
        return [*calls, f"sync-data {name}.journal", *FOLDER_SYNCED]

    def folder_calls(self, name):
        """The folder is synced if the journal or the take's file is new in it."""
        has_take = name in self.made
        is_new = name not in self.listed or has_take and not self.listed[name]
        self.listed[name] = has_take
        return FOLDER_SYNCED * is_new

    def asks(self, peer, name, request, code=STORED, before=None):
        number = self.numbers[name]
        self.numbers[name] += 1
        content = bytes.fromhex(request[0])
        if before is None:
            before = self.begin_calls(name) if number == 0 else []
        file_calls = request[1](name) if code == STORED else []
        self.made |= {name} if request is OPEN and code == STORED else set()
        noted = entry(name, number, content, code)
        closes = content[0] == CLOSE_KIND and code == STORED
        writes = content[0] != MARK_KIND and code == STORED
        calls = [*before, *file_calls, *self.note_calls(name, noted, closes, writes)]
        self.noted[name] += len(noted)
        self.says(peer, message(name, number, content), calls, verdict(name, number, code))

    def is_delayed(self, peer, name, request, calls):
        """The next number of a name gets no verdict, and between request and notice these calls are made."""
        number = self.numbers[name]
        said = message(name, number, bytes.fromhex(request[0]))
        self.says(peer, said, calls, notice(name, number, DELAYED_STORE, number))


def takes_of_two(it):
    """Two takes at once; a MARK is refused before the OPEN of one, and a second OPEN of the other."""
    peer = it.comes(accepted_in_turn(7))
    it.asks(peer, "a1", OPEN)
    it.asks(peer, "b2", MARK, NOT_OPEN)
    it.asks(peer, "a1", OPEN, ALREADY_OPEN)
    for name, request in (("a1", BLOCK), ("b2", OPEN), ("a1", MARK), ("b2", CLOSE_EMPTY), ("a1", CLOSE_MARKED)):
        it.asks(peer, name, request)
    it.goes(peer, 0)


def case_noted(folder):
    """Each number is noted after its file was written and before its reply, and nothing is synced but at a CLOSE: the
    file, and after the note journal and folder.
    """
    it = Journaled(folder)
    takes_of_two(it)
    it.ends("notes", [0])


def case_noted_and_synced(folder):
    """The take's file is synced, if the number wrote to it, the number noted, and the journal synced, and the folder where
    a file is new in it.
    """
    it = Journaled(folder, "--sync")
    takes_of_two(it)
    it.ends("notes and syncs", [0])


def asked_at_once(it, name, *requests):
    """The next messages of a name, in one piece: their bytes, the calls on the take's file, the notes, and the replies."""
    numbers = range(it.numbers[name], it.numbers[name] + len(requests))
    it.numbers[name] += len(requests)
    contents = [(number, bytes.fromhex(request[0])) for number, request in zip(numbers, requests)]
    said = b"".join(message(name, number, content) for number, content in contents)
    noted = b"".join(entry(name, number, content) for number, content in contents)
    calls = [call for request in requests for call in request[1](name)]
    return said, calls, noted, b"".join(verdict(name, number, STORED) for number in numbers)


def case_noted_at_once(folder):
    """With syncs what is noted of the messages that come together is written by one call, after one sync of the file."""
    it = Journaled(folder, "--sync")
    peer = it.comes(accepted_in_turn(7))
    it.asks(peer, "a1", OPEN)
    said, calls, noted, replies = asked_at_once(it, "a1", BLOCK, MARK)
    it.says(peer, said, [*calls, *it.note_calls("a1", noted)], replies)
    it.noted["a1"] += len(noted)
    it.asks(peer, "a1", CLOSE_MARKED)
    it.goes(peer, 0)
    it.ends("notes of a round", [0])


def case_committed_again(folder):
    """With syncs no reply leaves while a note can't be written. The next commit writes it with what came since."""
    noted = entry("a1", 1, bytes.fromhex(BLOCK[0]))
    it = Journaled(folder, "--sync", faults=[Fault(f"write a1.journal {noted.hex()}")], exchanges=2)
    peer = it.comes(accepted_in_turn(7))
    it.asks(peer, "a1", OPEN)
    it.peers[peer].sendall(message("a1", 1, bytes.fromhex(BLOCK[0])))
    TALLY.same("no reply", hear_all(it.peers[peer]), b"")
    again = it.comes(accepted_in_turn(7))
    said = message("a1", 1, bytes.fromhex(BLOCK[0]))
    it.numbers["a1"] = 2
    it.peers[again].sendall(said)
    TALLY.same("the reply", hear(it.peers[again], len(verdict("a1", 1, STORED))), verdict("a1", 1, STORED))
    TALLY.same("the journal", (it.folder / "a1.journal").read_bytes().endswith(noted), True)
    it.peers[again].sendall(BYE_FRAME)
    TALLY.same("a reply after BYE", hear_all(it.peers[again]), b"")
    it.ended("a note that is written later", (0, ["exchange 0 NotKept", "exchange 1 Bye"], store_fails(it.folder / "a1.journal")))


def case_noted_again(folder):
    """A header or an entry that can't be written is written again at its place, and the file of its request isn't."""
    content = entry("a1", 1, bytes.fromhex(BLOCK[0]))
    it = Journaled(folder, faults=[Fault("write a1.journal"), Fault(f"write a1.journal {content.hex()}")])
    peer = it.comes(accepted_in_turn(7))
    first = [*looked_up("a1"), *begun("a1")]
    why = store_fails(it.folder / "a1.journal")
    it.is_delayed(peer, "a1", OPEN, [*first[:-1], f"{first[-1]} fails {errno.EIO}", *said_to_a_file(why)])
    it.asks(peer, "a1", OPEN, before=begun("a1"))
    seek, write = it.note_calls("a1", content)
    it.is_delayed(peer, "a1", BLOCK, [*BLOCK[1]("a1"), seek, f"{write} fails {errno.EIO}"])
    it.asks(peer, "a1", (BLOCK[0], lambda name: []))
    it.asks(peer, "a1", CLOSE)
    it.goes(peer, 0)
    it.ends("failed notes", [0], why)


def stops(it, peer, said, file, calls, more=()):
    """After the last of these calls, a sync of this file, has failed no reply leaves and nothing is written or synced but
    by these others: the server ends.
    """
    what = f"a failed {calls[-1]}"
    it.peers[peer].sendall(said)
    TALLY.same(f"{what}: the peer", hear_all(it.peers[peer]), b"")
    lost = f"{it.folder}/a1.wav: a sync of it or its journal failed; mount its file system anew, or restart the machine\n"
    it.ended(what, (3, ["exchange 0 NotKept"], f"{store_fails(it.folder / file)}{lost}{CANT_GO_ON}"))
    kinds = ("write a1.", "sync", "send ")
    wanted = [call for call in [*calls[:-1], f"{calls[-1]} fails {errno.EIO}", *more] if call.startswith(kinds)]
    lines = it.lines()
    made = [line for line in lines[lines.index(f"receive peer-{peer} {said.hex()}") :] if line.startswith(kinds)]
    TALLY.same(f"{what}: the calls", made, wanted)


def stops_at(folder, file):
    """A failed sync of this file at an OPEN ends the server."""
    it = Journaled(folder, "--sync", faults=[Fault(f"sync-data {file}")])
    peer = it.comes(accepted_in_turn(7))
    it.made.add("a1")
    content = bytes.fromhex(OPEN[0])
    calls = [*it.begin_calls("a1"), *OPEN[1]("a1"), *it.note_calls("a1", entry("a1", 0, content))]
    stops(it, peer, message("a1", 0, content), file, calls[: calls.index(f"sync-data {file}") + 1])


def case_stopped_at_its_header(folder):
    """No take's file is made beside a journal whose header isn't on the disk."""
    stops_at(folder, "a1.journal")


def case_stopped_at_its_samples(folder):
    stops_at(folder, "a1.wav")


def case_stopped_at_its_close(folder):
    """A failed sync of a file at its CLOSE ends the server without `--sync` too. A repeat that comes before that writes
    the header again, and is neither synced nor noted.
    """
    it = Journaled(folder, faults=[Fault("sync a1.wav")])
    peer = it.comes(accepted_in_turn(7))
    it.asks(peer, "a1", OPEN)
    said, calls = 2 * message("a1", 1, bytes.fromhex(CLOSE_EMPTY[0])), CLOSE_EMPTY[1]("a1")
    stops(it, peer, said, "a1.wav", calls, written("a1", 0, EMPTY))


def goes_on(folder, what, *options):
    """A journal's torn end is cut at the first message, and its take goes on; the file is as it should be, so nothing of
    it is written."""
    takes = folder / "takes"
    takes.mkdir()
    noted = header("a1") + entry("a1", 0, bytes.fromhex(OPEN[0])) + entry("a1", 1, bytes.fromhex(BLOCK[0]))
    content = noted + entry("a1", 2, bytes.fromhex(CLOSE[0]))[:20]
    (takes / "a1.journal").write_bytes(content)
    (takes / "a1.wav").write_bytes(bytes.fromhex(SMALL))
    seen = [opened("a1.journal"), "stat a1.journal", "seek a1.journal 0", f"read a1.journal {content.hex()}"]
    front = [opened("a1.wav"), "stat a1.wav", "seek a1.wav 0", f"read a1.wav {SMALL[: 2 * 690]}"]
    cut = [opened("a1.journal"), "stat a1.journal", "truncate a1.journal"]
    kept = [opened("a1.wav"), opened("a1.journal"), opened("a1.wav")]
    recovered = [*seen, *front, "seek a1.wav 694", "read a1.wav ", *cut, *kept]
    it = Journaled(folder, *options, found=["a1"])
    it.numbers["a1"], it.noted["a1"] = 2, len(noted)
    it.made.add("a1")
    if it.is_synced:
        recovered += left_synced("a1")
        it.listed["a1"] = True
    peer = it.comes(accepted_in_turn(7))
    it.asks(peer, "a1", CLOSE, before=recovered)
    it.goes(peer, 0)
    it.ends(what, [0])


def case_resumed(folder):
    goes_on(folder, "a resumed take")


def case_resumed_and_synced(folder):
    """With syncs what was left of a name is synced before its first answer: verdicts are given again without a note."""
    goes_on(folder, "a resumed and synced take", "--sync")


def case_set_aside(folder):
    """The beginning of a file whose OPEN isn't noted is renamed at the next message, and the OPEN makes another."""
    takes = folder / "takes"
    takes.mkdir()
    (takes / "a1.journal").write_bytes(header("a1"))
    (takes / "a1.wav").write_bytes(bytes.fromhex(EMPTY)[:100])
    again = ["seek a1.journal 0", f"read a1.journal {header('a1').hex()}"]
    seen = [opened("a1.journal"), "stat a1.journal", *again]
    front = [opened("a1.wav"), "stat a1.wav", "seek a1.wav 0", f"read a1.wav {EMPTY[:200]}"]
    ends = ["seek a1.wav 100", "read a1.wav ", "seek a1.wav 690", "read a1.wav "]
    moved = [f"stat FOLDER/a1.torn {MISSING}", "rename FOLDER/a1.wav FOLDER/a1.torn", opened("a1.journal")]
    lacks_file = [opened("a1.wav", MISSING)] * 2
    it = Journaled(folder, found=["a1"])
    peer = it.comes(accepted_in_turn(7))
    it.asks(peer, "a1", OPEN, before=[*seen, *front, *ends, *moved, *lacks_file, *again])
    it.goes(peer, 0)
    it.ends("a file that is set aside", [0])


CASES = [
    *(case_noted, case_noted_and_synced, case_noted_at_once, case_noted_again, case_committed_again),
    *(case_stopped_at_its_header, case_stopped_at_its_samples, case_stopped_at_its_close),
    *(case_resumed, case_resumed_and_synced, case_set_aside),
]
