"""The calls that a sender makes for its spool, which no clause covers: cases of run_calls."""
import contextlib
import os
import random
import subprocess

from kit.network import finish, LOCAL, start, start_with_pipes, TALLY
from kit.uploads import samples_of, serving, settled
from kit.watcher import Watcher

SPOOL = "s.raw"
WRITE = 1  # its number
SAMPLES = random.Random(48).randbytes(2 * 30_000)
REQUESTS = 9  # OPEN, five fields, two blocks, CLOSE


def words_of(server, name, spool):
    connected = ("send", "--connect", f"{LOCAL}:{server.port}", "--name", name)
    return (*connected, "--pcm", "48000,1,16", "--spool", str(spool))


def is_whole(name, folder, found):
    """All of the samples was sent, and the spool holds it."""
    TALLY.same(name, found, (0, settled(REQUESTS), ""))
    TALLY.holds(f"{name}: the spool", (folder / SPOOL).read_bytes() == SAMPLES, "it has other bytes")
    TALLY.holds(f"{name}: the samples", samples_of(folder / "takes" / f"{name}.wav") == SAMPLES, "they differ")


def case_spool(folder):
    """A spool is locked, and what it is for is synced at its side, before anything is appended."""
    watcher = Watcher()
    with serving(folder) as server:
        words = words_of(server, "a1", folder / SPOOL)
        is_whole("a1", folder, finish(start_with_pipes(*words, observer=watcher), SAMPLES))
    kinds = f"lock {SPOOL}", f"sync-data {SPOOL}.for", f"write {SPOOL} "
    found = [next(kind for kind in kinds if line.startswith(kind)) for line in watcher.lines if line.startswith(kinds)]
    TALLY.same("a spool: the order", found[:3], [*kinds])


class Halving(Watcher):
    """The first write of more than a byte into the spool takes half of its bytes, as the system may."""

    is_done = False

    def before(self, call):
        super().before(call)
        if not self.is_done and call.number == WRITE and self.name(call) == SPOOL and call.words[2] > 1:
            self.is_done = True
            call.change(2, call.words[2] // 2)


def case_short_write(folder):
    """After a write that takes half of its bytes the others follow."""
    watcher = Halving()
    with serving(folder) as server:
        words = words_of(server, "half", folder / SPOOL)
        is_whole("half", folder, finish(start_with_pipes(*words, observer=watcher), SAMPLES))
    TALLY.holds("a short write", watcher.is_done, "there was none")


def case_unread_input(folder):
    """A folder as the input, each read of which fails: neither its end, nor nothing yet."""
    descriptor = os.open(folder, os.O_RDONLY)
    with contextlib.ExitStack() as ends, serving(folder) as server:
        ends.callback(os.close, descriptor)
        words, pipe = words_of(server, "unread", folder / SPOOL), subprocess.PIPE
        found = finish(start(*words, observer=Watcher(), stdin=descriptor, stdout=pipe, stderr=pipe))
    TALLY.same("input that can't be read", (found[0], found[2]), (3, "send: Read at 0\n"))
    TALLY.holds("input that can't be read", not (folder / "takes" / "unread.wav").exists(), "a take was begun")


CASES = [case_spool, case_short_write, case_unread_input]
