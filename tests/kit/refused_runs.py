"""The runs of test_refused_calls.py: of a command with one call refused, and what may come of it."""
import subprocess

from kit.refuser import Refused

LONGEST_RUN = 20  # seconds, for one run
MOST_CALLS = 5_000  # of one kind in one run
MADE_BY_ALL = ("growth", "read", "write", "receive", "send", "connect", "sync")  # where such a kind is refused

PIPES = {"stdout": subprocess.PIPE, "stderr": subprocess.PIPE}


class Runs:
    """Counts the runs, and prints what differs."""

    def __init__(self, work):
        self.work = work
        self.count = 0
        self.failed = 0
        self.seen = 0  # calls of the kind, in the last run

    def end(self, running, given=None):
        """The status, standard output and standard error of a run, which is killed if it doesn't end."""
        try:
            out, errors = running.communicate(given, timeout=LONGEST_RUN)
        except subprocess.TimeoutExpired:
            running.kill()
            out, errors = running.communicate()
        self.seen = running.seen
        return running.returncode, out, errors

    def one(self, words, given, kind, number):
        """A run with this call refused, or none if the number is 0; its status and both streams."""
        with Refused(words, kind, number, stdin=subprocess.PIPE, **PIPES) as running:
            return self.end(running, given)

    def each(self, name, kind, run, fault_in, step=1):
        """Refuses each call of a kind in turn, or one of so many; `fault_in` says what is wrong with how a run ended, if
        anything.
        """
        wanted = run(kind, 0)
        calls = self.seen
        if wanted[0] < 0:
            raise SystemExit(f"{name}: the program doesn't end by itself where nothing is refused")
        if not calls and kind in MADE_BY_ALL:
            raise SystemExit(f"{name}: no {kind} is seen")
        if calls > MOST_CALLS:
            raise SystemExit(f"{name}: {calls} calls are more than are tried")
        for number in range(1, calls + 1, step):
            self.count += 1
            found = run(kind, number)
            wrong = fault_in(kind, found, wanted)
            if wrong:
                self.failed += 1
                print(f"{name}: with {kind} {number} refused: {wrong}: {found}"[:400], flush=True)


def is_prefix(found, wanted):
    return wanted.startswith(found)


def what_a_run_breaks(kind, found, wanted):
    """Of a command that reads and then prints: a fault is status 3 or 4, and nothing else is printed."""
    if found[:2] == wanted[:2]:
        return None
    status, out, _ = found
    if kind == "growth":
        return None if status == 4 and not out else "neither out of memory nor the wanted text"
    if status != 3:
        return "another status"
    return None if is_prefix(out, wanted[1]) and (kind == "write" or not out) else "another text"


def what_a_pack_breaks(kind, found, wanted):
    """Of a command that prints as it reads: a fault is status 3 or 4, and what was read before it is printed."""
    if found[:2] == wanted[:2]:
        return None
    if found[0] != (4 if kind == "growth" else 3):
        return "another status"
    return None if is_prefix(found[1], wanted[1]) else "another text"


def what_an_upload_breaks(kind, found, wanted):
    """What a link breaks is made good over the next one; anything else ends it with a cause, and true counts."""
    if found[:2] == wanted[:2]:
        return None
    status, out, said = found
    if kind in ("connect", "send", "receive"):
        return "it doesn't go on over another link"
    if status != (4 if kind == "growth" else 3):
        return "another status"
    if not said:
        return "no cause"
    if not out or kind == "write" and is_prefix(out, wanted[1]):
        return None
    settled, stored = (int(line.split()[1]) for line in out.splitlines()[:2])
    return None if stored == settled <= int(wanted[1].split()[1]) else "other counts"


KINDS = ("growth", "read", "write", "seek", "open")
