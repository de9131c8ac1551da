#!/usr/bin/env python3
"""Runs `serve` of the built program, notes each of its calls on the takes' files, and refuses some of them.

cases/files.py has the takes with their calls and files, and cases/turns.py those whose turns are compared one by
one. The server runs under tracer.py, with an observer that notes the calls. Needs what tracer.py needs. The program is
the first argument, or the one of this repository. Prints what differs, and last 'N passed, M failed'.
"""
import os
import re
import sys

sys.dont_write_bytecode = True  # nothing is left beside this script
from cases import files as cases_of_files
from cases import turns as cases_of_turns
from kit.network import connect, hear, run_cases, Server, TALLY
from kit.takes import BYE_FRAME, DELAYED_STORE, message, NEXT, notice, verdict
from kit.tally import difference
from kit.worked import EMPTY

LONGEST_RUN = 120  # seconds, for all of it
NAME_TAKEN, NOT_OPEN = 1, 3
FAULTS_TRIED = 16  # the first calls of a take; each of them, and each two, are refused
TRIES = 3  # of one request
ASKED = 7  # the number under which asks are sent, and no other message

OPENS, WRITE, CLOSE, SEEK, SYNC = {2: 0, 257: 1}, 1, 3, 8, 74  # by number; of openings, the path's argument
HALF, REST = "h", "r"


class Take:
    """The calls on a take's file: how many there were, and how the next write is refused."""

    def __init__(self, name):
        self.name = name
        self.calls = 0
        self.refused = ""

    def refuses_next(self):
        """How the next call is refused: the letter after its number in the name, HALF without one, or empty."""
        refused = {number.rstrip("ns"): number.lstrip("0123456789") or HALF for number in self.name.split("-")[1:]}
        self.calls += 1
        return refused.get(str(self.calls - 1), "")


class Observer:
    """Notes each opening, seek, write and sync of a file NAME.wav, and refuses those that the name asks for.

    A file NAME-3-7.wav has its calls 3 and 7 refused, counted from 0: an opening, a seek with the write after it, or a
    sync. A refused write takes half of its bytes, rounded down, then nothing. In NAME-3n.wav it writes nothing, and
    in NAME-3s.wav the seek before it is refused.
    """

    def __init__(self):
        self.notes = []
        self.takes = {}  # by name
        self.opened = {}  # by descriptor
        self.kinds = {SEEK: self.seek, WRITE: self.write, SYNC: self.sync, **{number: self.open for number in OPENS}}

    def before(self, call):
        take = self.made(call) if call.number in OPENS else self.opened.get(call.words[0])
        if take and call.number in self.kinds:
            self.kinds[call.number](take, call)

    def after(self, call):
        take = self.made(call) if call.number in OPENS else None
        if take and call.result >= 0:
            self.opened[call.result] = take
        elif call.number == CLOSE:
            self.opened.pop(call.words[0], None)

    def made(self, call):
        """The take whose file this opening creates, or None."""
        place = OPENS[call.number]
        if not call.words[place + 1] & os.O_CREAT:
            return None
        name, _, end = call.text_at(call.words[place]).rpartition("/")[2].rpartition(".")
        return self.takes.setdefault(name, Take(name)) if end == "wav" else None

    def note(self, take, call, number=0):
        self.notes.append((take.name, call, number))

    def open(self, take, call):
        self.note(take, "create")
        if take.refuses_next():
            call.refuse()

    def seek(self, take, call):
        self.note(take, "seek", call.words[1])
        take.refused = take.refuses_next()
        if take.refused == "s":
            call.refuse()

    def write(self, take, call):
        length = call.words[2]
        if take.refused != REST:
            self.note(take, "write", length)
        if take.refused == HALF and length > 1:
            take.refused = REST
            call.change(2, length // 2)
        elif take.refused:
            call.refuse()

    def sync(self, take, call):
        self.note(take, "sync")
        if take.refuses_next():
            call.refuse()


class Notes:
    """A server over a folder of its own whose calls are noted, and a peer that sends it takes."""

    def __init__(self, folder, *options):
        self.folder = folder / "takes"
        self.folder.mkdir()
        self.server = Server(self.folder, "--exchanges", "1", *options, watch=Observer)
        self.observer = self.server.observer
        self.peer = connect(self.server.port)

    def new_calls(self, name):
        """The calls noted since the last time; all must be on the file of this name."""
        notes, self.observer.notes = self.observer.notes, []
        calls = []
        for of, call, number in notes:
            if of != name:
                raise ValueError(f"a call on {of}, and not on {name}")
            if call == "write" and calls and calls[-1].startswith("seek "):
                calls[-1] = f"write {calls[-1].removeprefix('seek ')} {number}"
            else:
                calls.append(call if call in ("create", "sync") else f"{call} {number}")
        return calls

    def content(self, name):
        path = self.folder / f"{name}.wav"
        return path.read_bytes() if path.exists() else None

    def say(self, name, number, request):
        self.peer.sendall(message(name, number, bytes.fromhex(request)))

    def reply(self):
        length = hear(self.peer, 4)
        return length + hear(self.peer, int.from_bytes(length, "little"))

    def turn(self, name, number, request):
        """Sends a request; its reply, and the calls that were made for it."""
        self.say(name, number, request)
        return self.reply(), self.new_calls(name)

    def whole_turn(self, name, number, request):
        """Sends a request and an ask; the replies, the answer to the ask, and the calls that were made for both."""
        self.say(name, number, request)
        self.say(name, ASKED, "06")
        answer = notice(name, ASKED, NEXT, 0)[:-4]
        replies = [self.reply()]
        while not replies[-1].startswith(answer):
            replies.append(self.reply())
        return replies[:-1], replies[-1], self.new_calls(name)

    def end(self, name):
        self.peer.sendall(BYE_FRAME)
        self.peer.close()
        status, lines, said = self.server.end()
        TALLY.same(f"{name}: the server", (status, lines), (0, ["exchange 0 Bye"]))
        why = rf"(the store fails: {re.escape(str(self.folder))}/[a-z0-9-]+\.wav: [^\n]+\n)?"
        TALLY.holds(f"{name}: why its store fails", re.fullmatch(why, said), said)


# Takes


def play(notes, name, steps):
    """Sends each request of a take until it isn't delayed; the turns, and the file after each delay."""
    turns, left = [], []
    for number, step in enumerate(steps):
        delay = notice(name, number, DELAYED_STORE, number)
        for _ in range(TRIES):
            turns.append(notes.turn(name, number, step.request))
            if turns[-1][0] != delay:
                break
            left.append(notes.content(name))
    return turns, left


def up_to_fault(plan, count, faults):
    """The calls of a plan up to the first refused one, after this many earlier calls; and whether one is refused."""
    refused = [at for at in range(len(plan)) if count + at in faults]
    return plan[: refused[0] + 1] if refused else plan, bool(refused)


def planned(name, steps, faults):
    """The turns that a take should have with these calls refused. A file that was created isn't created again."""
    turns = []
    for number, step in enumerate(steps):
        plan, is_refused = step.first, True
        while is_refused:
            calls, is_refused = up_to_fault(plan, sum(len(turn[1]) for turn in turns), faults)
            reply = notice(name, number, DELAYED_STORE, number) if is_refused else verdict(name, number, step.code)
            turns.append((reply, calls))
            plan = step.again if calls[-1:] != ["create"] else plan
    return turns


def same_take(notes, fact, case, faults=()):
    """Compares a take's turns and file, and the counts of calls and bytes if no call is refused."""
    name = "-".join(map(str, ("a", *faults)))
    found, wanted = play(notes, name, case.steps)[0], planned(name, case.steps, faults)
    parts = [("turns", found, wanted), ("file", notes.content(name), bytes.fromhex(case.file))]
    if not faults:
        calls = [call for _, calls in found for call in calls]
        written = sum(int(call.split()[2]) for call in calls if call.startswith("write "))
        parts.append(("calls and bytes", (len(calls), written), (case.calls, case.written)))
    wrong = [f"{part}: {difference(one, other)}" for part, one, other in parts if one != other]
    TALLY.holds(f"{fact}: {case.of}{f', {faults}' if faults else ''}", not wrong, "; ".join(wrong))


def same_cases(folder, fact, cases, *options):
    """Compares takes, each alone in a folder."""
    for at, case in enumerate(cases):
        place = folder / str(at)
        place.mkdir()
        notes = Notes(place, *options)
        same_take(notes, fact, case)
        notes.end(f"{fact}: {case.of}")


def each_two(fact, folder, case, *options):
    """Compares a take with each of its calls refused, and with each two."""
    notes = Notes(folder, *options)
    for first in range(FAULTS_TRIED):
        for faults in ((first,), *((second, first) for second in range(first))):
            same_take(notes, fact, case, faults)
    notes.end(f"{fact}: {case.of}")


def case_short(folder):
    same_cases(folder, "the calls of a take", [*cases_of_files.SHORT, cases_of_files.FIVE, cases_of_files.FIELDS])


def case_limit(folder):
    cases = [cases_of_files.BW64_AT_CLOSE, cases_of_files.BW64_AT_BLOCK, *cases_of_files.EDGES]
    same_cases(folder, "the calls of a take at the limit", cases, "--limit", "8192")


def case_two_faults(folder):
    each_two("two faults", folder, cases_of_files.FIVE)


def case_two_faults_bw64_at_close(folder):
    each_two("two faults", folder, cases_of_files.BW64_AT_CLOSE, "--limit", "8192")


def case_two_faults_bw64_at_block(folder):
    each_two("two faults", folder, cases_of_files.BW64_AT_BLOCK, "--limit", "8192")


def case_turns(folder):
    """Compares each turn of takes whose calls are refused, with the replies for every number."""
    notes = Notes(folder)
    for at, case in enumerate(cases_of_turns.CASES):
        name = "-".join(map(str, (f"t{at}", *case.faults)))
        for step, turn in enumerate(case.turns):
            wanted = (turn.frames(name), notice(name, ASKED, NEXT, turn.following), turn.calls)
            TALLY.same(f"{case.of}: turn {step}", notes.whole_turn(name, turn.number, turn.request), wanted)
        TALLY.same(f"{case.of}: the file", notes.content(name), bytes.fromhex(case.file))
    notes.end("turns")


# Files


def case_faults(folder):
    """Each system call fails once: the file is as expected then, and the same request again stores everything."""
    notes = Notes(folder)
    for what, fault, left_over in cases_of_files.FAULTS:
        name = f"a-{fault}"
        turns, left = play(notes, name, cases_of_files.CLOSED.steps)
        TALLY.same(f"{what} fails: the file after it", left, [None if left_over is None else bytes.fromhex(left_over)])
        replies = [reply for reply, _ in turns if reply[4] == 0x81]
        TALLY.same(f"{what} fails: the verdicts", replies, [verdict(name, number, 0) for number in range(3)])
        TALLY.same(f"{what} fails: the file", notes.content(name), bytes.fromhex(cases_of_files.SMALL))
    notes.end("faults")


def case_existing_name(folder):
    """An existing file is left alone, even if the first opening fails, and isn't opened again."""
    notes = Notes(folder)
    (notes.folder / "a-0.wav").write_bytes(b"old")
    turns, left = play(notes, "a-0", [cases_of_files.OPEN, cases_of_files.BLOCK])
    wanted = [(notice("a-0", 0, DELAYED_STORE, 0), ["create"]), (verdict("a-0", 0, NAME_TAKEN), ["create"])]
    wanted.append((verdict("a-0", 1, NOT_OPEN), []))
    TALLY.same("an existing name", (turns, left), (wanted, [b"old"]))
    TALLY.same("an existing name: its file", notes.content("a-0"), b"old")
    notes.end("an existing name")


def case_no_folder(folder):
    """No take is created while the folder is gone or replaced by a file; once it is back one is."""
    notes = Notes(folder)
    delayed, opening = notice("a1", 0, DELAYED_STORE, 0), cases_of_files.OPEN.request
    TALLY.same("a folder: an ask", notes.turn("a1", 0, "06"), (notice("a1", 0, NEXT, 0), []))
    notes.folder.rmdir()
    TALLY.same("no folder", notes.turn("a1", 0, opening), (delayed, ["create"]))
    notes.folder.write_bytes(b"not a folder")
    TALLY.same("a file in its place", notes.turn("a1", 0, opening), (delayed, ["create"]))
    TALLY.same("the file in its place", notes.folder.read_bytes(), b"not a folder")
    notes.folder.unlink()
    notes.folder.mkdir()
    TALLY.same("a folder again", notes.turn("a1", 0, opening), (verdict("a1", 0, 0), ["create", "write 0 690"]))
    TALLY.same("a folder again: the file", notes.content("a1"), bytes.fromhex(EMPTY))
    notes.end("no folder")


CASES = [
    case_short,
    case_limit,
    case_two_faults,
    case_two_faults_bw64_at_close,
    case_two_faults_bw64_at_block,
    case_turns,
    case_faults,
    case_existing_name,
    case_no_folder,
]

if __name__ == "__main__":
    sys.exit(run_cases(CASES, LONGEST_RUN))
