"""Wrong bodies of the functions that no clause covers, each given as the system calls that it would make.

The program stays as it is: the tracer changes its calls, leaves them out, or changes their results. Each body names the
case of tests/test_calls.py that must fail with it.
"""
import contextlib
import io
import os
import struct
from errno import EAGAIN, ECONNABORTED, EEXIST, EINTR, EIO, EISDIR

from kit import network
from kit.network import run_case, TALLY
from kit.watcher import Watcher

READ, WRITE, POLL, SEEK, CONNECT, SEND, RECEIVE, SHUTDOWN, BIND, SET = 0, 1, 7, 8, 42, 44, 45, 48, 49, 54
SYNC, TRUNCATE, REMOVE, EXIT, WAIT, REGISTER, OPEN, ACCEPT, STAT = 74, 77, 87, 231, 232, 233, 257, 288, 332
NODELAY, RECEIVE_TIMEOUT, SEND_TIMEOUT = (6, 1), (1, 20), (1, 21)  # level and number of an option
WITHOUT_END = -1
LOCK, SYNC_DATA, RENAME = 73, 75, 82
FIRST_FILE = 3  # the descriptors below it are the process's streams
FOLDER_MODE, PIPE_MODE = 0o040755, 0o010644
MODE_AT, IP_AT, TOKEN_AT = 28, 4, 4  # the places in what statx gives, in an address, in an event
WRITING = 4  # of an event


def nothing(call):
    pass


class Body:
    """A wrong body: what it does to a call before it is made, to its result, and to the command line."""

    def __init__(self, what, case, before=nothing, after=nothing, words=lambda words: words):
        self.what, self.case, self.before, self.after, self.words = what, case, before, after, words


def when(number, change, holds=lambda call: True):
    """Changes the calls of this number."""

    def do(call):
        if call.number == number and holds(call):
            change(call)

    return do


def with_word(number, place, word, holds=lambda call: True):
    """Changes an argument of the calls of this number."""
    return when(number, lambda call: call.change(place, word(call.words[place])), holds)


def left_out(number, holds=lambda call: True):
    """Calls of this number aren't made, and seem to succeed."""
    return when(number, lambda call: call.answer(0), holds)


def overwritten(number, place, at, content):
    """Changes bytes to which an argument of these calls points."""
    return when(number, lambda call: call.write_at(call.words[place] + at, content))


def is_option(*options):
    return lambda call: tuple(call.words[1:3]) in options


def is_file(call):
    return call.words[0] >= FIRST_FILE


def with_token(change):
    """Changes each token that is registered, except the listener's."""

    def do(call):
        address = call.words[3] + TOKEN_AT
        (token,) = struct.unpack("<Q", call.bytes_at(address, 8))
        if token < 1 << 32:
            call.write_at(address, struct.pack("<Q", change(token)))

    return when(REGISTER, do)


def for_reading_alone(call):
    (events,) = struct.unpack("<I", call.bytes_at(call.words[3], 4))
    call.write_at(call.words[3], struct.pack("<I", events & ~WRITING))


def take_half(call):
    call.whole = call.words[2]
    call.change(2, call.whole // 2)


def seem_whole(call):
    call.result = getattr(call, "whole", call.result)


def cut_in_place_of_seek(call):
    call.become(TRUNCATE)


def sync_data_alone(call):
    call.become(SYNC_DATA)


def sync_whole_file(call):
    call.become(SYNC)


def seem_done(call):
    call.result = max(call.result, 0)


def with_mode(mode, holds):
    """Changes the mode that the system reports for a file."""

    def do(call):
        call.result = 0
        call.write_at(call.words[4] + MODE_AT, struct.pack("<H", mode))

    return when(STAT, do, holds)


def taken_for(one, other):
    """Takes a fault for another one."""

    def do(call):
        if call.result == -one:
            call.result = -other

    return do


class FirstSynced:
    """Syncs the file that was synced first, whichever is asked for."""

    def __init__(self):
        self.first = None

    def __call__(self, file):
        self.first = self.first or file
        return self.first


def to_other_stream(stream):
    return 3 - stream


def opened_over(flags):
    return flags & ~os.O_EXCL | os.O_TRUNC


def opened_uncut(flags):
    return flags & ~os.O_TRUNC


def opened_at_its_end(flags):
    return flags | os.O_APPEND


def none(_word):
    return 0


BODIES = [
    # The disk
    Body("a seek to 0", "in_turn", with_word(SEEK, 1, none)),
    Body("no seek", "in_turn", left_out(SEEK)),
    Body("half of the bytes", "in_turn", when(WRITE, take_half, is_file), seem_whole),
    Body("no sync", "in_turn", left_out(SYNC)),
    Body("no sync, of many", "many", left_out(SYNC)),
    Body("a sync of another file", "in_turn", with_word(SYNC, 0, FirstSynced())),
    Body("a sync of the bytes alone", "in_turn", when(SYNC, sync_data_alone)),
    Body("a failed sync is taken for a done one", "refused_disk", after=when(SYNC, seem_done)),
    Body("each write goes to the end of its file", "in_turn", with_word(OPEN, 2, opened_at_its_end)),
    Body("a failed opening is taken for a name that stood", "refused_disk", after=when(OPEN, taken_for(EIO, EEXIST))),
    Body("an existing file is opened, and cut", "in_turn", with_word(OPEN, 2, opened_over)),
    Body("a file is cut where it is written", "in_turn", when(SEEK, cut_in_place_of_seek, is_file)),
    Body("the probe of a folder is left", "in_turn", left_out(REMOVE)),
    Body("a folder that is gone counts", "at_an_end", after=with_mode(FOLDER_MODE, lambda call: call.result < 0)),
    # Journals
    Body("no lock", "noted", left_out(LOCK)),
    Body("notes go to the end of their file", "noted", with_word(OPEN, 2, opened_at_its_end)),
    Body("no sync of the note of a CLOSE", "noted", left_out(SYNC_DATA)),
    Body("no sync of a note", "noted_and_synced", left_out(SYNC_DATA)),
    Body("times are synced too", "noted_and_synced", when(SYNC_DATA, sync_whole_file)),
    Body("a failed sync of a note is taken for a done one", "stopped_at_its_samples", after=when(SYNC_DATA, seem_done)),
    Body("a failed sync at a CLOSE is taken for a done one", "stopped_at_its_close", after=when(SYNC, seem_done)),
    Body("a failed note is taken for a done one", "noted_again", after=when(WRITE, seem_done, is_file)),
    Body("a torn end isn't cut", "resumed", left_out(TRUNCATE)),
    Body("no sync of what was left", "resumed_and_synced", left_out(SYNC_DATA)),
    Body("no sync of the folder that was left", "resumed_and_synced", left_out(SYNC)),
    Body("a begun file isn't set aside", "set_aside", left_out(RENAME)),
    # The state of a sender
    Body("a state isn't cut where it is begun", "state", with_word(OPEN, 2, opened_uncut)),
    Body("no sync of a state", "state", left_out(SYNC_DATA)),
    Body("no sync of a state's folder", "state", left_out(SYNC)),
    # The spool of a sender
    Body("a spool without a lock", "spool", left_out(LOCK)),
    Body("no sync of what a spool is for", "spool", left_out(SYNC_DATA)),
    Body("a short write of a spool is taken for whole", "spool", when(WRITE, take_half, is_file), seem_whole),
    Body("a failed read of the input is taken for its end", "unread_input", after=when(READ, taken_for(EISDIR, 0))),
    Body("a failed read of the input is taken for none", "unread_input", after=when(READ, taken_for(EISDIR, EAGAIN))),
    # Links one after another, and those of a sender
    Body("no timeout of reads", "in_turn", left_out(SET, is_option(RECEIVE_TIMEOUT))),
    Body("no timeout of writes", "in_turn", left_out(SET, is_option(SEND_TIMEOUT))),
    Body("another timeout", "in_turn", overwritten(SET, 3, 0, b"\1")),
    Body("a timeout that isn't asked", "no_timeout", overwritten(SET, 3, 0, b"\7")),
    Body("no TCP_NODELAY", "in_turn", left_out(SET, is_option(NODELAY))),
    Body("another address is listened at", "in_turn", overwritten(BIND, 1, IP_AT, bytes(4))),
    Body("a link that isn't set up", "refused_in_turn", after=when(SET, seem_done)),
    Body("a sender without timeouts", "sender", left_out(SET, is_option(RECEIVE_TIMEOUT, SEND_TIMEOUT))),
    Body("a sender that calls without end", "sender", with_word(POLL, 2, lambda most: WITHOUT_END)),
    Body("a sender without TCP_NODELAY", "sender", left_out(SET, is_option(NODELAY))),
    Body("another address is called", "sender", overwritten(CONNECT, 1, IP_AT, bytes([127, 0, 0, 2]))),
    Body("a sender's link that isn't set up", "refused_link", after=when(SET, seem_done)),
    # Links of many
    Body("no TCP_NODELAY, of many", "many", left_out(SET, is_option(NODELAY))),
    Body("the first token for all", "many", with_token(lambda place: 0)),
    Body("the token of another place", "many", with_token(lambda place: 1 - place)),
    Body("registered for reading alone", "many", when(REGISTER, for_reading_alone)),
    Body("not registered", "many", left_out(REGISTER)),
    Body("a link of many that isn't set up", "refused_of_many", after=when(SET, seem_done)),
    Body("a link that isn't registered", "refused_of_many", after=when(REGISTER, seem_done)),
    Body("nobody is taken for one who is gone", "gone_of_many", after=when(ACCEPT, taken_for(EAGAIN, ECONNABORTED))),
    Body("one who is gone is taken for nobody", "gone_of_many", after=when(ACCEPT, taken_for(ECONNABORTED, EAGAIN))),
    Body("a wait without end", "many", with_word(WAIT, 3, lambda most: WITHOUT_END)),
    Body("a signal ends a link that reads", "interrupted", after=when(RECEIVE, taken_for(EINTR, EIO))),
    Body("a signal ends a link that writes", "interrupted", after=when(SEND, taken_for(EINTR, EIO))),
    Body("no end after a bad frame", "shut", left_out(SHUTDOWN)),
    # The process
    Body("the last word dropped", "streams_and_statuses", words=lambda words: words[:-1]),
    Body("the other stream", "streams_and_statuses", with_word(WRITE, 0, to_other_stream, lambda it: not is_file(it))),
    Body("status 0", "streams_and_statuses", with_word(EXIT, 0, none)),
    Body("a file of no length", "inspected", after=with_mode(PIPE_MODE, lambda call: call.words[1])),
]


def fails(case):
    """Whether a comparison of a case fails; what it prints is left out."""
    failed = TALLY.failed
    with contextlib.redirect_stdout(io.StringIO()):
        run_case(case)
    return TALLY.failed > failed


def is_refused(body, case):
    """Whether a wrong body makes its case fail, which passes without it."""
    if fails(case):
        print(f"{body.case}: it fails without a wrong body", flush=True)
        return False
    right_start, Watcher.wrong = network.start, body
    network.start = lambda *words, **more: right_start(*body.words(words), **more)
    try:
        refused = fails(case)
    finally:
        network.start, Watcher.wrong = right_start, None
    if not refused:
        print(f"{body.what}: {body.case} doesn't fail", flush=True)
    return refused


def try_all(cases):
    """Tries each wrong body; the status. The waits are short, as some of the bodies leave a peer without a reply."""
    network.LONGEST_WAIT = 5  # seconds
    by_name = {case.__name__.removeprefix("case_"): case for case in cases}
    refused = sum(is_refused(body, by_name[body.case]) for body in BODIES)
    missed = len(BODIES) - refused
    print(f"{refused} refused, {missed} not")
    return int(missed > 0)
