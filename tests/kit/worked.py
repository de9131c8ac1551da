"""Worked messages, replies and files of small takes, in hex, and the cases of `replay`.

Messages and files are worked out by hand from docs/FORMATS.md; takes.py frames the replies.
"""
from typing import NamedTuple

from kit.takes import bad_frame, CONFLICT, DELAYED_STORE, NEXT, notice, STORED, verdict

HELD, TOO_FAR, TABLE_FULL, NO_ROOM = 32, 33, 35, 36

EXCHANGE = "exchange 0 EndOfInput"
BAD_EXCHANGE = "exchange 0 BadFrame"
EXCHANGE_1 = "exchange 1 EndOfInput"


class Case(NamedTuple):
    """An input, the lines and then the files that its run prints, and the options of the run."""

    of: str
    given: str
    lines: list
    files: list = []
    options: tuple = ()

    def text(self):
        return "".join(line + "\n" for line in (*self.lines, *self.files)).encode()


# Messages of the take `a1`: 48,000 Hz, one channel, 16 bits.
OPEN = "12000000010261310000000080bb0000010010000000"
BLOCK = "0c000000020261310100000001000200"  # two frames under number 1
OTHER_BLOCK = "0c000000020261310100000001000300"  # two other frames under number 1
CLOSE = "1000000005026131020000000200000000000000"  # number 2: two frames in all
ASK = "080000000602613100000000"  # asks under number 0
BYE = "0100000009"

# Parts of files, in the order in which they are there.
FORM_682 = "52494646aa020000574156454a554e4b1c000000"
FORM_686 = "52494646ae020000574156454a554e4b1c000000"
FORM_722 = "52494646d2020000574156454a554e4b1c000000"
JUNK = "00" * 28
MONO = "666d7420100000000100010080bb00000077010002001000"  # one channel of 16 bits
BEXT = "626578745a020000"  # its head, without a history
NO_FIELDS = "00" * 346
VERSION = "0100"
RESERVED = "00" * 254
NO_BEXT = BEXT + NO_FIELDS + VERSION + RESERVED
RAIN = BEXT + "5261696e" + "00" * 342 + VERSION + RESERVED  # the description `Rain`
NO_DATA = "6461746100000000"
TWO_FRAMES = "646174610400000001000200"
# A marker 7 after the second frame.
MARKER = "637565201c00000001000000070000000200000064617461000000000000000002000000"

# The files of a take that is only opened, of one with two frames, and of one with the marker too.
EMPTY = FORM_682 + JUNK + MONO + NO_BEXT + NO_DATA
SMALL = FORM_686 + JUNK + MONO + NO_BEXT + TWO_FRAMES
EMPTY_FILE = "file a1 690\n" + EMPTY
SMALL_FILE = "file a1 694\n" + SMALL
MARKED_FILE = "file a1 730\n" + FORM_722 + JUNK + MONO + NO_BEXT + TWO_FRAMES + MARKER


def reply(frame):
    return f"reply {frame.hex()}"


def judged(number, code, name="a1"):
    """The verdict with this code."""
    return reply(verdict(name, number, code))


def stored(*numbers, name="a1"):
    return [judged(number, STORED, name) for number in numbers]


def held(number, following, name="a1"):
    """The number waits for an earlier one; `following` comes next."""
    return reply(notice(name, number, HELD, following))


def too_far(number, following, name="a1"):
    return reply(notice(name, number, TOO_FAR, following))


def conflict(number, following):
    """Another body was admitted under the number."""
    return reply(notice("a1", number, CONFLICT, following))


def delayed(number, name="a1"):
    """The store failed under this number, which comes next."""
    return reply(notice(name, number, DELAYED_STORE, number))


def no_room(number, following):
    """Memory was refused, and nothing changed."""
    return reply(notice("a1", number, NO_ROOM, following))


def asked(following, number=0, name="a1"):
    """The answer to an ask under this number."""
    return reply(notice(name, number, NEXT, following))


def turned_away(number, name):
    """The server takes no more names."""
    return reply(notice(name, number, TABLE_FULL, 0))


def broken(reason, offset=0):
    """From this offset on the bytes are no frame."""
    return reply(bad_frame(reason, offset))
