"""Runs of `send`: the lines of its input, what it says over each link, the replies, and what it prints.

The take and its messages are those of worked.py, in hex.
"""
from typing import NamedTuple

from kit.takes import NEXT, notice, STORED, verdict
from kit.worked import BLOCK, BYE, CLOSE, HELD, OPEN

BAD_BLOCK = 6
REFUSED, UNSETTLED = 1, 3  # statuses of the program


class Sending(NamedTuple):
    """The lines of an input, the links of the run with what is said and replied over each, the text and the status that
    it ends with, and its options.
    """

    of: str
    given: str
    links: list
    out: str
    status: int = 0
    faults: str = ""
    options: tuple = ()


# A take of two frames, and the messages of all of it.
OPEN_LINE, BLOCK_LINE, CLOSE_LINE = "0180bb0000010010000000\n", "0201000200\n", "050200000000000000\n"
LINES = OPEN_LINE + BLOCK_LINE + CLOSE_LINE
ALL = OPEN + BLOCK + CLOSE + BYE

# Replies: to number 0, to the others, to all with a block that waits, to the block alone; and what is no reply.
FIRST = verdict("a1", 0, STORED)
OTHERS = verdict("a1", 1, STORED) + verdict("a1", 2, STORED)
BLOCK_HELD = FIRST + notice("a1", 1, HELD, 1) + verdict("a1", 2, STORED)
BLOCK_REFUSED = verdict("a1", 1, BAD_BLOCK)
GARBAGE = b"\xff\xff\xff\xff"


def rounds(count):
    return ("--rounds", str(count))


def settled(count, stored, *refused):
    return "".join(f"{line}\n" for line in (f"settled {count}", f"stored {stored}", *refused))


def unsettled(of, links, count, given=LINES):
    """A run whose rounds aren't enough; what is settled is stored."""
    line = "not every request has its verdict yet\n"
    return Sending(of, given, links, settled(count, count), UNSETTLED, line, rounds(len(links)))


ROUNDS = [
    unsettled("one round is not enough", [(ALL, FIRST)], 1),
    Sending(
        "a second round sends what has no verdict",
        LINES,
        [(ALL, FIRST), (BLOCK + CLOSE + BYE, OTHERS)],
        settled(3, 3),
        options=rounds(2),
    ),
    Sending(
        "no further round is made when all is settled",
        LINES,
        [(ALL, FIRST), (BLOCK + CLOSE + BYE, OTHERS)],
        settled(3, 3),
        options=rounds(16),
    ),
    Sending(
        "a bad reply ends its round alone",
        LINES,
        [(ALL, FIRST), (BLOCK + CLOSE + BYE, GARBAGE), (BLOCK + CLOSE + BYE, OTHERS)],
        settled(3, 3),
        options=rounds(3),
    ),
]

REFUSALS = [
    unsettled("a number that waits has no verdict", [(ALL, BLOCK_HELD)], 1),
    Sending(
        "a refused number",
        LINES,
        [(ALL, BLOCK_HELD), (BLOCK + BYE, BLOCK_REFUSED)],
        settled(3, 2, "refused 1 BadBlock"),
        REFUSED,
        options=rounds(2),
    ),
]

# A second verdict of number 1, verdicts of another name's numbers, and one of a number that isn't there.
STRANGE = verdict("a1", 1, STORED) + verdict("b2", 0, STORED) + verdict("b2", 1, STORED) + verdict("a1", 3, STORED)
UNCOUNTED = [
    unsettled("other verdicts", [(ALL, BLOCK_REFUSED + STRANGE)], 0),
    Sending(
        "other verdicts, and then those of the other numbers",
        LINES,
        [(ALL, BLOCK_REFUSED + STRANGE), (OPEN + CLOSE + BYE, verdict("a1", 2, STORED) + FIRST)],
        settled(3, 2, "refused 1 BadBlock"),
        REFUSED,
        options=rounds(2),
    ),
    unsettled("what comes next", [(ALL, notice("a1", 9, NEXT, 3))], 0),
]


def block(number):
    return f"0c00000002026131{number:02x}00000001000200"


BLOCKS = "".join(block(number) for number in range(1, 16))
WINDOW = [
    unsettled(
        "the seventeenth request",
        [(OPEN + BLOCKS + BYE, OTHERS), (OPEN + "".join(block(number) for number in range(3, 16)) + BYE, FIRST)],
        3,
        OPEN_LINE + 16 * BLOCK_LINE,
    ),
    unsettled(
        "the seventeenth request, once number 0 has its verdict",
        [(OPEN + BLOCKS + BYE, FIRST), (BLOCKS + block(16) + BYE, b"")],
        1,
        OPEN_LINE + 16 * BLOCK_LINE,
    ),
]

# Inputs of which no link is made.
UNSENT = [
    Sending("no line", "", [], settled(0, 0)),
    Sending("a block before any OPEN", BLOCK_LINE, [], settled(0, 0), REFUSED),
    Sending("an ask", OPEN_LINE + "06\n", [], "", REFUSED, "line 2: not a request\n"),
    Sending("an empty line", "\n" + BLOCK_LINE, [], "", REFUSED, "line 1: not a request\n"),
    Sending("half a byte", "020\n", [], "", REFUSED, "line 1: not a request\n"),
    Sending("a CLOSE without its total", "05", [], "", REFUSED, "line 1: not a request\n"),
]

# A write fails after 22 and 8 bytes.
BROKEN = unsettled("a link that breaks after 30 bytes", [((OPEN + BLOCK)[:60], FIRST)], 1)

CASES = {
    "a round sends what has no verdict": ROUNDS,
    "a refused number is printed": REFUSALS,
    "no reply but a first verdict counts": UNCOUNTED,
    "sixteen numbers are sent from the first without a verdict": WINDOW,
    "no link is made": UNSENT,
}
