"""Takes for which one or two calls of the store fail, with the replies, calls and next number of each turn.

They are worked out by hand from docs/FORMATS.md and CONTRIBUTING.md (A BLOCK's path). A turn that tries a delayed
request again writes the samples again, and then the whole header.
"""
from typing import NamedTuple

from cases.files import BLOCK, CLOSE, HEADER, OPEN
from kit.takes import CONFLICT, DELAYED_STORE, NEXT, notice, STORED, verdict
from kit.worked import HELD, SMALL, TOO_FAR


class Turn(NamedTuple):
    """A request under a number: its replies, the number that comes next then, and its calls of the store."""

    number: int
    request: str
    replies: list
    following: int
    calls: list = []

    def frames(self, name):
        return [reply(name, *words) for words in self.replies]


class Case(NamedTuple):
    """A take, the calls that fail, counted from 0, its turns and its file."""

    of: str
    faults: tuple
    turns: list
    file: str = SMALL


def reply(name, number, code, following=None):
    """A verdict, or a notice if the number that comes next is given."""
    return verdict(name, number, code) if following is None else notice(name, number, code, following)


OTHER_BLOCK = "0201000300"  # under the number of BLOCK
SAMPLES = "write 690 4"
AGAIN = [SAMPLES, HEADER]  # what a later try of BLOCK writes

OPENS = Turn(0, OPEN.request, [(0, STORED)], 1, OPEN.first)
DELAYS_BLOCK = Turn(1, BLOCK.request, [(1, DELAYED_STORE, 1)], 1, [SAMPLES])
APPENDS = Turn(1, BLOCK.request, [(1, STORED)], 2, AGAIN)
CLOSES_BOTH = Turn(1, BLOCK.request, [(1, STORED), (2, STORED)], 3, [*AGAIN, "sync"])

BOTH = (2, 3)  # the samples, and the samples at the second try
CASES = [
    Case(
        "a block after two faults, and another under its number",
        BOTH,
        [OPENS, DELAYS_BLOCK, DELAYS_BLOCK, APPENDS, Turn(1, OTHER_BLOCK, [(1, CONFLICT, 2)], 2)],
    ),
    Case(
        "a repeat of the OPEN that is done",
        BOTH,
        [
            *(OPENS, DELAYS_BLOCK, OPENS._replace(calls=[SAMPLES])),
            Turn(0, OPEN.request, [(1, STORED), (0, STORED)], 2, AGAIN),
        ],
    ),
    Case(
        "a close that waits for the block",
        BOTH,
        [OPENS, DELAYS_BLOCK, Turn(2, CLOSE.request, [(2, DELAYED_STORE, 1)], 1, [SAMPLES]), CLOSES_BOTH],
    ),
    Case(
        "another block under the number that is tried",
        BOTH,
        [OPENS, DELAYS_BLOCK, Turn(1, OTHER_BLOCK, [(1, CONFLICT, 1)], 1, [SAMPLES]), APPENDS],
    ),
    Case(
        "a number too far, then too far when its turn begins, then one that waits",
        BOTH,
        [
            *(OPENS, DELAYS_BLOCK),
            Turn(17, BLOCK.request, [(17, TOO_FAR, 1)], 1, [SAMPLES]),
            Turn(17, BLOCK.request, [(1, STORED), (17, TOO_FAR, 2)], 2, AGAIN),
            Turn(17, BLOCK.request, [(17, HELD, 2)], 2),
        ],
    ),
    Case(
        "asks after one fault, which try nothing",
        (2,),
        [
            *(OPENS, DELAYS_BLOCK, Turn(1, "06", [(1, NEXT, 1)], 1)),
            Turn(2, CLOSE.request, [(1, STORED), (2, STORED)], 3, [*AGAIN, "sync"]),
        ],
    ),
]
